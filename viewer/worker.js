// The worker's messages. It holds all films; the page asks for one thing at a time and is answered once for each.
import {NoMemory, makeLedger} from './calls.js';
import {closeFilm, digestOf, greysOfWindow, mostBytes, openFilm, pictureSoFar, probe, saveFilm, saveRecord, saveView,
  scanCells, settle, wholeWindow} from './film.js';
import {findHelp, forgetHelp, handOver, help, sharedPicture, sharedPiece} from './helper.js';
import {gridsThatFit} from './refuse.js';
import {makeReport, measured, readReport} from './reporter.js';

const held = {module: null, version: '', ledger: null, films: new Map()};

async function toStart(message) {
  held.module = await WebAssembly.compile(message.wasm);
  held.version = message.version;
  held.ledger = makeLedger(message.memory);
  findHelp(message.beside, held.ledger);
  return {};
}

// The bytes of a file up to what the largest film needs: a longer one is told by its front.
async function inputOf(message) {
  const file = message.file;
  try {
    const most = mostBytes(new Uint8Array(await file.slice(0, 2).arrayBuffer()));
    const cut = file.size > most;
    return {name: message.name, cut, bytes: new Uint8Array(await (cut ? file.slice(0, most) : file).arrayBuffer())};
  } catch (fault) {
    if (fault instanceof RangeError) throw new NoMemory();
    throw new Error(`The file could not be read: ${fault.message}`);
  }
}

async function toOpen(message) {
  const answer = openFilm(held.module, held.ledger, message.number, await inputOf(message));
  if (!answer.film) return answer;
  const film = answer.film;
  held.films.set(film.number, film);
  const {width, height, maxval, least, greatest, bytes} = film;
  return {opened: {width, height, maxval, least, greatest, bytes, histogram: film.histogram.slice(),
    fits: {across: gridsThatFit(width), down: gridsThatFit(height)}}};
}

function toClose(message) {
  const film = held.films.get(message.number);
  if (film) {
    forgetHelp(film);
    closeFilm(film);
  }
  held.films.delete(message.number);
  return {};
}

// A window as far as it is drawn by now, and how far that is; with no picture where that would hold up the drawing.
async function pictureNow(film, {settings, place, spare}) {
  const piece = await sharedPiece(film, settings, place);
  return piece ? {...piece, picture: pictureSoFar(film, place, spare)}
    : {picture: await sharedPicture(film, settings, place, spare)};
}

// Settings, window and pointer in one: what the page wants to see now.
async function toShow(message) {
  const film = held.films.get(message.number);
  const answer = settle(film, message.settings);
  if (answer.refusal) return answer;
  answer.footer = film.footer;
  answer.axes = film.record && film.record.axes;
  if (message.place) Object.assign(answer, await pictureNow(film, message));
  if (answer.picture && answer.picture.refusal) return answer.picture;
  if (message.at) answer.probe = probe(film, message.settings, message.at);
  return answer.probe && answer.probe.refusal ? answer.probe : answer;
}

async function toSave(message) {
  const film = held.films.get(message.number);
  const ways = {film: saveFilm, record: saveRecord, view: saveView};
  const piece = message.what === 'view' ? null : await sharedPiece(film, message.settings, wholeWindow(film));
  return piece || ways[message.what](film, message.settings, held.version);
}

// The scan alone in the cells of a place: for the overview.
function toScan(message) { return {scanned: scanCells(held.films.get(message.number), message.place)}; }
function toDigest(message) { return {digest: digestOf(held.films.get(message.number))}; }

async function toGreys(message) {
  const film = held.films.get(message.number);
  const piece = await sharedPiece(film, message.settings, message.window);
  return piece || greysOfWindow(film, message.settings, message.window);
}
function toMeasure(message) { return measured(held.films.get(message.number), message.wish); }
function toReadReport(message) { return readReport(held, message); }

async function toReport(message) {
  const film = held.films.get(message.number);
  const piece = await sharedPiece(film, message.settings, wholeWindow(film));
  return piece || makeReport(film, message.settings, message.reading, {version: held.version});
}

// The buffers that change hands instead of being copied.
function buffersOf(answer) {
  const found = [];
  if (answer.picture) found.push(answer.picture.rendered);
  if (answer.picture && answer.picture.scanned) found.push(answer.picture.scanned);
  for (const key of ['bytes', 'scanned', 'rendered']) if (answer[key]) found.push(answer[key]);
  return found;
}

function faultText(fault) {
  return fault instanceof RangeError ? new NoMemory().message : fault.message;
}

async function answerTo(message) {
  const ways = {start: toStart, open: toOpen, close: toClose, show: toShow, save: toSave, greys: toGreys, digest: toDigest,
    scan: toScan, measure: toMeasure, report: toReport, 'read-report': toReadReport};
  try {
    return await ways[message.kind](message);
  } catch (fault) {
    return {fault: faultText(fault)};
  }
}

self.onmessage = async event => {
  const message = event.data;
  if (message.kind === 'help') return help(message);
  const answer = await answerTo(message);
  answer.id = message.id;
  self.postMessage(answer, buffersOf(answer));
  if (message.kind === 'show' && message.place && held.films.has(message.number)) handOver(held.films.get(message.number));
};
