// Two workers on one window. A large window is drawn in two parts: the upper one by the worker that has the film, the lower one
// beside it by a second worker. That one has a copy of one film's pixels at a time, of the film that is looked at, in an instance of
// the library of its own, and is handed the film's number, record and mappings with every part: so it draws by the same call,
// which compares them, and a part of another film is refused like a whole window. Own regions, which have neither record nor
// mappings, are drawn from the first row down by the one worker and from the last one up by the other.
import {MOST_ENTRIES, MOST_SCRATCH, USUAL_BINS, makeLedger, makeLibrary} from './calls.js';
import {cellRoom} from './cells.js';
import {layRendered, picture, pieceOf, scanCells, settle} from './film.js';
import {rowsOf} from './place.js';
import {blockDrawn, keepDrawnBlock, lastBlock, restOf} from './regions.js';

const SHARED_PIXELS = 1 << 20; // a smaller window is as soon drawn by one
const OWN_SHARE = 0.54; // of a window: the second worker has to be told of its part, and to answer
const ROOM = 4 * 1048576; // bytes beside the pixels: stack, mappings, and what is drawn of the smallest of these

// ---- the first worker's side ----

// port: to the second worker, which is there where it has answered; number: of the film whose pixels it has; taken: what they take
const beside = {port: null, isThere: false, number: 0, taken: 0, ledger: null, waiting: new Map(), last: 0};

function askBeside(message, transfer = []) {
  return new Promise(done => {
    beside.waiting.set(++beside.last, done);
    beside.port.postMessage({...message, id: beside.last}, transfer);
  });
}

// To be called once. Nothing waits for a second worker that never answers.
export function findHelp(port, ledger) {
  if (!port) return;
  Object.assign(beside, {port, ledger});
  port.onmessage = ({data}) => {
    beside.waiting.get(data.id)(data);
    beside.waiting.delete(data.id);
  };
  askBeside({kind: 'drop'}).then(() => { beside.isThere = true; });
}

// The second worker gets a large film's pixels when it was shown, so that the next window is shared.
export function handOver(film) {
  const bytes = 4 * film.width * film.height + ROOM; // its pixels, and half of them drawn
  if (!beside.isThere || beside.number === film.number || film.width * film.height < SHARED_PIXELS) return;
  dropHelp();
  try {
    beside.ledger.take(bytes);
  } catch {
    return; // one worker draws as well
  }
  const {number, width, height} = film;
  const pixels = film.library.room.u16(film.picture, width * height).slice().buffer;
  Object.assign(beside, {number, taken: bytes});
  askBeside({kind: 'hold', number, width, height, pixels}, [pixels]).then(answer => {
    if (answer.fault && beside.number === number) dropHelp();
  });
}

function dropHelp() {
  if (beside.number === 0) return;
  beside.ledger.give(beside.taken);
  Object.assign(beside, {number: 0, taken: 0});
  askBeside({kind: 'drop'});
}

// A film that is closed.
export function forgetHelp(film) { if (film.number === beside.number) dropHelp(); }

function mapsOf(film, s) {
  return film.library.room.u16(film.map, s.across * s.down * (s.bins || USUAL_BINS)).slice().buffer;
}

// What film.js gives for a window, by both workers where it is large.
export async function sharedPicture(film, s, place, spare) {
  if (s.around || beside.number !== film.number || place.width * place.height < SHARED_PIXELS || place.rows < 2) {
    return picture(film, s, place, spare);
  }
  const own = Math.floor(OWN_SHARE * place.rows);
  const lower = rowsOf(place, own, place.rows - own);
  const maps = mapsOf(film, s);
  const other = askBeside({kind: 'part', settings: s, record: film.record, maps, place: lower}, [maps]);
  const cells = cellRoom(place, spare.rendered);
  const drawn = layRendered(film, s, rowsOf(place, 0, own), cells);
  const scanned = place.scannedIsThere ? null : scanCells(film, place, spare.scanned);
  const rest = await other;
  if (drawn.refusal) return drawn;
  const below = cells.subarray(place.columns * own);
  if (rest.cells) below.set(new Uint16Array(rest.cells));
  const last = rest.cells ? {} : layRendered(film, s, lower, below); // the second one has no such film any more
  return last.refusal ? last : {scanned, rendered: cells.buffer};
}

// What film.js gives for a piece of own regions, by both workers where there is enough to do.
export async function sharedPiece(film, s, window) {
  const isShared = s.around && beside.number === film.number && !settle(film, s).refusal;
  const block = isShared ? lastBlock(film, s, window) : null;
  if (!block) return pieceOf(film, s, window);
  const other = askBeside({kind: 'block', settings: s, block});
  const piece = pieceOf(film, s, window);
  const {cells} = await other;
  if (cells) keepDrawnBlock(film, block, cells);
  return piece && restOf(film, s, window);
}

// ---- the second worker's side ----

function copyHeld(module, {number, width, height, pixels}) {
  const film = {number, width, height, library: makeLibrary(module, makeLedger(Infinity))};
  film.map = film.library.room.lend(2 * MOST_ENTRIES);
  film.scratch = film.library.room.lend(4 * MOST_SCRATCH);
  film.picture = film.library.room.lend(2 * width * height);
  film.library.room.u16(film.picture, width * height).set(new Uint16Array(pixels));
  return film;
}

function partOf(film, {settings, record, maps, place}) {
  if (!film) return {};
  film.library.room.u16(film.map, maps.byteLength / 2).set(new Uint16Array(maps));
  const drawn = picture({...film, record}, settings, {...place, scannedIsThere: true});
  return {cells: drawn.rendered};
}

// Answers the first worker for as long as the page is open. The library is compiled here once more: a page from the disk may hand
// no module from one worker to another.
export async function help({port, wasm}) {
  const module = await WebAssembly.compile(wasm);
  let film = null;
  const ways = {
    drop: () => { film = null; return {}; },
    hold: message => { film = copyHeld(module, message); return {}; },
    part: message => partOf(film, message),
    block: ({settings, block}) => ({cells: film && blockDrawn(film, settings, block)}),
  };
  port.onmessage = ({data}) => {
    let answer;
    try {
      answer = ways[data.kind](data);
    } catch (fault) {
      answer = {fault: fault.message};
    }
    port.postMessage({...answer, id: data.id}, answer.cells ? [answer.cells] : []);
  };
}
