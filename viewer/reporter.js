// The worker's part of measuring and reporting: what the scanned greys of an open film give, and reports made and read again.
import {makeLibrary} from './calls.js';
import {digestOf, picture, pieceOf, renderedFile, wholeWindow} from './film.js';
import {boxOf, markPicture, measuredMark} from './marks.js';
import {dipOf, distanceMm, distancePixels, profileOf, shownSamples} from './measure.js';
import {renderingName} from './names.js';
import {UNIT, zoomOf} from './place.js';
import {base64Of, pngOf} from './png.js';
import {printG, recordText} from './record.js';
import {REPORT_FORM, changedText, differsAt, filmNamedIn, namesEdition, openSeal, readingFrom, sealed, toldOf, unitsOf,
  unsealed} from './report.js';
import {reportHtml} from './report_html.js';
import {displayOf, shadeTable} from './shades.js';

const MOST_REPORT = 256 * 1048576; // bytes; a report has two pictures of each mark

// The film's pixels as the file has them.
function scannedOf(film) {
  return {width: film.width, height: film.height, greys: film.library.room.u16(film.picture, film.width * film.height)};
}

// ---- measuring ----

function measuredLine(film, line, pitch) {
  const profile = profileOf(film, line, line.lanes);
  return {pixels: distancePixels(line), mm: pitch === null ? null : distanceMm(line, pitch), samples: shownSamples(profile),
    fewest: Math.min(...profile.counts), dip: line.to - line.from >= 2 ? dipOf(profile, line.from, line.to) : null};
}

// wish: {pitch, resolution, line, boxes}; a box may be null.
export function measured(film, wish) {
  const scan = scannedOf(film);
  const pitch = unitsOf(wish.pitch);
  const resolution = unitsOf(wish.resolution);
  return {line: wish.line && measuredLine(scan, wish.line, pitch),
    boxes: wish.boxes.map(box => box && measuredMark(scan, boxOf(box), pitch, resolution))};
}

// ---- the report ----

// A mark's part of the film as it is shown, as scanned and as rendered.
function markShots(film, s, mark, display) {
  const part = markPicture(film, mark);
  const {left, top, width, height, block} = part;
  const columns = Math.ceil(width / block);
  const rows = Math.ceil(height / block);
  const drawn = picture(film, s, {left, top, width, height, columns, rows, cellX: left / block, cellY: top / block,
    zoom: zoomOf(UNIT / block), film});
  if (drawn.refusal) return drawn;
  const shot = side => {
    const table = shadeTable(displayOf({display, histogram: film.histogram}, side));
    const cells = new Uint16Array(drawn[side], 0, columns * rows);
    return base64Of(pngOf(Uint8Array.from(cells, grey => table[grey] & 255), columns, rows));
  };
  return {...part, scanned: shot('scanned'), rendered: shot('rendered')};
}

function digestOfText(library, text) {
  const bytes = new TextEncoder().encode(text);
  const at = library.room.last(bytes.length);
  library.room.u8(at, bytes.length).set(bytes);
  return library.digest(at, bytes.length);
}

// names: {version, input, output, form} where a report is made again under the names and in the form that it has.
export function makeReport(film, s, reading, names) {
  const form = names.form || REPORT_FORM;
  const file = renderedFile(film, s);
  if (file.refusal) return file;
  const name = renderingName(film, s);
  const output = {name: names.output || `${name}.pgm`, digest: film.library.digest(file.at, file.count), bytes: file.count};
  const pictures = reading.marks.map(mark => markShots(film, s, mark, reading.display));
  const refused = pictures.find(each => each.refusal);
  if (refused) return refused;
  const input = {name: names.input || film.name, digest: film.digest, bytes: film.bytes, width: film.width,
    height: film.height, maxval: film.maxval};
  const told = toldOf(scannedOf(film), reading, pictures, s.edition, form);
  const body = unsealed(recordText(names.version, input, output, s, film, namesEdition(form)), told);
  const seal = digestOfText(film.library, body);
  const footer = {limit: film.footer.limit, asked: printG(film.footer.asked, 9), used: printG(film.footer.used, 17)};
  return {name: `${name}-report-${seal.slice(0, 12)}`, seal, text: sealed(body, seal),
    html: reportHtml({version: names.version, film: input, output, settings: s, footer, told, seal})};
}

// ---- a report read again ----

async function textOfFile(file) {
  if (file.size > MOST_REPORT) return {fault: `it is longer than ${MOST_REPORT} bytes.`};
  let bytes;
  try {
    bytes = await file.arrayBuffer();
  } catch (fault) {
    return {fault: `it could not be read: ${fault.message}`};
  }
  try {
    return {text: new TextDecoder('utf-8', {fatal: true, ignoreBOM: true}).decode(bytes)};
  } catch {
    return {fault: 'it is no text of this page.'};
  }
}

// What the report's text says, once its own digest holds: {value, named}, or {fault}.
function unsealedReport(held, text) {
  const seal = openSeal(text);
  if (seal.fault) return seal;
  const library = makeLibrary(held.module, held.ledger);
  try {
    const digest = digestOfText(library, seal.body);
    if (digest !== seal.digest) return {fault: changedText(seal.digest, digest)};
  } finally {
    library.room.giveBack();
  }
  let value;
  try {
    value = JSON.parse(text);
  } catch {
    return {fault: 'it is no JSON of this page.'};
  }
  const found = filmNamedIn(value);
  return found.fault ? found : {value, named: found.film};
}

// The open film that has the digest, the one that is looked at before any other. Only films of that size are asked for theirs.
function filmWith(held, named, looked) {
  const alike = film => ['bytes', 'width', 'height', 'maxval'].every(side => film[side] === named[side]);
  const films = [held.films.get(looked), ...held.films.values()].filter(film => film && alike(film));
  return films.find(film => digestOf(film) === named.digest) || null;
}

function otherFilm(held, named, looked) {
  const film = held.films.get(looked);
  const is = `it is of the film ${named.name}, SHA-256 ${named.digest}`;
  return film ? `${is}, and the film that is looked at is ${film.name}, SHA-256 ${digestOf(film)}.`
    : `${is}, and that film is not open: open it first, or both together.`;
}

// The report made again from what it says has to be the one that was read, every number and every dot.
function madeAgain(film, text, value, named) {
  const found = readingFrom(named, value);
  if (found.fault) return found;
  const piece = pieceOf(film, found.settings, wholeWindow(film));
  if (piece) return piece;
  const made = makeReport(film, found.settings, found.reading, {version: found.version, input: named.name, output: found.output,
    form: found.form});
  if (made.refusal) return {fault: `its settings are refused, ${made.refusal.number}: ${made.refusal.sentence}`};
  if (made.text !== text) return {fault: differsAt(text, made.text)};
  return {number: film.number, version: found.version, settings: found.settings, reading: found.reading};
}

// Gives {read} or {fault}, or {unfinished} where it is to be asked for again; nothing is changed here, so nothing is half loaded.
export async function readReport(held, message) {
  const not = fault => ({fault: `${message.name} is not opened as a report: ${fault}`});
  const file = await textOfFile(message.file);
  if (file.fault) return not(file.fault);
  const report = unsealedReport(held, file.text);
  if (report.fault) return not(report.fault);
  const film = filmWith(held, report.named, message.looked);
  if (!film) return not(otherFilm(held, report.named, message.looked));
  const read = madeAgain(film, file.text, report.value, report.named);
  if (read.unfinished !== undefined) return read;
  return read.fault ? not(read.fault) : {read};
}
