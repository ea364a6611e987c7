// One film: opened from a file's bytes, settled for settings, drawn, probed and saved. Each film has an instance of the
// module for itself, and its counts, mappings, record and footer stay with it until it is closed.
import {MOST_ENTRIES, MOST_SCRATCH, MOST_SIDE, USUAL_BINS, makeLibrary, settingsOf, tilingOf} from './calls.js';
import {cellRoom, cellsOf, layCells, meanOf} from './cells.js';
import {renderingName} from './names.js';
import {rowsOf} from './place.js';
import {isAsScanned, regionAbout, sidesOf, usedTiles} from './reach.js';
import {recordText} from './record.js';
import {isPlain, moreOfFile, moreOfRendering, moreOfSettings, refused} from './refuse.js';
import {drawPiece, drawRegions, dropOwn, hideMissing, keptAt, regionMade, settleRegions} from './regions.js';

// The largest film and 64 KiB for its header, as the command line reads it; of a plain film five digits and white space a sample.
const MOST_RAW = 2 * MOST_SIDE * MOST_SIDE + 65536;
const MOST_PLAIN = 6 * MOST_SIDE * MOST_SIDE + 65536;

// How much of a file that begins with these bytes is read.
export function mostBytes(bytes) { return isPlain(bytes) ? MOST_PLAIN : MOST_RAW; }

// How many pixels are drawn at a time for cells: so few stay in the processor's cache until the cells are made of them.
const STRIP = 1 << 17;

// The counts buffer is too short: what mapping says last of settings that are in order.
const NO_COUNTS = 33;

// What the front of a file settles, whatever stands behind it: told also where the file was not read to its end.
const SETTLED = [21, 22, 23, 25];

// 20 is settled where the header breaks off before the end of what was read. Where it only ends there, one # more behind it
// stands in the place of white space or a digit, and the answer is 21.
function isSettled(film, count, refusal, sizesOf) {
  if (refusal !== 20) return SETTLED.includes(refusal);
  film.library.room.u8(film.file + count, 1)[0] = 35;
  return sizesOf(film.file, count + 1).refusal === 20;
}

// Lends what the calls need: the largest settings' room at once, since memory that is not touched costs nothing.
function lendRoom(film, bytes) {
  const room = film.library.room;
  film.counts = room.lend(4 * MOST_ENTRIES);
  film.map = room.lend(2 * MOST_ENTRIES);
  film.scratch = room.lend(4 * MOST_SCRATCH);
  // the written film is at most 18 bytes of header and the samples, which the file has too: a plain file has two bytes for each
  // but the last, and a header
  film.fileRoom = bytes.length + 18;
  film.file = room.lend(film.fileRoom);
  room.u8(film.file, bytes.length).set(bytes);
}

// How often each grey occurs, and the least and the greatest.
function tallyGreys(film) {
  const greys = film.library.room.u16(film.picture, film.width * film.height);
  const histogram = new Uint32Array(film.maxval + 1);
  for (let i = 0; i < greys.length; i++) histogram[greys[i]]++;
  film.histogram = histogram;
  film.least = histogram.findIndex(count => count > 0);
  film.greatest = film.maxval;
  while (histogram[film.greatest] === 0) film.greatest--;
}

// Room for the greys of a film of these sizes.
function lendPicture(film, sizes) {
  film.width = sizes.width;
  film.height = sizes.height;
  film.maxval = sizes.maxval;
  film.picture = film.library.room.lend(2 * film.width * film.height);
}

// The greys of a raw file, or its refusal; and those of a plain one.
function readRaw(film, count, sizes) {
  const raster = sizes.refusal ? sizes : film.library.readRaster(film.file, count);
  if (raster.refusal) return raster.refusal;
  lendPicture(film, sizes);
  return film.library.readGreys(film.file, count, raster.start, film);
}

function readPlain(film, count, sizes) {
  if (sizes.refusal) return sizes.refusal;
  lendPicture(film, sizes);
  return film.library.readPlain(film.file, count, film);
}

// The file's second byte says which reader it is for, as on the command line.
function readFilm(film, input) {
  const plain = isPlain(input.bytes);
  const sizesOf = plain ? film.library.plainSizes : film.library.readSizes;
  const count = input.bytes.length;
  const sizes = sizesOf(film.file, count);
  if (input.cut && !isSettled(film, count, sizes.refusal, sizesOf)) {
    return {fault: `The file is longer than ${mostBytes(input.bytes)} bytes, the largest ${plain ? 'plain ' : ''}film and ` +
      '64 KiB of header: not read further.'};
  }
  const refusal = (plain ? readPlain : readRaw)(film, count, sizes);
  if (refusal) return refused(film, refusal, moreOfFile(refusal, input));
  tallyGreys(film);
  return {};
}

// input: {name, bytes, cut}. Gives {film}, {refusal} or {fault}; memory that runs out is thrown.
export function openFilm(module, ledger, number, input) {
  const film = {number, name: input.name, bytes: input.bytes.length, digest: '', countedFor: '', mappedFor: ''};
  film.library = makeLibrary(module, ledger);
  try {
    lendRoom(film, input.bytes);
    const answer = readFilm(film, input);
    if (!answer.refusal && !answer.fault) return {film};
    closeFilm(film);
    return answer;
  } catch (fault) {
    closeFilm(film);
    throw fault;
  }
}

export function closeFilm(film) { film.library.room.giveBack(); }

// Makes the film ready to be drawn with the settings, and its footer, record and looks theirs: of own regions there are neither
// record nor looks.
export function settle(film, s) {
  const answer = s.around ? settleRegions(film, s) : settleTiles(film, s);
  if (answer.refusal) return answer;
  Object.assign(film, s.around ? {footer: film.own.footer, record: null, looks: []} : film.mapped);
  return {};
}

// Makes the film's mappings those of the settings. A new factor or another edition alone maps the counts that are there; a
// refusal leaves counts and mappings as they were, and they stay those of the settings that they were made for.
function settleTiles(film, s) {
  const tiling = tilingOf(s).join();
  const all = [...settingsOf(s), s.edition].join();
  if (film.countedFor !== tiling) {
    // judged first, so that of several refusals the one is told that prepare and the command line give: 10 before 13
    const judged = film.library.judge(film, s);
    const refusal = judged && judged !== NO_COUNTS ? judged : film.library.count(film, s);
    if (refusal) return refused(film, refusal, moreOfSettings(refusal, film, s));
    film.countedFor = tiling;
  }
  if (film.mappedFor === all) return {};
  const answer = film.library.map(film, s);
  if (answer.refusal) return refused(film, answer.refusal, moreOfSettings(answer.refusal, film, s));
  film.mappedFor = all;
  film.mapped = {record: answer.record, footer: answer.footer, looks: answer.looks};
  return {};
}

// Own regions take seconds for a large window: a piece of it is drawn. Gives {unfinished: how much of it is there, from 0 to
// 1}, and null where all of it is, or is soon drawn. What is asked for then is to be asked for once more.
export function pieceOf(film, s, window) { return s.around && !settle(film, s).refusal ? drawPiece(film, s, window) : null; }

export function wholeWindow(film) { return {left: 0, top: 0, width: film.width, height: film.height}; }

// A place behind everything lent; where there is no room for it, own regions give up theirs.
function roomFor(film, bytes) {
  try {
    return film.library.room.last(bytes);
  } catch (fault) {
    if (!film.own) throw fault;
    dropOwn(film);
    return film.library.room.last(bytes);
  }
}

// Where the rendered greys of a window stand in the film's memory: the first one, how many a row has, and whether they are spent
// where they are laid in cells. They are to be read before anything else is drawn.
function drawWindow(film, s, w) {
  if (s.around) return drawRegions(film, s, w);
  const at = roomFor(film, 2 * w.width * w.height);
  const refusal = film.library.draw(film, s, film.record, w, at);
  return refusal ? refused(film, refusal, moreOfSettings(refusal, film, s)) : {at, stride: w.width, isSpent: true};
}

export function scanCells(film, place, spare) {
  const at = film.picture + 2 * (place.top * film.width + place.left);
  return cellsOf(film.library, {at, stride: film.width, isSpent: false}, place, spare);
}

// The rendered side of a place in its cells, some rows at a time; of own regions, which are kept, all at once. Gives {refusal}, or
// nothing.
export function layRendered(film, s, place, out) {
  const {columns, rows, width, height} = place;
  const step = s.around ? rows : Math.max(1, Math.floor(STRIP * rows / (width * height)));
  for (let first = 0; first < rows; first += step) {
    const strip = rowsOf(place, first, Math.min(step, rows - first));
    const drawn = drawWindow(film, s, strip);
    if (drawn.refusal) return drawn;
    layCells(film.library, drawn, strip, out.subarray(columns * first, columns * (first + strip.rows)));
  }
  return {};
}

// Scanned and rendered side of a window as greys, in the cells of its zoom. place: where the film lies (place.js), and whether the
// scanned side is there already, as it is while settings alone are moved; spare: buffers to write over.
export function picture(film, s, place, spare = {}) {
  const cells = cellRoom(place, spare.rendered);
  const drawn = layRendered(film, s, place, cells);
  if (drawn.refusal) return drawn;
  return {scanned: place.scannedIsThere ? null : scanCells(film, place, spare.scanned), rendered: cells.buffer};
}

// The same of own regions that are not all drawn yet: what is missing is no cell. Below 1:1 the cells of a large film take as
// long as a piece of it, so they are made where thrice that time was spent on drawing; else null.
export function pictureSoFar(film, place, spare) {
  const {own} = film;
  if (own.drawn < 3 * own.shown) return null;
  const start = performance.now();
  const rendered = cellsOf(film.library, keptAt(film, place), place, spare.rendered);
  hideMissing(own, place, new Uint16Array(rendered, 0, place.columns * place.rows));
  const scanned = place.scannedIsThere ? null : scanCells(film, place, spare.scanned);
  Object.assign(own, {drawn: 0, shown: performance.now() - start});
  return {scanned, rendered};
}

// Both sides of a window, every pixel, for measuring and for reports.
export function greysOfWindow(film, s, window) {
  const settled = settle(film, s);
  if (settled.refusal) return settled;
  const drawn = drawWindow(film, s, window);
  if (drawn.refusal) return drawn;
  const place = {...window, zoom: {block: 1}, columns: window.width, rows: window.height};
  const rendered = cellsOf(film.library, drawn, place);
  return {scanned: scanCells(film, place), rendered, footer: film.footer};
}

// Of a film's tile columns or tile rows the one in which a column or row lies, by their edges.
function tileAt(edges, grid, at) {
  let tile = 0;
  while (tile + 1 < grid && edges[tile + 1] <= at) tile++;
  return tile;
}

// The tile of a pixel, by the edges in the library's own record: its number from 0, its place in the grid, its rectangle and how
// many pixels that has.
function tileOf(film, s, x, y) {
  const {columnEdges, rowEdges} = film.record.axes;
  const across = tileAt(columnEdges, s.across, x);
  const down = tileAt(rowEdges, s.down, y);
  const width = columnEdges[across + 1] - columnEdges[across];
  const height = rowEdges[down + 1] - rowEdges[down];
  return {index: down * s.across + across, across, down, left: columnEdges[across], top: rowEdges[down], width, height,
    pixels: width * height};
}

// The limit of a tile, by the library: a footer has that of tile 0, 0 alone, so a film of 2 by 2 tiles of this size is mapped,
// behind everything lent. It is within 4096 by 4096, since no tile is above 2048 by 2048. Its counts are as even as can be, for
// then there is nothing to be clipped, which takes time; the limit goes by their sum alone.
function limitOf(film, s, tile, bins) {
  const entries = 4 * bins;
  const at = film.library.room.last(6 * entries);
  const counts = film.library.room.u32(at, entries);
  for (let i = 0; i < entries; i++) counts[i] = Math.floor((tile.pixels + i % bins) / bins);
  const alike = {...film, width: 2 * tile.width, height: 2 * tile.height, counts: at, map: at + 4 * entries};
  return film.library.map(alike, {...s, across: 2, down: 2}, entries, entries).footer.limit;
}

// What the dot shows in whose cell a pixel lies: the means of both sides. at.cell: the cell's first pixel and its size.
function dotOf(film, s, {cell}) {
  if (!cell || cell.width * cell.height === 1) return {};
  const drawn = drawWindow(film, s, {left: cell.x, top: cell.y, width: cell.width, height: cell.height});
  if (drawn.refusal) return drawn;
  const scan = film.library.room.u16(film.picture, film.width * film.height);
  return {dot: {width: cell.width, height: cell.height,
    scanned: meanOf(scan, cell.y * film.width + cell.x, film.width, cell.width, cell.height),
    rendered: meanOf(film.library.room.u16(drawn.at, (cell.height - 1) * drawn.stride + cell.width), 0, drawn.stride, cell.width,
      cell.height)}};
}

// Of the pixel's tile: its rectangle, counts, limit, mapping, excess and looks, and the tiles that the pixel's rule uses.
function tileProbed(film, s, bins, {x, y}) {
  const {room} = film.library;
  const tile = tileOf(film, s, x, y);
  const first = tile.index * bins;
  return {tile, counts: room.u32(film.counts + 4 * first, bins).slice(), limit: limitOf(film, s, tile, bins),
    mapping: room.u16(film.map + 2 * first, bins).slice(), used: usedTiles(sidesOf(film.record.axes, s), x, y),
    excess: film.looks[2 * tile.index], looks: film.looks[2 * tile.index + 1]};
}

// Of the pixel's own region the same; its rule uses no tile.
function regionProbed(film, s, bins, {x, y}) {
  const region = regionAbout(film, s, {left: x, top: y, width: 1, height: 1});
  return {tile: {...region, pixels: region.width * region.height}, used: [], ...regionMade(film, s, region)};
}

// What is under the pointer, from the library's own numbers: greys, and what its tile or its own region is.
export function probe(film, s, at) {
  const {dot, refusal} = dotOf(film, s, at);
  if (refusal) return {refusal};
  const drawn = drawWindow(film, s, {left: at.x, top: at.y, width: 1, height: 1});
  if (drawn.refusal) return drawn;
  const {room} = film.library;
  const [rendered] = room.u16(drawn.at, 1); // read before anything else is laid where it stands
  const [scanned] = room.u16(film.picture + 2 * (at.y * film.width + at.x), 1);
  const bins = s.bins === 0 ? USUAL_BINS : s.bins;
  const probed = (s.around ? regionProbed : tileProbed)(film, s, bins, at);
  // at factor 1.0 nothing is mapped or listed, and the map buffer holds what an earlier factor left
  if (isAsScanned(s)) Object.assign(probed, {mapping: null, used: [], excess: null, looks: null});
  return {x: at.x, y: at.y, bins, rendered, scanned, dot, edition: s.clip ? s.edition : 0, side: s.around ? s.side : 0, min: s.min,
    max: s.max, ...probed};
}

// The digest of the film's file. It is long work for a large film, and only what is saved asks for it.
export function digestOf(film) {
  if (!film.digest) film.digest = film.library.digest(film.file, film.bytes);
  return film.digest;
}

// The rendered film as a raw PGM file, by the library's own writer.
export function renderedFile(film, s) {
  const settled = settle(film, s);
  if (settled.refusal) return settled;
  const drawn = drawWindow(film, s, wholeWindow(film));
  if (drawn.refusal) return drawn;
  digestOf(film); // first: the file's own bytes stand where the rendering will be written
  const written = film.library.write(drawn.at, film, film.file, film.fileRoom);
  if (written.refusal) return refused(film, written.refusal, moreOfRendering(film, s));
  return {at: film.file, count: written.count};
}

export function saveFilm(film, s) {
  const file = renderedFile(film, s);
  if (file.refusal) return file;
  return {name: renderingName(film, s), bytes: film.library.room.u8(file.at, file.count).slice().buffer};
}

// The record names the file that saveFilm gives for the same settings, and its digest.
export function saveRecord(film, s, version) {
  const file = renderedFile(film, s);
  if (file.refusal) return file;
  const name = renderingName(film, s);
  const output = {name: `${name}.pgm`, digest: film.library.digest(file.at, file.count), bytes: file.count};
  return {name, text: recordText(version, film, output, s, film)};
}

// What a saved view says of its film.
export function saveView(film) {
  return {digest: digestOf(film)};
}
