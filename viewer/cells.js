// From a window's greys to the cells of a zoom: pixels as they are, or means of those that a cell has, rounded to the nearest
// grey. A cell at the film's right or lower edge is the mean of the pixels that it has.
import {cellEnd, cellStart} from './place.js';

const MOST_BLOCK = 16; // pixels of a block in a direction whose mean the page's C takes

function addCells(sums, row, spans) {
  for (let k = 0; k < sums.length; k++) {
    let sum = 0;
    for (let x = spans[2 * k]; x < spans[2 * k + 1]; x++) sum += row[x];
    sums[k] += sum;
  }
}

// The first pixel of each cell and the one behind its last, from the window's first pixel on.
function spansOf(zoom, first, count, from, side) {
  const spans = new Int32Array(2 * count);
  for (let k = 0; k < count; k++) {
    spans[2 * k] = cellStart(zoom, first + k) - from;
    spans[2 * k + 1] = cellEnd(zoom, first + k, side) - from;
  }
  return spans;
}

function copyPixels(greys, stride, place, out) {
  for (let y = 0; y < place.height; y++) out.set(greys.subarray(y * stride, y * stride + place.width), y * place.width);
}

// Cells that are one pixel each, though not every pixel once: a zoom between two multiples.
function pickPixels(greys, stride, place, across, down, out) {
  const {columns, rows} = place;
  for (let k = 0; k < rows; k++) {
    const row = down[2 * k] * stride;
    for (let x = 0; x < columns; x++) out[k * columns + x] = greys[row + across[2 * x]];
  }
}

function meanCells(greys, stride, place, across, down, out) {
  const {columns, rows, width} = place;
  const sums = new Uint32Array(columns);
  for (let k = 0; k < rows; k++) {
    sums.fill(0);
    for (let y = down[2 * k]; y < down[2 * k + 1]; y++) {
      addCells(sums, greys.subarray(y * stride, y * stride + width), across);
    }
    meansOfRow(sums, down[2 * k + 1] - down[2 * k], across, out.subarray(k * columns));
  }
}

function meansOfRow(sums, high, across, out) {
  for (let x = 0; x < sums.length; x++) {
    const area = high * (across[2 * x + 1] - across[2 * x]);
    out[x] = (sums[x] + (area >> 1)) / area | 0;
  }
}

// Blocks that are alike: their means by the page's own C, which is several times as fast. They are laid over the greys where
// these are not needed any more.
function meanBlocks(library, {at, stride, isSpent}, place, out) {
  const to = isSpent ? at : library.room.last(2 * out.length);
  library.means(at, stride, place, to);
  out.set(library.room.u16(to, out.length));
}

// Room for the cells of a place. spare: a buffer that may be written over, so that moving a film all day leaves nothing to clear
// away.
export function cellRoom({columns, rows}, spare) {
  const bytes = 2 * columns * rows;
  const buffer = spare && spare.byteLength >= bytes && spare.byteLength <= 4 * bytes ? spare : new ArrayBuffer(bytes);
  return new Uint16Array(buffer, 0, columns * rows);
}

// source: where the window's first grey stands in the library's memory, how many greys a row has, and whether they are not needed
// any more. place: of the film (place.js).
export function cellsOf(library, source, place, spare) {
  const out = cellRoom(place, spare);
  if (out.length > 0) layCells(library, source, place, out);
  return out.buffer;
}

export function layCells(library, source, place, out) {
  const {columns, rows, zoom} = place;
  if (zoom.block > 1 && zoom.block <= MOST_BLOCK) return meanBlocks(library, source, place, out);
  const {stride} = source;
  const greys = library.room.u16(source.at, (place.height - 1) * stride + place.width);
  if (zoom.block === 1) return copyPixels(greys, stride, place, out);
  const across = spansOf(zoom, place.cellX, columns, place.left, place.film.width);
  const down = spansOf(zoom, place.cellY, rows, place.top, place.film.height);
  const way = zoom.p > 1024 ? pickPixels : meanCells;
  way(greys, stride, place, across, down, out);
}

// The mean of a whole window, rounded to the nearest grey.
export function meanOf(greys, from, stride, width, height) {
  let sum = 0;
  for (let y = 0; y < height; y++) for (let x = 0; x < width; x++) sum += greys[from + y * stride + x];
  const area = width * height;
  return Math.floor((2 * sum + area) / (2 * area));
}
