// Own regions, in the worker: each pixel is rendered by the region around it (docs/RULES.md, 4.4). The library's call renders
// all of a film, so what is wanted of one is drawn in blocks: a block is lent as a film of its own, with a margin of half a side
// around it, or up to the film's border, and such a part shows the same pixels (docs/PROMISES.md). What was drawn stays until
// the settings change: of each row one stretch of columns. Large windows take seconds, so they are drawn a piece at a time.
import {USUAL_BINS} from './calls.js';
import {cellEnd, cellStart} from './place.js';
import {regionAbout} from './reach.js';
import {moreOfSettings, refused} from './refuse.js';

const PIECE = 200; // ms that a piece takes, about
const LEAST_BLOCK = 96; // pixels of a block in a direction
const ASIDE = 1 << 14; // pixels of a window that is drawn by itself, and not kept
const NOT_THERE = 65535; // in the place of a grey that is not drawn yet: no display has a shade for it

// What the call says last of settings that are in order where no target is lent: what is left are the pixels.
const NO_TARGET = 17;

// ---- the call ----

function layPart(film, part, at) {
  const {room} = film.library;
  const scan = room.u16(film.picture, film.width * film.height);
  const lent = room.u16(at, part.width * part.height);
  for (let y = 0; y < part.height; y++) {
    const from = (part.top + y) * film.width + part.left;
    lent.set(scan.subarray(from, from + part.width), y * part.width);
  }
}

// A part of the film rendered as a film of its own, behind everything lent: {refusal, footer, at}.
function around(film, s, part) {
  const count = part.width * part.height;
  const picture = film.library.room.last(4 * count);
  const at = picture + 2 * count;
  layPart(film, part, picture);
  return {...film.library.around({...part, picture, scratch: film.scratch}, s, at, count), at};
}

// ---- settings ----

// The first refusal, 0 where the settings are in order. Of the film's pixels one outside the range is lent by itself.
function judged(film, s) {
  const {refusal} = film.library.around(film, s, film.library.room.last(0), 0);
  if (refusal !== NO_TARGET) return refusal;
  if (film.least >= s.min && film.greatest <= s.max) return 0;
  const at = film.library.room.u16(film.picture, film.width * film.height).findIndex(grey => grey < s.min || grey > s.max);
  return around(film, s, {left: at % film.width, top: Math.floor(at / film.width), width: 1, height: 1}).refusal;
}

// at: where the film's pixels are drawn; from, to: of each row the columns that are there; pace: ns a pixel; drawn, shown: ms
// spent on drawing since a part of it was shown, and on showing that.
function lendOwn(film) {
  film.own = {at: film.library.room.lend(2 * film.width * film.height), from: new Int32Array(film.height),
    to: new Int32Array(film.height), madeFor: '', footer: null, pace: 0, drawn: 0, shown: 0};
}

// Where memory is wanted for something else: what was drawn is gone. Own regions are lent room last of all.
export function dropOwn(film) {
  film.library.room.takeBack(film.own.at);
  film.own = null;
}

// A refusal leaves what is drawn as it was. The footer is that of the region of column 0, row 0, which is lent by itself.
export function settleRegions(film, s) {
  const all = [s.side, s.bins, s.min, s.max, s.clip, s.factor, s.edition].join();
  if (film.own && film.own.madeFor === all) return {};
  const refusal = judged(film, s);
  if (refusal) return refused(film, refusal, moreOfSettings(refusal, film, s));
  if (!film.own) lendOwn(film);
  const {footer} = around(film, s, regionAbout(film, s, {left: 0, top: 0, width: 1, height: 1}));
  // the pace is a guess, until it is measured
  Object.assign(film.own, {madeFor: all, footer, shown: 0, pace: 200 + 2 * (s.bins || USUAL_BINS)});
  film.own.from.fill(0);
  film.own.to.fill(0);
  return {};
}

// ---- what is drawn ----

// The first columns of a row that are wanted and not there: from, to, and whether they end where those that are there begin.
// Null where all are there.
function missingIn({from, to}, y, left, right) {
  if (from[y] === to[y] || to[y] < left || from[y] > right) return {from: left, to: right, isBefore: false};
  if (left < from[y]) return {from: left, to: from[y], isBefore: true};
  return right > to[y] ? {from: to[y], to: right, isBefore: false} : null;
}

// How large a block is drawn in the time of a piece. Its margin is drawn too, and in vain, so it is no smaller than thrice that.
function sizeOfBlock({pace}, s, wanted) {
  const margin = s.side - 1;
  const least = Math.max(LEAST_BLOCK, 3 * margin);
  const pixels = PIECE * 1e6 / pace;
  const width = Math.min(wanted, Math.max(least, Math.floor(Math.sqrt(pixels)) - margin));
  return {width, height: Math.max(least, Math.floor(pixels / (width + margin)) - margin)};
}

// The next block of a window that is not there, from its first row on, or from its last one up; null where all of it is there.
function nextBlock(own, s, window, isUpward = false) {
  if (window.width === 0) return null;
  const row = i => window.top + (isUpward ? window.height - 1 - i : i);
  const missing = i => missingIn(own, row(i), window.left, window.left + window.width);
  let first = 0;
  while (first < window.height && !missing(first)) first++;
  if (first === window.height) return null;
  const {from, to, isBefore} = missing(first);
  const {width, height} = sizeOfBlock(own, s, to - from);
  const isAlike = i => {
    const other = missing(i);
    return other && other.from === from && other.to === to && other.isBefore === isBefore;
  };
  let end = first + 1;
  while (end < Math.min(window.height, first + height) && isAlike(end)) end++;
  return {left: isBefore ? to - width : from, top: Math.min(row(first), row(end - 1)), width, height: end - first};
}

// Lays a block where the film's pixels are kept. Its rows' stretches grow by it; one that it does not touch is given up.
// drawn: its greys, a row every `stride` of them.
function keepBlock(film, block, drawn, stride) {
  const {own} = film;
  const kept = film.library.room.u16(own.at, film.width * film.height);
  const right = block.left + block.width;
  for (let y = block.top; y < block.top + block.height; y++) {
    const first = (y - block.top) * stride;
    kept.set(drawn.subarray(first, first + block.width), y * film.width + block.left);
    const isApart = own.from[y] === own.to[y] || own.to[y] < block.left || own.from[y] > right;
    own.from[y] = isApart ? block.left : Math.min(own.from[y], block.left);
    own.to[y] = isApart ? right : Math.max(own.to[y], right);
  }
}

// A window by itself: {refusal}, or where its greys stand.
function drawnAside(film, s, window) {
  const part = regionAbout(film, s, window);
  const {refusal, at} = around(film, s, part);
  if (refusal) return refused(film, refusal, moreOfSettings(refusal, film, s));
  const first = (window.top - part.top) * part.width + window.left - part.left;
  return {at: at + 2 * first, stride: part.width, isSpent: false, part};
}

// Gives {refusal}, or nothing.
function drawBlock(film, s, block) {
  const start = performance.now();
  const {refusal, at, stride, part} = drawnAside(film, s, block);
  if (refusal) return {refusal};
  keepBlock(film, block, film.library.room.u16(at, (block.height - 1) * stride + block.width), stride);
  const took = performance.now() - start;
  film.own.drawn += took;
  film.own.pace = Math.max(1, Math.min(100000, took * 1e6 / (part.width * part.height)));
  return {};
}

// Draws what is missing of a window, until the time is over: {refusal}, or nothing.
function drawMissing(film, s, window, time) {
  const end = performance.now() + time;
  for (let block = nextBlock(film.own, s, window); block; block = nextBlock(film.own, s, window)) {
    const {refusal} = drawBlock(film, s, block);
    if (refusal) return {refusal};
    if (performance.now() >= end) break;
  }
  return {};
}

// How much of a window is there, from 0 to 1.
function shareOf(own, {left, top, width, height}) {
  let there = 0;
  for (let y = top; y < top + height; y++) {
    there += Math.max(0, Math.min(own.to[y], left + width) - Math.max(own.from[y], left));
  }
  return there / (width * height);
}

function isSmall(window) { return window.width * window.height <= ASIDE; }

// Of a window that takes long a piece is drawn: {unfinished: how much is there}, or null where it is all there, or soon drawn.
export function drawPiece(film, s, window) {
  if (isSmall(window)) return null;
  const drawn = drawMissing(film, s, window, PIECE / 2);
  return drawn.refusal ? null : restOf(film, s, window);
}

// How much of a window is there, where that is not all.
export function restOf(film, s, window) {
  return nextBlock(film.own, s, window) ? {unfinished: shareOf(film.own, window)} : null;
}

// ---- by another worker ----

// The last block of a window that is not there, where it and the next one have no row in common; else null.
export function lastBlock(film, s, window) {
  if (isSmall(window)) return null;
  const next = nextBlock(film.own, s, window);
  const last = next && nextBlock(film.own, s, window, true);
  return last && last.top >= next.top + next.height ? last : null;
}

// What another worker draws of a copy of the film: a block's greys, row by row, or null.
export function blockDrawn(film, s, block) {
  const {refusal, at, stride} = drawnAside(film, s, block);
  if (refusal) return null;
  const greys = new Uint16Array(block.width * block.height);
  for (let y = 0; y < block.height; y++) {
    greys.set(film.library.room.u16(at + 2 * y * stride, block.width), y * block.width);
  }
  return greys.buffer;
}

export function keepDrawnBlock(film, block, greys) { keepBlock(film, block, new Uint16Array(greys), block.width); }

// ---- windows ----

// Where a window's rendered greys stand that are there: its first one, and how many greys a row has.
export function keptAt(film, {left, top}) {
  return {at: film.own.at + 2 * (top * film.width + left), stride: film.width, isSpent: false};
}

// The same for any window: what is missing is drawn. A small one beside what is kept, as the pixel that is read may be, leaves that
// alone.
export function drawRegions(film, s, window) {
  if (isSmall(window) && nextBlock(film.own, s, window)) return drawnAside(film, s, window);
  const {refusal} = drawMissing(film, s, window, Infinity);
  return refusal ? {refusal} : keptAt(film, window);
}

// Takes the cells away of which a pixel is not there yet.
export function hideMissing(own, place, cells) {
  const {zoom, cellX, cellY, columns, rows, film} = place;
  for (let k = 0; k < rows; k++) {
    const high = cellEnd(zoom, cellY + k, film.height);
    let [from, to] = [0, film.width];
    for (let y = cellStart(zoom, cellY + k); y < high; y++) {
      from = Math.max(from, own.from[y]);
      to = Math.min(to, own.to[y]);
    }
    for (let x = 0; x < columns; x++) {
      const isThere = cellStart(zoom, cellX + x) >= from && cellEnd(zoom, cellX + x, film.width) <= to;
      if (!isThere) cells[k * columns + x] = NOT_THERE;
    }
  }
}

// ---- the region of a pixel ----

// Four of a region beside each other, two by two, are a film of four tiles that are that region each.
function layFour(film, region, at) {
  const {room} = film.library;
  const scan = room.u16(film.picture, film.width * film.height);
  const {left, top, width, height} = region;
  const lent = room.u16(at, 4 * width * height);
  for (let y = 0; y < 2 * height; y++) {
    const from = (top + y % height) * film.width + left;
    for (const x of [0, width]) lent.set(scan.subarray(from, from + width), 2 * y * width + x);
  }
}

// A region's counts, limit, mapping, excess and looks, by the library's own counting and mapping.
export function regionMade(film, s, region) {
  const {library} = film;
  const bins = s.bins || USUAL_BINS;
  const pixels = 4 * region.width * region.height;
  const counts = library.room.last(16 * bins + 8 * bins + 2 * pixels);
  const four = {number: film.number, width: 2 * region.width, height: 2 * region.height, scratch: film.scratch, counts,
    map: counts + 16 * bins, picture: counts + 24 * bins};
  const tiles = {...s, across: 2, down: 2};
  layFour(film, region, four.picture);
  library.count(four, tiles, 4 * bins);
  const made = library.map(four, tiles, 4 * bins, 4 * bins);
  return {counts: library.room.u32(counts, bins).slice(), mapping: library.room.u16(four.map, bins).slice(),
    limit: made.footer.limit, excess: made.looks[0], looks: made.looks[1]};
}
