// Numbers as they are typed and chosen. What a number may be is for the library to say; here it is only read.
import {exactOf} from './record.js';

export const MOST_WHOLE = 4294967295;
const MOST_CHOSEN_BINS = 1024;
const MOST_BINS_AROUND = 256;
const LEAST_BINS_AROUND = 64;

// Digits only, and within 32 bits; else null.
export function wholeOf(text) {
  const word = text.trim();
  return /^[0-9]+$/.test(word) && Number(word) <= MOST_WHOLE ? Number(word) : null;
}

// The 32-bit floats on both sides of a number above 0 that is none itself.
function floatsAround(x) {
  const cell = new DataView(new ArrayBuffer(4));
  cell.setFloat32(0, x);
  const near = cell.getFloat32(0);
  cell.setInt32(0, cell.getInt32(0) + (near < x ? 1 : -1));
  const other = cell.getFloat32(0);
  return near < x ? [near, other] : [other, near];
}

// A decimal word against the 64-bit number that it was read as: -1, 0 or 1.
function wordAgainst(word, x) {
  const [, whole, part = '', power = '0'] = /^\+?(\d*)\.?(\d*)(?:e([+-]?\d+))?$/i.exec(word);
  const shift = Number(power) - part.length;
  const exact = exactOf(x);
  let left = BigInt(whole + part);
  let right = exact.whole;
  if (shift >= 0) left *= 10n ** BigInt(shift);
  else right *= 10n ** BigInt(-shift);
  if (exact.power >= 0) right <<= BigInt(exact.power);
  else left <<= BigInt(-exact.power);
  return left < right ? -1 : Number(left > right);
}

// A factor as C's strtof reads it, rounded once from the decimal word to 32 bits; null where the word is no number. By way
// of 64 bits alone a word close to the middle of two floats would be rounded twice.
export function factorOf(text) {
  const word = text.trim();
  if (/^[+-]?nan$/i.test(word)) return NaN;
  if (/^[+-]?inf(inity)?$/i.test(word)) return word[0] === '-' ? -Infinity : Infinity;
  if (!/^[+-]?(\d+\.?\d*|\.\d+)(e[+-]?\d+)?$/i.test(word)) return null;
  const x = Number(word);
  const near = Math.fround(x);
  if (!(x > 0) || !Number.isFinite(near) || near === x) return near;
  const [low, high] = floatsAround(x);
  if (x - low !== high - x) return near;
  const side = wordAgainst(word, x);
  return side === 0 ? near : side < 0 ? low : high;
}

// Whether the factor used with these bins in a tile of this many pixels is within a tenth of the one asked, or with a bin for
// each grey a quarter below at most. A double holds all these numbers exactly, so the page chooses as station/bins.c does.
function factorHolds(whole, pixels, bins, greys) {
  const over = Math.max(Math.floor(whole / bins), Math.ceil(pixels / bins)) * bins - whole;
  return over > 0 ? 10 * over <= whole : -(bins === greys ? 4 : 10) * over <= whole;
}

// The pixels of the least tile, or of a region that no border cuts off.
function judgedPixels(s, film) {
  const side = (length, tiles) => tiles === 0 ? length : Math.floor(length / tiles);
  const pixels = s.around ? Math.min(s.side, film.width) * Math.min(s.side, film.height)
    : side(film.width, s.across) * side(film.height, s.down);
  return Math.max(1, pixels);
}

// Regions are small, and each bin costs time at every pixel: eight pixels a bin, but no fewer than 64 bins and no more than 256.
function mostChosen(s, pixels) {
  if (!s.around) return MOST_CHOSEN_BINS;
  return Math.max(LEAST_BINS_AROUND, Math.min(Math.floor(pixels / 8), MOST_BINS_AROUND));
}

// As the command line chooses: a bin for each grey of the range, up to 1024, or of own regions to fewer, and as many of them
// as hold the factor in the least tile, or in a whole region. A range that will be refused has no greys to go by, and a refused
// factor clips nothing.
export function chosenBins(s, film) {
  const greys = s.max - s.min + 1;
  const pixels = judgedPixels(s, film);
  const most = Math.min(s.max > s.min ? greys : 128, mostChosen(s, pixels));
  const factor = Math.fround(s.factor);
  const whole = factor * pixels;
  if (!s.clip || !(factor > 1 && factor <= 1024) || factorHolds(whole, pixels, most, greys)) return most;
  for (let limit = Math.floor(whole / most) + 1; whole / limit >= 2; limit++) {
    const found = [Math.floor(whole / limit), Math.ceil(pixels / limit)].find(bins => bins >= 2 && bins <= most &&
      factorHolds(whole, pixels, bins, greys));
    if (found) return found;
  }
  return 2;
}

// The grid nearest to the one wished among those that fit, the smaller of two; the one wished where none fits, for the
// library to refuse.
export function nearestGrid(wished, fits) {
  return fits.reduce((best, grid) => Math.abs(grid - wished) < Math.abs(best - wished) ? grid : best, fits[0] || wished);
}

// ---- sliders whose scale is not even: each step is a number of a list, so that every step moves ----

// 1 to 64, finer near one: from, up to, by.
const FACTOR_PARTS = [[1, 2, 0.01], [2, 4, 0.02], [4, 8, 0.05], [8, 16, 0.1], [16, 32, 0.25], [32, 64, 0.5]];

function factorSteps() {
  const steps = [1];
  for (const [from, to, by] of FACTOR_PARTS) {
    const count = Math.round((to - from) / by);
    for (let i = 1; i <= count; i++) steps.push(Math.round((from + i * by) * 100) / 100);
  }
  return steps;
}

export const FACTORS = factorSteps();

// 2 to the most that the range takes, eight to a doubling.
export function binSteps(most) {
  const steps = new Set();
  for (let k = 8; 2 ** (k / 8) < most; k++) steps.add(Math.round(2 ** (k / 8)));
  steps.add(most);
  return [...steps];
}

export function nearestStep(list, value) {
  let best = 0;
  for (let i = 1; i < list.length; i++) if (Math.abs(list[i] - value) < Math.abs(list[best] - value)) best = i;
  return best;
}

// ---- how numbers are shown ----

// The edition of the clip rule in words.
export function editionWords(edition) { return edition ? 'edition of 1986' : 'our edition'; }

// Own regions in words.
export function regionWords({side}) { return `own regions of side ${side}`; }

// A factor in at most five digits behind the point; all its digits stand in the record.
export function shownFactor(x) { return Number.isFinite(x) ? String(Math.round(x * 1e5) / 1e5) : String(x); }
