// node viewer/node/measuring.mjs: the page's measuring (viewer/measure.js) held to the second program's, to the last digit
// shown. It needs nothing built; viewer/programs runs the same trials.
import { execFileSync } from 'node:child_process';
import * as measure from '../measure.js';
import { alone, same } from './trying.mjs';

/** The second program's cases with its answers, by kind. */
function secondCases() {
  const text = execFileSync('python3', ['-B', 'second/measure_cases.py'], { encoding: 'utf8', maxBuffer: 1 << 26 });
  const kinds = {};
  for (const line of text.trimEnd().split('\n')) {
    const one = JSON.parse(line);
    (kinds[one.kind] ||= []).push(one);
  }
  return kinds;
}

const filmOf = ([width, height, greys]) => ({ width, height, greys: Uint16Array.from(greys) });
const lineOf = ([x0, y0, x1, y1]) => ({ x0, y0, x1, y1 });
const um = text => measure.millionthsOf(text, measure.LIMITS.um);

function profileAgrees(one) {
  const profile = measure.profileOf(filmOf(one.film), lineOf(one.line), one.lanes);
  same('samples', measure.shownSamples(profile), one.samples);
  if (!one.part) return;
  const found = measure.dipOf(profile, ...one.part);
  same('dip', found && [found.at, found.a, found.b, found.c, found.percent], one.dip);
}

function regionAgrees(one) {
  const [left, top, width, height] = one.box;
  const sums = measure.sumsOf(filmOf(one.film), { left, top, width, height });
  const told = measure.regionOf(sums, one.resolution === null ? null : um(one.resolution));
  same('region', [told.pixels, told.least, told.greatest, told.mean, told.deviation, told.snr, told.snrN], one.told);
}

function mmAgrees(one) {
  const line = lineOf(one.line), pitch = um(one.pitch);
  same('distance', [measure.distancePixels(line), measure.distanceMm(line, pitch)], one.distance);
  const found = measure.pitchFrom(line, measure.millionthsOf(one.length, measure.LIMITS.mm));
  same('pitch', found === null ? null : measure.shownMillionths(found), one.pitch_of);
  same('rectangle', one.box.map(side => measure.lengthMm(side, pitch)), one.box_mm);
}

function wordAgrees(one) {
  const found = [measure.LIMITS.um, measure.LIMITS.mm].map(limits => measure.millionthsOf(one.word, limits));
  same(`the word ${JSON.stringify(one.word)}`, found.map(units => units === null ? null : String(units)), one.um_mm);
}

function allAgree(cases, agrees, least) {
  if (cases.length < least) throw new Error(`${cases.length} cases`);
  cases.forEach((one, i) => {
    try {
      agrees(one);
    } catch (fault) {
      throw new Error(`case ${i}, ${fault.message}`);
    }
  });
  return `${cases.length} cases`;
}

/** The largest sums there are stay whole numbers that a double holds. */
function largestIsExact() {
  const side = 4096, film = { width: side, height: side, greys: new Uint16Array(side * side).fill(4095) };
  const sums = measure.sumsOf(film, { left: 0, top: 0, width: side, height: side });
  same('sums', [BigInt(sums.sum), BigInt(sums.squares)].map(String),
    [4095n * 16777216n, 4095n * 4095n * 16777216n].map(String));
  const profile = measure.profileOf(film, { x0: 0, y0: 0, x1: side - 1, y1: side - 1 }, measure.MOST_LANES);
  if (!profile.sums.every(Number.isSafeInteger)) throw new Error('a sum above 2^53');
  const shown = new Set(measure.shownSamples(profile));
  same('samples', [...shown], ['4095.00']);
  return `${profile.n + 1} samples of ${measure.MOST_LANES} lanes, 16777216 pixels`;
}

export function measuring(trial) {
  const kinds = secondCases();
  trial('line profiles and dips, by the second program', () => allAgree(kinds.profile, profileAgrees, 200));
  trial('regions, by the second program', () => allAgree(kinds.region, regionAgrees, 200));
  trial('distances, pitches and rectangles in mm, by the second program', () => allAgree(kinds.mm, mmAgrees, 200));
  trial('typed numbers, by the second program', () => allAgree(kinds.word, wordAgrees, 20));
  trial('the largest sums', largestIsExact);
}

alone(import.meta.url, measuring);
