// Own regions through the page's modules (viewer/regions.js): windows in any order and a piece at a time against all of the film at
// once, and films and records against the command line's.
import { readFileSync } from 'node:fs';
import { makeLedger } from '../calls.js';
import { closeFilm, openFilm, picture, pictureSoFar, pieceOf, saveFilm, saveRecord, settle } from '../film.js';
import { chosenBins } from '../numbers.js';
import { placeOf } from '../place.js';
import { meansOf } from './modules.mjs';
import { commandLine } from './renderings.mjs';
import { same } from './trying.mjs';

const NOT_THERE = 65535;

const random = (() => {
  let state = 20261113;
  return most => { state = (state * 1103515245 + 12345) % 2147483648; return Math.floor(state / 2147483648 * most); };
})();

function filmOf(module, width, height) {
  const head = Buffer.from(`P5\n${width} ${height}\n255\n`), greys = Uint8Array.from({ length: width * height }, (_, i) => 60 + i % width / 3 + random(40));
  const bytes = new Uint8Array(Buffer.concat([head, greys]));
  return openFilm(module, makeLedger(Infinity), 3, { name: 'noise.pgm', cut: false, bytes }).film;
}

/** All of a film by one call. */
function atOnce(film, s) {
  const { library, width, height } = film, target = library.room.last(2 * width * height);
  if (library.around(film, s, target, width * height).refusal) throw new Error('refused');
  return library.room.u16(target, width * height).slice();
}

/** A clock by which every block takes all the time of a piece, so that each piece is one small block. */
function slowly(film, act) {
  const { now } = performance;
  let time = 0;
  performance.now = () => { time += 1000; return time; };
  Object.defineProperty(film.own, 'pace', { get: () => 100000, set() {}, configurable: true });
  try {
    return act();
  } finally {
    performance.now = now;
  }
}

/** A window's cells, asked for until they are all there; on the way each cell is right or not there. Gives the pieces. */
function drawnInPieces(film, s, place, wanted) {
  for (let pieces = 0; ; pieces++) {
    const piece = pieceOf(film, s, place);
    film.own.shown = 0; // each piece is looked at
    const drawn = piece ? pictureSoFar(film, place, {}) : picture(film, s, place);
    const seen = new Uint16Array(drawn.rendered, 0, place.columns * place.rows);
    const at = wanted.findIndex((grey, k) => grey !== seen[k] && !(piece && seen[k] === NOT_THERE));
    if (at >= 0) throw new Error(`cell ${at} of ${JSON.stringify(place)} is ${seen[at]}, expected ${wanted[at]}`);
    if (!piece) return pieces;
    if (piece.unfinished >= 1 || pieces > 5000) throw new Error(`no end: ${piece.unfinished} behind ${pieces} pieces`);
  }
}

function windows(module) {
  let pieces = 0, tried = 0;
  for (const [width, height, side] of [[400, 300, 9], [211, 350, 31], [150, 140, 63]]) {
    const film = filmOf(module, width, height);
    for (const factor of [3, 1.5]) {
      const s = { around: 1, side, bins: 16, min: 0, max: 255, clip: 1, factor, edition: 0 }, whole = atOnce(film, s);
      settle(film, s);
      for (let i = 0; i < 12; i++, tried++) {
        const view = { zoom: [1024, 512, 2048, 700, 256, 1500][random(6)], x: random(width), y: random(height), turn: 0, flip: false };
        const place = placeOf(film, view, { width: 1 + random(400), height: 1 + random(300) }, i % 3);
        const part = Uint16Array.from({ length: place.width * place.height },
          (_, k) => whole[(place.top + Math.floor(k / place.width)) * width + place.left + k % place.width]);
        pieces += slowly(film, () => drawnInPieces(film, s, place, meansOf(part, place)));
      }
    }
    closeFilm(film);
  }
  return `${tried} windows in ${pieces} pieces and more`;
}

const SAVED = [
  { words: ['--side', '31'], s: { side: 31 } },
  { words: ['--side', '7', '--clip', '1.25'], s: { side: 7, factor: 1.25 } },
  { words: ['--side', '63', '--clip', 'off', '--edition', '1986'], s: { side: 63, clip: 0, edition: 1 } },
  { words: ['--side', '3', '--range', '400:3500'], s: { side: 3, min: 400, max: 3500 } },
  { words: ['--side', '15', '--bins', '40', '--clip', '1'], s: { side: 15, bins: 40, factor: 1 } },
];

/** What the worker hands out, and the numbers of its record; bins as the page chooses them. */
function saved(module, path, room, { words, s: own }) {
  const wanted = commandLine(room, path, words, 'around');
  const { film } = openFilm(module, makeLedger(Infinity), 7, { name: 'weld.pgm', cut: false, bytes: new Uint8Array(readFileSync(path)) });
  const s = { around: 1, across: 8, down: 8, min: 0, max: 4095, clip: 1, factor: 3, edition: 0, ...own };
  if (s.bins === undefined) s.bins = chosenBins(s, film);
  const file = Buffer.from(saveFilm(film, s).bytes), { name, text } = saveRecord(film, s, wanted.record.version), record = JSON.parse(text);
  for (const part of ['input', 'output']) record[part].file = wanted.record[part].file;
  same('the record', record, wanted.record);
  if (!file.equals(wanted.file)) throw new Error('another PGM than the command line writes');
  closeFilm(film);
  return `${name}.pgm, ${file.length} bytes`;
}

/** The bins that the page chooses, by the command line's table. */
function binsChosen() {
  const rows = readFileSync('station/faults/regions.txt', 'utf8').split('\n').filter(row => row && !row.startsWith('#'));
  for (const row of rows) {
    const [size, side, range, clip, bins] = row.split(' '), [width, height] = size.split('x').map(Number), [min, max] = range.split(':').map(Number);
    const s = { around: 1, side: Number(side), min, max, clip: clip === 'off' ? 0 : 1, factor: clip === 'off' ? 3 : Number(clip) };
    same(row, chosenBins(s, { width, height }), Number(bins));
  }
  return `${rows.length} rows`;
}

export function regions(wasm, room, trial) {
  const module = new WebAssembly.Module(wasm);
  trial('the page\'s modules: own regions in windows, a piece at a time', () => windows(module));
  trial('the page\'s modules: bins chosen of own regions, by the command line\'s table', binsChosen);
  for (const each of SAVED)
    trial(`the page's modules: own regions saved ${each.words.join(' ')}`, () => saved(module, 'docs/weld.pgm', room, each));
}
