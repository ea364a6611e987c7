// The page's own modules under node: a film from its file to its saved rendering, as the worker has it, against the command line;
// and the ways from a film's pixels to dots and back.
import { readFileSync } from 'node:fs';
import { makeLedger } from '../calls.js';
import { greysOfWindow, openFilm, picture, saveFilm, saveRecord, settle } from '../film.js';
import { cellAt, cellEnd, cellStart, placeOf, toDot, toFilm, zoomOf } from '../place.js';
import { commandLine } from './renderings.mjs';

const TRIALS = [
  { words: [], s: { across: 8, down: 8, bins: 1024, min: 0, max: 4095, clip: 1, factor: 3, edition: 0 } },
  { words: ['--grid', '7x13', '--bins', '100', '--clip', '1.25'],
    s: { across: 7, down: 13, bins: 100, min: 0, max: 4095, clip: 1, factor: 1.25, edition: 0 } },
  { words: ['--edition', '1986'], s: { across: 8, down: 8, bins: 1024, min: 0, max: 4095, clip: 1, factor: 3, edition: 1 } },
];

/** The film that the worker hands out, and the numbers of its record. */
function saved(module, path, room, { words, s }) {
  const wanted = commandLine(room, path, words);
  const { film } = openFilm(module, makeLedger(Infinity), 7, { name: 'weld.pgm', cut: false, bytes: new Uint8Array(readFileSync(path)) });
  const file = Buffer.from(saveFilm(film, s).bytes), { name, text } = saveRecord(film, s, wanted.record.version), record = JSON.parse(text);
  if (!file.equals(wanted.file)) throw new Error('another PGM than the command line writes');
  if (record.output.file !== `${name}.pgm`) throw new Error(`the record names ${record.output.file}`);
  for (const part of ['input', 'output']) record[part].file = wanted.record[part].file;
  if (JSON.stringify(record) !== JSON.stringify(wanted.record)) throw new Error('another record than the command line writes');
  return `${name}.pgm, ${file.length} bytes`;
}

/** A change of edition maps the counts that are there: the library is asked to count once, and each rendering is its edition's. */
function turnedOver(module, path) {
  const { film } = openFilm(module, makeLedger(Infinity), 7, { name: 'weld.pgm', cut: false, bytes: new Uint8Array(readFileSync(path)) });
  const { count } = film.library;
  let counted = 0;
  film.library.count = (...words) => { counted += 1; return count(...words); };
  const [first, other, again] = [0, 1, 0].map(edition => Buffer.from(saveFilm(film, { ...TRIALS[0].s, edition }).bytes));
  if (counted !== 1) throw new Error(`counted ${counted} times`);
  if (!again.equals(first) || other.equals(first)) throw new Error('a rendering of another edition');
  return 'counted once, rendered by ours, 1986 and ours';
}

/** A plain film through the page's modules: the film that is saved is the raw one's. */
function plainFilm(module, path) {
  const opened = bytes => openFilm(module, makeLedger(Infinity), 7, { name: 'weld.pgm', cut: false, bytes: new Uint8Array(bytes) }).film;
  const raw = opened(readFileSync(path)), greys = raw.library.room.u16(raw.picture, raw.width * raw.height);
  const text = Buffer.from(`P2 ${raw.width}\t${raw.height}\r\n${raw.maxval}\n${[...greys].join(' ')}`), plain = opened(text), { s } = TRIALS[0];
  const [a, b] = [raw, plain].map(film => Buffer.from(saveFilm(film, s).bytes));
  if (!a.equals(b)) throw new Error('another rendering than the raw film has');
  const record = JSON.parse(saveRecord(plain, s, '0').text);
  if (record.input.bytes !== text.length || record.output.bytes !== a.length) throw new Error('the record names other bytes');
  return `${text.length} bytes of text, ${b.length} saved`;
}

const random = (() => {
  let state = 20261116;
  return most => { state = (state * 1103515245 + 12345) % 2147483648; return state / 2147483648 * most; };
})();

/** Places of all turns at any zoom: a pixel's dot is its own, and what is seen has every cell that a dot shows. */
function places() {
  for (let i = 0; i < 4000; i++) {
    const film = { width: 1 + Math.floor(random(300)), height: 1 + Math.floor(random(300)) };
    const view = { zoom: Math.floor(16 + random(3000)), x: random(film.width), y: random(film.height), turn: i % 4, flip: i % 8 > 3 };
    const place = placeOf(film, view, { width: 1 + Math.floor(random(400)), height: 1 + Math.floor(random(400)) }, 5);
    const x = random(film.width), y = random(film.height), back = toFilm(place, ...toDot(place, x, y));
    if (Math.abs(back[0] - x) + Math.abs(back[1] - y) > 1e-6) throw new Error(`${x}, ${y} comes back as ${back}`);
    const cell = cellAt(place, random(place.pane.width), random(place.pane.height));
    if (cell && (cell.x < place.left || cell.y < place.top || cell.x + cell.width > place.left + place.width || cell.y + cell.height > place.top + place.height))
      throw new Error(`a cell at ${cell.x}, ${cell.y} lies beyond the window of ${JSON.stringify(view)}`);
  }
  return '4000 places';
}

/** Cells leave out no pixel below 1:1, and none is in two. */
function cells() {
  for (let p = 16; p <= 1024; p++) {
    const zoom = zoomOf(p);
    for (let k = 0, at = 0; k < 40; at = cellEnd(zoom, k, 1e9), k++)
      if (cellStart(zoom, k) !== at) throw new Error(`cell ${k} at ${p} / 1024 begins at ${cellStart(zoom, k)}, expected ${at}`);
  }
  return '1009 zooms';
}

/** A window's means, pixel by pixel, by the definition of a cell. */
export function meansOf(greys, { zoom, cellX, cellY, columns, rows, left, top, width, film }) {
  const cell = (first, k, side) => [cellStart(zoom, first + k), cellEnd(zoom, first + k, side)];
  return Uint16Array.from({ length: columns * rows }, (_, i) => {
    const [x0, x1] = cell(cellX, i % columns, film.width), [y0, y1] = cell(cellY, Math.floor(i / columns), film.height);
    let sum = 0;
    for (let y = y0; y < y1; y++) for (let x = x0; x < x1; x++) sum += greys[(y - top) * width + x - left];
    const area = (x1 - x0) * (y1 - y0);
    return Math.floor((2 * sum + area) / (2 * area));
  });
}

/** Both sides of windows at fixed and other zooms, cut blocks at the edges too: means by the page's C and by its JavaScript. */
function means(module, path) {
  const { film } = openFilm(module, makeLedger(Infinity), 7, { name: 'weld.pgm', cut: false, bytes: new Uint8Array(readFileSync(path)) });
  const { s } = TRIALS[1];
  settle(film, s);
  for (let i = 0; i < 60; i++) {
    const zoom = [512, 256, 128, 64, 32, 16, 700, 300, 1500, 99][i % 10];
    const view = { zoom, x: random(film.width), y: random(film.height), turn: 0, flip: false };
    const place = placeOf(film, view, { width: 1 + Math.floor(random(160)), height: 1 + Math.floor(random(160)) }, i % 3);
    const drawn = picture(film, s, place), pixels = greysOfWindow(film, s, { left: place.left, top: place.top, width: place.width, height: place.height });
    for (const side of ['scanned', 'rendered']) {
      const seen = new Uint16Array(drawn[side], 0, place.columns * place.rows), wanted = meansOf(new Uint16Array(pixels[side]), place);
      const at = wanted.findIndex((grey, k) => grey !== seen[k]);
      if (at >= 0) throw new Error(`cell ${at} at ${zoom} / 1024, ${side}: ${seen[at]}, expected ${wanted[at]}`);
    }
  }
  return '60 windows, both sides';
}

export function modules(wasm, room, trial) {
  const module = new WebAssembly.Module(wasm);
  for (const each of TRIALS)
    trial(`the page's modules: film and record ${each.words.join(' ') || 'as README renders it'}`, () => saved(module, 'docs/weld.pgm', room, each));
  trial('the page\'s modules: a plain film', () => plainFilm(module, 'docs/weld.pgm'));
  trial('the page\'s modules: a change of edition', () => turnedOver(module, 'docs/weld.pgm'));
  trial('the page\'s modules: means of windows', () => means(module, 'docs/weld.pgm'));
  trial('the page\'s modules: from pixels to dots and back', places);
  trial('the page\'s modules: cells of every zoom below 1:1', cells);
}
