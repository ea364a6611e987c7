// What a pixel uses and what a rectangle reaches (viewer/reach.js), by the edges and centres of the record that the library leaves,
// held to the second program.
import { execFileSync } from 'node:child_process';
import { makeLedger } from '../calls.js';
import { closeFilm, openFilm, settle } from '../film.js';
import { cellAt, dotsShowing, placeOf } from '../place.js';
import { reachOf, sidesOf, usedTiles } from '../reach.js';
import { same } from './trying.mjs';

/** The second program's cases with its answers. */
function secondCases() {
  const text = execFileSync('python3', ['-B', 'viewer/test/reach_cases.py'], { encoding: 'utf8', maxBuffer: 1 << 26 });
  return text.trimEnd().split('\n').map(line => JSON.parse(line));
}

/** The record's edges and centres for a film of this size. */
function axesOf(module, { width, height }, s) {
  const head = Buffer.from(`P5\n${width} ${height}\n255\n`);
  const bytes = new Uint8Array(Buffer.concat([head, Buffer.alloc(width * height)]));
  const { film } = openFilm(module, makeLedger(Infinity), 1, { name: 'blank.pgm', cut: false, bytes });
  const { refusal } = settle(film, s);
  if (refusal) throw new Error(`refused, ${refusal.number}`);
  closeFilm(film);
  return film.record.axes;
}

const boxFrom = ([left, top, right, bottom]) => ({ left, top, width: right - left + 1, height: bottom - top + 1 });

function caseAgrees(module, one) {
  const s = { across: one.across, down: one.down, bins: 2, min: 0, max: 255, clip: 1, factor: 3, edition: 0 };
  const axes = axesOf(module, one, s), sides = sidesOf(axes, s);
  const name = `${one.width} by ${one.height}, grid ${one.across} by ${one.down}`;
  for (const [x, y, used] of one.pixels) {
    const found = usedTiles(sides, x, y).map(({ across, down, weight }) => [down * one.across + across, weight]);
    same(`${name}: used by ${x}, ${y}`, found, used);
  }
  for (const [box, reach] of one.boxes) {
    same(`${name}: reached by ${box}`, reachOf(one, axes, s, boxFrom(box)), boxFrom(reach));
    same(`${name}: without clipping`, reachOf(one, axes, { ...s, clip: 0, factor: 1 }, boxFrom(box)), boxFrom(reach));
    same(`${name}: at factor 1.0`, reachOf(one, axes, { ...s, factor: 1 }, boxFrom(box)), boxFrom(box));
  }
  return one.pixels.length;
}

const random = (() => {
  let state = 20261117;
  return most => { state = (state * 1103515245 + 12345) % 2147483648; return Math.floor(state / 2147483648 * most); };
})();

/** A dot is among those of a rectangle just where its cell has a pixel of it: any zoom, turned and mirrored. */
function dotsAgree() {
  let tried = 0;
  for (let i = 0; i < 600; i++) {
    const film = { width: 1 + random(60), height: 1 + random(60) };
    const zoom = i % 3 === 0 ? 1024 << random(3) : 16 + random(3000);
    const view = { zoom, x: random(film.width), y: random(film.height), turn: i % 4, flip: i % 8 > 3 };
    const place = placeOf(film, view, { width: 1 + random(90), height: 1 + random(90) });
    const left = random(film.width), top = random(film.height);
    const box = { left, top, width: 1 + random(film.width - left), height: 1 + random(film.height - top) };
    const dots = dotsShowing(place, box);
    for (let y = 0; y < place.pane.height; y += 1 + random(4)) for (let x = 0; x < place.pane.width; x += 1 + random(4), tried++) {
      const cell = cellAt(place, x, y);
      const has = Boolean(cell) && cell.x < left + box.width && left < cell.x + cell.width && cell.y < top + box.height && top < cell.y + cell.height;
      const inside = x >= dots.x && x < dots.x + dots.width && y >= dots.y && y < dots.y + dots.height;
      if (has !== inside) throw new Error(`dot ${x}, ${y} of ${JSON.stringify({ film, view, box, dots })}: ${inside}, expected ${has}`);
    }
  }
  return `${tried} dots`;
}

export function reaching(wasm, trial) {
  const module = new WebAssembly.Module(wasm);
  trial('tiles that pixels use, what rectangles reach, by the second program', () => {
    const cases = secondCases();
    return `${cases.length} films, ${cases.map(one => caseAgrees(module, one)).reduce((a, b) => a + b)} pixels`;
  });
  trial('the page\'s modules: the dots of a rectangle', dotsAgree);
}
