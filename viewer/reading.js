// The pixel that is read: its greys, its tile, and the tile's plot.
import {element, setText} from './dom.js';
import {look, pixelOf, placeMarks} from './look.js';
import {editionWords} from './numbers.js';
import {drawTilePlot} from './plots.js';
import {OUTLINED, filmReady, state, want} from './state.js';

// at: {film, x, y, cell, frame}, or null.
export function readAt(at) {
  const film = filmReady();
  if (!film || film.refusal) return;
  const same = at && state.at && at.film === state.at.film && at.x === state.at.x && at.y === state.at.y &&
    ['x', 'y', 'width', 'height'].every(key => at.cell[key] === state.at.cell[key]);
  state.at = at;
  if (same) return placeMarks();
  if (at) want('probe');
  else fillReading(null);
}

// Nothing is read any more.
export function forgetReading() {
  state.at = null;
  fillReading(null);
}

// What is read of a film that is no longer on a pane.
export function forgetReadingOf(film) { if (state.at && state.at.film === film) forgetReading(); }

// From the pixel that is read, or from the middle of what is seen. Gives the pixel.
export function moveReading(x, y) {
  const film = filmReady();
  if (!film || !look.painted) return null;
  const from = readNow();
  look.pointer = null;
  const at = heldPixel(film, from.x + x, from.y + y);
  readAt(at);
  return at;
}

function heldPixel(film, x, y) {
  const hold = (value, side) => Math.max(0, Math.min(side - 1, value));
  return pixelOf(film, hold(x, film.width), hold(y, film.height));
}

// The pixel of the film that is looked at that is read, or lies beneath the one that is read of the film beside it, or in the
// middle of what is seen.
export function readNow() {
  const {at, film} = state;
  const place = look.painted;
  if (at) return at.film === film ? at : heldPixel(film, at.x, at.y);
  return pixelOf(film, place.left + (place.width >> 1), place.top + (place.height >> 1));
}

// Below 1:1 a dot is more than the pixel that is read.
function dotWords({dot}) {
  return dot ? `one pixel; the dot shows the mean of ${dot.width} by ${dot.height}: scanned ${dot.scanned}, ` +
    `rendered ${dot.rendered}` : '';
}

// Where it lies: the tile, or the region of its own.
function tileWords({tile, side}) {
  return side ? `${tile.width} by ${tile.height} pixels` : `${tile.across + 1} across, ${tile.down + 1} down`;
}

// What clipping took of the tile: what stood above its limit, and how many bins the walk that hands the rest out looks at.
// The rule of 1986 has no such walk.
function tileNote(probe) {
  if (!probe) return '';
  const edition = probe.edition ? ` (${editionWords(probe.edition)}: no walk)` : '';
  return probe.mapping ? `E ${probe.excess}, looks ${probe.looks}${edition}` : 'factor 1.0: nothing is mapped';
}

// Where the four corners stand that a pixel's rule may use: upper left, upper right, lower left, lower right. Those that are used
// have the tile's place in the grid and its weight; beside them stands what the weights add up to.
function fillUsed(probe) {
  const used = probe ? probe.used : [];
  const [across, down] = ['across', 'down'].map(key => Math.min(...used.map(tile => tile[key])));
  const cells = ['', '', '', ''];
  for (const tile of used) {
    cells[2 * (tile.down - down) + tile.across - across] = `${tile.across + 1}, ${tile.down + 1}: ${tile.weight}`;
  }
  if (used.length === 0) cells[0] = !probe ? '–' : probe.mapping ? 'its own region alone' : 'its own grey alone: factor 1.0';
  cells.forEach((text, i) => setText(`used-${i}`, text));
  setText('used-sum', used.length === 0 ? '' : `of ${used.reduce((sum, {weight}) => sum + weight, 0)}`);
}

export function fillReading(probe) {
  state.probe = probe;
  state.tile = probe ? probe.tile : null;
  for (const [id, key] of [['at-column', 'x'], ['at-row', 'y'], ['at-scanned', 'scanned'], ['at-rendered', 'rendered']]) {
    setText(id, probe ? String(probe[key]) : '–');
  }
  const tile = state.tile;
  setText('pointer-film', probe && look.mode === 'pair' && state.at ? `film ${state.at.film.number}` : '');
  setText('at-dot', probe ? dotWords(probe) : '');
  setText('at-kind', probe && probe.side ? 'region' : 'tile');
  setText('at-tile', tile ? tileWords(probe) : '–');
  setText('at-rectangle', tile ? `columns ${tile.left} to ${tile.left + tile.width - 1}, ` +
    `rows ${tile.top} to ${tile.top + tile.height - 1}` : '');
  fillUsed(probe);
  setText('tile-note', tileNote(probe));
  drawTilePlot(probe);
  placeMarks();
}

export function outlineTiles(which) {
  state.outlined = which;
  for (const each of ['tile', 'used']) element(`outline-${each}`).setAttribute('aria-pressed', String(each === which));
  placeMarks();
}

// A press more: the next one, and behind the last none.
export function outlineNext() { outlineTiles(OUTLINED[(OUTLINED.indexOf(state.outlined) + 1) % OUTLINED.length]); }
