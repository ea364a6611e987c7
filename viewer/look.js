// Looking: which part of the film is seen, and how it comes on the screen. Both pictures are always of the same window, so they
// move together.
import {keepTimes, tellBusy} from './ask.js';
import {canvases, element, frames, made, setText, sizeTo} from './dom.js';
import {fillPanel} from './panel.js';
import {parts} from './parts.js';
import {STEPS, cellAt, cellCount, cellOfPixel, covers, fitZoom, heldZoom, isWhole, placeOf, stepBeside, toDot, toFilm,
  zoomOf} from './place.js';
import {forgetSizes} from './plots.js';
import {displayOf, shadeCells, shadeTable} from './shades.js';
import {forgetReadingOf} from './reading.js';
import {fillCaptions} from './show.js';
import {filmReady, state, want} from './state.js';

export const MODES = ['side', 'divide', 'turn', 'pair'];
export const MARGIN_DOTS = 96; // drawn around what is seen
const NEARLY = 1.25; // how much larger than its room a film may be opened
const MOST_LATTICE = 24;
const MOST_KEPT = 6; // films whose last pictures stay at hand

export const look = {
  pane: null, // a picture's room on the screen, in the screen's own dots
  isExact: true, // whether a canvas' dots are the screen's
  painted: null, // the place of the film that is looked at, as it is on the canvases now
  places: [], // the places of the two panes: of one film, or of two
  pair: 0, // the number of the film that is looked at beside another
  kept: new Map(), // of each film, by its number, the cells that were drawn last: its pictures, and what they were made with
  drawings: 0, // how many drawings were kept: each side is known by the number of its own
  spare: {}, // buffers that are kept no longer, for the worker to write over
  sheets: [{key: '', painted: ''}, {key: '', painted: ''}], // the cells as dots, for the two canvases, and what is on these
  overlaid: [false, false], // whether something is drawn over the panes
  pointer: null, // where the pointer is on the stage
  mode: 'side',
  turn: 'rendered',
  divide: 0.5,
};

export function zoomId(p) { return `zoom-${zoomOf(p).label.replace(':', '-')}`; }
function glasses() { return [...document.querySelectorAll('.glass')]; }

// ---- the window that is seen ----

export function placeNow(film, margin = 0) { return placeOf(film, film.view, look.pane, margin); }

export function startView(film) {
  film.view = {zoom: 1024, x: film.width / 2, y: film.height / 2, turn: 0, flip: false, fit: true, fresh: true};
}

// A film is opened as large as it fits. But where the next larger zoom, up to 1:1, shows nearly all of it, that one is taken: at
// 1:2 what is fine in the film is lost for a few columns more.
function firstView(film) {
  const {view} = film;
  view.fresh = false;
  const next = stepBeside(view.zoom, 1) / 1024;
  if (view.zoom >= 1024 || film.width * next > NEARLY * look.pane.width || film.height * next > NEARLY * look.pane.height) return;
  view.zoom = next * 1024;
  view.fit = false;
}

// Brings the view back to what can be seen, so that a drag beyond the edge is not saved up.
export function holdView(film) {
  if (!look.pane) return;
  const {view} = film;
  if (view.fit) view.zoom = fitZoom(film, view, look.pane);
  if (view.fresh) firstView(film);
  [view.x, view.y] = toFilm(placeNow(film), look.pane.width / 2, look.pane.height / 2);
}

// ---- painting ----

// What stands on the two canvases: a film and which of its sides.
export function panes() {
  const film = state.film;
  if (look.mode === 'pair') return [{film, side: look.turn}, {film: pairFilm(), side: look.turn}];
  return [{film, side: 'scanned'}, {film, side: 'rendered'}];
}

// The film beside the one that is looked at: the one that was chosen, or the next.
export function pairFilm() {
  const others = state.films.filter(film => film.ready && film !== state.film);
  const next = others.find(film => state.films.indexOf(film) > state.films.indexOf(state.film));
  return others.find(film => film.number === look.pair) || next || others[0] || null;
}

// The place of another film with the same pixel on the same dot.
export function placeUnder(other, film, margin = 0) {
  const place = placeNow(film);
  return placeOf(other, film.view, look.pane, margin, place);
}

// Whether what is kept of the film beside has all that is seen of it.
export function pairIsThere(other, film) {
  const kept = keptOf(other);
  const place = placeUnder(other, film);
  if (place.width === 0 || place.height === 0) return true;
  return Boolean(kept) && !kept.isPart && isOfSettings(kept, other) && keptFits(kept, place) && covers(kept.place, place);
}

// The cells are kept as greys with a margin around what is seen. So the film follows the hand in the same frame, a new level or
// window needs no drawing, and what the margin does not have is painted when the library has drawn it.
export function keepDrawn(film, drawn, {scanned, rendered}) {
  const before = look.kept.get(film.number) || {};
  const drawing = ++look.drawings;
  look.kept.delete(film.number);
  look.kept.set(film.number, {...drawn, scanned: scanned || before.scanned, rendered,
    drawings: {...before.drawings, ...(scanned && {scanned: drawing}), rendered: drawing}});
  if (before.rendered) look.spare.rendered = before.rendered;
  if (before.scanned && scanned) look.spare.scanned = before.scanned;
  if (look.kept.size > MOST_KEPT) look.kept.delete(look.kept.keys().next().value);
}

export function keptOf(film) { return film ? look.kept.get(film.number) : undefined; }

function isOfSettings(kept, film) {
  return Object.keys(film.settings).every(key => Object.is(kept.settings[key], film.settings[key]));
}

// Whether what is kept of a film was drawn at the zoom, turn and room that it is seen with now.
function keptFits(kept, place) {
  return kept.place.zoom.p === place.zoom.p && kept.place.pane.width === place.pane.width &&
    kept.place.pane.height === place.pane.height && Object.keys(place.turn).every(key => kept.place.turn[key] === place.turn[key]);
}

function layOnSheet(sheet, {film, side}, kept) {
  const {columns, rows, turn} = kept.place;
  const display = displayOf(film, side);
  const key = [film.number, side, kept.drawings[side], ...Object.values(display), ...Object.values(turn)].join();
  if (sheet.key === key) return;
  const [wide, high] = turn.aside ? [rows, columns] : [columns, rows];
  if (!sheet.canvas) sheet.canvas = document.createElement('canvas');
  if (!sheet.image || sheet.image.width !== wide || sheet.image.height !== high) {
    sheet.image = new ImageData(wide, high);
    sheet.canvas.width = wide;
    sheet.canvas.height = high;
  }
  const cells = new Uint16Array(kept[side], 0, columns * rows);
  shadeCells(cells, columns, rows, turn, shadeTable(display), new Uint32Array(sheet.image.data.buffer));
  sheet.canvas.getContext('2d').putImageData(sheet.image, 0, 0);
  sheet.key = key;
}

// Where the first cell of a sheet lies on a canvas.
function sheetEdge(place, drawn) {
  const {zoom, turn, film} = place;
  const firstX = turn.reverseX ? cellCount(zoom, film.width) - drawn.cellX - drawn.columns : drawn.cellX;
  const firstY = turn.reverseY ? cellCount(zoom, film.height) - drawn.cellY - drawn.rows : drawn.cellY;
  const [right, down] = turn.aside ? [firstY, firstX] : [firstX, firstY];
  return [place.edgeX + right * zoom.shown, place.edgeY + down * zoom.shown];
}

function clearPane(i) {
  const canvas = canvases()[i];
  canvas.getContext('2d').clearRect(0, 0, canvas.width, canvas.height);
  look.sheets[i].painted = '';
}

// Whether there is something of a film for its pane. Of a film beside another its older picture is none.
function isPaintable({film, side}, kept, place) {
  if (!kept || !kept[side] || kept.place.columns === 0 || kept.place.rows === 0) return false;
  return film === state.film || (isOfSettings(kept, film) && keptFits(kept, place));
}

// What a canvas shows already is left there: a canvas that is touched goes to the screen anew, as the scanned one would with every
// factor.
function paintPane(i, pane, place) {
  const sheet = look.sheets[i];
  const kept = keptOf(pane.film);
  sizeTo(canvases()[i], place.pane);
  if (!isPaintable(pane, kept, place)) return clearPane(i);
  layOnSheet(sheet, pane, kept);
  const {shown} = place.zoom;
  const box = [...sheetEdge(place, kept.place), sheet.canvas.width * shown, sheet.canvas.height * shown];
  const key = [sheet.key, ...box, place.pane.width, place.pane.height].join();
  if (sheet.painted === key) return;
  clearPane(i);
  const pen = canvases()[i].getContext('2d');
  pen.imageSmoothingEnabled = false; // a pixel is a square
  pen.drawImage(sheet.canvas, ...box);
  sheet.painted = key;
}

// The places of both panes, where the film that is looked at lies at this one.
function placesBy(film, place) {
  return panes().map(pane => pane.film === film || !pane.film ? place : placeUnder(pane.film, film));
}

// Paints what is kept where the view has it now; what was drawn for another zoom or turn stays as it was asked for. Gives
// whether all that is seen was there.
export function paintView(film) {
  const kept = keptOf(film);
  const now = placeNow(film);
  const fits = keptFits(kept, now);
  const place = fits ? now : kept.seen;
  look.painted = place;
  look.places = placesBy(film, place);
  panes().forEach((pane, i) => paintPane(i, pane, look.places[i]));
  tellHow(film, place);
  placeMarks();
  return fits && covers(kept.place, now);
}

// A change of the display alone.
export function repaint(what, event) {
  const film = filmReady();
  if (!film || !keptOf(film) || !look.painted) return;
  paintView(film);
  keepTimes([{what, at: event ? event.timeStamp : performance.now()}]);
  tellBusy();
}

// What was drawn for these settings and is still at hand is painted at once. Gives whether that is all that is wanted.
export function paintKept(film) {
  const kept = keptOf(film);
  if (!kept || kept.isPart || !look.pane || film.refusal) return false;
  return isOfSettings(kept, film) && keptFits(kept, placeNow(film)) && paintView(film);
}

// No picture stays up: neither half.
export function clearPanes() {
  [0, 1].forEach(clearPane);
  look.painted = null;
  look.places = [];
  setText('how', '');
  placeMarks();
}

export function howShown(zoom) {
  if (zoom.block === 1) return zoom.shown > 1 ? 'pixels as squares, not smoothed' : 'pixel for pixel';
  if (zoom.block > 1) return `means of ${zoom.block} by ${zoom.block} pixels`;
  return zoom.p > 1024 ? 'pixels as unequal squares, not smoothed' : 'means of unequal blocks of pixels';
}

// Where a canvas does not lie on whole dots, the browser spreads it: then no zoom is what it is called.
function tellHow(film, place) {
  const bits = Math.ceil(Math.log2(film.maxval + 1));
  const how = look.isExact ? howShown(place.zoom)
    : `spread over other dots by the page's scale of ${Math.round(100 * devicePixelRatio)} %, at 100 % it is not`;
  setText('how', `${place.zoom.label}: ${how}${bits > 8 ? `; ${bits} bits shown as 8` : ''}`);
}

// The part of the film that is on the canvases: what is seen and has been drawn.
export function partShown() {
  const {painted} = look;
  const kept = keptOf(state.film).place;
  const left = Math.max(painted.left, kept.left);
  const top = Math.max(painted.top, kept.top);
  const right = Math.min(painted.left + painted.width, kept.left + kept.width) - 1;
  const bottom = Math.min(painted.top + painted.height, kept.top + kept.height) - 1;
  return {left, top, right, bottom, zoom: painted.zoom};
}

// ---- what is pointed at ----

// The dot of a pane at a place of the page, also where that lies beside the pane.
export function dotIn(event, frame) {
  const box = frame.querySelector('.glass').getBoundingClientRect();
  return {x: (event.clientX - box.left) * look.pane.width / box.width,
    y: (event.clientY - box.top) * look.pane.height / box.height, frame};
}

// The same for the pane in which it lies; null beside both.
export function dotAt(event) {
  for (const frame of hasTwo() ? frames() : frames().slice(0, 1)) {
    const dot = dotIn(event, frame);
    if (dot.x >= 0 && dot.y >= 0 && dot.x < look.pane.width && dot.y < look.pane.height) return dot;
  }
  return null;
}

// Whether the pictures lie beside each other.
function hasTwo() { return look.mode === 'side' || look.mode === 'pair'; }

// Which picture a dot shows.
export function sideAt(dot) {
  if (look.mode === 'side') return dot.frame === frames()[1] ? 'rendered' : 'scanned';
  if (look.mode !== 'divide') return look.turn;
  return dot.x < dividerDot() ? 'scanned' : 'rendered';
}

// The pixel that is read: the first of the dot's cell, of the film on that pane. places: of the two panes.
export function pixelAt(event, places) {
  const dot = look.painted && dotAt(event);
  if (!dot) return null;
  const i = frames().indexOf(dot.frame);
  const {film} = panes()[i];
  const cell = keptOf(film) && cellAt(places[i], dot.x, dot.y);
  return cell ? {film, x: cell.x, y: cell.y, cell, frame: dot.frame} : null;
}

// A pixel that is read, though nothing points at it.
export function pixelOf(film, x, y) {
  const cell = look.painted ? cellOfPixel(look.painted.zoom, film, x, y) : {x, y, width: 1, height: 1};
  return {film, x, y, cell, frame: null};
}

// ---- what lies over the pictures ----

// The tiles that are outlined: the one that the pixel lies in, or those that its rule uses. Its own region is both.
function tilesOutlined() {
  if (!state.probe || state.outlined === 'none') return [];
  return state.outlined === 'tile' || state.probe.side ? [state.probe.tile] : state.probe.used;
}

// The same place in the other picture: a cross where the pointer is not, the outlines of tiles in both, and what other modules
// draw.
export function placeMarks() {
  const place = look.painted;
  const at = place ? state.at : null;
  const tiles = at ? tilesOutlined() : [];
  for (const [i, frame] of frames().entries()) {
    const cross = frame.querySelector('.cross');
    const shown = at && at.frame !== frame && (hasTwo() || !at.frame);
    cross.style.display = shown ? 'block' : 'none';
    if (shown) moveTo(cross, ...toDot(look.places[i], at.cell.x + at.cell.width / 2, at.cell.y + at.cell.height / 2));
    // tiles are of their own film
    const own = at && panes()[i].film === at.film ? tiles : [];
    for (const [k, mark] of frame.querySelectorAll('.tile-mark').entries()) outlineTile(mark, look.places[i], own[k]);
  }
  drawOverlays();
  for (const act of parts.watches) act(place);
}

function moveTo(mark, x, y) { mark.style.transform = `translate(${x / devicePixelRatio}px, ${y / devicePixelRatio}px)`; }

function outlineTile(mark, place, tile) {
  mark.style.display = tile ? 'block' : 'none';
  if (!tile) return;
  const [a, b] = toDot(place, tile.left, tile.top);
  const [c, d] = toDot(place, tile.left + tile.width, tile.top + tile.height);
  moveTo(mark, Math.min(a, c), Math.min(b, d));
  mark.style.width = `${Math.abs(c - a) / devicePixelRatio}px`;
  mark.style.height = `${Math.abs(d - b) / devicePixelRatio}px`;
}

// To be called when what a module draws over the pictures has changed.
export function drawOverlays() {
  for (const [i, pane] of panes().entries()) {
    const canvas = frames()[i].querySelector('.overlay');
    const place = pane.film && look.painted ? look.places[i] : null;
    if (place) sizeTo(canvas, place.pane);
    else canvas.width = canvas.width && 0;
    const overlays = place ? parts.overlays.filter(({has}) => has(pane.film)) : [];
    if (overlays.length > 0 || look.overlaid[i]) drawOver(canvas, overlays, place, pane);
    look.overlaid[i] = overlays.length > 0;
  }
}

function drawOver(canvas, overlays, place, pane) {
  const pen = canvas.getContext('2d');
  pen.clearRect(0, 0, canvas.width, canvas.height);
  for (const {draw} of overlays) {
    pen.save();
    draw(pen, place, pane.film, pane.side);
    pen.restore();
  }
}

// ---- zoom and pan ----

// dot: where the film stays in its place, in the pane's dots; the pane's middle unless given.
export function zoomTo(p, event, dot) {
  const film = filmReady();
  if (!film || !look.pane) return;
  const {view} = film;
  const from = dot || {x: look.pane.width / 2, y: look.pane.height / 2};
  const [x, y] = toFilm(placeNow(film), from.x, from.y);
  view.zoom = heldZoom(p);
  view.fit = false;
  [view.x, view.y] = [x, y];
  // the film's place at the dot, put where the dot is
  const place = {...placeNow(film), edgeX: 0, edgeY: 0};
  const [right, down] = toDot(place, x, y);
  [view.x, view.y] = toFilm(place, right + look.pane.width / 2 - from.x, down + look.pane.height / 2 - from.y);
  viewChanged('zoom', event);
}

// The next fixed zoom.
export function zoomBeside(way, event, dot) {
  const film = filmReady();
  if (film) zoomTo(stepBeside(film.view.zoom, way), event, dot);
}

export function fit(event) {
  const film = filmReady();
  if (!film) return;
  film.view.fit = true;
  viewChanged('zoom', event);
}

// By dots of the screen.
export function pan(x, y, event) {
  const film = filmReady();
  if (!film || !look.pane) return;
  const {view} = film;
  [view.x, view.y] = toFilm(placeNow(film), look.pane.width / 2 - x, look.pane.height / 2 - y);
  if (view.fit) {
    view.fit = false;
    fillViewBar();
  }
  moveOn(film, event);
}

// The view's middle, in the film's pixels.
export function centreOn(x, y, event) {
  const film = filmReady();
  if (!film || !look.pane) return;
  [film.view.x, film.view.y] = [x, y];
  moveOn(film, event);
}

// What is kept is painted in this frame; the library draws anew when half of the margin is used up.
function moveOn(film, event) {
  holdView(film);
  const painted = keptOf(film) && paintView(film);
  if (painted) keepTimes([{what: 'pan', at: event ? event.timeStamp : performance.now()}]);
  readBeneath(film);
  if (painted && covers(keptOf(film).place, placeNow(film, MARGIN_DOTS / 2))) want('probe');
  else want('draw', painted ? 'pan-drawn' : 'pan', event);
}

// The film moves beneath a pointer that rests.
function readBeneath(film) {
  if (look.pointer && look.painted) state.at = pixelAt(look.pointer, placesBy(film, placeNow(film)));
}

export function viewChanged(what, event) {
  const film = state.film;
  holdView(film);
  fillViewBar();
  readBeneath(film);
  want('draw', what, event);
}

export function fillViewBar() {
  const film = filmReady();
  for (const p of STEPS) {
    const button = element(zoomId(p));
    button.setAttribute('aria-pressed', String(Boolean(film) && film.view.zoom === p));
    button.disabled = !film;
  }
  for (const id of ['zoom-in', 'zoom-out', 'fit', 'turn-right', 'flip']) element(id).disabled = !film;
  const fitted = Boolean(film && look.pane) && isWhole(placeNow(film)) && film.view.zoom === fitZoom(film, film.view, look.pane);
  element('fit').setAttribute('aria-pressed', String(fitted));
  element('flip').setAttribute('aria-pressed', String(Boolean(film) && film.view.flip));
  const quarter = film ? film.view.turn : 0;
  element('turn-right').setAttribute('aria-pressed', String(quarter !== 0));
  setText('turn-note', quarter ? `${90 * quarter}°` : '');
  fillPair(film);
}

// The films that may be looked at beside this one.
function fillPair(film) {
  const list = element('pair-with');
  const other = look.mode === 'pair' && film ? pairFilm() : null;
  list.hidden = look.mode !== 'pair';
  list.replaceChildren(...state.films.filter(each => each.ready && each !== film).map(each =>
    made('option', {value: String(each.number), textContent: `film ${each.number} ${each.name}`, selected: each === other})));
}

export function choosePair(number, event) {
  forgetReadingOf(pairFilm());
  look.pair = number;
  fillCaptions();
  if (filmReady()) viewChanged('mode', event);
}

// ---- turned and mirrored: the display alone ----

export function turnRight(event) {
  const film = filmReady();
  if (!film) return;
  film.view.turn = (film.view.turn + 1) % 4;
  viewChanged('turn', event);
}

// Left and right as they are seen change places, however the film is turned.
export function flip(event) {
  const film = filmReady();
  if (!film) return;
  film.view.flip = !film.view.flip;
  if (film.view.turn % 2 === 1) film.view.turn = (film.view.turn + 2) % 4;
  viewChanged('turn', event);
}

// ---- ways of looking ----

export function setMode(mode, event) {
  if (look.mode === 'pair') forgetReadingOf(pairFilm());
  look.mode = mode;
  document.documentElement.dataset.mode = mode;
  document.documentElement.dataset.turn = look.turn;
  for (const each of MODES) {
    element(`mode-${each}`).setAttribute('aria-pressed', String(each === mode));
  }
  measurePane();
  fillViewBar();
  fillCaptions();
  if (filmReady()) viewChanged('mode', event);
}

// Both pictures are painted, so the other one only has to be shown. Of two films the other sides are.
export function blink(event) {
  if (look.mode !== 'turn' && look.mode !== 'pair') return setMode('turn', event);
  look.turn = look.turn === 'rendered' ? 'scanned' : 'rendered';
  document.documentElement.dataset.turn = look.turn;
  fillCaptions();
  if (look.mode === 'pair') return repaint('blink', event);
  keepTimes([{what: 'blink', at: event.timeStamp}]);
  tellBusy();
}

// The first column of dots that is the rendered picture's.
export function dividerDot() { return Math.round(look.divide * look.pane.width); }

export function setDivide(share) {
  look.divide = Math.max(0, Math.min(1, share));
  const glass = glasses()[0];
  const stage = element('stage');
  const at = look.pane ? dividerDot() / devicePixelRatio : 0;
  const left = glass.getBoundingClientRect().left - stage.getBoundingClientRect().left;
  stage.style.setProperty('--divide', `${at}px`);
  stage.style.setProperty('--divider', `${left + at}px`);
  element('divider').setAttribute('aria-valuenow', String(Math.round(100 * look.divide)));
}

// ---- the panes ----

// The shortest of the page's lengths that is a whole number of dots: places at multiples of it are whole in both, so that no
// browser rounds them. {length, dots, isExact}; without one, as near as lengths go.
function latticeOf(ratio) {
  for (let length = 1; length <= MOST_LATTICE; length++) {
    const dots = Math.round(length * ratio);
    if (Math.abs(length * ratio - dots) < 0.001) return {length, dots, isExact: true};
  }
  return {length: 1 / ratio, dots: 1, isExact: false};
}

// A pane's glass lies on whole dots of the screen, whatever the page's scale is, and so do the canvases in it: no dot of theirs is
// spread over two. Both have the same size.
export function measurePane() {
  const {length, dots, isExact} = latticeOf(devicePixelRatio);
  const boxes = frames().map(frame => frame.getBoundingClientRect());
  const firsts = boxes.map(box => [Math.ceil(box.left / length - 0.01), Math.ceil(box.top / length - 0.01)]);
  const width = Math.min(...boxes.map((box, i) => Math.floor(box.right / length + 0.01) - firsts[i][0]));
  const height = Math.min(...boxes.map((box, i) => Math.floor(box.bottom / length + 0.01) - firsts[i][1]));
  if (width <= 0 || height <= 0) return false;
  glasses().forEach((glass, i) => {
    glass.style.left = `${firsts[i][0] * length - boxes[i].left}px`;
    glass.style.top = `${firsts[i][1] * length - boxes[i].top}px`;
    glass.style.width = `${width * length}px`;
    glass.style.height = `${height * length}px`;
  });
  const pane = {width: width * dots, height: height * dots};
  const changed = !look.pane || look.pane.width !== pane.width || look.pane.height !== pane.height;
  look.pane = pane;
  look.isExact = isExact;
  setDivide(look.divide);
  return changed;
}

export function paneResized() {
  forgetSizes();
  if (measurePane() && filmReady()) viewChanged('size', null);
  fillPanel();
}

// A page that is zoomed, or moved to another screen, has another ratio though its lengths are the same.
export function watchRatio() {
  matchMedia(`(resolution: ${devicePixelRatio}dppx)`).addEventListener('change', () => {
    watchRatio();
    paneResized();
  }, {once: true});
}
