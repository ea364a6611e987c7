// Where a film lies on the screen: zooms, turns, the window that is seen, and the way from a film's pixel to a dot and back.
// Numbers alone: nothing here knows the page.
//
// A zoom is p / 1024. A film at a zoom is made of cells. Cell k of a direction is the mean of the pixels from floor(k 1024 / p)
// on, up to where the next cell begins, and at least one. Where p is a multiple of 1024 a cell is a pixel and is painted as a
// square of p / 1024 dots; else a cell is a dot.

export const UNIT = 1024;
export const STEPS = [256, 512, 1024, 2048, 4096, 8192]; // the fixed zooms, 1:4 to 8:1
export const LEAST_ZOOM = 16;
export const MOST_ZOOM = 8192;

function labelOf(p) {
  if (p % UNIT === 0) return `${p / UNIT}:1`;
  if (UNIT % p === 0) return `1:${UNIT / p}`;
  return `${(100 * p / UNIT).toPrecision(3)} %`;
}

// shown: dots of a cell; block: pixels of a cell in each direction, 0 where cells differ.
export function zoomOf(p) {
  const shown = p % UNIT === 0 ? p / UNIT : 1;
  const block = p % UNIT === 0 ? 1 : UNIT % p === 0 ? UNIT / p : 0;
  return {p, scale: p / UNIT, shown, block, label: labelOf(p)};
}

export function heldZoom(p) { return Math.max(LEAST_ZOOM, Math.min(MOST_ZOOM, Math.round(p))); }

// The next fixed zoom on either side, or the same where there is none.
export function stepBeside(p, way) {
  const found = way > 0 ? STEPS.find(step => step > p) : STEPS.findLast(step => step < p);
  return found || Math.max(Math.min(p, STEPS[STEPS.length - 1]), Math.min(STEPS[0], p));
}

// ---- cells ----

export function cellStart(zoom, cell) { return zoom.block ? cell * zoom.block : Math.floor(cell * UNIT / zoom.p); }

export function cellEnd(zoom, cell, side) {
  const start = cellStart(zoom, cell);
  return Math.min(side, Math.max(start + 1, cellStart(zoom, cell + 1)));
}

export function cellCount(zoom, side) { return zoom.block ? Math.ceil(side / zoom.block) : Math.ceil(side * zoom.p / UNIT); }

// How many dots all of one side takes.
export function dotsOf(zoom, side) { return cellCount(zoom, side) * zoom.shown; }

// ---- turns ----

// A film may be mirrored, and then turned by quarters clockwise. aside: its columns run down the screen; reverseX, reverseY: its
// first column (row) is the last on the screen.
export function turnOf(view) {
  const quarter = view.turn || 0;
  const flip = Boolean(view.flip);
  return {aside: quarter % 2 === 1, reverseX: quarter < 2 ? flip : !flip, reverseY: quarter === 1 || quarter === 2};
}

// ---- the window that is seen ----

// Where the first dot of a direction is painted: in the middle where all of it is seen, else so that no room is wasted.
function edgeOf(middle, dots, room) {
  if (dots <= room) return Math.floor((room - dots) / 2);
  return Math.max(room - dots, Math.min(0, Math.round(room / 2 - middle)));
}

// The edge of another film in a direction, by its columns or by its rows, so that the same pixel lies on the same dot.
function edgeUnder(edge, place, under, byColumns) {
  const isReversed = byColumns ? place.turn.reverseX : place.turn.reverseY;
  if (!isReversed) return edge;
  return edge + (byColumns ? under.dotsX - place.dotsX : under.dotsY - place.dotsY);
}

// The cells of one direction that are seen, and margin dots more on each side.
function spanOf(edge, cells, room, zoom, margin, isReversed) {
  const from = Math.min(cells, Math.max(0, Math.floor((-edge - margin) / zoom.shown)));
  const to = Math.max(from, Math.min(cells, Math.ceil((room - edge + margin) / zoom.shown)));
  return isReversed ? {first: cells - to, count: to - from} : {first: from, count: to - from};
}

function pixelsOf(span, zoom, side) {
  if (span.count === 0) return {from: 0, length: 0};
  const from = cellStart(zoom, span.first);
  return {from, length: cellEnd(zoom, span.first + span.count - 1, side) - from};
}

// The place of a film: {width, height}, seen by a view: {zoom, x, y, turn, flip}, its middle in the film's pixels, in a pane of
// dots. under: another film's place with the same zoom and turn, where the same pixel is to lie on the same dot.
export function placeOf(film, view, pane, margin = 0, under = null) {
  const zoom = zoomOf(view.zoom);
  const turn = turnOf(view);
  const dotsX = dotsOf(zoom, film.width);
  const dotsY = dotsOf(zoom, film.height);
  const place = {zoom, turn, pane, dotsX, dotsY, edgeX: 0, edgeY: 0, film: {width: film.width, height: film.height}};
  const [x, y] = toDot(place, view.x, view.y);
  place.edgeX = under ? edgeUnder(under.edgeX, place, under, !turn.aside) : edgeOf(x, turn.aside ? dotsY : dotsX, pane.width);
  place.edgeY = under ? edgeUnder(under.edgeY, place, under, turn.aside) : edgeOf(y, turn.aside ? dotsX : dotsY, pane.height);
  const [edgeA, roomA, edgeB, roomB] = turn.aside ? [place.edgeY, pane.height, place.edgeX, pane.width]
    : [place.edgeX, pane.width, place.edgeY, pane.height];
  const across = spanOf(edgeA, dotsX / zoom.shown, roomA, zoom, margin, turn.reverseX);
  const down = spanOf(edgeB, dotsY / zoom.shown, roomB, zoom, margin, turn.reverseY);
  const columns = pixelsOf(across, zoom, film.width);
  const rows = pixelsOf(down, zoom, film.height);
  return Object.assign(place, {cellX: across.first, cellY: down.first, columns: across.count, rows: down.count,
    left: columns.from, top: rows.from, width: columns.length, height: rows.length});
}

// The dot of a pane in which a place of the film lies, both as numbers with a fraction: a pixel's first corner is its number.
export function toDot(place, x, y) {
  const {zoom, turn, dotsX, dotsY, edgeX, edgeY} = place;
  const across = turn.reverseX ? dotsX - x * zoom.scale : x * zoom.scale;
  const down = turn.reverseY ? dotsY - y * zoom.scale : y * zoom.scale;
  return turn.aside ? [edgeX + down, edgeY + across] : [edgeX + across, edgeY + down];
}

// The place of the film in a dot of a pane.
export function toFilm(place, dotX, dotY) {
  const {zoom, turn, dotsX, dotsY, edgeX, edgeY} = place;
  const [across, down] = turn.aside ? [dotY - edgeY, dotX - edgeX] : [dotX - edgeX, dotY - edgeY];
  return [(turn.reverseX ? dotsX - across : across) / zoom.scale, (turn.reverseY ? dotsY - down : down) / zoom.scale];
}

// The cell in which a dot lies, as columns and rows of the film: {x, y, width, height}, or null beside the film.
export function cellAt(place, dotX, dotY) {
  const {zoom, turn, dotsX, dotsY, edgeX, edgeY, film} = place;
  const [across, down] = turn.aside ? [Math.floor(dotY) - edgeY, Math.floor(dotX) - edgeX]
    : [Math.floor(dotX) - edgeX, Math.floor(dotY) - edgeY];
  if (across < 0 || down < 0 || across >= dotsX || down >= dotsY) return null;
  const cellX = Math.floor((turn.reverseX ? dotsX - 1 - across : across) / zoom.shown);
  const cellY = Math.floor((turn.reverseY ? dotsY - 1 - down : down) / zoom.shown);
  return cellOf(zoom, film, cellX, cellY);
}

// The cell that has a pixel; the last one of those that show it.
export function cellOfPixel(zoom, film, x, y) {
  return cellOf(zoom, film, cellsShowing(zoom, x).last, cellsShowing(zoom, y).last);
}

function cellOf(zoom, film, cellX, cellY) {
  const x = cellStart(zoom, cellX);
  const y = cellStart(zoom, cellY);
  return {x, y, width: cellEnd(zoom, cellX, film.width) - x, height: cellEnd(zoom, cellY, film.height) - y};
}

// The first and the last cell of a direction that show a pixel: more than one where a pixel is more than a dot.
function cellsShowing(zoom, at) {
  const last = zoom.block ? Math.floor(at / zoom.block) : Math.ceil((at + 1) * zoom.p / UNIT) - 1;
  return {first: zoom.p > UNIT && !zoom.block ? Math.ceil(at * zoom.p / UNIT) : last, last};
}

// The dots that show a pixel of a rectangle of the film, whole ones: {x, y, width, height}, also beyond the pane.
export function dotsShowing(place, box) {
  const {zoom, turn, dotsX, dotsY, edgeX, edgeY} = place;
  const span = (from, length, dots, isReversed) => {
    const first = cellsShowing(zoom, from).first * zoom.shown;
    const count = (cellsShowing(zoom, from + length - 1).last + 1) * zoom.shown - first;
    return {first: isReversed ? dots - first - count : first, count};
  };
  const across = span(box.left, box.width, dotsX, turn.reverseX);
  const down = span(box.top, box.height, dotsY, turn.reverseY);
  const [right, below] = turn.aside ? [down, across] : [across, down];
  return {x: edgeX + right.first, y: edgeY + below.first, width: right.count, height: below.count};
}

// Some of a place's rows of cells, from the given one of them on.
export function rowsOf(place, first, rows) {
  const {zoom, cellY, film} = place;
  const top = cellStart(zoom, cellY + first);
  const end = Math.min(place.top + place.height, cellEnd(zoom, cellY + first + rows - 1, film.height));
  return {...place, rows, cellY: cellY + first, top, height: end - top};
}

// Whether a film's window holds another.
export function covers(outer, inner) {
  return outer.left <= inner.left && outer.top <= inner.top && outer.left + outer.width >= inner.left + inner.width &&
    outer.top + outer.height >= inner.top + inner.height;
}

export function isWhole(place) {
  const {turn, pane, dotsX, dotsY} = place;
  return (turn.aside ? dotsY : dotsX) <= pane.width && (turn.aside ? dotsX : dotsY) <= pane.height;
}

// ---- fit ----

function fits(film, view, pane, p) {
  const zoom = zoomOf(p);
  const [wide, high] = turnOf(view).aside ? [film.height, film.width] : [film.width, film.height];
  return dotsOf(zoom, wide) <= pane.width && dotsOf(zoom, high) <= pane.height;
}

// The largest zoom of all at which the whole film is seen.
export function fullZoom(film, view, pane) {
  const [wide, high] = turnOf(view).aside ? [film.height, film.width] : [film.width, film.height];
  return heldZoom(Math.floor(Math.min(pane.width * UNIT / wide, pane.height * UNIT / high)));
}

// The largest fixed zoom at which it is; where that is none, the largest of all.
export function fitZoom(film, view, pane) {
  return STEPS.findLast(p => fits(film, view, pane, p)) || fullZoom(film, view, pane);
}
