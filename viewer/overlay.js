// Outlines over both pictures: line, region, marks, and what is being placed. They are drawn above the canvases, never into
// their pixels.
import {readingOf} from './reading_state.js';
import {addOverlay} from './parts.js';
import {toDot} from './place.js';
import {placing, shapeNow} from './tools.js';

const OUTLINES = {
  line: {ink: '#f2f2f2', dash: []},
  region: {ink: '#f2f2f2', dash: [5, 3]},
  mark: {ink: '#f2f2f2', dash: []},
  chosen: {ink: '#ffd27a', dash: []},
  placing: {ink: '#ffd27a', dash: [4, 3]},
};

// Light on dark, so that it is seen on every grey.
function stroked(pen, path, {ink, dash}) {
  const dot = devicePixelRatio;
  pen.lineWidth = 3 * dot;
  pen.strokeStyle = 'rgba(0, 0, 0, 0.75)';
  pen.setLineDash([]);
  pen.stroke(path);
  pen.lineWidth = dot;
  pen.strokeStyle = ink;
  pen.setLineDash(dash.map(part => part * dot));
  pen.stroke(path);
}

// A rectangle of the film on the pane, also where the film is turned: {x, y, width, height} in dots.
export function boxDots(place, box) {
  const [a, b] = toDot(place, box.left, box.top);
  const [c, d] = toDot(place, box.left + box.width, box.top + box.height);
  return {x: Math.min(a, c), y: Math.min(b, d), width: Math.abs(c - a), height: Math.abs(d - b)};
}

function drawBox(pen, place, box, outline, label) {
  const {x, y, width, height} = boxDots(place, box);
  const path = new Path2D();
  path.rect(x - 0.5, y - 0.5, width + 1, height + 1); // around its pixels
  stroked(pen, path, outline);
  if (label) drawLabel(pen, label, x, y, height, outline.ink);
}

function drawLabel(pen, label, x, y, height, ink) {
  const dot = devicePixelRatio;
  pen.setLineDash([]);
  pen.font = `${12 * dot}px system-ui, "DejaVu Sans", sans-serif`;
  pen.textBaseline = 'alphabetic';
  const at = y > 16 * dot ? y - 4 * dot : y + height + 13 * dot;
  pen.lineWidth = 3 * dot;
  pen.strokeStyle = '#000';
  pen.strokeText(label, x, at);
  pen.fillStyle = ink;
  pen.fillText(label, x, at);
}

// Between the centres of its pixels, with a point at each end.
function drawLine(pen, place, line, outline) {
  const ends = [toDot(place, line.x0 + 0.5, line.y0 + 0.5), toDot(place, line.x1 + 0.5, line.y1 + 0.5)];
  const path = new Path2D();
  path.moveTo(...ends[0]);
  path.lineTo(...ends[1]);
  stroked(pen, path, outline);
  pen.fillStyle = outline.ink;
  for (const [x, y] of ends) {
    pen.beginPath();
    pen.arc(x, y, 2.5 * devicePixelRatio, 0, 2 * Math.PI);
    pen.fill();
  }
}

function shapePlaced(film) { return placing.film === film ? shapeNow() : null; }

function hasOutlines(film) {
  if (!film.ready) return false;
  const {line, region, marks} = readingOf(film);
  return Boolean(line || region || marks.length > 0 || shapePlaced(film));
}

// side is not asked for: both pictures have the same outlines.
function drawOutlines(pen, place, film) {
  const {line, region, marks, chosen} = readingOf(film);
  const shape = shapePlaced(film);
  if (line) drawLine(pen, place, line, OUTLINES.line);
  if (region) drawBox(pen, place, region, OUTLINES.region, 'region');
  for (const mark of marks) {
    if (!shape || mark.number !== shape.number) {
      drawBox(pen, place, mark, mark.number === chosen ? OUTLINES.chosen : OUTLINES.mark, String(mark.number));
    }
  }
  if (shape && shape.line) drawLine(pen, place, shape.line, OUTLINES.placing);
  else if (shape) drawBox(pen, place, shape.box, OUTLINES.placing, '');
}

addOverlay(drawOutlines, hasOutlines);
