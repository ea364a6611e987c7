// The tools that place a line, a region or a mark on the film and that move a mark. Nothing is changed before the second point
// is taken; Escape gives up what was begun.
import {element, setText} from './dom.js';
import {centreOn, drawOverlays, look} from './look.js';
import {boxOf, grownBox, markNumbered, movedBox} from './marks.js';
import {distancePixels, pixelInside, rectangleOf} from './measure.js';
import {addKey, addTool} from './parts.js';
import {toDot} from './place.js';
import {toolMoved} from './pointer.js';
import {moveReading} from './reading.js';
import {chooseMark, readingOf} from './reading_state.js';

const SEEN_EDGE = 24; // dots that a point keeps from the edge of what is seen
const FAR = 10; // pixels
export const FAR_STEPS = {ArrowLeft: [-1, 0], ArrowRight: [1, 0], ArrowUp: [0, -1], ArrowDown: [0, 1]};

// kind: 'line', 'region', 'mark' or 'shift'; first and last: two pixels; of a mark that is moved its number, its rectangle, and
// whether it is sized instead
export const placing = {kind: null, film: null, first: null, last: null, number: null, box: null, sizing: false};

const placedHooks = {};

// What is done with each kind's points: line, region and mark get (film, first, last), shift gets (film, number, box).
export function onPlaced(hooks) { Object.assign(placedHooks, hooks); }

// ---- what is being placed ----

// {line}, {box}, or {box, number} of a mark that is moved; null where nothing is.
export function shapeNow() {
  const {kind, first, last, number, box, sizing, film} = placing;
  if (!kind) return null;
  if (kind === 'line') return {line: {x0: first.x, y0: first.y, x1: last.x, y1: last.y}};
  if (kind !== 'shift') return {box: rectangleOf(first.x, first.y, last.x, last.y)};
  return {number, box: (sizing ? grownBox : movedBox)(film, box, last.x - first.x, last.y - first.y)};
}

function wordsNow() {
  const shape = shapeNow();
  if (!shape) return '';
  const end = 'Shift and arrows move it, with Ctrl by 10; Enter takes it, Esc gives up.';
  if (shape.line) {
    const {x0, y0, x1, y1} = shape.line;
    return `Line ${x0}, ${y0} to ${x1}, ${y1}: ${distancePixels(shape.line)} pixels. ${end}`;
  }
  const {left, top, width, height} = shape.box;
  const name = {region: 'Region', mark: 'Mark', shift: `Mark ${shape.number}`}[placing.kind];
  return `${name}: column ${left}, row ${top}, ${width} × ${height} pixels. ${end}`;
}

function tellPlacing() {
  setText('tool-told', wordsNow());
  element('tool-told').hidden = wordsNow() === '';
  drawOverlays();
}

function endPlacing() {
  Object.assign(placing, {kind: null, film: null, first: null, last: null, number: null, box: null, sizing: false});
  tellPlacing();
}

// ---- points ----

function pixelAtHand(at) { return {x: at.column, y: at.row}; }

function pressedAt(kind, at) {
  const point = pixelAtHand(at);
  Object.assign(placing, {kind, film: at.film, first: point, last: point});
  tellPlacing();
}

function movedAt(at) {
  if (placing.film !== at.film) return;
  placing.last = pixelAtHand(at);
  tellPlacing();
  if (at.event instanceof KeyboardEvent) bringIntoView(placing.last, at.event);
}

// A click without a drag is no line and no rectangle; two Enters at one pixel are a rectangle of one pixel.
function releasedAt(at) {
  at.event.preventDefault(); // the Enter that placed a mark is not the list of kinds' too
  if (placing.film !== at.film) return endPlacing();
  placing.last = pixelAtHand(at);
  const {kind, film, first, last, number} = placing;
  const still = first.x === last.x && first.y === last.y;
  const box = kind === 'shift' ? shapeNow().box : null;
  endPlacing();
  if (still && (kind === 'line' || !(at.event instanceof KeyboardEvent))) return;
  if (kind === 'shift') placedHooks.shift(film, number, box);
  else placedHooks[kind](film, first, last);
}

function addPlacing(id, label, title, key) {
  addTool({id, label, title, key, press: at => pressedAt(id, at), move: movedAt, release: releasedAt, cancel: endPlacing});
}

// ---- moving a mark ----

// The mark under a pixel: the chosen one before any other, then the last.
function markAt(film, x, y) {
  const {marks, chosen} = readingOf(film);
  const under = mark => mark && pixelInside(mark, x - mark.left, y - mark.top);
  return [markNumbered(marks, chosen), ...marks.toReversed()].find(under) || null;
}

// Its lower right corner sizes it, the rest moves it.
function grabMark(at) {
  const mark = markAt(at.film, at.column, at.row);
  if (!mark) return;
  const near = side => Math.max(1, Math.floor(side / 4));
  const sizing = at.column >= mark.left + mark.width - near(mark.width) && at.row >= mark.top + mark.height - near(mark.height);
  chooseMark(at.film, mark.number);
  Object.assign(placing, {number: mark.number, box: boxOf(mark), sizing});
  pressedAt('shift', at);
}

// ---- the view ----

// Moves the film so that a pixel is seen, where it is not.
export function bringIntoView({x, y}, event) {
  const place = look.painted;
  if (!place) return;
  const [right, down] = toDot(place, x + 0.5, y + 0.5);
  const seen = (dot, side) => dot >= SEEN_EDGE && dot <= side - SEEN_EDGE;
  if (!seen(right, place.pane.width) || !seen(down, place.pane.height)) centreOn(x + 0.5, y + 0.5, event || null);
}

function farReading(event) {
  const [x, y] = FAR_STEPS[event.key];
  const pixel = moveReading(FAR * x, FAR * y);
  toolMoved(pixel, event);
  if (pixel) bringIntoView(pixel, event);
}

addPlacing('line', 'Line', 'A line: distance, profile and dip on the scanned greys', 'l');
addPlacing('region', 'Region', 'A region: mean, deviation and signal to noise of the scanned greys', 'g');
addPlacing('mark', 'Mark', 'Mark an indication', 'k');
addTool({id: 'shift', label: 'Move mark', title: 'Move a mark; by its lower right corner size it', key: 'v', press: grabMark,
  move: at => { if (placing.kind) movedAt(at); }, release: at => { if (placing.kind) releasedAt(at); }, cancel: endPlacing});
addKey({keys: Object.keys(FAR_STEPS).map(key => `ctrl+shift+${key}`), names: ['Ctrl Shift arrows'],
  what: 'move the reading by ten pixels', act: farReading});
