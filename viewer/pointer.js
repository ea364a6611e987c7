// What pointer, wheel and fingers do on the film. One finger or the left button moves it or has the tool that is chosen; the right
// button or two fingers side by side change level and window; two fingers apart or together, and the wheel, zoom.
import {element, frames, made} from './dom.js';
import {dotAt, dotIn, look, pan, paneResized, panes, pixelAt, setDivide, sideAt, watchRatio, zoomBeside,
  zoomTo} from './look.js';
import {moveDisplay} from './panel.js';
import {parts} from './parts.js';
import {STEPS, toFilm} from './place.js';
import {readAt, readNow} from './reading.js';
import {filmReady, state} from './state.js';

const WHEEL_DOUBLES = 480; // a wheel's way to twice the zoom: four notches
const WHEEL_STEP = 60; // its way to the next fixed zoom, with Shift
const NEAR_STEP = 1.02; // a zoom that is as near to a fixed one is that one
const TAP_DOTS = 8; // a finger that moves less than this taps
const TWO_DOTS = 10; // what two fingers move before it is told which way they are meant
const FINGER_GRAIN = 0.5; // level and window by fingers are slower than by a mouse

const hand = {
  drag: null, // what the left or the right button, or one finger, is doing
  tool: null, // the tool that is chosen; none moves the film
  fingers: new Map(), // those on the film, by their number
  two: null, // what two of them are doing
  wheel: 0,
  exact: 0, // the zoom before it was held to a fixed one that is near
};

// ---- tools ----

// What is pointed at, for a tool: the place on the film, held to the film, and the pixel there.
function pointed(dot, event) {
  const i = frames().indexOf(dot.frame);
  const film = panes()[i].film || state.film;
  const [x, y] = toFilm(look.places[i], dot.x, dot.y);
  return at(film, Math.max(0, Math.min(film.width, x)), Math.max(0, Math.min(film.height, y)), sideAt(dot), event);
}

function at(film, x, y, side, event) {
  return {film, x, y, column: Math.min(film.width - 1, Math.floor(x)), row: Math.min(film.height - 1, Math.floor(y)), side, event};
}

// By keys: the middle of the pixel that is read.
function pointedByKeys(pixel, event) { return at(state.film, pixel.x + 0.5, pixel.y + 0.5, 'scanned', event); }

export function chooseTool(tool) {
  toolEnded();
  hand.tool = tool;
  if (tool) element('stage').focus({preventScroll: true}); // Enter is the tool's there
  for (const each of [null, ...parts.tools]) {
    element(each ? `tool-${each.id}` : 'tool-move').setAttribute('aria-pressed', String(each === tool));
  }
  element('stage').dataset.tool = tool ? tool.id : '';
}

function toolEnded() {
  if (hand.drag && hand.drag.kind === 'tool') {
    hand.tool.cancel();
    hand.drag = null;
  }
}

// Escape ends what was begun, and then puts the tool away.
export function toolCancelled() {
  if (hand.drag && hand.drag.kind === 'tool') toolEnded();
  else if (hand.tool) chooseTool(null);
}

// By keys: press, and release where it was pressed before.
export function toolPressed(event) {
  if (!hand.tool || !look.painted) return;
  const where = pointedByKeys(readNow(), event);
  if (hand.drag && hand.drag.byKeys) {
    hand.drag = null;
    return hand.tool.release(where);
  }
  hand.drag = {kind: 'tool', byKeys: true};
  readAt(readNow());
  hand.tool.press(where);
}

export function toolMoved(pixel, event) {
  if (pixel && hand.drag && hand.drag.byKeys) hand.tool.move(pointedByKeys(pixel, event));
}

function showTools() {
  const buttons = [{id: 'move', label: 'Move', title: 'Dragging moves the film (Esc)'}, ...parts.tools].map((tool, i) => {
    const title = tool.key ? `${tool.title} (${tool.key})` : tool.title;
    const button = made('button', {id: `tool-${tool.id}`, type: 'button', textContent: tool.label, title});
    button.onclick = () => chooseTool(i === 0 ? null : tool);
    return button;
  });
  element('tools').replaceChildren(...buttons);
  element('tools').hidden = parts.tools.length === 0;
  chooseTool(null);
}

// ---- one pointer ----

function kindOf(event) {
  if (event.target.closest('#divider')) return 'divide';
  if (event.button === 2) return 'display';
  return hand.tool && event.button === 0 ? 'tool' : 'pan';
}

function pressed(event) {
  if (event.target.closest('button, #refusal, #welcome, #overview-box') || !look.painted) return;
  element('stage').setPointerCapture(event.pointerId);
  if (event.pointerType === 'touch' && fingerDown(event)) return;
  const dot = dotAt(event) || dotIn(event, frames()[0]);
  hand.drag = {kind: kindOf(event), x: event.clientX, y: event.clientY, far: 0, frame: dot.frame};
  if (hand.drag.kind === 'pan') element('stage').classList.add('dragged');
  if (hand.drag.kind === 'tool') hand.tool.press(pointed(dot, event));
}

function moved(event) {
  if (event.pointerType === 'touch' && fingerMoved(event)) return;
  const {drag} = hand;
  if (event.pointerType !== 'touch') look.pointer = {clientX: event.clientX, clientY: event.clientY};
  if (!drag || drag.byKeys) return readAt(pixelAt(event, look.places));
  const x = event.clientX - drag.x;
  const y = event.clientY - drag.y;
  drag.x = event.clientX;
  drag.y = event.clientY;
  drag.far += Math.abs(x) + Math.abs(y);
  dragged(drag, x, y, event);
}

function dragged(drag, x, y, event) {
  if (drag.kind === 'tool') {
    hand.tool.move(pointed(dotIn(event, drag.frame), event));
  } else if (drag.kind === 'divide') {
    setDivide(dotIn(event, frames()[0]).x / look.pane.width);
  } else if (drag.kind === 'display') {
    moveDisplay(x, -y, event);
  } else if ((x !== 0 || y !== 0) && (event.pointerType !== 'touch' || drag.far > TAP_DOTS)) {
    pan(x * devicePixelRatio, y * devicePixelRatio, event);
  }
}

function released(event) {
  const {drag} = hand;
  hand.fingers.delete(event.pointerId);
  if (hand.fingers.size < 2) hand.two = null;
  if (!drag || drag.byKeys) return;
  hand.drag = null;
  element('stage').classList.remove('dragged');
  if (drag.kind === 'tool' && event.type === 'pointercancel') hand.tool.cancel();
  else if (drag.kind === 'tool') hand.tool.release(pointed(dotIn(event, drag.frame), event));
  // a tap reads, and what it read stays
  else if (event.pointerType === 'touch' && drag.far <= TAP_DOTS) readTapped(event);
}

function readTapped(event) {
  const pixel = pixelAt(event, look.places);
  if (pixel) readAt({...pixel, frame: null});
}

// ---- fingers ----

function twoOf() {
  const [a, b] = [...hand.fingers.values()];
  return {x: (a.x + b.x) / 2, y: (a.y + b.y) / 2, apart: Math.hypot(a.x - b.x, a.y - b.y)};
}

// Whether there are two now: what the first was doing ends.
function fingerDown(event) {
  hand.fingers.set(event.pointerId, {x: event.clientX, y: event.clientY});
  if (hand.fingers.size < 2) return false;
  toolEnded();
  hand.drag = null;
  element('stage').classList.remove('dragged');
  const film = filmReady();
  if (film) hand.two = {kind: '', from: twoOf(), last: twoOf(), zoom: film.view.zoom};
  return true;
}

function fingerMoved(event) {
  if (!hand.fingers.has(event.pointerId)) return false;
  hand.fingers.set(event.pointerId, {x: event.clientX, y: event.clientY});
  if (!hand.two) return hand.fingers.size > 1;
  const now = twoOf();
  const {from, last} = hand.two;
  const apart = Math.abs(now.apart - from.apart);
  const along = Math.hypot(now.x - from.x, now.y - from.y);
  if (!hand.two.kind && Math.max(apart, along) > TWO_DOTS) hand.two.kind = apart > along ? 'zoom' : 'display';
  if (hand.two.kind === 'zoom') pinched(now, event);
  if (hand.two.kind === 'display') {
    moveDisplay((now.x - last.x) * FINGER_GRAIN, (last.y - now.y) * FINGER_GRAIN, event);
  }
  if (hand.two.kind) hand.two.last = now;
  return true;
}

// About the middle of the fingers, which takes the film along.
function pinched(now, event) {
  const {from, last, zoom} = hand.two;
  const middle = {clientX: now.x, clientY: now.y};
  const dot = dotAt(middle) || dotIn(middle, frames()[0]);
  zoomTo(nearStep(zoom * now.apart / from.apart), event, dot);
  if (now.x !== last.x || now.y !== last.y) {
    pan((now.x - last.x) * devicePixelRatio, (now.y - last.y) * devicePixelRatio, event);
  }
}

// ---- the wheel ----

function nearStep(p) { return STEPS.find(step => p / step < NEAR_STEP && step / p < NEAR_STEP) || p; }

// A wheel gives large steps, a touch pad many small ones: both come to the same zoom for the same way. With Shift it is the fixed
// zooms.
function wheeled(event) {
  const film = filmReady();
  if (!look.painted || !film || event.target.closest('#refusal')) return;
  event.preventDefault();
  const way = (event.deltaY || event.deltaX) * (event.deltaMode === 1 ? 30 : event.deltaMode === 2 ? 300 : 1);
  const dot = dotAt(event) || dotIn(event, frames()[0]);
  if (event.shiftKey) return wheelSteps(way, event, dot);
  if (Math.round(nearStep(hand.exact)) !== film.view.zoom) hand.exact = film.view.zoom;
  hand.exact = Math.max(8, Math.min(16384, hand.exact * 2 ** (-way / WHEEL_DOUBLES)));
  const next = Math.round(nearStep(hand.exact));
  if (next !== film.view.zoom) zoomTo(next, event, dot);
}

function wheelSteps(way, event, dot) {
  hand.wheel += way;
  if (Math.abs(hand.wheel) < WHEEL_STEP) return;
  const step = hand.wheel < 0 ? 1 : -1;
  hand.wheel = 0;
  zoomBeside(step, event, dot);
}

function dividerKey(event) {
  const step = {ArrowLeft: -0.02, ArrowRight: 0.02, Home: -1, End: 1}[event.key];
  if (!step) return;
  event.preventDefault();
  event.stopPropagation();
  setDivide(look.divide + step);
}

// The last reading stays, so that its plot can be looked at; crosses in both pictures say where it was.
function left() {
  look.pointer = null;
  if (state.at) readAt({...state.at, frame: null});
}

export function wirePointer() {
  const stage = element('stage');
  stage.addEventListener('pointerdown', pressed);
  stage.addEventListener('pointermove', moved);
  stage.addEventListener('pointerup', released);
  stage.addEventListener('pointercancel', released);
  stage.addEventListener('pointerleave', left);
  stage.addEventListener('wheel', wheeled, {passive: false});
  stage.addEventListener('contextmenu', event => { if (look.painted) event.preventDefault(); });
  element('divider').addEventListener('keydown', dividerKey);
  new ResizeObserver(paneResized).observe(frames()[0]);
  watchRatio();
  showTools();
}

