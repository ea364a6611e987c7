// How far a marked rectangle reaches: a switch beside the chosen mark and one beside the region shade every pixel whose rendered
// grey depends on a pixel of it. The shading lies over both pictures, beneath the outlines, and never in their pixels.
import {element, setText} from './dom.js';
import {drawOverlays, keptOf} from './look.js';
import {markNumbered} from './marks.js';
import {addKey, addOverlay, addWatch} from './parts.js';
import {dotsShowing} from './place.js';
import {isAsScanned, reachOf} from './reach.js';
import {onReading, readingOf} from './reading_state.js';
import {filmReady} from './state.js';
import {placing, shapeNow} from './tools.js';

const SHADE = 'rgba(255, 210, 122, 0.25)';
const KINDS = ['mark', 'region'];

const shading = {mark: false, region: false};

// The chosen mark's rectangle, as it is while it is moved, or the region's; null where there is none.
function rectangleNow(film, kind) {
  const {marks, chosen, region} = readingOf(film);
  if (kind === 'region') return region;
  const shape = placing.film === film ? shapeNow() : null;
  return shape && shape.number === chosen ? shape.box : markNumbered(marks, chosen);
}

// What the rectangle reaches with the settings that its film is drawn with; null where there is none or no drawing.
function reachNow(film, kind) {
  const box = film && film.ready ? rectangleNow(film, kind) : null;
  const kept = box && keptOf(film);
  return kept ? reachOf(film, kept.axes, kept.settings, box) : null;
}

function shadedNow(film) { return KINDS.map(kind => shading[kind] && reachNow(film, kind)).filter(Boolean); }

// One path for both, so that what both reach is not shaded twice.
function drawReach(pen, place, film) {
  const path = new Path2D();
  for (const reach of shadedNow(film)) {
    const {x, y, width, height} = dotsShowing(place, reach);
    path.rect(x, y, width, height);
  }
  pen.fillStyle = SHADE;
  pen.fill(path);
}

function reachWords(film, kind) {
  const reach = reachNow(film, kind);
  if (!reach) return '';
  if (isAsScanned(keptOf(film).settings)) return 'itself: factor 1.0';
  const {left, top, width, height} = reach;
  return `columns ${left} to ${left + width - 1}, rows ${top} to ${top + height - 1}`;
}

function fillReach() {
  const film = filmReady();
  for (const kind of KINDS) setText(`${kind}-reach-told`, reachWords(film, kind));
}

function shade(kind, on) {
  shading[kind] = on;
  element(`${kind}-reach`).checked = on;
  drawOverlays();
}

// By its key: for the chosen mark, or where none is chosen for the region.
function turnShading() {
  const kind = rectangleNow(filmReady(), 'mark') ? 'mark' : 'region';
  shade(kind, !shading[kind]);
}

export function wireReach() {
  for (const kind of KINDS) element(`${kind}-reach`).onchange = event => shade(kind, event.target.checked);
  onReading(fillReach);
  addWatch(fillReach);
}

addOverlay(drawReach, film => shadedNow(film).length > 0);
addKey({keys: ['s'], what: 'shade what the chosen mark (without one: the region) can reach', act: turnShading});
