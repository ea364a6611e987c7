// The overview: all of the film, small, and on it the part that is on the screen. A hand on it moves that part.
import {pump} from './ask.js';
import {element, sizeTo} from './dom.js';
import {centreOn, look} from './look.js';
import {addWatch} from './parts.js';
import {fullZoom, isWhole, placeOf, toDot, toFilm} from './place.js';
import {displayOf, shadeCells, shadeTable} from './shades.js';
import {filmReady} from './state.js';

const ROOM = {width: 92, height: 64}; // of the page's own lengths

// The film's place in the overview: as it is turned on the screen, as large as the room takes.
function placeThere(film) {
  const pane = {width: Math.round(ROOM.width * devicePixelRatio), height: Math.round(ROOM.height * devicePixelRatio)};
  const view = {...film.view, x: film.width / 2, y: film.height / 2};
  return placeOf(film, {...view, zoom: Math.min(1024, fullZoom(film, view, pane))}, pane);
}

function isDrawn(film) { return film.thumb && film.thumb.p === placeThere(film).zoom.p; }

// Means of the scan, from the worker, once for each size of the overview.
export function dueOverview() {
  const film = filmReady();
  if (!film || !look.painted || isDrawn(film)) return null;
  const {pane, ...place} = placeThere(film);
  return {
    message: {kind: 'scan', number: film.number, place},
    slow: '',
    done: answer => {
      if (answer.fault) return;
      film.thumb = {p: place.zoom.p, cells: new Uint16Array(answer.scanned)};
      drawOverview(look.painted);
    },
  };
}

function paintThumb(pen, film, place) {
  const {columns, rows, turn} = place;
  const [wide, high] = turn.aside ? [rows, columns] : [columns, rows];
  const image = new ImageData(wide, high);
  shadeCells(film.thumb.cells, columns, rows, turn, shadeTable(displayOf(film, 'scanned')), new Uint32Array(image.data.buffer));
  pen.putImageData(image, place.edgeX, place.edgeY);
}

// The outline of what is seen, in the overview's dots.
function outlineOf(film, there, seen) {
  const [a, b] = toDot(there, ...toFilm(seen, 0, 0));
  const [c, d] = toDot(there, ...toFilm(seen, seen.pane.width, seen.pane.height));
  const hold = (value, most) => Math.max(0.5, Math.min(most - 0.5, value));
  const [left, right] = [Math.min(a, c), Math.max(a, c)].map(x => hold(x, there.pane.width));
  const [top, bottom] = [Math.min(b, d), Math.max(b, d)].map(y => hold(y, there.pane.height));
  return [left, top, right - left, bottom - top];
}

let overviewKey = ''; // what it was drawn for: settings that are moved leave it alone

function drawOverview(seen) {
  const film = filmReady();
  const canvas = element('overview');
  canvas.parentElement.hidden = !film;
  if (!film) return;
  const there = placeThere(film);
  const isThere = isDrawn(film);
  const outline = isThere && seen && !isWhole(seen) ? outlineOf(film, there, seen) : null;
  const key = [film.number, isThere, there.zoom.p, ...Object.values(there.pane), ...Object.values(there.turn),
    ...Object.values(displayOf(film, 'scanned')), outline].join();
  if (key !== overviewKey) paintOverview(canvas, film, there, outline);
  overviewKey = key;
  if (!isThere) pump();
}

function paintOverview(canvas, film, there, outline) {
  sizeTo(canvas, there.pane);
  canvas.dataset.part = outline ? outline.map(Math.round).join(' ') : '';
  const pen = canvas.getContext('2d');
  pen.clearRect(0, 0, canvas.width, canvas.height);
  if (!isDrawn(film)) return;
  paintThumb(pen, film, there);
  if (!outline) return;
  pen.lineWidth = 3;
  pen.strokeStyle = '#000';
  pen.strokeRect(...outline);
  pen.lineWidth = 1;
  pen.strokeStyle = '#fff';
  pen.strokeRect(...outline);
}

function moveThere(event) {
  const film = filmReady();
  if (!film || event.buttons !== 1 || !look.painted) return;
  const box = element('overview').getBoundingClientRect();
  const there = placeThere(film);
  const x = (event.clientX - box.left) * there.pane.width / box.width;
  const y = (event.clientY - box.top) * there.pane.height / box.height;
  centreOn(...toFilm(there, x, y), event);
}

addWatch(drawOverview);

export function wireOverview() {
  const canvas = element('overview');
  canvas.addEventListener('pointerdown', event => {
    canvas.setPointerCapture(event.pointerId);
    moveThere(event);
  });
  canvas.addEventListener('pointermove', moveThere);
}
