// The magnifier: around the pixel that is read, pixels as squares, larger than the picture has them, in both panes. Each pane's
// are those of the film on it.
import {pump} from './ask.js';
import {element, frames, made} from './dom.js';
import {look, panes} from './look.js';
import {addKey, addWatch} from './parts.js';
import {toDot} from './place.js';
import {displayOf, shadeCells, shadeTable} from './shades.js';
import {state} from './state.js';

const SIZE = 232; // of the page's own lengths
const lens = {on: false, seen: new Map()}; // seen: of each film, by its number, what was had last: {key, at, window, greys}

// How many dots a pixel gets: four, or twice what the picture gives it.
function dotsOfPixel() { return Math.max(4, 2 * look.painted.zoom.shown) * Math.max(1, Math.round(devicePixelRatio)); }

// As many pixels as the glass has room for, held to the film.
function windowAbout(film, at) {
  const count = Math.floor(SIZE * devicePixelRatio / dotsOfPixel());
  const side = (from, most) => {
    const length = Math.min(count, most);
    return {from: Math.max(0, Math.min(most - length, from - (length >> 1))), length};
  };
  const x = side(at.x, film.width);
  const y = side(at.y, film.height);
  return {left: x.from, top: y.from, width: x.length, height: y.length};
}

// What is to be had of a film now; null where the pixel that is read lies beyond it.
function wishFor(film) {
  const {at} = state;
  if (!lens.on || !at || !look.painted || !film || !film.ready || film.refusal || at.x >= film.width || at.y >= film.height) return null;
  const window = windowAbout(film, at);
  const settings = {...film.settings};
  return {at: {x: at.x, y: at.y}, window, settings,
    key: [at.x, at.y, ...Object.values(window), ...Object.values(settings)].join()};
}

// Of the films on the panes the first whose pixels are not at hand.
export function dueLens() {
  for (const {film} of panes()) {
    const wish = wishFor(film);
    if (!wish || (lens.seen.has(film.number) && lens.seen.get(film.number).key === wish.key)) continue;
    return {
      message: {kind: 'greys', number: film.number, settings: wish.settings, window: wish.window},
      slow: `magnifying ${film.name}`,
      again: () => {},
      done: answer => {
        lens.seen.set(film.number, {...wish, greys: answer.refusal || answer.fault ? null : answer});
        drawLens();
      },
    };
  }
  return null;
}

function paintLens(canvas, {window, greys}, film, side) {
  const {turn} = look.painted;
  const dots = dotsOfPixel();
  const [wide, high] = turn.aside ? [window.height, window.width] : [window.width, window.height];
  const image = new ImageData(wide, high);
  shadeCells(new Uint16Array(greys[side]), window.width, window.height, turn, shadeTable(displayOf(film, side)),
    new Uint32Array(image.data.buffer));
  const sheet = made('canvas', {width: wide, height: high});
  sheet.getContext('2d').putImageData(image, 0, 0);
  canvas.width = wide * dots;
  canvas.height = high * dots;
  const pen = canvas.getContext('2d');
  pen.imageSmoothingEnabled = false;
  pen.drawImage(sheet, 0, 0, canvas.width, canvas.height);
}

// On whole dots of the screen, with the pixel that it is about in its middle, held to the pane.
function placeLens(canvas, place, at) {
  const {pane} = place;
  const [x, y] = toDot(place, at.x + 0.5, at.y + 0.5);
  const hold = (value, most) => Math.max(0, Math.min(most, Math.round(value)));
  const left = hold(x - canvas.width / 2, pane.width - canvas.width);
  const top = hold(y - canvas.height / 2, pane.height - canvas.height);
  Object.assign(canvas.style, {display: 'block', left: `${left / devicePixelRatio}px`, top: `${top / devicePixelRatio}px`,
    width: `${canvas.width / devicePixelRatio}px`, height: `${canvas.height / devicePixelRatio}px`});
}

// What was had last stays up until the next is there, so that it follows the pointer without going out.
function drawLens() {
  panes().forEach(({film, side}, i) => {
    const canvas = frames()[i].querySelector('.lens');
    const seen = wishFor(film) && lens.seen.get(film.number);
    if (!seen || !seen.greys) return void (canvas.style.display = 'none');
    paintLens(canvas, seen, film, side);
    placeLens(canvas, look.places[i], seen.at);
  });
}

function turnLens() {
  lens.on = !lens.on;
  element('lens').setAttribute('aria-pressed', String(lens.on));
  drawLens();
  pump();
}

addWatch(drawLens);
addKey({keys: ['m'], what: 'magnifier, at the pixel that is read', bare: true, act: turnLens});

export function wireLens() { element('lens').onclick = turnLens; }
