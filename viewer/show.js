// What is asked of the worker to be shown, and what becomes of its answer.
import {keepTimes} from './ask.js';
import {element, setText} from './dom.js';
import {listFilms} from './films.js';
import {MARGIN_DOTS, clearPanes, keepDrawn, keptOf, look, paintView, pairFilm, pairIsThere, panes, placeNow,
  placeUnder} from './look.js';
import {editionWords, regionWords} from './numbers.js';
import {fillFooter} from './panel.js';
import {fillReading, forgetReading} from './reading.js';
import {filmReady, state, want, wanted} from './state.js';

// What is moved by a slider, and has to be seen at once.
const HASTY = ['factor', 'settings'];

export function dueShow() {
  const film = filmReady();
  if (!film || !look.pane) return null;
  if (wanted.draw !== wanted.drawn) return drawRequest(film);
  const read = state.at ? state.at.film : film;
  if (wanted.probe === wanted.probed || read.refusal) return pairRequest(film);
  wanted.probed = wanted.probe;
  return showRequest(read, {place: null}, {}, []);
}

// Whether what is read is this film's: of two films on the panes the one that is pointed at is read.
function isRead(film) { return !state.at || state.at.film === film; }

// Of two films that are looked at the second comes behind the first.
function pairRequest(film) {
  const other = look.mode === 'pair' && look.painted ? pairFilm() : null;
  if (!other || other.refusal || pairIsThere(other, film)) return null;
  return showRequest(other, {place: placeUnder(other, film, MARGIN_DOTS), seen: placeUnder(other, film)}, {}, []);
}

function drawRequest(film) {
  const marks = wanted.marks.splice(0);
  wanted.drawn = wanted.draw;
  if (isRead(film)) wanted.probed = wanted.probe;
  // a moved setting is not kept waiting for what is not seen
  const margin = marks.some(({what}) => HASTY.includes(what)) ? 0 : MARGIN_DOTS;
  const spare = look.spare;
  look.spare = {};
  return showRequest(film, {place: placeNow(film, margin), seen: placeNow(film)}, spare, marks);
}

// The scanned side is the same while film and window are.
function scannedIsThere(film, place) {
  const kept = keptOf(film);
  return Boolean(kept && kept.scanned) && ['left', 'top', 'width', 'height', 'cellX', 'cellY', 'columns', 'rows']
    .every(key => kept.place[key] === place[key]) && kept.place.zoom.p === place.zoom.p;
}

function showRequest(film, {place, seen}, spare, marks) {
  const settings = {...film.settings};
  const asked = place && {...place, scannedIsThere: scannedIsThere(film, place)};
  const at = state.at && isRead(film) ? {x: state.at.x, y: state.at.y, cell: state.at.cell} : null;
  return {
    message: {kind: 'show', number: film.number, settings, place: asked, at, spare},
    transfer: Object.values(spare),
    slow: `rendering ${film.name}`,
    done: answer => shown(film, {settings, place, seen}, answer, marks),
    again: answer => shown(film, {settings, place, seen}, answer, marks),
  };
}

// An answer for a film that is no longer looked at paints nothing.
function shown(film, asked, answer, marks) {
  const isPart = answer.unfinished !== undefined;
  if (isPart && state.film === film) { // the rest is wished for, or by then something newer
    wanted.drawn = -1;
    wanted.marks.unshift(...marks);
  }
  const before = Boolean(film.refusal);
  film.refusal = answer.refusal || (answer.fault ? {number: null, sentence: answer.fault, more: []} : null);
  if (before !== Boolean(film.refusal)) listFilms();
  if (film.refusal) look.kept.delete(film.number);
  else if (answer.picture && !film.closed) keepDrawn(film, {...asked, ...madeOf(answer)}, answer.picture);
  if (state.film !== film) return besideShown(film, answer);
  showRefusal(film.refusal);
  fillFooter(film.refusal ? null : answer.footer, asked.settings, film);
  if (film.refusal) {
    clearPanes();
    forgetReading();
  } else {
    // the view may have gone on since this was asked for
    if (answer.picture && !paintView(film)) want('draw');
    if (isRead(film)) fillReading(answer.probe || null);
  }
  tellState();
  if (!isPart) keepTimes(marks);
}

// What a picture was made with, and whether it is all there.
function madeOf({footer, axes, unfinished}) { return {footer, axes, isPart: unfinished !== undefined}; }

// The film beside the one that is looked at was drawn, refused or read.
function besideShown(film, answer) {
  if (state.at && isRead(film)) {
    if (film.refusal) forgetReading();
    else if (answer.probe) fillReading(answer.probe);
    else want('probe'); // drawn with other settings than it was read with
  }
  const isSeen = look.mode === 'pair' && film === pairFilm() && keptOf(state.film) && look.painted;
  if (isSeen && (answer.picture || film.refusal)) paintView(state.film);
}

// In the film's place, in red: the library's number and sentence, and the numbers that help.
export function showRefusal(refusal) {
  if (!refusal && element('refusal').hidden) return;
  element('refusal').hidden = !refusal;
  element('refusal-number').textContent = refusal && refusal.number !== null ? `Refused, ${refusal.number}:` : '';
  element('refusal-sentence').textContent = refusal ? refusal.sentence : '';
  element('refusal-more').replaceChildren(...(refusal ? refusal.more : []).map(text => {
    const line = document.createElement('li');
    line.textContent = text;
    return line;
  }));
}

function fillLabel(label, words, name) {
  const [what, own] = label.children;
  if (what.textContent !== words) what.textContent = words;
  if (own.textContent !== name) own.textContent = name;
  if (label.title !== name) label.title = name;
}

// Above each picture: which film it is, whatever its name's length.
export function fillCaptions() {
  for (const [i, {film, side}] of panes().entries()) {
    const label = element(i === 0 ? 'label-scanned' : 'label-rendered');
    const own = film && film.ready && film.display.auto ? ', by its own greys' : '';
    const refused = film && film.refusal && film !== state.film ? ', refused' : '';
    const edition = film && film.ready && film.settings.edition ? `, ${editionWords(film.settings.edition)}` : '';
    const region = film && film.ready && film.settings.around ? `, ${regionWords(film.settings)}` : '';
    const words = `${side === 'rendered' ? `rendered${region}${edition}` : `as scanned${own}`}${refused}`;
    const size = film && film.ready ? `${film.width} × ${film.height} · ` : '';
    const none = look.mode === 'pair' && i > 0 ? 'no second film' : words;
    fillLabel(label, film ? `film ${film.number} · ${size}${words}` : none, film ? film.name : '');
  }
}

export function tellState() {
  const film = state.film;
  fillCaptions();
  const kind = !film ? 'none' : film.refusal ? 'refused' : film.ready ? 'ready' : 'reading';
  document.documentElement.dataset.film = kind;
  for (const id of ['save-pgm', 'save-record', 'save-png', 'report']) element(id).disabled = kind !== 'ready';
  const count = state.films.length;
  const open = count === 0 ? 'no film open' : `${count} film${count > 1 ? 's' : ''} open`;
  setText('state', film && film.about ? `${open}. ${film.about}` : open);
  const title = film ? `${film.name}: Tzofnadir` : 'Tzofnadir: the reading page';
  if (document.title !== title) document.title = title;
}
