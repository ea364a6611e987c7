// The open films: each with a number that is never given again, its own settings and its own view. Opening, choosing
// and closing.
import {keepTimes, pump, tellBusy} from './ask.js';
import {element, made, tell} from './dom.js';
import {clearPanes, fillViewBar, holdView, keptOf, look, paintKept, paintView, panes, startView} from './look.js';
import {fillFooter, fillPanel, forgetTyping, startSettings} from './panel.js';
import {forgetReading, forgetReadingOf} from './reading.js';
import {isReport, keepReports} from './report_panel.js';
import {dropSaving} from './save.js';
import {showRefusal, tellState} from './show.js';
import {state, want, wanted} from './state.js';

const opening = []; // films whose files wait to be read
const closing = []; // numbers that the worker may forget
let lastNumber = 0;

// ---- opening ----

// Reports among them are read behind the films that they come with.
export function addFiles(files, event, about) {
  keepReports([...files].filter(isReport));
  addFilms([...files].filter(file => !isReport(file)), event, about);
}

function addFilms(files, event, about) {
  const first = opening.length === 0 && files.length > 0;
  const added = files.map(file => {
    const film = {number: ++lastNumber, name: file.name, about, ready: false, refusal: null, saved: new Set()};
    state.films.push(film);
    opening.push({film, file, mark: {what: 'open', at: event ? event.timeStamp : performance.now()}});
    return film;
  });
  tell('');
  if (added.length > 0 && (first || !state.film)) choose(added[0], event);
  listFilms();
  pump();
}

export function dueOpening() {
  const next = opening.shift();
  if (!next) return null;
  const {film, file, mark} = next;
  return {
    message: {kind: 'open', number: film.number, name: film.name, file},
    slow: `reading ${film.name}`,
    done: answer => opened(film, answer, mark),
  };
}

function opened(film, answer, mark) {
  if (film.closed) return void closing.push(film.number);
  if (answer.opened) {
    Object.assign(film, answer.opened, {ready: true});
    startSettings(film);
    startView(film);
  } else {
    film.refusal = answer.refusal || {number: null, sentence: answer.fault, more: []};
  }
  listFilms();
  if (state.film === film) showFilm(mark);
}

// ---- choosing ----

export function choose(film, event) {
  if (state.film === film) return;
  forgetTyping();
  tell('');
  state.film = film;
  listFilms();
  showFilm({what: 'film', at: event ? event.timeStamp : performance.now()});
  if (film) element(`film-${film.number}`).scrollIntoView({block: 'nearest', inline: 'nearest'});
}

// Nothing of the film before stays up while this one's picture is being made.
export function showFilm(mark) {
  const film = state.film;
  clearPanes();
  forgetReading();
  fillFooter(null);
  showRefusal(film && film.refusal);
  fillPanel();
  if (film && film.ready) {
    holdView(film);
    showAgain(film, mark);
  }
  fillViewBar();
  tellState();
}

// What is still at hand of a film is seen in the same frame; the library draws what is not.
function showAgain(film, mark) {
  if (paintKept(film)) {
    fillFooter(keptOf(film).footer, film.settings, film);
    keepTimes([mark]);
    return tellBusy();
  }
  clearPanes();
  wanted.marks.push(mark);
  want('draw');
}

export function chooseBeside(way, event) {
  const at = state.films.indexOf(state.film) + way;
  if (state.films.length > 0) choose(state.films[(at + state.films.length) % state.films.length], event);
}

// ---- closing ----

export function closeOne(film, event) {
  const at = state.films.indexOf(film);
  const waits = opening.findIndex(each => each.film === film);
  const isBeside = look.painted && state.film !== film && panes().some(pane => pane.film === film);
  film.closed = true;
  forgetReadingOf(film);
  state.films.splice(at, 1);
  if (waits >= 0) opening.splice(waits, 1);
  dropSaving(film);
  look.kept.delete(film.number);
  if (film.ready) closing.push(film.number);
  if (state.film === film) choose(state.films[Math.min(at, state.films.length - 1)] || null, event);
  if (isBeside) paintView(state.film);
  fillViewBar();
  listFilms();
  pump();
}

export function dueClosing() {
  const number = closing.shift();
  return number === undefined ? null : {message: {kind: 'close', number}, slow: 'closing', done: () => {}};
}

// ---- the list ----

function button(id, title, ...children) { return made('button', {id, type: 'button', title}, ...children); }

function entryOf(film) {
  const size = film.ready ? `${film.width} × ${film.height}` : film.refusal ? 'refused' : 'reading';
  const pick = button(`film-${film.number}`, `${film.name}, ${size}, film ${film.number}`,
    made('span', {className: 'name', textContent: film.name}), made('small', {textContent: `${size} · ${film.number}`}));
  pick.setAttribute('aria-pressed', String(state.film === film));
  pick.onclick = event => choose(film, event);
  const shut = button(`close-${film.number}`, `Close ${film.name}`, '×');
  shut.setAttribute('aria-label', `Close ${film.name}, film ${film.number}`);
  shut.onclick = event => closeOne(film, event);
  return made('span', {className: `film ${film.refusal ? 'refused' : film.ready ? '' : 'reading'}`}, pick, shut);
}

export function listFilms() {
  const focused = document.activeElement && document.activeElement.id;
  element('films').replaceChildren(...state.films.map(entryOf));
  if (/^(film|close)-\d+$/.test(focused) && element(focused)) element(focused).focus();
  tellState();
}
