// The report in the page: made by the worker, shown for print, saved; and one that is opened again with its film.
import {pump} from './ask.js';
import {element, setText, tell} from './dom.js';
import {choose} from './films.js';
import {keptSaved} from './history.js';
import {chosenBins} from './numbers.js';
import {fillPanel} from './panel.js';
import {addKey} from './parts.js';
import {EMPTY_READING, changeReading, hasReading, readingOf} from './reading_state.js';
import {reportFile} from './report_html.js';
import {download} from './save.js';
import {fillCaptions} from './show.js';
import {filmReady, state, want} from './state.js';

const reporting = {making: [], reading: [], made: null};

// ---- made ----

function askReport() {
  const film = filmReady();
  if (!film || film.refusal) return;
  const {level, width, invert, auto} = film.display;
  const {pitch, resolution, line, region, marks} = readingOf(film);
  reporting.making.push({film, settings: {...film.settings},
    reading: {display: {level, width, invert, auto}, pitch, resolution, line, region, marks}});
  pump();
}

export function dueReport() {
  const next = reporting.making.shift();
  if (!next) return null;
  const {film, settings, reading} = next;
  return {
    message: {kind: 'report', number: film.number, settings, reading},
    slow: `report of ${film.name}`,
    again: () => { if (!film.closed) reporting.making.unshift(next); },
    done: answer => { if (state.film === film) showReport(next, answer); },
  };
}

function showReport(asked, answer) {
  if (answer.refusal || answer.fault) {
    const {refusal, fault} = answer;
    return showFault('No report', refusal ? `Refused, ${refusal.number}: ${refusal.sentence} ${refusal.more.join(' ')}` : fault);
  }
  const {film} = asked;
  reporting.made = {...answer, ...asked};
  const parsed = new DOMParser().parseFromString(answer.html, 'text/html');
  element('report-sheet').replaceChildren(...parsed.body.childNodes);
  setText('report-said', hasReading(film) ? '' : 'Nothing is measured or marked yet.');
  element('report-panel').showModal();
  element('report-print').focus();
  element('report-sheet').scrollTop = 0;
}

// What the report has is saved, unless it was changed since the report was made.
function saveReport() {
  const {film, name, text, settings, reading} = reporting.made;
  download([text], 'application/json', `${name}.json`);
  const now = readingOf(film);
  if (['pitch', 'resolution', 'line', 'region', 'marks'].every(part => now[part] === reading[part])) keptSaved(film, 'reading');
  if (Object.keys(settings).every(each => Object.is(film.settings[each], settings[each]))) keptSaved(film, 'settings');
  setText('report-said', `Saved ${name}.json`);
}

function savePage() {
  const {film, name, html} = reporting.made;
  const page = reportFile(`Radiograph reading: ${film.name}`, element('report-style').textContent, html);
  download([page], 'text/html', `${name}.html`);
  setText('report-said', `Saved ${name}.html`);
}

// ---- opened again ----

export function isReport(file) { return /\.json$/i.test(file.name); }

export function keepReports(files) { reporting.reading.push(...files); }

// The last of what is due, so behind the films that are opened together with it.
export function dueReading() {
  const file = reporting.reading.shift();
  if (!file) return null;
  return {
    message: {kind: 'read-report', name: file.name, file, looked: state.film ? state.film.number : 0},
    slow: `reading ${file.name}`,
    again: () => reporting.reading.unshift(file),
    done: answer => {
      if (answer.fault) return showFault('Not opened', answer.fault);
      const film = state.films.find(each => each.number === answer.read.number);
      if (film) applyReport(film, answer.read, file.name);
    },
  };
}

// All of a report at once, and one step for undo: it was made again and found the same before it came here.
function applyReport(film, read, name) {
  const {settings, version, reading: {display, ...reading}} = read;
  if (state.film !== film) choose(film, null);
  changeReading(film, {...EMPTY_READING, ...reading});
  film.settings = {...film.settings, ...settings}; // what does not count, grid or side, stays
  film.binsChosen = settings.bins === chosenBins(film.settings, film);
  film.display = {...film.display, ...display};
  film.lastMark = Math.max(film.lastMark || 0, ...reading.marks.map(mark => mark.number));
  keptSaved(film, 'settings', 'reading');
  fillPanel();
  fillCaptions();
  want('draw', 'settings', null);
  tell(`${name} opened, made by version ${version}: ${reading.marks.length} mark${reading.marks.length === 1 ? '' : 's'}`, true);
}

function showFault(head, text) {
  setText('fault-head', head);
  setText('fault-text', text);
  if (!element('fault-panel').open) element('fault-panel').showModal();
  element('fault-close').focus();
}

export function wireReport() {
  element('report').onclick = askReport;
  element('report-print').onclick = () => window.print();
  element('report-json').onclick = saveReport;
  element('report-html').onclick = savePage;
}

addKey({keys: ['p'], what: 'the report, to print and to save', act: askReport});
