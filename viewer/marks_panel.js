// The panel's part for marks: the list, and the chosen mark's kind, sentence, place and size.
import {element, setText} from './dom.js';
import {drawOverlays} from './look.js';
import {MARK_KINDS, MOST_MARKS, boxOf, kindText, markBeside, markNumbered, movedBox, nextMarkNumber, sentenceOf,
  withChangedMark, withNewMark, withoutMark} from './marks.js';
import {lengthMm, rectangleInside, rectangleOf} from './measure.js';
import {wireTyped} from './measure_panel.js';
import {wholeOf} from './numbers.js';
import {addKey, addSection} from './parts.js';
import {changeReading, chooseMark, onReading, readingOf} from './reading_state.js';
import {unitsOf} from './report.js';
import {filmReady} from './state.js';
import {FAR_STEPS, bringIntoView, onPlaced} from './tools.js';

const MARK_SIDES = ['left', 'top', 'width', 'height'];

// kind: of the mark before, for the next one; filled: which film and reading the part was filled with
const marking = {kind: MARK_KINDS[0].id, filled: {film: null, reading: null}};

function chosenMark() {
  const {marks, chosen} = readingOf(filmReady());
  return markNumbered(marks, chosen);
}

function tellMark(text) {
  setText('mark-note', text);
  element('mark-note').hidden = text === '';
}

// ---- changes ----

function placedMark(film, first, last) {
  const {marks} = readingOf(film);
  if (marks.length >= MOST_MARKS) return tellMark(`There are ${MOST_MARKS} marks; no more are taken.`);
  const number = nextMarkNumber(marks, film.lastMark || 0);
  film.lastMark = number;
  const mark = {number, kind: marking.kind, ...rectangleOf(first.x, first.y, last.x, last.y), text: ''};
  element('marks').open = true;
  changeReading(film, {marks: withNewMark(marks, mark), chosen: number});
  if (filmReady() === film) element('mark-kind').focus();
}

function placedMove(film, number, box) {
  const {marks} = readingOf(film);
  const mark = markNumbered(marks, number);
  const same = mark && MARK_SIDES.every(side => mark[side] === box[side]);
  if (mark && !same) changeReading(film, {marks: withChangedMark(marks, number, box)});
}

function changeChosen(change, what = '') {
  const film = filmReady();
  const mark = chosenMark();
  if (mark) changeReading(film, {marks: withChangedMark(readingOf(film).marks, mark.number, change)}, what);
}

function removeChosen() {
  const film = filmReady();
  const mark = chosenMark();
  if (!mark) return;
  const {marks} = readingOf(film);
  const next = marks.length > 1 ? markBeside(marks, mark.number, 1) : null;
  changeReading(film, {marks: withoutMark(marks, mark.number), chosen: next});
}

// By arrows with Ctrl; changes in quick succession are one step for undo.
function nudgeChosen(event) {
  const mark = chosenMark();
  const [x, y] = FAR_STEPS[event.key];
  if (!mark) return;
  const box = movedBox(filmReady(), mark, x, y);
  changeChosen(box, `mark ${mark.number}`);
  bringIntoView({x: box.left, y: box.top}, event);
}

// Round the marks; the one that is chosen is brought into view.
function chooseNextMark(way, event) {
  const {marks, chosen} = readingOf(filmReady());
  const number = markBeside(marks, chosen, way);
  if (number !== null) pickMark(number, event);
}

function pickMark(number, event) {
  element('marks').open = true;
  chooseMark(filmReady(), number);
  const {left, top, width, height} = chosenMark();
  bringIntoView({x: left + (width >> 1), y: top + (height >> 1)}, event);
}

function editChosen() {
  if (!chosenMark()) return;
  element('marks').open = true;
  element('mark-kind').focus();
}

function takeText() {
  const mark = chosenMark();
  const text = sentenceOf(element('mark-text').value);
  if (mark && text !== mark.text) changeChosen({text});
  else fillMarkBoxes();
}

function takeSide(side) {
  const mark = chosenMark();
  const text = element(`mark-${side}`).value;
  const value = wholeOf(text);
  if (!mark) return;
  const box = {...boxOf(mark), [side]: value};
  const good = value !== null && rectangleInside(filmReady(), box);
  element(`mark-${side}`).setAttribute('aria-invalid', String(!good));
  tellMark(good ? '' : `“${text}” would put mark ${mark.number} outside the film, or is no whole number. ` +
    `${mark[side]} still counts.`);
  if (good && value !== mark[side]) changeChosen({[side]: value});
}

// ---- filling ----

function entryText(mark, pitch) {
  const size = pitch === null ? `${mark.width} × ${mark.height} pixels`
    : `${lengthMm(mark.width, pitch)} × ${lengthMm(mark.height, pitch)} mm`;
  return `${mark.number}  ${kindText(mark.kind)}, ${size}${mark.text ? `: ${mark.text}` : ''}`;
}

function markEntry(mark, pitch, chosen) {
  const item = document.createElement('li');
  const pick = document.createElement('button');
  Object.assign(pick, {id: `mark-${mark.number}`, type: 'button', textContent: entryText(mark, pitch), title: mark.text});
  pick.setAttribute('aria-pressed', String(mark.number === chosen));
  pick.onclick = event => pickMark(mark.number, event);
  item.append(pick);
  return item;
}

function fillMarkBoxes() {
  const mark = chosenMark();
  element('mark-told').hidden = !mark;
  if (!mark) return;
  setText('mark-number', `Mark ${mark.number}`);
  element('mark-kind').value = mark.kind;
  element('mark-text').value = mark.text;
  for (const side of MARK_SIDES) {
    element(`mark-${side}`).value = String(mark[side]);
    element(`mark-${side}`).removeAttribute('aria-invalid');
  }
  tellMark('');
}

function fillMarksPart(film) {
  const reading = readingOf(film);
  if (marking.filled.film === film && marking.filled.reading === reading) return;
  marking.filled = {film, reading};
  const {marks, chosen, pitch} = reading;
  const focused = document.activeElement && document.activeElement.id;
  setText('marks-title', marks.length === 0 ? 'Marks' : `Marks: ${marks.length}`);
  element('marks-none').hidden = marks.length > 0;
  element('marks-list').replaceChildren(...marks.map(mark => markEntry(mark, unitsOf(pitch), chosen)));
  if (/^mark-\d+$/.test(focused) && element(focused)) element(focused).focus();
  fillMarkBoxes();
  drawOverlays();
}

// told: {place, greys}, or null.
export function fillMarkNumbers(told) {
  setText('mark-mm', told ? told.place : '');
  setText('mark-greys', told ? told.greys : '');
}

// ---- wiring ----

export function wireMarks() {
  element('mark-kind').replaceChildren(...MARK_KINDS.map(({id}) => new Option(kindText(id), id)));
  element('mark-kind').onchange = () => {
    marking.kind = element('mark-kind').value;
    changeChosen({kind: marking.kind}, 'kind of a mark');
  };
  // Enter goes on to the sentence, and from there back to the film
  element('mark-kind').addEventListener('keydown', event => {
    if (event.key !== 'Enter' && event.key !== 'Escape') return void event.stopPropagation();
    event.preventDefault();
    event.stopPropagation();
    element(event.key === 'Enter' ? 'mark-text' : 'stage').focus();
  });
  wireTyped('mark-text', takeText, fillMarkBoxes);
  element('mark-text').addEventListener('keydown', event => { if (event.key === 'Enter') element('stage').focus(); });
  for (const side of MARK_SIDES) wireTyped(`mark-${side}`, () => takeSide(side), fillMarkBoxes);
  element('mark-remove').onclick = removeChosen;
  element('marks').querySelector('summary').id = 'marks-title';
  onReading(film => { if (film === filmReady()) fillMarksPart(film); });
  onPlaced({mark: placedMark, shift: placedMove});
}

addSection({id: 'marks', title: 'Marks', fill: film => { if (element('marks-title')) fillMarksPart(film); },
  body: element('marks-template').content.firstElementChild});
addKey({keys: ['n'], what: 'the next mark (with Shift the one before)',
  act: event => chooseNextMark(event.shiftKey ? -1 : 1, event)});
addKey({keys: ['w'], what: 'write: edit the chosen mark', act: editChosen});
addKey({keys: ['Delete'], what: 'remove the chosen mark', act: removeChosen});
addKey({keys: Object.keys(FAR_STEPS).map(key => `ctrl+${key}`), names: ['Ctrl arrows'], what: 'move the chosen mark by one pixel',
  act: nudgeChosen});
