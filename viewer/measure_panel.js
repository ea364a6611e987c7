// The panel's part for measuring: pitch, basic resolution, the line with its profile and dip, and the region. All numbers are
// of the scanned greys, and come from the worker, which has them.
import {pump} from './ask.js';
import {element, setText} from './dom.js';
import {drawOverlays} from './look.js';
import {fillMarkNumbers} from './marks_panel.js';
import {LIMITS, lanesTaken, millionthsOf, pitchFrom, rectangleOf, shownMillionths, stepsOf, whyNot} from './measure.js';
import {wholeOf} from './numbers.js';
import {addKey, addSection} from './parts.js';
import {INK, penFor} from './plots.js';
import {changeReading, onReading, readingOf} from './reading_state.js';
import {unitsOf} from './report.js';
import {filmReady} from './state.js';
import {onPlaced} from './tools.js';

const UM_BOXES = {pitch: 'Pitch', resolution: 'Basic resolution'};
const LINE_BOXES = ['lanes', 'part-from', 'part-to'];

// lanes: of the next line; told: what was measured last; filled: which film and reading the part was filled with
const measuring = {wanted: 0, sent: 0, lanes: 1, told: null, filled: {film: null, reading: null}};

// ---- asking ----

export function wantMeasures() {
  measuring.wanted++;
  pump();
}

// What the worker is to measure next: the newest reading of the film that is looked at.
export function dueMeasures() {
  const film = filmReady();
  if (measuring.wanted === measuring.sent || !film) return null;
  measuring.sent = measuring.wanted;
  const {pitch, resolution, line, region, marks, chosen} = readingOf(film);
  const mark = marks.find(each => each.number === chosen) || null;
  if (!line && !region && !mark) return fillMeasures(film, null);
  return {
    message: {kind: 'measure', number: film.number, wish: {pitch, resolution, line, boxes: [region, mark]}},
    slow: `measuring on ${film.name}`,
    done: answer => { if (filmReady() === film) fillMeasures(film, answer.fault ? null : answer); },
  };
}

// ---- what is told ----

function greysWords(told) {
  const dash = value => value === null ? '–' : value;
  return `mean ${told.mean}, deviation ${dash(told.deviation)}, SNR ${dash(told.snr)}, SNR_N ${dash(told.snrN)}; ` +
    `greys ${told.least} to ${told.greatest}, ${told.pixels} pixels`;
}

export function boxWords(box, mm) {
  const size = `column ${box.left}, row ${box.top}, ${box.width} × ${box.height} pixels`;
  return mm ? `${size}; at ${mm.left}, ${mm.top} mm, ${mm.width} × ${mm.height} mm` : size;
}

// Always null: there is nothing to ask the worker for behind it.
function fillMeasures(film, told) {
  const {line, region, marks, chosen} = readingOf(film);
  measuring.told = told;
  element('measure-none').hidden = Boolean(line || region);
  element('line-told').hidden = !line;
  element('region-told').hidden = !region;
  if (line && told && told.line) fillLine(line, told.line);
  if (region && told && told.boxes[0]) {
    setText('region-place', `Region: ${boxWords(region, told.boxes[0].mm)}`);
    setText('region-greys', `Scanned: ${greysWords(told.boxes[0].scanned)}`);
  }
  const mark = marks.find(each => each.number === chosen);
  const box = told && told.boxes[1];
  fillMarkNumbers(mark && box ? {place: boxWords(mark, box.mm), greys: `Scanned: ${greysWords(box.scanned)}`} : null);
  return null;
}

function fillLine(line, told) {
  setText('line-place', `Line ${line.x0}, ${line.y0} to ${line.x1}, ${line.y1}`);
  setText('line-length', told.mm === null ? `${told.pixels} pixels` : `${told.mm} mm, ${told.pixels} pixels`);
  setText('dip-told', dipWords(line, told));
  drawProfile(line, told);
}

function dipWords(line, told) {
  const lanes = told.fewest < line.lanes ? ` At the film's edge down to ${told.fewest} of ${line.lanes} lanes.` : '';
  if (!told.dip) return `Scanned: no dip between samples ${line.from} and ${line.to}.${lanes}`;
  const {at, a, b, c, percent, dark, parted} = told.dip;
  return `Scanned: dip ${percent} % at sample ${at}, ${dark ? 'dark' : 'light'} wires: A ${a}, B ${b}, C ${c}. ` +
    `${parted ? 'Above' : 'Not above'} 20 %: ${parted ? 'parted' : 'not parted'}.${lanes}`;
}

// ---- the plot ----

function drawProfile(line, told) {
  const {pen, width, height} = penFor(element('profile-plot'));
  const values = told.samples.map(Number);
  const [low, high] = [Math.min(...values), Math.max(...values)];
  const box = {x: 2, y: 12, width: width - 4, height: height - 26};
  const xOf = i => box.x + box.width * i / (values.length - 1);
  const yOf = grey => high === low ? box.y + box.height / 2 : box.y + box.height * (high - grey) / (high - low);
  pen.fillStyle = '#161616';
  pen.fillRect(box.x, box.y, box.width, box.height);
  pen.strokeStyle = INK.limit;
  for (const i of [line.from, line.to]) strokeOf(pen, [[xOf(i), box.y], [xOf(i), box.y + box.height]]);
  if (told.dip) strokeOf(pen, [line.from, line.to].map(i => [xOf(i), yOf(values[i])])); // the background
  pen.strokeStyle = INK.line;
  strokeOf(pen, values.map((grey, i) => [xOf(i), yOf(grey)]));
  labelProfile(pen, box, told, width, height);
}

function strokeOf(pen, points) {
  pen.beginPath();
  points.forEach(([x, y], i) => i === 0 ? pen.moveTo(x, y) : pen.lineTo(x, y));
  pen.stroke();
}

function labelProfile(pen, box, told, width, height) {
  const values = told.samples.map(Number);
  pen.fillStyle = INK.text;
  pen.textBaseline = 'top';
  pen.textAlign = 'left';
  pen.fillText(`scanned grey ${Math.min(...values).toFixed(2)} to ${Math.max(...values).toFixed(2)}`, box.x, 0);
  pen.textBaseline = 'bottom';
  pen.fillText('sample 0', box.x, height);
  pen.textAlign = 'right';
  pen.fillText(String(values.length - 1), width - 2, height);
}

// ---- boxes ----

export function tellMeasure(text) {
  setText('measure-note', text);
  element('measure-note').hidden = text === '';
}

function takeUm(id) {
  const film = filmReady();
  if (!film) return;
  const text = element(id).value.trim();
  const kept = readingOf(film)[id];
  const units = text === '' ? null : millionthsOf(text, LIMITS.um);
  const bad = text !== '' && units === null;
  element(id).setAttribute('aria-invalid', String(bad));
  tellMeasure(bad ? whyNot(UM_BOXES[id], text, 'µm', LIMITS.um, unitsOf(kept)) : '');
  const next = units === null ? null : shownMillionths(units);
  if (!bad && next !== kept) changeReading(film, {[id]: next});
  else if (!bad) fillMeasureBoxes(film);
}

// The pitch by the line and its known length.
function takeKnown() {
  const film = filmReady();
  const {line, pitch} = readingOf(film);
  const text = element('known').value.trim();
  const length = millionthsOf(text, LIMITS.mm);
  if (!line) return tellMeasure('There is no line: lay one along the known length first.');
  if (length === null) return tellMeasure(whyNot('Length', text, 'mm', LIMITS.mm, null).replace(' There is none yet.', ''));
  const found = pitchFrom(line, length);
  if (found === null) return tellMeasure(`Over this line ${text} mm would be no pitch ${LIMITS.um.words} µm.`);
  tellMeasure('');
  if (shownMillionths(found) !== pitch) changeReading(film, {pitch: shownMillionths(found)});
}

function takeLineBox(id) {
  const film = filmReady();
  const {line} = readingOf(film);
  const text = element(id).value;
  const value = wholeOf(text);
  if (!line) return;
  const last = stepsOf(line);
  const change = {lanes: {lanes: value}, 'part-from': {from: value}, 'part-to': {to: value}}[id];
  const next = {...line, ...change};
  const good = value !== null && (id === 'lanes' ? lanesTaken(value) : next.from <= next.to && next.to <= last);
  element(id).setAttribute('aria-invalid', String(!good));
  tellMeasure(good ? '' : id === 'lanes' ? `Lanes: “${text}” is no odd number from 1 to 101. ${line.lanes} still counts.`
    : `“${text}” is no sample from ${id === 'part-from' ? `0 to ${line.to}` : `${line.from} to ${last}`}.`);
  if (good && id === 'lanes') measuring.lanes = value;
  if (good && Object.values(change)[0] !== line[Object.keys(change)[0]]) changeReading(film, {line: next});
}

export function fillMeasureBoxes(film) {
  const reading = readingOf(film);
  for (const id of Object.keys(UM_BOXES)) fillBox(id, reading[id] || '');
  const {line} = reading;
  if (!line) return;
  fillBox('lanes', String(line.lanes));
  fillBox('part-from', String(line.from));
  fillBox('part-to', String(line.to));
}

function fillBox(id, text) {
  const box = element(id);
  box.removeAttribute('aria-invalid');
  if (box.value !== text) box.value = text;
}

// ---- what tools place ----

function placedLine(film, first, last) {
  const line = {x0: first.x, y0: first.y, x1: last.x, y1: last.y, lanes: measuring.lanes, from: 0, to: 0};
  element('measure').open = true;
  changeReading(film, {line: {...line, to: stepsOf(line)}});
}

function placedRegion(film, first, last) {
  element('measure').open = true;
  changeReading(film, {region: rectangleOf(first.x, first.y, last.x, last.y)});
}

// ---- filling and wiring ----

// Enter takes a box, Escape leaves it as it was; neither reaches the page's other keys.
export function wireTyped(id, take, leave) {
  const box = element(id);
  box.addEventListener('change', take);
  box.addEventListener('keydown', event => {
    if (event.key !== 'Enter' && event.key !== 'Escape') return;
    event.preventDefault();
    event.stopPropagation();
    if (event.key === 'Enter') take();
    else {
      leave();
      box.blur();
    }
  });
}

// A part is filled again where the film is another one, or what was read of it.
function fillMeasurePart(film) {
  const reading = readingOf(film);
  const {filled} = measuring;
  if (filled.film === film && filled.reading === reading) return;
  measuring.filled = {film, reading};
  for (const control of element('measure').querySelectorAll('input, button')) control.disabled = !film;
  element('pitch-from').disabled = !reading.line;
  tellMeasure('');
  fillMeasureBoxes(film);
  if (film) wantMeasures();
  else fillMeasures(null, null);
  drawOverlays();
}

function typePitch() {
  element('measure').open = true;
  element('pitch').focus();
  element('pitch').select();
}

export function wireMeasures() {
  const leave = () => { tellMeasure(''); fillMeasureBoxes(filmReady()); };
  for (const id of Object.keys(UM_BOXES)) wireTyped(id, () => takeUm(id), leave);
  for (const id of LINE_BOXES) wireTyped(id, () => takeLineBox(id), leave);
  wireTyped('known', () => {}, () => { element('known').value = ''; });
  element('known').addEventListener('keydown', event => { if (event.key === 'Enter') takeKnown(); });
  element('pitch-from').onclick = takeKnown;
  // a plot that was folded away has no room to be drawn in
  element('measure').addEventListener('toggle', () => fillMeasures(filmReady(), measuring.told));
  onReading(film => { if (film === filmReady()) fillMeasurePart(film); });
  onPlaced({line: placedLine, region: placedRegion});
}

addSection({id: 'measure', title: 'Measure (scanned)', fill: fillMeasurePart,
  body: element('measure-template').content.firstElementChild});
addKey({keys: ['u'], what: 'type the pixel pitch', act: typePitch});
