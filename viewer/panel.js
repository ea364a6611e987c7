// The panel: settings of the rendering, and the display. Boxes hand any number to the library as it is typed;
// sliders stay within what it takes.
import {asking, pump, tellBusy} from './ask.js';
import {EDITIONS, LEAST_REGION, MOST_REGION, USUAL_BINS} from './calls.js';
import {element, setText} from './dom.js';
import {canRedo, canUndo, keepStep} from './history.js';
import {repaint} from './look.js';
import {FACTORS, MOST_WHOLE, binSteps, chosenBins, factorOf, nearestGrid, nearestStep, shownFactor,
  wholeOf} from './numbers.js';
import {addKept, parts} from './parts.js';
import {drawHistogram, shareOf} from './plots.js';
import {printG} from './record.js';
import {displayLow, displayOf} from './shades.js';
import {fillCaptions} from './show.js';
import {filmReady, state, want} from './state.js';

const KEY_STEPS = 5;
const USUAL_SIDE = 31; // of own regions, where none was chosen
const TYPING = 400; // ms without a key until a typed number is taken; Enter takes it at once
const SETTINGS = ['side', 'across', 'down', 'bins', 'min', 'max', 'factor'];
const DISPLAY = ['level', 'width'];
const MAPPED = ['factor', 'clip', 'edition']; // what maps the counts that are there
// To and fro are two steps for undo, however quick.
const SWITCHES = ['around', 'bins-chosen', 'clip', 'edition', 'invert', 'auto', 'reset'];
const NAMES = {side: 'Side', across: 'Grid across', down: 'Grid down', bins: 'Bins', min: 'Min', max: 'Max', factor: 'Factor',
  level: 'Level', width: 'Window'};

const typing = new Map(); // timers of boxes that are being typed into

// ---- what the film starts with ----

export function startSettings(film) {
  const across = nearestGrid(8, film.fits.across);
  const down = nearestGrid(8, film.fits.down);
  film.settings = {around: 0, side: USUAL_SIDE, across, down, bins: 0, min: 0, max: film.maxval, clip: 1, factor: 3, edition: 0};
  film.binsChosen = true;
  chooseBins(film);
  film.notes = [];
  if (across !== 8) film.notes.push(`8 tiles across do not fit into ${film.width} pixels: ${across} taken.`);
  if (down !== 8) film.notes.push(`8 tiles down do not fit into ${film.height} pixels: ${down} taken.`);
  film.display = wholeDisplay(film);
}

function wholeDisplay(film) {
  return {level: Math.floor((film.maxval + 1) / 2), width: film.maxval + 1, invert: false, auto: false};
}

// What undo brings back of them.
addKept({name: 'settings', unsaved: true, read: film => ({...film.settings, binsChosen: film.binsChosen}),
  write: (film, {binsChosen, ...settings}) => Object.assign(film, {settings, binsChosen})});
addKept({name: 'display', unsaved: false, read: film => ({...film.display}),
  write: (film, display) => { film.display = {...display}; }});

// The rendering may reach above the file's maxval where the range does.
export function mostLevel(film) { return Math.max(film.maxval, Math.min(4095, film.settings.max)); }

// ---- a setting changes ----

// act changes the settings of a film, or its display: one step for undo, and then it is seen. what: its name, by which changes in
// quick succession are one step.
export function changeSettings(film, what, event, act) {
  keepStep(film, 'settings', SWITCHES.includes(what) ? '' : what);
  act(film.settings);
  chooseBins(film);
  if (film === state.film) want('draw', MAPPED.includes(what) ? 'factor' : 'settings', event);
  else pump(); // it may be seen beside the one that is looked at
  fillPanel();
}

function chooseBins(film) {
  if (film.binsChosen) film.settings.bins = chosenBins(film.settings, film);
}

export function changeDisplay(film, what, event, act) {
  keepStep(film, 'display', SWITCHES.includes(what) ? '' : what);
  act(film.display);
  repaint('display', event);
  fillCaptions();
  fillDisplay(film);
  fillSteps(film);
}

function change(id, value, event) {
  const film = filmReady();
  if (!film) return;
  element(id).removeAttribute('aria-invalid');
  if (DISPLAY.includes(id)) {
    return changeDisplay(film, id, event, display => { display[id] = id === 'width' ? Math.max(1, value) : value; });
  }
  changeSettings(film, id, event, settings => {
    settings[id] = value;
    if (id === 'factor') settings.clip = 1; // who sets a factor wants it to count
    if (id === 'bins') film.binsChosen = false;
  });
}

function changeRange(min, max, event) {
  changeSettings(state.film, 'range', event, settings => Object.assign(settings, {min, max}));
}

export function changeClip(on, event) {
  const film = filmReady();
  if (film) changeSettings(film, 'clip', event, settings => { settings.clip = on ? 1 : 0; });
}

// By the tiles of a grid, or by each pixel's own region. What was set of either stays for when it is chosen again.
export function changeAround(on, event) {
  const film = filmReady();
  if (film && Boolean(film.settings.around) !== on) {
    changeSettings(film, 'around', event, settings => { settings.around = on ? 1 : 0; });
  }
}

// By the keys: the next odd side, smaller or larger.
export function stepSide(way, event) {
  const film = filmReady();
  if (!film || !film.settings.around) return;
  const side = film.settings.side + (film.settings.side % 2 ? 2 * way : way);
  change('side', Math.max(LEAST_REGION, Math.min(MOST_REGION, side)), event);
}

// edition: its place in EDITIONS. The bins stay, so nothing is counted anew.
export function changeEdition(edition, event) {
  const film = filmReady();
  if (film && film.settings.edition !== edition) {
    changeSettings(film, 'edition', event, settings => { settings.edition = edition; });
  }
}

// By the keys: some steps of the slider down or up.
export function stepFactor(way, event) {
  const film = state.film;
  if (!film || !film.ready) return;
  const step = nearestStep(FACTORS, film.settings.factor) + way * KEY_STEPS;
  change('factor', FACTORS[Math.max(0, Math.min(FACTORS.length - 1, step))], event);
}

// ---- the display ----

export function resetDisplay(event) {
  const film = filmReady();
  if (film) changeDisplay(film, 'reset', event, display => Object.assign(display, wholeDisplay(film), {auto: display.auto}));
}

export function setInvert(on, event) {
  const film = filmReady();
  if (film) changeDisplay(film, 'invert', event, display => { display.invert = on; });
}

export function setAuto(on, event) {
  const film = filmReady();
  if (film) changeDisplay(film, 'auto', event, display => { display.auto = on; });
}

// By dragging: up is brighter, right is wider. A pointer may move by parts of a dot: what is less than a grey is left for later.
const carried = {level: 0, width: 0};

export function moveDisplay(x, y, event) {
  const film = state.film;
  const most = mostLevel(film);
  const grain = Math.max(1, Math.round(most / 512));
  const moved = (id, by) => {
    carried[id] += by * grain;
    const whole = Math.trunc(carried[id]);
    carried[id] -= whole;
    return whole;
  };
  const {level, width} = film.display;
  const to = {level: Math.max(0, Math.min(most, level + moved('level', y))),
    width: Math.max(1, Math.min(most + 1, width + moved('width', x)))};
  if (to.level === level && to.width === width) return;
  changeDisplay(film, 'drag', event, display => Object.assign(display, to));
}

// ---- boxes ----

function readBox(id) { return id === 'factor' ? factorOf(element(id).value) : wholeOf(element(id).value); }

// What is typed is taken now, or not at all.
function stopTyping(id) {
  clearTimeout(typing.get(id));
  typing.delete(id);
  asking.due.delete(id);
}

function takeBox(id, event) {
  stopTyping(id);
  const film = filmReady();
  if (!film) return tellBusy();
  const value = readBox(id);
  const held = DISPLAY.includes(id) ? film.display[id] : film.settings[id];
  if (value !== null) element(id).removeAttribute('aria-invalid');
  if (value === null) tellTyped(id, held);
  else if (!Object.is(value, held) || rests(id, film)) change(id, value, event);
  else fillPanel();
  tellBusy();
}

// Leaves a box as it was.
export function dropTyped(id) {
  stopTyping(id);
  element(id).removeAttribute('aria-invalid');
  fillPanel();
  tellBusy();
}

export function forgetTyping() {
  for (const id of [...typing.keys()]) stopTyping(id);
  for (const box of document.querySelectorAll('.box')) box.removeAttribute('aria-invalid');
  element('typed-note').hidden = true;
}

// A number that does not count now counts again when it is given once more.
function rests(id, film) { return (id === 'bins' && film.binsChosen) || (id === 'factor' && film.settings.clip === 0); }

// Text that is no number never reaches the library; what was asked before goes on to count, and that is said.
function tellTyped(id, held) {
  const kind = id === 'factor' ? 'no number' : 'no whole number from 0 to 4294967295';
  element(id).setAttribute('aria-invalid', 'true');
  element('typed-note').textContent =
    `${NAMES[id]}: “${element(id).value}” is ${kind}. ${shownNumber(id, held)} still counts.`;
  element('typed-note').hidden = false;
}

function typed(id, event) {
  clearTimeout(typing.get(id));
  asking.due.add(id);
  typing.set(id, setTimeout(() => takeBox(id, event), TYPING));
  tellBusy();
}

function boxKey(id, event) {
  if (event.key === 'Enter') takeBox(id, event);
  const way = {ArrowUp: 1, ArrowDown: -1}[event.key];
  if (!way) return;
  event.preventDefault();
  const value = readBox(id);
  if (value === null) return;
  stopTyping(id);
  if (id === 'factor') stepFactor(way, event);
  else if (id === 'side') stepSide(way, event);
  else change(id, Math.max(0, Math.min(MOST_WHOLE, value + way)), event);
  tellBusy();
}

function shownNumber(id, value) { return id === 'factor' ? shownFactorBox(value) : String(value); }

// The fewest digits that stand for the same 32-bit float.
function shownFactorBox(factor) {
  for (let digits = 1; digits <= 9; digits++) {
    const text = String(Number(factor.toPrecision(digits)));
    if (Math.fround(Number(text)) === Math.fround(factor)) return text;
  }
  return String(factor);
}

// ---- sliders ----

function mostBins(film) {
  const greys = film.settings.max - film.settings.min + 1;
  return Math.max(2, Math.min(4096, greys));
}

function slid(id, event) {
  const film = state.film;
  if (!film || !film.ready) return;
  const step = Number(element(`${id}-slider`).value);
  const ways = {
    side: () => LEAST_REGION + 2 * step,
    across: () => film.fits.across[step],
    down: () => film.fits.down[step],
    bins: () => binSteps(mostBins(film))[step],
    factor: () => FACTORS[step],
  };
  change(id, ways[id] ? ways[id]() : step, event);
}

function setSlider(id, min, max, value) {
  const slider = element(`${id}-slider`);
  slider.min = min;
  slider.max = max;
  slider.value = value;
}

// ---- the ends of the range ----

// What each end may be without a refusal: all pixels inside, and as many greys as bins where these were set by hand.
function endLimits(film) {
  const {min, max, bins} = film.settings;
  const apart = film.binsChosen ? 1 : Math.max(1, (bins || USUAL_BINS) - 1);
  return {
    min: {from: 0, to: Math.max(0, Math.min(film.least, max - apart))},
    max: {from: Math.min(film.maxval, Math.max(film.greatest, min + apart)), to: film.maxval},
  };
}

function moveEnd(id, grey, event) {
  const film = state.film;
  if (!film || !film.ready) return;
  const {from, to} = endLimits(film)[id];
  const held = Math.max(from, Math.min(to, Math.round(grey)));
  if (held !== film.settings[id]) change(id, held, event);
}

function endDragged(id, event) {
  if (!state.film || !state.film.ready || event.buttons !== 1) return;
  const box = element('histogram').getBoundingClientRect();
  moveEnd(id, (event.clientX - box.left) / (box.width - 1) * mostLevel(state.film), event);
}

function endKey(id, event) {
  const steps = {ArrowLeft: -1, ArrowDown: -1, ArrowRight: 1, ArrowUp: 1, Home: -4096, End: 4096};
  const step = steps[event.key];
  if (!step || !state.film || !state.film.ready) return;
  event.preventDefault();
  event.stopPropagation();
  moveEnd(id, state.film.settings[id] + step * (event.shiftKey ? 16 : 1), event);
}

function wireEnd(id, handle) {
  const end = element(handle);
  end.addEventListener('pointerdown', event => end.setPointerCapture(event.pointerId));
  end.addEventListener('pointermove', event => endDragged(id, event));
  end.addEventListener('keydown', event => endKey(id, event));
}

// ---- filling the panel ----

export function fillPanel() {
  const film = state.film;
  const ready = Boolean(film && film.ready);
  for (const part of document.querySelectorAll('#settings-part, #display-part')) {
    for (const control of part.querySelectorAll('input, button')) control.disabled = !ready;
  }
  fillHead(film);
  for (const section of parts.sections) section.fill(ready ? film : null);
  fillSteps(ready ? film : null);
  element('copy').disabled = !ready;
  if (!ready) return emptyPanel();
  fillBoxes(film);
  fillSliders(film);
  fillDisplay(film);
  fillEnds(film);
  drawHistogram(film);
}

// Whether there is something to undo and to redo.
function fillSteps(film) {
  element('undo').disabled = !film || !canUndo(film);
  element('redo').disabled = !film || !canRedo(film);
}

function emptyPanel() {
  for (const id of [...SETTINGS, ...DISPLAY]) element(id).value = '';
  for (const id of ['film-size', 'film-greys', 'bins-note', 'display-note', 'auto-note']) element(id).textContent = '';
  for (const id of ['range-low', 'range-high']) element(id).style.display = 'none';
  element('typed-note').hidden = true;
  fillEdition(null);
  fillAround(null);
  drawHistogram(null);
}

function notesOf(film) {
  return film.settings.max <= film.maxval ? film.notes
    : [...film.notes, `Max is above the file's maxval: a rendering that goes above ${film.maxval} is not written.`];
}

function fillHead(film) {
  setText('film-name', film ? film.name : 'no film');
  element('film-name').title = film ? film.name : '';
  setText('film-number', film ? `film ${film.number}` : '');
  setText('film-note', film && film.ready ? notesOf(film).join(' ') : '');
  element('film-note').hidden = element('film-note').textContent === '';
  if (!film || !film.ready) return;
  setText('film-size', `${film.width} × ${film.height}, maxval ${film.maxval},`);
  setText('film-greys', `greys ${film.least} to ${film.greatest}`);
}

// A box that is being typed into, or holds text that is no number, keeps its text.
function fillNumber(id, value) {
  const box = element(id);
  if (!typing.has(id) && box.getAttribute('aria-invalid') !== 'true') box.value = shownNumber(id, value);
}

function fillTypedNote() {
  if (!document.querySelector('.box[aria-invalid="true"]')) element('typed-note').hidden = true;
}

function fillBoxes(film) {
  const {settings} = film;
  for (const id of SETTINGS) fillNumber(id, settings[id]);
  element('bins-chosen').checked = film.binsChosen;
  setText('bins-note', film.binsChosen ? `bins chosen by the range ${settings.min} to ${settings.max}`
    : 'let the range choose the bins');
  element('clip').checked = settings.clip === 1;
  fillEdition(settings.edition);
  fillAround(settings.around);
  for (const id of ['factor', 'factor-slider', 'edition-set']) element(id).classList.toggle('idle', settings.clip === 0);
}

// Level, window and the rest of the display: all that moves while they are dragged.
function fillDisplay(film) {
  const {display} = film;
  const most = mostLevel(film);
  for (const id of DISPLAY) fillNumber(id, display[id]);
  setSlider('level', 0, most, display.level);
  setSlider('width', 1, most + 1, display.width);
  fillTypedNote();
  element('invert').checked = display.invert;
  element('auto').checked = display.auto;
  setText('display-note', endsOf(display));
  setText('auto-note', display.auto ? endsOf(displayOf(film, 'scanned')) : '');
}

// edition: its place in EDITIONS, or null.
function fillEdition(edition) {
  EDITIONS.forEach((name, i) => element(`edition-${name}`).setAttribute('aria-pressed', String(edition === i)));
}

// around: 1 for own regions, 0 for a grid, or null.
function fillAround(around) {
  element('by-grid').setAttribute('aria-pressed', String(around === 0));
  element('by-region').setAttribute('aria-pressed', String(around === 1));
  for (const row of document.querySelectorAll('.of-grid')) row.hidden = around === 1;
  for (const row of document.querySelectorAll('.of-regions')) row.hidden = around !== 1;
}

// Which greys are black and white.
export function endsOf(display) {
  const low = displayLow(display);
  const [dark, light] = display.invert ? ['white', 'black'] : ['black', 'white'];
  return `${dark} ${low}, ${light} ${low + display.width - 1}`;
}

function fillSliders(film) {
  const {settings, fits} = film;
  for (const id of ['across', 'down']) {
    setSlider(id, 0, Math.max(0, fits[id].length - 1), fits[id].indexOf(nearestGrid(settings[id], fits[id])));
    element(`${id}-slider`).disabled = fits[id].length === 0;
    element(`${id}-slider`).setAttribute('aria-valuetext', `${settings[id]} tiles`);
  }
  setSlider('side', 0, (MOST_REGION - LEAST_REGION) / 2, Math.round((settings.side - LEAST_REGION) / 2));
  element('side-slider').setAttribute('aria-valuetext', `side ${settings.side}`);
  const bins = binSteps(mostBins(film));
  setSlider('bins', 0, bins.length - 1, nearestStep(bins, settings.bins || USUAL_BINS));
  element('bins-slider').setAttribute('aria-valuetext', `${settings.bins} bins`);
  setSlider('factor', 0, FACTORS.length - 1, nearestStep(FACTORS, settings.factor));
  element('factor-slider').setAttribute('aria-valuetext', settings.clip ? `factor ${settings.factor}` : 'clip off');
}

function fillEnds(film) {
  for (const [id, handle] of [['min', 'range-low'], ['max', 'range-high']]) {
    const end = element(handle);
    const limits = endLimits(film)[id];
    end.style.display = 'block';
    end.style.left = `calc(${shareOf(film, film.settings[id])} * (100% - 1px))`;
    end.setAttribute('aria-valuemin', limits.from);
    end.setAttribute('aria-valuemax', limits.to);
    end.setAttribute('aria-valuenow', film.settings[id]);
  }
}

// ---- footer ----

export function fillFooter(footer, settings, film) {
  const texts = footer ? [String(footer.limit), shownFactor(footer.asked), shownFactor(footer.used)] : ['', '', ''];
  ['limit', 'asked', 'used'].forEach((id, i) => setText(`footer-${id}`, texts[i]));
  element('footer-asked').title = footer ? printG(footer.asked, 9) : '';
  element('footer-used').title = footer ? printG(footer.used, 17) : '';
  setText('footer-note', footer ? footerNote(footer, settings, film) : '');
}

function footerNote(footer, settings, film) {
  if (!settings.clip) return 'clip off: contrast is raised without a limit';
  if (footer.asked === 1) return 'factor 1.0: the film unchanged';
  const notes = [];
  const what = settings.around ? 'region' : 'tile';
  if (footer.used > footer.asked) notes.push(`used is above asked: no lower limit holds a ${what}'s pixels`);
  if (settings.around) notes.push(regionNote(settings, film));
  else if (film.width % settings.across || film.height % settings.down) notes.push('tiles differ: L and used are the first one\'s');
  return notes.filter(Boolean).join('; ');
}

function regionNote({side}, {width, height}) {
  return Math.max(width, height) > (side >> 1) + 1 ? 'L and used are those of column 0, row 0' : '';
}

// ---- wiring ----

export function wirePanel() {
  for (const id of [...SETTINGS, ...DISPLAY]) {
    element(id).addEventListener('input', event => typed(id, event));
    element(id).addEventListener('change', event => takeBox(id, event));
    element(id).addEventListener('keydown', event => boxKey(id, event));
    const slider = element(`${id}-slider`);
    if (slider) slider.addEventListener('input', event => slid(id, event));
  }
  element('bins-chosen').onchange = event => changeSettings(state.film, 'bins-chosen', event, () => {
    state.film.binsChosen = event.target.checked;
  });
  element('by-grid').onclick = event => changeAround(false, event);
  element('by-region').onclick = event => changeAround(true, event);
  element('clip').onchange = event => changeClip(event.target.checked, event);
  EDITIONS.forEach((name, i) => { element(`edition-${name}`).onclick = event => changeEdition(i, event); });
  element('range-all').onclick = event => changeRange(0, state.film.maxval, event);
  element('range-film').onclick = event => {
    const {least, greatest, maxval} = state.film;
    changeRange(least < greatest ? least : 0, least < greatest ? greatest : maxval, event);
  };
  element('invert').onchange = event => setInvert(event.target.checked, event);
  element('auto').onchange = event => setAuto(event.target.checked, event);
  element('display-reset').onclick = resetDisplay;
  wireEnd('min', 'range-low');
  wireEnd('max', 'range-high');
}
