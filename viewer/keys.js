// Keys: what the list of keys says, wherever the focus is. Where text is typed, letters and digits are text; on a slider, a
// divider or an end of the range the arrows, Home and End are its own. Enter presses the button or switch that has the focus.
import {element, made} from './dom.js';
import {look, pan} from './look.js';
import {dropTyped} from './panel.js';
import {parts} from './parts.js';
import {toolCancelled, toolMoved, toolPressed} from './pointer.js';
import {moveReading} from './reading.js';
import {filmReady} from './state.js';

const ARROWS = {ArrowLeft: [-1, 0], ArrowRight: [1, 0], ArrowUp: [0, -1], ArrowDown: [0, 1]};
const OF_SLIDERS = [...Object.keys(ARROWS), 'Home', 'End'];
const PAN_SHARE = 8; // an arrow key moves by this part of the pane
const TYPED = 'input[type="text"], input[type="number"], textarea, select';

// The keys that are acted on here, as the list has them.
const HERE = [
  {names: ['arrows'], what: 'move the film (also by dragging)'},
  {names: ['Shift arrows'], what: 'move the reading by one pixel'},
  {names: ['Enter'], what: 'press what has the focus; in a box: take the number; on the film: the tool begins, ends'},
  {names: ['Esc'], what: 'close a list; leave a box; cancel, then leave the tool'},
];

const SHOWN = {' ': 'Space', Escape: 'Esc', 'ctrl+z': 'Ctrl Z', 'ctrl+y': 'Ctrl Y', 'ctrl+shift+z': 'Ctrl Shift Z'};

function arrow(event) {
  const [x, y] = ARROWS[event.key];
  event.preventDefault();
  if (event.shiftKey) return toolMoved(moveReading(x, y), event);
  const step = look.pane ? Math.round(Math.min(look.pane.width, look.pane.height) / PAN_SHARE) : 0;
  pan(-x * step, -y * step, event);
}

function nameOf(event) {
  const key = event.key.length === 1 ? event.key.toLowerCase() : event.key;
  return event.ctrlKey || event.metaKey ? `ctrl+${event.shiftKey ? 'shift+' : ''}${key}` : key;
}

// A text has an undo of its own; a box with a number has the page's.
function isTyped(event) {
  if (!event.target.matches(TYPED)) return false;
  if (event.ctrlKey || event.metaKey) return !event.target.classList.contains('box') || OF_SLIDERS.includes(event.key);
  return event.key.length === 1 || [...OF_SLIDERS, 'Enter', 'Delete', 'Backspace'].includes(event.key);
}

function escape(event) {
  if (event.target.classList.contains('box')) dropTyped(event.target.id);
  if (event.target.matches(TYPED)) event.target.blur();
  toolCancelled();
}

// The stage begins and ends what the tool does; a switch is turned, as a button is pressed by the browser.
function enter(event) {
  if (event.target.matches('[type="checkbox"]')) event.target.click();
  else if (event.target === element('stage')) toolPressed(event);
}

function isItsOwn(event) { return OF_SLIDERS.includes(event.key) && event.target.matches('[type="range"], [role="slider"]'); }

function pressedKey(event) {
  if (event.altKey || document.querySelector('dialog[open]')) return;
  if (event.key === 'Escape') return escape(event);
  if (isItsOwn(event) || isTyped(event)) return;
  if (event.key === 'Enter') return enter(event);
  if (ARROWS[event.key] && !event.ctrlKey && !event.metaKey) return arrow(event);
  const found = parts.keys.find(key => key.keys.includes(nameOf(event)));
  if (!found || !(found.bare || filmReady())) return;
  event.preventDefault();
  found.act(event);
}

// A key that is let go would press a button that has the focus.
function letGo(event) {
  if (event.key === ' ' && !document.querySelector('dialog[open]') && !event.target.matches(TYPED)) event.preventDefault();
}

// ---- the list ----

function nameCell(names) {
  return made('td', {}, ...names.flatMap(name => [...name.split('  ').map(part => made('kbd', {textContent: part})), ' ']));
}

export function fillKeys() {
  const namesOf = key => key.names || key.keys.map(name => SHOWN[name] || name);
  const entries = [...parts.keys.map(key => ({names: namesOf(key), what: key.what})), ...HERE];
  const high = Math.ceil(entries.length / 3);
  const rows = Array.from({length: high}, (_, i) => made('tr', {},
    ...[entries[i], entries[i + high], entries[i + 2 * high]].filter(Boolean)
      .flatMap(({names, what}) => [nameCell(names), made('td', {textContent: what})])));
  element('keys-list').replaceChildren(...rows);
}

export function wireKeys() {
  addEventListener('keydown', pressedKey);
  addEventListener('keyup', letGo);
}
