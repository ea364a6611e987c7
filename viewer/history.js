// Undo and redo, for each film its own: one row of steps over settings, display, marks and whatever else is kept (parts.js).
import {parts} from './parts.js';

const MOST_STEPS = 200;
const SAME_HAND = 800; // ms in which changes of one thing are one step

function rowOf(film) {
  if (!film.history) film.history = {back: [], ahead: [], what: '', at: 0, changed: new Set()};
  return film.history;
}

export function snapshot(film) { return Object.fromEntries(parts.kept.map(part => [part.name, part.read(film)])); }

// To be called before something changes. what: its name; changes of one name in quick succession, as a slider makes them, are one
// step. part: which kept part it is, so that what is not saved is known.
export function keepStep(film, part, what, now = performance.now()) {
  const row = rowOf(film);
  const isSame = what !== '' && row.what === what && now - row.at < SAME_HAND && row.ahead.length === 0 && row.back.length > 0;
  row.what = what;
  row.at = now;
  row.changed.add(part);
  if (isSame) return;
  row.back.push({what, part, before: snapshot(film)});
  if (row.back.length > MOST_STEPS) row.back.shift();
  row.ahead = [];
}

function stepOver(film, from, to) {
  const step = from.pop();
  if (!step) return null;
  to.push({...step, before: snapshot(film)});
  for (const part of parts.kept) part.write(film, step.before[part.name]);
  film.history.what = '';
  film.history.changed.add(step.part);
  return step;
}

// Both give the step that was taken back or made again, or null.
export function undo(film) { return stepOver(film, rowOf(film).back, rowOf(film).ahead); }
export function redo(film) { return stepOver(film, rowOf(film).ahead, rowOf(film).back); }

export function canUndo(film) { return rowOf(film).back.length > 0; }
export function canRedo(film) { return rowOf(film).ahead.length > 0; }

// ---- what is not saved ----

// What was saved: the names of kept parts.
export function keptSaved(film, ...names) { for (const name of names) rowOf(film).changed.delete(name); }

export function isUnsaved(film) {
  return parts.kept.some(part => part.unsaved && rowOf(film).changed.has(part.name));
}
