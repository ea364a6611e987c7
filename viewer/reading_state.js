// What was read of a film: pitch, basic resolution, line, region and marks. A value that is never changed in place: each change
// makes a new one, so that undo puts an earlier one back whole.
import {keepStep} from './history.js';
import {addKept} from './parts.js';

export const EMPTY_READING = Object.freeze({pitch: null, resolution: null, line: null, region: null, marks: [], chosen: null});

const readingHooks = [];

export function readingOf(film) { return film && film.reading ? film.reading : EMPTY_READING; }

// Called with the film behind each change.
export function onReading(changed) { readingHooks.push(changed); }

function tellReading(film) { for (const changed of readingHooks) changed(film); }

// what: changes of one name in quick succession are one step for undo.
export function changeReading(film, change, what = '') {
  keepStep(film, 'reading', what);
  film.reading = {...readingOf(film), ...change};
  tellReading(film);
}

// Which mark is chosen is no change of the reading: nothing to undo.
export function chooseMark(film, number) {
  film.reading = {...readingOf(film), chosen: number};
  tellReading(film);
}

export function hasReading(film) {
  const {pitch, resolution, line, region, marks} = readingOf(film);
  return Boolean(pitch || resolution || line || region || marks.length > 0);
}

addKept({name: 'reading', unsaved: true, read: readingOf, write: (film, kept) => { film.reading = kept; }});
