// What a module may ask of the worker: greys of a window, and a film's digest. Each wait is answered once, behind what is to be
// shown.
import {pump} from './ask.js';

const waits = [];

function asked(film, message) {
  return new Promise((done, failed) => {
    waits.push({film, message, done, failed});
    pump();
  });
}

// Scanned and rendered greys of a window {left, top, width, height} inside the film, with the film's settings as they are now:
// {scanned, rendered, settings, footer}, the greys as Uint16Arrays row by row. A refusal fails with its sentence.
export function greysOf(film, window) {
  const settings = {...film.settings};
  return asked(film, {kind: 'greys', window, settings}).then(({scanned, rendered, footer}) =>
    ({scanned: new Uint16Array(scanned), rendered: new Uint16Array(rendered), settings, footer}));
}

// The SHA-256 of the film's file.
export function filmDigest(film) { return asked(film, {kind: 'digest'}).then(({digest}) => digest); }

export function dueGreys() {
  while (waits.length > 0 && waits[0].film.closed) waits.shift().failed(new Error('the film is closed'));
  if (waits.length === 0) return null;
  const wait = waits.shift();
  const {film, message, done, failed} = wait;
  return {
    message: {...message, number: film.number},
    slow: `reading ${film.name}`,
    again: () => waits.unshift(wait),
    done: answer => {
      if (answer.refusal) failed(new Error(`Refused, ${answer.refusal.number}: ${answer.refusal.sentence}`));
      else if (answer.fault) failed(new Error(answer.fault));
      else done(answer);
    },
  };
}
