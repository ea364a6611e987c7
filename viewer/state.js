// What the page wants to show: the newest state is what is asked for next.
import {pump} from './ask.js';

// What the key for it goes through: none, the tile that the pixel lies in, the tiles that its rule uses.
export const OUTLINED = ['none', 'tile', 'used'];

export const state = {
  films: [],
  film: null, // the one that is looked at
  at: null, // the pixel that is read, {x, y, frame}
  probe: null, // what was read there
  tile: null,
  outlined: 'none', // which tiles are outlined: one of OUTLINED
  version: '',
};

// How often each part was wished for, and which of these wishes was sent last.
export const wanted = {draw: 0, drawn: 0, probe: 0, probed: 0, marks: []};

export function want(part, what, event) {
  wanted[part]++;
  if (what) wanted.marks.push({what, at: event ? event.timeStamp : performance.now()});
  pump();
}

// The film that is looked at, where it can be: opened, and not refused as a file.
export function filmReady() { return state.film && state.film.ready ? state.film : null; }
