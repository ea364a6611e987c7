// Indications marked on a film: a list of plain values that is never changed in place, so that any earlier list can be put
// back. Functions of values alone; what is drawn and typed is marks_panel.js.
import {isWholeNumber, lengthMm, rectangleInside, regionOf, sumsOf} from './measure.js';

// The usual list, by the numbers of ISO 6520-1.
export const MARK_KINDS = [
  ['100', 'crack'],
  ['401', 'lack of fusion'],
  ['402', 'lack of penetration'],
  ['2011', 'gas pore'],
  ['2012', 'uniformly distributed porosity'],
  ['2013', 'clustered porosity'],
  ['2014', 'linear porosity'],
  ['2015', 'elongated cavity'],
  ['2016', 'wormhole'],
  ['301', 'slag inclusion'],
  ['501', 'undercut'],
  ['other', 'other'],
].map(([id, name]) => ({id, name}));

export const MOST_MARKS = 500;
export const MOST_TEXT = 500;
const MOST_NUMBER = 99999;
const LEAST_MARGIN = 24; // pixels around a mark in its picture
const PICTURE_SIDE = 512; // dots; a larger part is shown by means of blocks

export function kindName(id) {
  const kind = MARK_KINDS.find(each => each.id === id);
  return kind ? kind.name : '';
}

// The kind as it is written: its number, where it has one, and its name.
export function kindText(id) { return id === 'other' ? 'other' : `${id} ${kindName(id)}`; }

// One line without what no line holds, and not too long.
export function sentenceOf(text) {
  return text.replace(/[\u0000-\u001f\u007f-\u009f\u2028\u2029]+/g, ' ').slice(0, MOST_TEXT).toWellFormed().trim();
}

// ---- the list ----

export function markNumbered(marks, number) { return marks.find(mark => mark.number === number) || null; }

// The number of a new mark: above every one that the film's marks ever had.
export function nextMarkNumber(marks, last) { return Math.max(last, 0, ...marks.map(mark => mark.number)) + 1; }

export function withNewMark(marks, mark) { return [...marks, mark]; }

export function withChangedMark(marks, number, change) {
  return marks.map(mark => mark.number === number ? {...mark, ...change} : mark);
}

export function withoutMark(marks, number) { return marks.filter(mark => mark.number !== number); }

// The number of the mark behind or before this one, round the list; of the first where none is chosen.
export function markBeside(marks, number, way) {
  if (marks.length === 0) return null;
  const at = marks.findIndex(mark => mark.number === number);
  if (at < 0) return marks[way > 0 ? 0 : marks.length - 1].number;
  return marks[(at + way + marks.length) % marks.length].number;
}

// ---- the rectangle ----

function within(value, least, most) { return Math.max(least, Math.min(most, value)); }

// Moved as far as the film goes.
export function movedBox(film, box, x, y) {
  return {left: within(box.left + x, 0, film.width - box.width), top: within(box.top + y, 0, film.height - box.height),
    width: box.width, height: box.height};
}

// Its right and lower edge moved, as far as the film goes and a pixel is left.
export function grownBox(film, box, x, y) {
  return {left: box.left, top: box.top, width: within(box.width + x, 1, film.width - box.left),
    height: within(box.height + y, 1, film.height - box.top)};
}

export function boxOf({left, top, width, height}) { return {left, top, width, height}; }

// ---- what is wrong with marks that come from a file ----

// A sentence, or null where the mark is one of this film.
export function judgedMark(film, mark) {
  if (typeof mark !== 'object' || mark === null) return 'A mark is none.';
  const known = isWholeNumber(mark.number) && mark.number >= 1 && mark.number <= MOST_NUMBER;
  if (!known) return `A mark has the number ${JSON.stringify(mark.number)}.`;
  const name = `Mark ${mark.number}`;
  if (!kindName(mark.kind)) return `${name} has a kind that is not on the list: ${JSON.stringify(mark.kind)}.`;
  if (typeof mark.text !== 'string' || sentenceOf(mark.text) !== mark.text) return `${name} has a sentence that is none.`;
  if (rectangleInside(film, mark)) return null;
  const [left, top, width, height] = [mark.left, mark.top, mark.width, mark.height].map(each => JSON.stringify(each));
  return `${name} lies outside the film: column ${left}, row ${top}, ${width} by ${height} pixels, and the film has ` +
    `${film.width} by ${film.height}.`;
}

export function judgedMarks(film, marks) {
  if (!Array.isArray(marks)) return 'There is no list of marks.';
  if (marks.length > MOST_MARKS) return `There are ${marks.length} marks; at most ${MOST_MARKS} are taken.`;
  const fault = marks.map(mark => judgedMark(film, mark)).find(Boolean);
  if (fault) return fault;
  const twice = marks.find((mark, i) => marks.findIndex(other => other.number === mark.number) !== i);
  return twice ? `Two marks have the number ${twice.number}.` : null;
}

// ---- what is measured of a mark ----

// film: with its scanned greys; pitch and resolution in pm, or null. Place and size in mm, and the greys of its rectangle.
export function measuredMark(film, mark, pitch, resolution) {
  const mm = pitch === null ? null : Object.fromEntries(Object.entries(boxOf(mark)).map(([side, pixels]) =>
    [side, lengthMm(pixels, pitch)]));
  return {mm, scanned: regionOf(sumsOf(film, mark), resolution)};
}

// The part of the film that a mark's picture shows: the mark and half its size, but at least some pixels, on each side; cut
// where the film's blocks are.
export function markPicture(film, mark) {
  const margin = side => Math.max(LEAST_MARGIN, Math.ceil(side / 2));
  const left = Math.max(0, mark.left - margin(mark.width));
  const top = Math.max(0, mark.top - margin(mark.height));
  const right = Math.min(film.width, mark.left + mark.width + margin(mark.width));
  const bottom = Math.min(film.height, mark.top + mark.height + margin(mark.height));
  const side = Math.max(right - left, bottom - top);
  const block = [1, 2, 4].find(each => side <= each * PICTURE_SIDE) || 4;
  const down = at => Math.floor(at / block) * block;
  const up = (at, most) => Math.min(most, Math.ceil(at / block) * block);
  return {left: down(left), top: down(top), width: up(right, film.width) - down(left),
    height: up(bottom, film.height) - down(top), block};
}
