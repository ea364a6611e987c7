// The report of a reading, as text: written, sealed, read again and judged. Functions of values alone. Its form is in
// docs/MEASURE.md: the record of the rendering, one member more, and a digest over all that stands before it.
import {EDITIONS} from './calls.js';
import {boxOf, judgedMarks, kindName, measuredMark} from './marks.js';
import {LIMITS, dipOf, distanceMm, distancePixels, lanesTaken, millionthsOf, pixelInside, profileOf, rectangleInside,
  shownMillionths, shownSamples, squaredOf, stepsOf} from './measure.js';

export const REPORT_FORM = 2;
const FIRST_FORM = 1; // of when there was one edition of the clip rule: settings do not name it, and the report's is its program's
const FIRST_EDITION = 'tzofnadir';
const RECORD_END = '\n}\n';
const SEAL = /^([^]*,\n) {2}"report_sha256": "([0-9a-f]{64})"\n\}\n$/;

// ---- numbers and texts ----

// A number with all its digits, as it is shown.
class Digits {
  constructor(text) { this.text = text; }
}

export function digitsOf(text) { return text === null ? null : new Digits(text); }

function jsonOf(value, indent) {
  if (value instanceof Digits) return value.text;
  if (Array.isArray(value)) return jsonList(value, indent);
  if (typeof value !== 'object' || value === null) return JSON.stringify(value);
  const inner = `${indent}  `;
  const members = Object.entries(value).map(([name, each]) => `${inner}${JSON.stringify(name)}: ${jsonOf(each, inner)}`);
  return `{\n${members.join(',\n')}\n${indent}}`;
}

// Numbers stand in one line.
function jsonList(list, indent) {
  if (list.every(each => each instanceof Digits)) return `[${list.map(each => each.text).join(', ')}]`;
  const inner = `${indent}  `;
  return `[\n${list.map(each => inner + jsonOf(each, inner)).join(',\n')}\n${indent}]`;
}

// ---- what is told ----

export function unitsOf(text) { return text === null ? null : millionthsOf(text, LIMITS.um); }

function greysTold(told) {
  return {pixels: told.pixels, least: told.least, greatest: told.greatest, mean: digitsOf(told.mean),
    deviation: digitsOf(told.deviation), snr: digitsOf(told.snr), snr_n: digitsOf(told.snrN)};
}

function mmTold(mm) { return mm && Object.fromEntries(Object.entries(mm).map(([side, text]) => [side, digitsOf(text)])); }

function dipTold({at, a, b, c, percent}) {
  return {at, a: digitsOf(a), b: digitsOf(b), c: digitsOf(c), percent: digitsOf(percent)};
}

// film: with its scanned greys. line: {x0, y0, x1, y1, lanes, from, to}.
function lineTold(film, line, pitch) {
  if (!line) return null;
  const profile = profileOf(film, line, line.lanes);
  const found = line.to - line.from >= 2 ? dipOf(profile, line.from, line.to) : null;
  return {...line, distance_pixels: digitsOf(distancePixels(line)),
    distance_mm: pitch === null ? null : digitsOf(distanceMm(line, pitch)),
    samples: shownSamples(profile).map(digitsOf),
    dip: found && dipTold(found)};
}

function boxTold(film, box, pitch, resolution) {
  const told = measuredMark(film, box, pitch, resolution);
  return {...boxOf(box), mm: mmTold(told.mm), scanned: greysTold(told.scanned)};
}

function markTold(film, mark, pitch, resolution, picture) {
  const {mm, scanned, ...box} = boxTold(film, mark, pitch, resolution);
  return {number: mark.number, kind: mark.kind, name: kindName(mark.kind), ...box, mm, scanned, text: mark.text, picture};
}

// What a report of a form says of its edition, and whether its record does.
function editionTold(form, edition) { return form === FIRST_FORM ? FIRST_EDITION : EDITIONS[edition]; }
export function namesEdition(form) { return form !== FIRST_FORM; }

// All that a report tells beside the record. reading: {display, pitch, resolution, line, region, marks}, pitch and resolution as
// typed; pictures: for each mark {left, top, width, height, block, scanned, rendered}, the last two as PNG in base64.
export function toldOf(film, reading, pictures, edition, form = REPORT_FORM) {
  const pitch = unitsOf(reading.pitch);
  const resolution = unitsOf(reading.resolution);
  const units = value => value === null ? null : digitsOf(shownMillionths(value));
  return {
    form, edition: editionTold(form, edition), measured: 'scanned', display: {...reading.display},
    pitch_um: units(pitch), resolution_um: units(resolution),
    line: lineTold(film, reading.line, pitch),
    region: reading.region && boxTold(film, reading.region, pitch, resolution),
    marks: reading.marks.map((mark, i) => markTold(film, mark, pitch, resolution, pictures[i])),
  };
}

// ---- written ----

// The report up to its seal: the record's own text with one member more.
export function unsealed(recordText, told) {
  return `${recordText.slice(0, -RECORD_END.length)},\n  "report": ${jsonOf(told, '  ')},\n`;
}

// digest: SHA-256 of that text in UTF-8.
export function sealed(text, digest) { return `${text}  "report_sha256": "${digest}"${RECORD_END}`; }

// ---- read again ----

// The sealed text and the digest that it names: {body, digest}, or {fault} where the text is no whole report.
export function openSeal(text) {
  const found = SEAL.exec(text);
  if (found) return {body: found[1], digest: found[2]};
  if (text.trim() === '') return {fault: 'it is empty.'};
  let value;
  try {
    value = JSON.parse(text);
  } catch {
    return {fault: /^\{\s*"program": "tzofnadir"/.test(text) ? 'it breaks off, or was changed since it was saved.'
      : 'it is no JSON of this page.'};
  }
  if (value && value.program === 'tzofnadir' && !('report' in value) && 'settings' in value) {
    return {fault: 'it is the record of a rendering, and no report.'};
  }
  const sealedOnce = 'report_sha256' in Object(value);
  return {fault: sealedOnce ? 'it was changed since it was saved.' : 'it is no report of this page.'};
}

export function changedText(named, found) {
  return `it was changed since it was saved: it names the digest ${named}, and its content has ${found}.`;
}

// The digest of the film that a report is of, or a fault. value: what JSON.parse gave.
export function filmNamedIn(value) {
  const input = Object(Object(value).input);
  const sides = ['width', 'height', 'maxval', 'bytes'].every(side => Number.isInteger(input[side]) && input[side] > 0);
  if (!sides || !/^[0-9a-f]{64}$/.test(input.sha256) || typeof input.file !== 'string') return {fault: 'it names no film.'};
  const {file, sha256, bytes, width, height, maxval} = input;
  return {film: {name: file, digest: sha256, bytes, width, height, maxval}};
}

// Settings that name no edition are of ours; those that name a side are of own regions, and have no grid.
function settingsFrom(s) {
  const edition = s.edition === undefined ? 0 : EDITIONS.indexOf(s.edition);
  const around = s.side === undefined ? 0 : 1;
  const names = [...(around ? ['side'] : ['across', 'down']), 'bins', 'min', 'max'];
  const whole = names.every(name => Number.isInteger(s[name]) && s[name] >= 0);
  const factor = s.clip === false ? s.factor === null : s.clip === true && typeof s.factor === 'number';
  if (!whole || !factor || edition < 0 || s.by_bytes !== false) return null;
  return {around, ...Object.fromEntries(names.map(name => [name, s[name]])), clip: s.clip ? 1 : 0,
    factor: s.clip ? Math.fround(s.factor) : 3, edition};
}

function displayFrom(display) {
  const {level, width, invert, auto, ...more} = Object(display);
  const good = Number.isInteger(level) && level >= 0 && Number.isInteger(width) && width >= 1 && width <= 65536 &&
    level <= 65536 && typeof invert === 'boolean' && typeof auto === 'boolean' && Object.keys(more).length === 0;
  return good ? {level, width, invert, auto} : null;
}

// A number of um as a report has it, as it would be typed: {text}, or {fault}.
function umFrom(what, value) {
  if (value === null) return {text: null};
  const text = typeof value === 'number' ? String(value) : JSON.stringify(value);
  if (typeof value === 'number' && millionthsOf(text, LIMITS.um) !== null) return {text};
  return {fault: `its ${what} is ${text}, and no number of µm ${LIMITS.um.words}.`};
}

// Both ends in the film, and a part that the profile has; null where that is not so.
export function lineFrom(film, value) {
  const {x0, y0, x1, y1, lanes, from, to} = Object(value);
  const line = {x0, y0, x1, y1, lanes, from, to};
  if (!pixelInside(film, x0, y0) || !pixelInside(film, x1, y1) || squaredOf(line) === 0) return null;
  const last = stepsOf(line);
  const part = Number.isInteger(from) && Number.isInteger(to) && from >= 0 && to <= last && from <= to;
  return lanesTaken(lanes) && part ? line : null;
}

function placesFrom(film, told) {
  const line = told.line === null ? null : lineFrom(film, told.line);
  if (told.line !== null && !line) return {fault: 'its line lies outside the film, or is none.'};
  const region = told.region === null ? null : boxOf(Object(told.region));
  if (region && !rectangleInside(film, region)) return {fault: 'its region lies outside the film, or is none.'};
  const fault = judgedMarks(film, told.marks);
  if (fault) return {fault: `${fault[0].toLowerCase()}${fault.slice(1)}`};
  const marks = told.marks.map(({number, kind, left, top, width, height, text}) =>
    ({number, kind, left, top, width, height, text}));
  return {line, region, marks};
}

function wordsFrom(value) {
  const output = Object(value.output);
  if (typeof output.file !== 'string' || typeof value.version !== 'string') return null;
  return /^[\w.+-]{1,40}$/.test(value.version) ? {version: value.version, output: output.file} : null;
}

// What form and edition a report has, or why that is none: {form}, or {fault}.
function formFrom(told, settings) {
  const {form, edition} = told;
  const has = name => `“${name}”`;
  if (form !== FIRST_FORM && form !== REPORT_FORM) {
    return {fault: `its form is ${JSON.stringify(form)}, and this page reads ${FIRST_FORM} and ${REPORT_FORM}.`};
  }
  const editions = form === FIRST_FORM ? [FIRST_EDITION] : EDITIONS;
  if (!editions.includes(edition)) {
    return {fault: `its edition is ${JSON.stringify(edition)}; a report of form ${form} has ${editions.map(has).join(' or ')}.`};
  }
  if (settings && edition !== editionTold(form, settings.edition)) {
    return {fault: `its edition is ${has(edition)}, and its settings name ${has(EDITIONS[settings.edition])}.`};
  }
  return {form};
}

// What a report says was looked at: {form, version, output, settings, reading}, or {fault}. film: the one that it names.
export function readingFrom(film, value) {
  const told = Object(value.report);
  const words = wordsFrom(value);
  const settings = settingsFrom(Object(value.settings));
  const display = displayFrom(told.display);
  const {form, fault} = formFrom(told, settings);
  if (fault) return {fault};
  if (!words || !settings || !display) return {fault: 'its settings, its display or its names are not of this page.'};
  const pitch = umFrom('pixel pitch', told.pitch_um);
  const resolution = umFrom('basic resolution', told.resolution_um);
  if (pitch.fault || resolution.fault) return {fault: pitch.fault || resolution.fault};
  const places = placesFrom(film, told);
  if (places.fault) return places;
  return {form, ...words, settings, reading: {display, pitch: pitch.text, resolution: resolution.text, ...places}};
}

// Where the report made again is not the one that was read: the first line that differs.
export function differsAt(seen, made) {
  const [a, b] = [seen.split('\n'), made.split('\n')];
  const at = a.findIndex((line, i) => line !== b[i]);
  const short = line => { const text = (line || 'nothing').trim(); return text.length > 90 ? `${text.slice(0, 90)}…` : text; };
  return `its film and settings give another answer here, from line ${at + 1} on: it has ${short(a[at])}, and here it is ` +
    `${short(b[at])}`;
}
