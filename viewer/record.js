// The record of a rendering: the same text as the command line's --record, down to the last digit.
import {EDITIONS, USUAL_BINS} from './calls.js';

const HALF_VIEW = new DataView(new ArrayBuffer(8));

// A finite number above 0 as a whole number times a power of two, exactly.
export function exactOf(x) {
  HALF_VIEW.setFloat64(0, x);
  const bits = HALF_VIEW.getBigUint64(0);
  const power = Number(bits >> 52n & 0x7ffn);
  const low = bits & 0xfffffffffffffn;
  return power === 0 ? {whole: low, power: -1074} : {whole: low | 1n << 52n, power: power - 1075};
}

// top / bottom to the nearest whole number, and to the even one of two that are as near: as C rounds.
function nearest(top, bottom) {
  const floor = top / bottom;
  const twice = 2n * (top % bottom);
  return twice > bottom || (twice === bottom && floor % 2n === 1n) ? floor + 1n : floor;
}

// The first `digits` decimal digits of x, rounded, and the power of ten of the first one.
function decimalOf(x, digits) {
  const {whole, power} = exactOf(x);
  const top = power > 0 ? whole << BigInt(power) : whole;
  const bottom = power < 0 ? 1n << BigInt(-power) : 1n;
  // one below what the logarithm says, which may be off by one: from below, the first fit is the right one
  for (let first = Math.floor(Math.log10(x)) - 1; ; first++) {
    const shift = digits - 1 - first;
    const rounded = shift >= 0 ? nearest(top * 10n ** BigInt(shift), bottom) : nearest(top, bottom * 10n ** BigInt(-shift));
    const text = rounded.toString();
    if (text.length === digits) return {text, first};
  }
}

function withoutZeros(text) { return text.includes('.') ? text.replace(/\.?0*$/, '') : text; }

// x as C prints it with %.<digits>g.
export function printG(x, digits) {
  if (Number.isNaN(x)) return 'nan';
  const sign = x < 0 || Object.is(x, -0) ? '-' : '';
  if (!Number.isFinite(x)) return `${sign}inf`;
  if (x === 0) return `${sign}0`;
  const {text, first} = decimalOf(Math.abs(x), digits);
  if (first < -4 || first >= digits) {
    const power = String(Math.abs(first)).padStart(2, '0');
    return `${sign}${withoutZeros(`${text[0]}.${text.slice(1)}`)}e${first < 0 ? '-' : '+'}${power}`;
  }
  const padded = first < 0 ? '0'.repeat(-first) + text : text;
  const point = first < 0 ? 1 : first + 1;
  return sign + withoutZeros(`${padded.slice(0, point)}.${padded.slice(point)}`);
}

function jsonName(name) {
  const escaped = name.replace(/["\\]/g, '\\$&')
    .replace(/[\u0000-\u001f\u007f]/g, c => `\\u${c.charCodeAt(0).toString(16).padStart(4, '0')}`);
  return `"${escaped}"`;
}

function fileText(what, name, digest, bytes, film) {
  return `  "${what}": {\n    "file": ${jsonName(name)},\n    "sha256": "${digest}",\n    "bytes": ${bytes},\n` +
    `    "width": ${film.width},\n    "height": ${film.height},\n    "maxval": ${film.maxval}\n  },\n`;
}

// All settings as used: of own regions their side and no grid; bins 0 stands as 128, and a factor that does not count as null.
// isNamed: whether the edition is said.
function settingsText(s, isNamed) {
  const bins = s.bins || USUAL_BINS;
  const factor = s.clip ? printG(Math.fround(s.factor), 9) : 'null';
  const edition = isNamed ? `    "edition": "${EDITIONS[s.edition]}",\n` : '';
  const by = s.around ? `    "side": ${s.side},\n` : `    "across": ${s.across},\n    "down": ${s.down},\n`;
  return `  "settings": {\n${by}    "bins": ${bins},\n    "min": ${s.min},\n` +
    `    "max": ${s.max},\n    "clip": ${s.clip ? 'true' : 'false'},\n    "factor": ${factor},\n${edition}    "by_bytes": false\n  },\n`;
}

// One of the two numbers of each tile, tiles row by row; at factor 1.0 nothing is listed.
function tilesText(what, which, s, looks) {
  const listed = s.clip && Math.fround(s.factor) === 1 ? [] : looks.filter((_, i) => i % 2 === which);
  return `    "${what}": [${listed.join(', ')}]`;
}

// Of own regions none are listed.
function listsText(s, looks) {
  return s.around ? '' : `,\n  "tiles": {\n${tilesText('excess', 0, s, looks)},\n${tilesText('looks', 1, s, looks)}\n  }`;
}

// made: what map made of the film with these settings, its footer and its list of looks. isNamed: whether the edition is said, as
// it was not before there were two.
export function recordText(version, film, output, s, made, isNamed = true) {
  const footer = made.footer;
  return `{\n  "program": "tzofnadir",\n  "version": "${version}",\n  "command": "${s.around ? 'around' : 'enhance'}",\n` +
    fileText('input', film.name, film.digest, film.bytes, film) +
    fileText('output', output.name, output.digest, output.bytes, film) +
    settingsText(s, isNamed) +
    `  "window": null,\n  "limit": ${footer.limit},\n  "factor_asked": ${printG(footer.asked, 9)},\n` +
    `  "factor_used": ${printG(footer.used, 17)}${listsText(s, made.looks)}\n}\n`;
}
