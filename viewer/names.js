// The names of saved files. No two renderings share one: it has the film's number, every setting as used, and a piece of the
// film's digest. No two views do either: they have what is shown, and how, beside these.
import {EDITIONS, USUAL_BINS} from './calls.js';
import {printG} from './record.js';

const DIGEST_PIECE = 12;
const MOST_OWN = 100; // bytes of the film's own name
const LEAST_OWN = 20; // what is left to it in the longest name of a view
const MOST_NAME = 235; // a file system takes 255, and a browser adds an ending of its own while a file comes

export function baseName(name) { return name.replace(/\.pgm$/i, ''); }

// What file systems and browsers replace in a name is replaced here, so that the file has the name that its record says.
function safeName(name, most = MOST_OWN) {
  const utf8 = new TextEncoder();
  let safe = '';
  for (const letter of baseName(name).replace(/["~*/:<>?\\|%\p{C}]/gu, '_')) {
    if (utf8.encode(safe + letter).length > most) break;
    safe += letter;
  }
  return safe.replace(/^[\s.]+|[\s.]+$/g, '_') || 'film';
}

function clipName(s) { return s.clip ? `clip${printG(Math.fround(s.factor), 9)}` : 'clipoff'; }

// Which rendering it is. film: its number and digest. The factor in nine digits tells any two 32-bit floats apart; bins 0 stands
// as 128.
function renderingWords(film, s) {
  const by = s.around ? `side${s.side}` : `${s.across}x${s.down}`;
  return `film${film.number}-${by}-${s.bins || USUAL_BINS}bins-${s.min}to${s.max}-${clipName(s)}-` +
    `${EDITIONS[s.edition]}-${film.digest.slice(0, DIGEST_PIECE)}`;
}

// film: its name, number and digest.
export function renderingName(film, s) { return `${safeName(film.name)}-rendered-${renderingWords(film, s)}`; }

// ---- views ----

function displayName({level, width, invert, auto}) {
  return `level${level}-window${width}${invert ? '-inverted' : ''}${auto ? '-own' : ''}`;
}

// Which pictures are seen: both, both with the divider at a dot, or one of them.
function modeName({mode, turn, cut}) { return mode === 'side' ? mode : mode === 'divide' ? `${mode}${cut}` : `${mode}-${turn}`; }

// A sum of a text in eight digits (FNV-1a): another text hardly ever has the same.
function sumOf(text) {
  let sum = 0x811c9dc5;
  for (const letter of text) sum = Math.imul(sum ^ letter.codePointAt(0), 0x01000193);
  return (sum >>> 0).toString(16).padStart(8, '0');
}

// What would be too long ends in a sum of all of it.
function heldName(text) {
  const most = MOST_NAME - LEAST_OWN;
  return text.length <= most ? text : `${text.slice(0, most - 9)}-${sumOf(text)}`;
}

// asked: the view as save.js takes it; digests: of its film and, where a second is beside it, of that one.
export function viewName(asked, digests) {
  const {film, settings, part, view, display, second} = asked;
  const zoom = part.zoom.label.includes(':') ? part.zoom.label.replace(':', 'to') : `${part.zoom.p}of1024`;
  const turn = `${view.flip ? '-mirrored' : ''}${view.turn ? `-turned${90 * view.turn}` : ''}`;
  const beside = second ? `-beside-${renderingWords({number: second.film.number, digest: digests[1]}, second.settings)}-` +
    displayName(second.display) : '';
  const rest = heldName(`-${renderingWords({number: film.number, digest: digests[0]}, settings)}-view-${modeName(asked)}-${zoom}-` +
    `columns${part.left}to${part.right}-rows${part.top}to${part.bottom}${turn}-${displayName(display)}${beside}`);
  return safeName(film.name, Math.min(MOST_OWN, MOST_NAME - rest.length)) + rest;
}
