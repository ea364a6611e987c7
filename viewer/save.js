// Saving: the rendered film, its record, and the view. Each says which film it is of, with which settings.
import {pump} from './ask.js';
import {USUAL_BINS} from './calls.js';
import {canvases, tell} from './dom.js';
import {filmDigest} from './greys.js';
import {keptSaved} from './history.js';
import {dividerDot, howShown, keptOf, look, pairFilm, partShown} from './look.js';
import {viewName} from './names.js';
import {editionWords, regionWords, shownFactor} from './numbers.js';
import {endsOf} from './panel.js';
import {printG} from './record.js';
import {displayOf} from './shades.js';
import {state} from './state.js';

const GAP = 6; // dots between two pictures of a view
const GROUND = '#1d1d1d';

const saving = []; // what waits to be saved

export function ask(what) {
  const film = state.film;
  if (!film || !film.ready || film.refusal) return;
  tell('');
  saving.push({film, what, settings: {...film.settings}});
  pump();
}

// The view is taken as it is seen now, with the settings that it was drawn with; only the digest comes later.
export function askView() {
  const film = state.film;
  if (!look.painted) return;
  if (keptOf(film).isPart) return tell('The view is not all drawn yet: it can be saved when it is.');
  tell('');
  const {settings, footer} = keptOf(film);
  const other = look.mode === 'pair' ? pairFilm() : null;
  const second = other && keptOf(other) ? {film: other, settings: keptOf(other).settings, footer: keptOf(other).footer,
    display: {...other.display}} : null;
  saving.push({film, what: 'view', settings, display: {...film.display}, footer, mode: look.mode, turn: look.turn,
    cut: dividerDot(), part: partShown(), view: {...film.view}, second, sheet: viewSheet(), sides: sidesOfView()});
  pump();
}

export function dropSaving(film) {
  for (let i = saving.length - 1; i >= 0; i--) if (saving[i].film === film) saving.splice(i, 1);
}

export function dueSaving() {
  const next = saving.shift();
  if (!next) return null;
  const {film, what, settings} = next;
  const ways = {film: savedFilm, record: savedRecord, view: savedView};
  return {
    message: {kind: 'save', what, number: film.number, settings},
    slow: `saving ${film.name}`,
    again: () => { if (!film.closed) saving.unshift(next); },
    done: answer => {
      if (answer.refusal || answer.fault) return tell(savedNot(film, answer));
      ways[what](next, answer);
    },
  };
}

function savedNot(film, answer) {
  const refusal = answer.refusal;
  return refusal ? `${film.name} not saved. Refused, ${refusal.number}: ${refusal.sentence} ${refusal.more.join(' ')}`
    : `${film.name} not saved: ${answer.fault}`;
}

export function download(parts, type, name) {
  const link = document.createElement('a');
  link.href = URL.createObjectURL(new Blob(parts, {type}));
  link.download = name;
  link.click();
  setTimeout(() => URL.revokeObjectURL(link.href), 60000);
}

function savedFilm({film}, {name, bytes}) {
  download([bytes], 'image/x-portable-graymap', `${name}.pgm`);
  film.saved.add(name);
  keptSaved(film, 'settings');
  tell(`Saved ${name}.pgm`, true);
}

// A record of a rendering that was not saved names a file that is not there yet.
function savedRecord({film}, {name, text}) {
  download([text], 'application/json', `${name}.json`);
  keptSaved(film, 'settings');
  tell(film.saved.has(name) ? `Saved ${name}.json` : `Saved ${name}.json. The film that it names is not saved yet: Save film`, true);
}

// ---- the view ----

// What stands where: the scanned and the rendered picture beside each other, on two sides of a column, or one of them.
function sidesOfView() {
  if (look.mode === 'side') return 'left as scanned, right rendered';
  if (look.mode === 'pair') return `${look.turn === 'scanned' ? 'as scanned' : 'rendered'}: left the first film, right the second`;
  if (look.mode === 'turn') return look.turn === 'scanned' ? 'as scanned alone' : 'rendered alone';
  return `as scanned in its first ${dividerDot()} columns of dots, rendered from there on`;
}

// What is seen: both pictures beside each other, the two sides of the divider, or the one that is shown.
function viewSheet() {
  const [scanned, rendered] = canvases();
  const sheet = document.createElement('canvas');
  const isBeside = look.mode === 'side' || look.mode === 'pair';
  sheet.width = isBeside ? 2 * scanned.width + GAP : scanned.width;
  sheet.height = scanned.height;
  const pen = sheet.getContext('2d');
  pen.fillStyle = GROUND;
  pen.fillRect(0, 0, sheet.width, sheet.height);
  const cut = dividerDot();
  if (look.mode !== 'turn' || look.turn === 'scanned') pen.drawImage(scanned, 0, 0);
  if (isBeside) pen.drawImage(rendered, scanned.width + GAP, 0);
  if (look.mode === 'turn' && look.turn === 'rendered') pen.drawImage(rendered, 0, 0);
  if (look.mode === 'divide' && cut < sheet.width) {
    const box = [cut, 0, sheet.width - cut, sheet.height];
    pen.fillRect(...box);
    pen.drawImage(rendered, ...box, ...box);
  }
  return sheet;
}

// footer: what came of them, where that is known.
export function settingsWords(s, footer) {
  const asked = footer ? `factor asked ${printG(footer.asked, 9)}, used ${shownFactor(footer.used)}, L ${footer.limit}`
    : `factor ${printG(Math.fround(s.factor), 9)}`;
  const clip = s.clip ? asked : 'clip off';
  const by = s.around ? regionWords(s) : `grid ${s.across} by ${s.down}`;
  return `${by}, ${s.bins || USUAL_BINS} bins, range ${s.min} to ${s.max}, ${clip}, ${editionWords(s.edition)}`;
}

function displayWords(film, display) {
  const own = display.auto ? `; as scanned by its own greys: ${endsOf(displayOf({...film, display}, 'scanned'))}` : '';
  return `level ${display.level}, window ${display.width}, ${display.invert ? 'inverted' : 'not inverted'}: ${endsOf(display)}${own}`;
}

function turnWords({turn, flip}) {
  return `${flip ? ', mirrored' : ''}${turn ? `, turned by ${90 * turn} degrees` : ''}`;
}

function filmWords({film, settings, footer}, digest) {
  return [
    `${film.name.replace(/\p{C}/gu, '\ufffd')}, film ${film.number}: ${film.width} × ${film.height} pixels, maxval ${film.maxval}`,
    `SHA-256 ${digest}`,
    `Rendering by Tzofnadir ${state.version}: ${settingsWords(settings, footer)}`,
  ];
}

// What is written beneath a view: a sheet of paper has nothing else to say what it shows. second: another film beside it.
export function captionOf(asked, digest, second) {
  const {film, display, part, sides, view} = asked;
  const {left, top, right, bottom, zoom} = part;
  return [
    ...filmWords(asked, digest),
    `Display: ${displayWords(film, display)}`,
    ...(second ? ['Beside it:', ...filmWords(asked.second, second), `Display: ${displayWords(asked.second.film, asked.second.display)}`] : []),
    `Part: columns ${left} to ${right}, rows ${top} to ${bottom}, at ${zoom.label}, ${howShown(zoom)}${turnWords(view)}; ${sides}`,
    'Film density is not read off the rendered picture.',
  ];
}

// A line in as many as its room takes: parted at spaces, and inside a word where that is longer than the room.
function wrapped(pen, line, room) {
  const lines = [''];
  for (const piece of line.match(/\S+\s*|\s+/g) || []) {
    if (pen.measureText(lines[lines.length - 1] + piece.trimEnd()).width <= room) {
      lines[lines.length - 1] += piece;
      continue;
    }
    if (lines[lines.length - 1] !== '') lines.push('');
    for (const letter of piece) {
      if (pen.measureText(lines[lines.length - 1] + letter).width > room && lines[lines.length - 1] !== '') lines.push('');
      lines[lines.length - 1] += letter;
    }
  }
  return lines;
}

// The view and its caption beneath, black on white as a report is.
export function captioned(sheet, caption) {
  const size = Math.round(13 * devicePixelRatio);
  const high = Math.round(1.4 * size);
  const edge = Math.round(size / 2);
  const font = `${size}px system-ui, "DejaVu Sans", sans-serif`;
  const pen = document.createElement('canvas').getContext('2d');
  pen.font = font;
  const lines = caption.flatMap(line => wrapped(pen, line, sheet.width - 2 * edge));
  pen.canvas.width = sheet.width;
  pen.canvas.height = sheet.height + lines.length * high + 2 * edge;
  pen.fillStyle = '#fff';
  pen.fillRect(0, 0, pen.canvas.width, pen.canvas.height);
  pen.drawImage(sheet, 0, 0);
  pen.fillStyle = '#000';
  pen.font = font;
  pen.textBaseline = 'top';
  lines.forEach((line, i) => pen.fillText(line, edge, sheet.height + edge + i * high));
  return pen.canvas;
}

async function savedView(asked, {digest}) {
  const second = asked.second ? await filmDigest(asked.second.film) : null;
  const view = `${viewName(asked, [digest, second])}.png`;
  captioned(asked.sheet, captionOf(asked, digest, second)).toBlob(blob => {
    if (!blob) return tell('The view could not be saved as PNG.');
    download([blob], 'image/png', view);
    tell(`Saved ${view}`, true);
  }, 'image/png');
}
