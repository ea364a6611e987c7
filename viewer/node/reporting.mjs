// node viewer/node/reporting.mjs: marks and reports (viewer/marks.js, viewer/report.js): what is written is read again, and what
// is broken, altered or of no film is told by a sentence. It needs nothing built; viewer/programs runs the same trials.
import { createHash } from 'node:crypto';
import { inflateSync } from 'node:zlib';
import { EDITIONS } from '../calls.js';
import * as marks from '../marks.js';
import * as report from '../report.js';
import { reportHtml } from '../report_html.js';
import { base64Of, pngOf } from '../png.js';
import { alone, same } from './trying.mjs';

const sha256 = text => createHash('sha256').update(text, 'utf8').digest('hex');
const film = { width: 60, height: 40, maxval: 4095, name: 'a "b" <i> é.pgm', digest: 'ab'.repeat(32), bytes: 4817,
  greys: Uint16Array.from({ length: 2400 }, (_, i) => (i * 7919) % 4096) };
const output = { name: 'out.pgm', digest: 'cd'.repeat(32), bytes: 4817 };

/** A record as viewer/record.js writes it, of this film. edition: as its settings name it, undefined where they do not. */
function record(edition) {
  const side = { width: film.width, height: film.height, maxval: film.maxval };
  return `${JSON.stringify({ program: 'tzofnadir', version: '2.6.0', command: 'enhance',
    input: { file: film.name, sha256: film.digest, bytes: film.bytes, ...side },
    output: { file: output.name, sha256: output.digest, bytes: output.bytes, ...side },
    settings: { across: 8, down: 8, bins: 1024, min: 0, max: 4095, clip: true, factor: 2.34567881, edition, by_bytes: false },
    window: null, limit: 9, factor_asked: 2.34567881, factor_used: 2.4 }, null, 2)}\n`;
}

const reading = {
  display: { level: 2048, width: 4096, invert: false, auto: false }, pitch: '42.333333', resolution: '100',
  line: { x0: 1, y0: 2, x1: 50, y1: 30, lanes: 5, from: 3, to: 40 }, region: { left: 5, top: 6, width: 20, height: 10 },
  marks: [{ number: 1, kind: '2011', left: 3, top: 4, width: 5, height: 6, text: 'one "pore" </b> & a line\\' },
    { number: 7, kind: 'other', left: 59, top: 39, width: 1, height: 1, text: '' }],
};

function made(changed = {}, edition = 0, form = report.REPORT_FORM) {
  const all = { ...reading, ...changed };
  const pictures = all.marks.map(mark => ({ ...marks.markPicture(film, mark), scanned: 'AAAA', rendered: 'BBBB' }));
  const told = report.toldOf(film, all, pictures, edition, form);
  const body = report.unsealed(record(report.namesEdition(form) ? EDITIONS[edition] : undefined), told);
  return { told, text: report.sealed(body, sha256(body)) };
}

/** Seals a changed report anew, as somebody would who knows how. */
function sealedAnew(change) {
  const value = JSON.parse(made().text);
  change(value);
  delete value.report_sha256;
  const body = `${JSON.stringify(value, null, 2).slice(0, -2)},\n`;
  return report.sealed(body, sha256(body));
}

/** The fault of a report's text, or what it says. */
function read(text) {
  const opened = report.openSeal(text);
  if (opened.fault) return opened;
  if (sha256(opened.body) !== opened.digest) return { fault: report.changedText(opened.digest, sha256(opened.body)) };
  const value = JSON.parse(text), found = report.filmNamedIn(value);
  return found.fault ? found : { film: found.film, ...report.readingFrom(found.film, value) };
}

function comesBack() {
  for (const changed of [{}, { pitch: null, resolution: null, line: null, region: null, marks: [] }, { pitch: '0.1' }]) {
    const { text } = made(changed), back = read(text);
    same('reading', back.reading, { ...reading, ...changed });
    same('film', back.film.digest, film.digest);
    same('made again', made(back.reading).text === text, true);
    same('factor', back.settings.factor, Math.fround(2.34567881));
  }
  return 'three reports';
}

/** Each edition comes back as it was; a report that names none is of ours. */
function editionsComeBack() {
  for (const [edition, form] of [[0, 2], [1, 2], [0, 1]]) {
    const { text } = made({}, edition, form), back = read(text);
    same('edition', [back.fault, back.settings && back.settings.edition, back.form], [undefined, edition, form]);
    same('said', [/"edition": "(ours|1986)",\n {4}"by_bytes"/.test(text), made(back.reading, edition, form).text === text], [form === 2, true]);
  }
  return 'ours, 1986 and none';
}

function truncatedOnes() {
  const { text } = made();
  let count = 0;
  for (let cut = 0; cut < text.length; cut += 7, count++) {
    if (!read(text.slice(0, cut)).fault) throw new Error(`taken, cut at ${cut} of ${text.length}`);
  }
  const none = ['{}', 'null', '[]', '7', '"x"', record('ours'), ' ', 'P5\n1 1\n255\n0', `${text} `, text.replaceAll('\n', '\r\n')];
  for (const other of none)
    if (!read(other).fault) throw new Error(`taken: ${other.slice(0, 40)}`);
  return `${count} lengths, and 10 texts that are no report`;
}

function alteredOnes() {
  const { text } = made();
  for (let at = 0; at < text.length; at++) {
    const other = text[at] === '7' ? '8' : '7';
    if (!read(text.slice(0, at) + other + text.slice(at + 1)).fault) throw new Error(`taken, altered at ${at}`);
  }
  return `each of ${text.length} letters altered`;
}

const WRONG = [
  ['outside the film', v => { v.report.marks[0].left = 58; }, /mark 1 lies outside the film: column 58, row 4, 5 by 6 pixels/],
  ['outside the film', v => { v.report.marks[0].top = -1; }, /mark 1 lies outside the film/],
  ['outside the film', v => { v.report.marks[1].width = 0; }, /mark 7 lies outside the film/],
  ['no whole number', v => { v.report.marks[1].left = 1.5; }, /mark 7 lies outside the film/],
  ['one number twice', v => { v.report.marks[1].number = 1; }, /two marks have the number 1/],
  ['another kind', v => { v.report.marks[1].kind = '777'; }, /kind that is not on the list/],
  ['no sentence', v => { v.report.marks[0].text = 'a\nb'; }, /sentence that is none/],
  ['no marks', v => { delete v.report.marks; }, /no list of marks/],
  ['pitch 0', v => { v.report.pitch_um = 0; }, /pixel pitch is 0, and no number of µm/],
  ['pitch as a word', v => { v.report.pitch_um = 'abc'; }, /pixel pitch is "abc", and no number/],
  ['resolution -1', v => { v.report.resolution_um = -1; }, /basic resolution is -1/],
  ['line outside', v => { v.report.line.x1 = 60; }, /line lies outside/],
  ['line of one pixel', v => { Object.assign(v.report.line, { x1: 1, y1: 2 }); }, /line lies outside the film, or is none/],
  ['even lanes', v => { v.report.line.lanes = 4; }, /line lies outside the film, or is none/],
  ['part beyond the line', v => { v.report.line.to = 57; }, /line lies outside the film, or is none/],
  ['region outside', v => { v.report.region.height = 35; }, /region lies outside/],
  ['another form', v => { v.report.form = 3; }, /its form is 3, and this page reads 1 and 2/],
  ['another edition', v => { v.report.edition = '1987'; }, /its edition is "1987"; a report of form 2 has “ours” or “1986”/],
  ['another edition', v => { v.report.edition = '1986'; }, /its edition is “1986”, and its settings name “ours”/],
  ['another edition', v => { v.report.form = 1; }, /its edition is "ours"; a report of form 1 has “tzofnadir”/],
  ['no edition', v => { v.settings.edition = 'none'; }, /settings/],
  ['no edition', v => { v.settings.edition = 1; }, /settings/],
  ['settings', v => { v.settings.bins = -1; }, /settings/],
  ['display', v => { v.report.display.width = 0; }, /display/],
  ['no film', v => { delete v.input.sha256; }, /names no film/],
];

function wrongOnes() {
  for (const [what, change, wanted] of WRONG) {
    const { fault } = read(sealedAnew(change));
    if (!wanted.test(fault || '')) throw new Error(`${what}: ${fault}`);
  }
  if (read(sealedAnew(() => {})).fault) throw new Error('sealed anew and unchanged: refused');
  return `${WRONG.length} reports that were sealed anew`;
}

function listOfMarks() {
  const [one, two] = reading.marks;
  same('next', [marks.nextMarkNumber([], 0), marks.nextMarkNumber([one, two], 0), marks.nextMarkNumber([one], 9)], [1, 8, 10]);
  same('beside', [marks.markBeside([one, two], 1, 1), marks.markBeside([one, two], 7, 1), marks.markBeside([one, two], null, -1),
    marks.markBeside([], 1, 1)], [7, 1, 7, null]);
  same('moved', marks.movedBox(film, one, -9, 99), { left: 0, top: 34, width: 5, height: 6 });
  same('grown', marks.grownBox(film, one, 99, -99), { left: 3, top: 4, width: 57, height: 1 });
  same('changed', marks.withChangedMark([one, two], 7, { kind: '100' })[1].kind, '100');
  same('unchanged before', two.kind, 'other');
  same('sentence', marks.sentenceOf(' a\n\tb\u2028c '), 'a b c');
  for (const each of [one, two, { left: 0, top: 0, width: 60, height: 40 }]) {
    const p = marks.markPicture(film, each);
    if (p.left < 0 || p.top < 0 || p.left + p.width > 60 || p.top + p.height > 40) throw new Error('a picture outside the film');
  }
  same('blocks', [512, 513, 1025, 4096].map(side => marks.markPicture({ width: side, height: side },
    { left: 0, top: 0, width: side, height: side }).block), [1, 2, 4, 4]);
  return 'numbers, moves and pictures';
}

/** A PNG's dots by node's own zlib. */
function pngHolds() {
  for (const [width, height] of [[1, 1], [300, 260], [7, 9362], [513, 128]]) {
    const shades = Uint8Array.from({ length: width * height }, (_, i) => (i * 31 + (i >> 8)) & 255);
    const png = Buffer.from(base64Of(pngOf(shades, width, height)), 'base64'), length = png.readUInt32BE(33);
    const lines = inflateSync(png.subarray(41, 41 + length));
    same('size', [png.readUInt32BE(16), png.readUInt32BE(20), lines.length], [width, height, (width + 1) * height]);
    const rows = Array.from({ length: height }, (_, y) => lines.subarray(y * (width + 1) + 1, (y + 1) * (width + 1)));
    if (!Buffer.concat(rows).equals(Buffer.from(shades))) throw new Error('other dots');
  }
  return 'four sizes';
}

function htmlIsSafe() {
  const { told } = made();
  const settings = { across: 8, down: 8, bins: 1024, min: 0, max: 4095, clip: 1, edition: 1 };
  const html = reportHtml({ version: '2.6.0', film, output, settings,
    footer: { limit: 9, asked: '2.34567881', used: '2.4' }, told, seal: 'ef'.repeat(32) });
  for (const word of ['a &quot;b&quot; &lt;i&gt; é.pgm', 'one &quot;pore&quot; &lt;/b&gt; &amp; a line\\', '2011 gas pore',
    film.digest, output.digest, '42.333333 µm', told.marks[0].scanned.mean.text, told.line.distance_mm.text,
    'scanned greys', 'L 9', '<td>1986</td>'])
    if (!html.includes(word)) throw new Error(`it does not say ${word}`);
  if (html.includes('</b>') || html.includes('<i>')) throw new Error('a name became an element');
  return 'names and sentences stay texts';
}

export function reporting(trial) {
  trial('a report read again', comesBack);
  trial('reports of both editions, and one that names none', editionsComeBack);
  trial('truncated reports, and texts that are none', truncatedOnes);
  trial('altered reports', alteredOnes);
  trial('reports that say what cannot be', wrongOnes);
  trial('the list of marks', listOfMarks);
  trial('pictures as PNG', pngHolds);
  trial('the report\'s page', htmlIsSafe);
}

alone(import.meta.url, reporting);
