// Films that the library in WebAssembly renders, against those that the command line writes.
import { execFileSync } from 'node:child_process';
import { readFileSync, writeFileSync } from 'node:fs';
import { AXES, Library, done } from './library.mjs';

const NUMBER = 7, OTHER = 8;
const SETTINGS = [
  { words: [], s: { across: 8, down: 8, bins: 1024, clip: 1, factor: 3 } },
  { words: ['--grid', '16x2', '--bins', '128', '--clip', '1.25'], s: { across: 16, down: 2, bins: 128, clip: 1, factor: 1.25 } },
  { words: ['--grid', '2x16', '--bins', '4096', '--clip', 'off'], s: { across: 2, down: 16, bins: 4096, clip: 0, factor: 0 } },
  { words: ['--grid', '4x3', '--bins', '1000', '--clip', '1.0'], s: { across: 4, down: 3, bins: 1000, clip: 1, factor: 1 } },
  { words: ['--bins', '2', '--clip', '1024'], s: { across: 8, down: 8, bins: 2, clip: 1, factor: 1024 } },
  { words: ['--edition', '1986'], s: { across: 8, down: 8, bins: 1024, clip: 1, factor: 3, edition: 1 } },
  { words: ['--grid', '16x2', '--bins', '128', '--clip', '1.25', '--edition', '1986'],
    s: { across: 16, down: 2, bins: 128, clip: 1, factor: 1.25, edition: 1 } },
  { words: ['--grid', '2x16', '--clip', 'off', '--edition', '1986'], s: { across: 2, down: 16, bins: 1024, clip: 0, factor: 0, edition: 1 } },
];
const BYTES = { across: 8, down: 8, bins: 256, clip: 1, factor: 3 };
const ODD = [
  { words: [], s: { across: 8, down: 8, bins: 1024, clip: 1, factor: 3 } },
  { words: ['--grid', '7x13', '--bins', '100', '--clip', '1.25'], s: { across: 7, down: 13, bins: 100, clip: 1, factor: 1.25 } },
  { words: ['--grid', '7x13', '--bins', '100', '--clip', '1.25', '--edition', '1986'],
    s: { across: 7, down: 13, bins: 100, clip: 1, factor: 1.25, edition: 1 } },
];

/** What `tzofnadir enhance` or another command writes of a film, and its record. */
export function commandLine(room, film, words, command = 'enhance') {
  const out = `${room}/out.pgm`, record = `${room}/out.json`;
  execFileSync('target/station/tzofnadir', [command, film, out, '--quiet', '--force', '--record', record, ...words]);
  return { file: readFileSync(out), record: JSON.parse(readFileSync(record, 'utf8')) };
}

/** What the library left has to be what the command line wrote. */
function same(library, film, picture, wanted) {
  const file = library.write(film, picture), footer = library.footer(), { record } = wanted;
  if (!file.equals(wanted.file)) throw new Error('another PGM than the command line writes');
  if (footer.limit !== record.limit || footer.asked !== Math.fround(record.factor_asked) || footer.used !== record.factor_used)
    throw new Error(`footer ${JSON.stringify(footer)}, and the record has L ${record.limit}`);
  return `${file.length} bytes, L ${footer.limit}, factor used ${footer.used}`;
}

/** The list that prepare or map left has to be the one in the command line's record. */
function sameLooks(library, s, { record }) {
  const { excess, looks } = record.tiles, left = library.listed(s);
  const wanted = excess.flatMap((e, tile) => [e, looks[tile]]);
  if (s.factor !== 1 && JSON.stringify(left) !== JSON.stringify(wanted)) throw new Error('another excess or other looks than in the record');
  if (s.factor === 1 && wanted.length > 0) throw new Error('the record lists tiles at factor 1.0');
}

/** All windows of `wide` by `high` or what is left of them, drawn and put together. */
function drawnInParts(library, film, s, wide, high) {
  const whole = library.lend(film.width * film.height, 2), out = library.lend(wide * high, 2);
  for (let top = 0; top < film.height; top += high)
    for (let left = 0; left < film.width; left += wide) {
      const window = { left, top, width: Math.min(wide, film.width - left), height: Math.min(high, film.height - top) };
      const part = { ...out, length: window.width * window.height };
      done(library.draw(film, NUMBER, s, window, part));
      paste(library, whole, film.width, window, part);
    }
  return whole;
}

/** Puts a window's greys where they stand in the whole picture. */
function paste(library, whole, stride, window, part) {
  const to = library.bytes(whole), from = library.bytes(part), row = 2 * window.width;
  for (let y = 0; y < window.height; y++)
    to.set(from.subarray(y * row, (y + 1) * row), 2 * ((window.top + y) * stride + window.left));
}

function copied(library, buffer) {
  const copy = library.lend(buffer.length, buffer.size);
  library.bytes(copy).set(library.bytes(buffer));
  return copy;
}

/** A film's three ways: prepare and draw, count and map and draw in parts, enhance. */
function ways(library, film, s, wanted, trial, what) {
  const whole = { left: 0, top: 0, width: film.width, height: film.height }, out = library.lend(film.picture.length, 2);
  trial(`${what}: prepare, draw`, () => {
    done(library.prepare(film, NUMBER, s));
    sameLooks(library, s, wanted);
    done(library.draw(film, NUMBER, s, whole, out));
    return same(library, film, out, wanted);
  });
  trial(`${what}: count, map, draw in windows`, () => {
    done(library.count(film, s));
    done(library.mapped(film, NUMBER, s));
    sameLooks(library, s, wanted);
    return same(library, film, drawnInParts(library, film, s, 101, 67), wanted);
  });
  trial(`${what}: enhance`, () => {
    const picture = copied(library, film.picture);
    done(library.enhance(film, picture, s));
    return same(library, film, picture, wanted);
  });
}

/** The same film as bytes, and back. */
function narrowed(library, buffer) {
  const bytes = library.lend(buffer.length, 1), from = library.bytes(buffer);
  library.bytes(bytes).forEach((_, i, all) => { all[i] = from[2 * i]; });
  return bytes;
}
function widened(library, bytes) {
  const wide = library.lend(bytes.length, 2), to = library.bytes(wide);
  library.bytes(bytes).forEach((grey, i) => { to[2 * i] = grey; to[2 * i + 1] = 0; });
  return wide;
}

function byteWays(library, film, s, wanted, trial, what) {
  const bytes = { ...film, picture: narrowed(library, film.picture) };
  const whole = { left: 0, top: 0, width: film.width, height: film.height };
  trial(`${what} by bytes: prepare, draw`, () => {
    const out = library.lend(bytes.picture.length, 1);
    done(library.prepare(bytes, NUMBER, s, '_bytes'));
    sameLooks(library, s, wanted);
    done(library.draw(bytes, NUMBER, s, whole, out, '_bytes'));
    return same(library, film, widened(library, out), wanted);
  });
  trial(`${what} by bytes: enhance`, () => {
    const picture = copied(library, bytes.picture);
    done(library.enhance(bytes, picture, s, '_bytes'));
    return same(library, film, widened(library, picture), wanted);
  });
}

/** A window is not drawn with the record as it stands, and what was lent is as it was. */
function refused(library, film, number, s) {
  const window = { left: 1, top: 1, width: 9, height: 5 }, out = library.lend(45, 2);
  library.bytes(out).fill(0xa5);
  const refusal = library.draw(film, number, s, window, out);
  if (refusal !== 15) throw new Error(`refusal ${refusal}`);
  if (library.bytes(out).some(byte => byte !== 0xa5)) throw new Error('the output was written to');
  return `refused with ${refusal}, and the output is as it was`;
}

/** With clip off too: the edition is a setting. */
function otherEdition(library, film, s) {
  for (const each of [s, { ...s, clip: 0 }])
    for (const edition of [0, 1]) {
      done(library.prepare(film, NUMBER, { ...each, edition }));
      refused(library, film, NUMBER, { ...each, edition: 1 - edition });
    }
  return 'ours and 1986, each refused with 15 for the other';
}

/** One counting serves both: the mappings of ours, of 1986 and of ours again, over the same counts. */
function inTurn(library, film, s) {
  const entries = { ...library.map, length: s.across * s.down * s.bins };
  const mapped = edition => {
    done(library.mapped(film, NUMBER, { ...s, edition }));
    return Buffer.from(library.bytes(entries)).toString('hex');
  };
  done(library.count(film, s));
  const counts = Buffer.from(library.bytes(library.counts)).toString('hex');
  const [ours, older, again] = [0, 1, 0].map(mapped);
  if (again !== ours) throw new Error('ours behind 1986 is another mapping');
  if (older === ours) throw new Error('1986 is mapped as ours');
  if (Buffer.from(library.bytes(library.counts)).toString('hex') !== counts) throw new Error('the counts were changed');
  return 'ours, 1986 and ours, from one counting';
}

/** The byte profile has our edition alone. */
function bytesOfOurs(library, film, s) {
  const bytes = { ...film, picture: narrowed(library, film.picture) };
  const seen = [library.prepare(bytes, NUMBER, { ...s, edition: 1 }, '_bytes'),
    library.enhance(bytes, copied(library, bytes.picture), { ...s, edition: 1 }, '_bytes')];
  if (seen.some(refusal => refusal !== 30)) throw new Error(`refusals ${seen}`);
  return 'refused with 30';
}

function otherFilm(library, film, s) {
  done(library.prepare(film, NUMBER, s));
  return refused(library, film, OTHER, s);
}

/** Each edge and each centre of the record in turn is one more, those behind the last too. */
function otherEntries(library, film, s) {
  const change = (axis, at, by) => library.view(axis).setUint32(at, library.view(axis).getUint32(at, true) + by, true);
  done(library.prepare(film, NUMBER, s));
  for (const axis of library.axes)
    for (let at = 0; at < 4 * axis.length; at += 4) {
      change(axis, at, 1);
      refused(library, film, NUMBER, s);
      change(axis, at, -1);
    }
  return `${AXES.reduce((sum, count) => sum + count)} entries, each refused with 15`;
}

/** The upper left part of the sample film, with 12 bits or with 8: its greys divided by 16. */
function part(file, width, height, bits) {
  const head = 'P5\n512 384\n4095\n', raster = file.subarray(head.length), wide = bits > 8 ? 2 : 1;
  if (file.subarray(0, head.length).toString() !== head) throw new Error('docs/weld.pgm has another header');
  const greys = Buffer.alloc(width * height * wide);
  for (let i = 0; i < width * height; i++) {
    const grey = raster.readUInt16BE(2 * (Math.floor(i / width) * 512 + i % width));
    if (bits === 8) greys[i] = grey >> 4;
    else greys.writeUInt16BE(grey, 2 * i);
  }
  return Buffer.concat([Buffer.from(`P5\n${width} ${height}\n${bits === 8 ? 255 : 4095}\n`), greys]);
}

/** A raw file as plain text, and back: what the module reads of both is the same, and so is the raw file that it writes. */
function plainToo(library, file) {
  const film = library.read(file), greys = library.greys(film), lines = [...greys].join('\n');
  const text = Buffer.from(`P2\n${film.width} ${film.height}\n${film.maxval}\n${lines}\n`);
  const back = library.readPlain(text);
  if ([...library.greys(back)].some((grey, i) => grey !== greys[i])) throw new Error('other greys');
  if (Buffer.compare(library.writtenPlain(back), text) !== 0) throw new Error('another text');
  return `${greys.length} samples in ${text.length} bytes`;
}

/** A film by all ways, with each of the settings. */
function allWays(wasm, room, path, settings, trial, name) {
  for (const { words, s } of settings) {
    const library = new Library(wasm), film = library.read(readFileSync(path));
    const what = `${name} ${words.join(' ') || 'as README renders it'}`;
    ways(library, film, { ...s, min: 0, max: film.maxval }, commandLine(room, path, words), trial, what);
  }
}

/** A film of 8 bits by all ways, and by bytes. */
function bytesToo(wasm, room, path, trial, what) {
  const library = new Library(wasm), film = library.read(readFileSync(path)), s = { ...BYTES, min: 0, max: 255 };
  ways(library, film, s, commandLine(room, path, []), trial, what);
  byteWays(library, film, s, commandLine(room, path, ['--bytes']), trial, what);
}

export function renderings(wasm, room, trial) {
  const sample = readFileSync('docs/weld.pgm'), library = new Library(wasm), usual = { ...SETTINGS[0].s, min: 0, max: 4095 };
  const [odd, small, oddSmall] = ['odd', 'small', 'odd-small'].map(name => `${room}/${name}.pgm`);
  writeFileSync(odd, part(sample, 509, 381, 12));
  writeFileSync(small, part(sample, 512, 384, 8));
  writeFileSync(oddSmall, part(sample, 101, 67, 8));
  allWays(wasm, room, 'docs/weld.pgm', SETTINGS, trial, 'docs/weld.pgm');
  allWays(wasm, room, odd, ODD, trial, '509 by 381');
  trial('another film\'s record', () => otherFilm(library, library.read(sample), usual));
  trial('another edition\'s record', () => otherEdition(library, library.read(sample), usual));
  trial('both editions in turn', () => inTurn(library, library.read(sample), usual));
  trial('the edition of 1986 by bytes', () => bytesOfOurs(library, library.read(readFileSync(small)), { ...BYTES, min: 0, max: 255 }));
  trial('a record with one other edge or centre', () => otherEntries(library, library.read(readFileSync(odd)), usual));
  trial('a plain film', () => plainToo(library, readFileSync(odd)));
  bytesToo(wasm, room, small, trial, '8 bits');
  bytesToo(wasm, room, oddSmall, trial, '8 bits, 101 by 67');
}
