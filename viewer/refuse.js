// What is told behind a refusal's sentence: this film's numbers and, where there is one, the way out. The same numbers as the
// command line's messages have (station/refuse.c), in the words of the page. Messages alone hang on what is read here.
import {EDITIONS, LEAST_GRID, LEAST_REGION, MOST_GREY, MOST_GRID, MOST_REGION, MOST_SIDE, USUAL_BINS} from './calls.js';
import {printG} from './record.js';

// A refusal as it is told: its number, the header's sentence, and more.
export function refused(film, refusal, more) {
  return {refusal: {number: refusal, sentence: film.library.sentence(refusal), more}};
}

function isWhite(byte) { return byte === 32 || byte === 9 || byte === 13 || byte === 10; }
function isDigit(byte) { return byte >= 48 && byte <= 57; }

// Behind white space and comments.
function behindGap(bytes, at) {
  while (at < bytes.length && (isWhite(bytes[at]) || bytes[at] === 35)) {
    if (bytes[at] === 35) while (at + 1 < bytes.length && bytes[at + 1] !== 10) at++;
    at++;
  }
  return at;
}

// A number of up to nine digits at a place, and the place behind it.
function numberAt(bytes, from) {
  let to = from;
  let value = 0;
  while (to < bytes.length && to < from + 9 && isDigit(bytes[to])) value = value * 10 + bytes[to++] - 48;
  return {value, to};
}

// A plain file, its numbers in text, by its first two bytes.
export function isPlain(bytes) { return bytes.length >= 2 && bytes[0] === 80 && bytes[1] === 50; }

// What a header says, as far as it can be read.
function frontOf(bytes) {
  const front = {numbers: [], raster: 2, bytes: 0, plain: isPlain(bytes)};
  while (front.numbers.length < 3) {
    const from = behindGap(bytes, front.raster);
    const {value, to} = numberAt(bytes, from);
    front.raster = to;
    if (to === from) break;
    front.numbers.push(value);
  }
  [front.width, front.height, front.maxval] = front.numbers;
  front.whole = front.numbers.length === 3;
  if (!front.whole) return front;
  front.raster = Math.min(front.raster + 1, bytes.length);
  front.wide = front.maxval < 256 ? 1 : 2;
  front.bytes = front.width * front.height * front.wide;
  return front;
}

// The sample at a place of a raw file: one or two bytes, the high one first; null where it is not there.
function rawAt(bytes, front, at) {
  const to = at + front.wide;
  if (to > bytes.length) return null;
  return {from: at, to, good: true, grey: front.wide === 1 ? bytes[at] : bytes[at] * 256 + bytes[at + 1]};
}

// The next sample of a plain file, all bytes up to white space or the end; good where it is a number of 1 to 5 digits.
function plainAt(bytes, front, at) {
  let from = at;
  while (from < bytes.length && isWhite(bytes[from])) from++;
  const sample = {from, to: from, good: true, grey: 0};
  for (; sample.to < bytes.length && !isWhite(bytes[sample.to]); sample.to++) {
    sample.good = sample.good && sample.to < from + 5 && isDigit(bytes[sample.to]);
    if (sample.good) sample.grey = sample.grey * 10 + bytes[sample.to] - 48;
  }
  return from < bytes.length ? sample : null;
}

// Where the samples that are in order end, how many they are, and the first that is not: null where the file ends there.
function orderOf(bytes, front) {
  const next = front.plain ? plainAt : rawAt;
  const order = {count: 0, end: front.raster, bad: null};
  while (order.count < front.width * front.height) {
    const sample = next(bytes, front, order.end);
    if (!sample || !sample.good) return {...order, bad: sample};
    order.count++;
    order.end = sample.to;
  }
  return order;
}

// The samples that are there, of those that should be: the least, the greatest, and the first above maxval.
function samplesOf(bytes, front) {
  const next = front.plain ? plainAt : rawAt;
  const found = {least: 65535, greatest: 0, above: -1, value: 0};
  let at = front.raster;
  for (let i = 0; i < front.width * front.height; i++) {
    const read = next(bytes, front, at);
    if (!read || !read.good) break;
    at = read.to;
    const sample = read.grey;
    if (sample < found.least) found.least = sample;
    if (sample > found.greatest) found.greatest = sample;
    if (sample > front.maxval && found.above < 0) {
      found.above = i;
      found.value = sample;
    }
  }
  return found;
}

// ---- the file ----

// Files that are often handed in for a raw PGM, by their first bytes, and how one is made of them: by our own program where
// greys could be lost on the way, else by Netpbm's.
const BY_IMPORT = 'station/import FILE --into FOLDER';
const KINDS = [
  ['P1', 'a plain bitmap (P1), black and white alone', BY_IMPORT],
  ['P4', 'a bitmap (P4), black and white alone', BY_IMPORT],
  ['P3', 'a plain PPM (P3), in colour', 'ppmtopgm FILE >NEW.pgm'],
  ['P6', 'a PPM (P6), in colour', 'ppmtopgm FILE >NEW.pgm'],
  ['P7', 'a PAM (P7)', BY_IMPORT],
  ['\x89PNG', 'a PNG', BY_IMPORT],
  ['II*\0', 'a TIFF', BY_IMPORT],
  ['MM\0*', 'a TIFF', BY_IMPORT],
  ['II+\0', 'a TIFF', BY_IMPORT],
  ['MM\0+', 'a TIFF', BY_IMPORT],
  ['\x1f\x8b', 'packed by gzip', 'gunzip <FILE >NEW.pgm'],
];

// The name where a shell takes it as it stands; else a word in its place.
function shellName(name) { return /^[\w.\/+,][\w.\/+,-]*$/.test(name) ? name : 'IN.pgm'; }

function begins(bytes, text, at = 0) {
  return bytes.length >= at + text.length && [...text].every((c, i) => bytes[at + i] === c.charCodeAt(0));
}

// The same samples behind another header: of a raw file its last bytes, of a plain one all that stands behind maxval.
function wayByHeader(input, front, maxval) {
  return `A new header alone does it: { printf 'P${front.plain ? 2 : 5}\\n${front.width} ${front.height}\\n${maxval}\\n'; ` +
    `tail -c ${front.plain ? `+${front.raster + 1}` : front.bytes} ${shellName(input.name)}; } >NEW.pgm`;
}

function wayWithoutComments(input) { return `Comments are taken out by: sed 's/#.*//' ${shellName(input.name)} >NEW.pgm`; }

// What takes films as they come: other formats and other depths.
function wayByImport(input, end) { return `${BY_IMPORT.replace('FILE', shellName(input.name))} ${end}`; }

function madeBy(input, what, way) {
  return `It is ${what}. A raw PGM is made of it by: ${way.replace('FILE', shellName(input.name))}`;
}

function moreOfHeader(input) {
  const {bytes} = input;
  const kind = KINDS.find(([text]) => begins(bytes, text));
  if (kind) return [madeBy(input, kind[1], kind[2])];
  if (bytes.length === 0) return ['It is empty.'];
  if (begins(bytes, 'DICM', 128)) return [madeBy(input, 'a DICOM file', BY_IMPORT)];
  if (begins(bytes, '\xff\xd8\xff')) {
    return ['It is a JPEG, whose packing alters greys: have the scan given as PNG, TIFF or DICONDE, for station/import.'];
  }
  const front = frontOf(bytes);
  if (!front.plain && !begins(bytes, 'P5')) return [`It begins with byte ${bytes[0]} where P, 80, stands in a PGM.`];
  const end = front.raster >= bytes.length ? 'ends' : 'breaks off';
  return [
    `It begins with P${front.plain ? 2 : 5}, and behind ${front.numbers.length} of its three numbers the header ${end}, ` +
      `at byte ${front.raster}.`,
    'Due are width, height and maxval, of up to five digits, each behind white space, and one white space byte.',
  ];
}

function moreOfComment(input, front) {
  const lines = [wayByImport(input, 'makes the same film without one.')];
  if (front.plain) return [...lines, wayWithoutComments(input)];
  const maxval = Math.min(front.maxval, MOST_GREY);
  if (front.whole && maxval > 0 && input.bytes.length - front.raster === front.bytes &&
      samplesOf(input.bytes, front).greatest <= maxval) {
    lines.push(wayByHeader(input, front, maxval));
  }
  return lines;
}

function moreOfSize(input, front) {
  if (front.numbers.length < 2) return [];
  const {width, height} = front;
  const lines = [`The header says ${width} by ${height} pixels; sides of 1 to ${MOST_SIDE} are taken.`];
  if (width > MOST_SIDE || height > MOST_SIDE) {
    lines.push(wayByImport(input, '--cut makes films of it that overlap.'));
  }
  return lines;
}

function moreOfMaxval(input, front) {
  if (!front.whole) return [];
  const {least, greatest} = samplesOf(input.bytes, front);
  const lines = [`The file's maxval is ${front.maxval}, and its greatest sample ${greatest}; ` +
    `maxvals of 1 to ${MOST_GREY} are taken.`];
  const known = !front.plain || orderOf(input.bytes, front).count === front.width * front.height;
  if (front.maxval > MOST_GREY && greatest <= MOST_GREY && known) lines.push(wayByHeader(input, front, MOST_GREY));
  else if (front.maxval > MOST_GREY) {
    lines.push(wayByImport(input, greatest - least <= MOST_GREY ? 'keeps every grey, less the least of them.'
      : 'takes an even step of greys for one, and says how many became one.'));
  }
  return lines;
}

// Up to 20 bytes of a sample, those that are no signs of a text as a dot.
function shownSample(bytes, {from, to}) {
  const signs = [...bytes.subarray(from, Math.min(to, from + 20))];
  const text = signs.map(b => (b > 32 && b < 127 ? String.fromCharCode(b) : '.')).join('');
  return to > from + 20 ? `${text}..` : text;
}

// Of a plain file: the samples that are missing, or the first that is none.
function moreOfPlain(input, front) {
  const {bytes} = input;
  const {count, bad} = orderOf(bytes, front);
  if (!bad) return [`The header says ${front.width} by ${front.height} pixels; behind it stand ${count} samples.`];
  const lines = [`At column ${count % front.width}, row ${Math.floor(count / front.width)}, which is byte ${bad.from}, ` +
    `stands no number of 1 to 5 digits: ${shownSample(bytes, bad)}`];
  if (bytes.subarray(bad.from, bad.to).includes(35)) lines.push(wayWithoutComments(input));
  return lines;
}

function moreBehind(input, front) {
  if (!front.plain) return moreOfRaster(input, front);
  const {count, end} = orderOf(input.bytes, front);
  return [`The header says ${front.width} by ${front.height} pixels; the last of these ${count} samples ends at byte ${end}, ` +
    'and more than white space follows.'];
}

function moreOfRaster(input, front) {
  if (!front.whole) return [];
  if (front.plain) return moreOfPlain(input, front);
  const there = input.bytes.length - front.raster;
  return [`The header says ${front.width} by ${front.height} pixels of ${front.wide === 1 ? 'one byte' : 'two bytes'}, ` +
    `${front.bytes} bytes; behind it stand ${input.cut ? 'more than ' : ''}${there}.`];
}

function moreOfSample(input, front) {
  if (!front.whole) return [];
  const {greatest, above, value} = samplesOf(input.bytes, front);
  if (above < 0) return [];
  const lines = [`The file's maxval is ${front.maxval}. The first above it is at column ${above % front.width}, ` +
    `row ${Math.floor(above / front.width)}: ${value}; the greatest is ${greatest}.`];
  const known = !front.plain || orderOf(input.bytes, front).count === front.width * front.height;
  if (greatest <= MOST_GREY && known) lines.push(wayByHeader(input, front, greatest));
  return lines;
}

export function moreOfFile(refusal, input) {
  const ways = {20: moreOfHeader, 21: moreOfComment, 22: moreOfSize, 23: moreOfMaxval, 24: moreOfRaster, 25: moreBehind,
    26: moreOfSample};
  return ways[refusal] ? ways[refusal](input, frontOf(input.bytes)) : [];
}

// ---- the settings ----

export function gridsThatFit(side) {
  const fit = [];
  for (let tiles = LEAST_GRID; tiles <= MOST_GRID; tiles++) if (side >= tiles) fit.push(tiles);
  return fit;
}

function moreOfGrid(film, s) {
  const list = side => gridsThatFit(side).join(' ') || 'none';
  return [
    `Asked were ${s.across} tiles across and ${s.down} down; the film is ${film.width} pixels wide and ${film.height} high.`,
    `Tiles across that fit: ${list(film.width)}. Tiles down that fit: ${list(film.height)}.`,
  ];
}

// A side is shorter than its grid: as many tiles as it has pixels are the most.
function moreOfSides(film, s) {
  const across = Math.min(s.across, film.width);
  const down = Math.min(s.down, film.height);
  const lines = moreOfGrid(film, s);
  if (across >= LEAST_GRID && down >= LEAST_GRID) lines.push(`Grid ${across} by ${down} is the nearest that fits.`);
  return lines;
}

// A side that is none: the odd one above it is taken, up to the largest.
function moreOfRegion(film, s) {
  const near = Math.max(LEAST_REGION, Math.min(MOST_REGION, s.side + 1 - s.side % 2));
  return [`Asked was side ${s.side}; odd sides from ${LEAST_REGION} to ${MOST_REGION} are taken.`,
    `Side ${near} is the nearest${s.side < MOST_REGION && s.side > LEAST_REGION ? ' above it' : ''}.`];
}

function wayByRange(film) {
  const flat = film.least === film.greatest;
  return `The film's least grey is ${film.least}, its greatest ${film.greatest}: Min ${flat ? 0 : film.least} and ` +
    `Max ${flat ? film.maxval : film.greatest} hold them all.`;
}

function moreOfRange(film, s) {
  return [`Asked was the range from ${s.min} to ${s.max}; the file's maxval is ${film.maxval}.`, wayByRange(film)];
}

function moreOfPixel(film, s) {
  const greys = film.library.room.u16(film.picture, film.width * film.height);
  const at = greys.findIndex(grey => grey < s.min || grey > s.max);
  if (at < 0) return [];
  return [
    `The first is at column ${at % film.width}, row ${Math.floor(at / film.width)}: grey ${greys[at]}, ` +
      `and the range is ${s.min} to ${s.max}.`,
    wayByRange(film),
  ];
}

function moreOfBins(film, s) {
  const greys = s.max - s.min + 1;
  return [`Asked were ${s.bins === 0 ? USUAL_BINS : s.bins} bins; the range ${s.min} to ${s.max} has ${greys} greys: ` +
    `${greys} bins are the most that it takes.`];
}

function moreOfAll(film, s) {
  const clip = s.clip ? `factor ${printG(Math.fround(s.factor), 9)}` : 'clip off';
  const by = s.around ? `own regions of side ${s.side}` : `grid ${s.across} by ${s.down}`;
  return [`The settings were ${by}, ${s.bins === 0 ? USUAL_BINS : s.bins} bins, ` +
    `range ${s.min} to ${s.max} (${s.max >= s.min ? s.max - s.min + 1 : 0} greys), ${clip}, edition ${EDITIONS[s.edition]}.`];
}

export function moreOfSettings(refusal, film, s) {
  const ways = {3: moreOfGrid, 4: moreOfGrid, 5: moreOfSides, 6: moreOfSides, 7: moreOfRange, 8: moreOfRange,
    13: moreOfPixel, 31: moreOfBins, 39: moreOfRegion};
  return (ways[refusal] || moreOfAll)(film, s);
}

// The film's own samples were in order, so what is above maxval is the rendering.
export function moreOfRendering(film, s) {
  return [
    'The rendering has greys above the file\'s maxval: the top of the range is above it.',
    `The file's maxval is ${film.maxval}, the top of the range ${s.max}: Max ${film.maxval} keeps below it.`,
  ];
}
