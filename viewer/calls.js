// The library's calls on one instance of the module. An instance is one film's: its memory holds that film's pixels, counts
// and mappings, and nothing of another film's. Pointers and 32-bit numbers are i32, a length (usize) is an i64.

export const MOST_SIDE = 4096;
export const MOST_GREY = 4095;
export const LEAST_GRID = 2;
export const MOST_GRID = 16;
export const MOST_BINS = 4096;
export const USUAL_BINS = 128; // what bins 0 means
export const MOST_ENTRIES = MOST_GRID * MOST_GRID * MOST_BINS;
export const LEAST_REGION = 3; // a region's side is odd, from this on up to the next
export const MOST_REGION = 63;
export const MOST_SCRATCH = 2 * MOST_BINS; // what regions of their own take
const MEMORY_PAGE = 65536;

// The editions of the clip rule by the words that records and people have for them; their places are the numbers for the calls.
export const EDITIONS = ['ours', '1986'];

// How many edges and centres a record has, in the order in which the calls take them.
const AXES = {columnEdges: MOST_GRID + 1, columnCentres: MOST_GRID, rowEdges: MOST_GRID + 1, rowCentres: MOST_GRID};
const RECORD_NUMBERS = 10; // film, width, height, five settings, clip and edition
const MOST_LOOKS = 2 * MOST_GRID * MOST_GRID; // what map lists of each tile: its excess, and the looks of its leftover walk

// How many bytes each answer of the calls has: the digest's text ends in a NUL, and sizes are three numbers.
const ANSWERS = {record: 4 * RECORD_NUMBERS, factor: 4, limit: 4, asked: 4, used: 8, count: 8, part: 8, sizes: 12, digest: 65,
  ...Object.fromEntries(Object.entries(AXES).map(([name, count]) => [name, 4 * count])), looks: 8 * MOST_LOOKS};

// Where the answers stand, behind the address of the cells: one behind the other, each at a multiple of eight.
function placesOf(sizes) {
  const places = {};
  let top = 0;
  for (const [name, bytes] of Object.entries(sizes)) {
    places[name] = top;
    top += Math.ceil(bytes / 8) * 8;
  }
  return places;
}

const CELL = placesOf(ANSWERS);
const CELL_BYTES = CELL.looks + ANSWERS.looks;

// Memory that could not be had. It is told for the one film that asked.
export class NoMemory extends Error {
  constructor() {
    super('not enough memory for this film; the open films stay');
    this.name = 'NoMemory';
  }
}

// How much memory all films may have together. Infinity leaves it to the browser.
export function makeLedger(most) {
  let taken = 0;
  return {
    take(bytes) {
      if (taken + bytes > most) throw new NoMemory();
      taken += bytes;
    },
    give(bytes) { taken -= bytes; },
  };
}

function instanceOf(module) {
  try {
    return new WebAssembly.Instance(module, {}).exports;
  } catch (fault) {
    if (fault instanceof WebAssembly.LinkError || fault instanceof TypeError) throw fault;
    throw new NoMemory();
  }
}

// Memory of one instance, lent from the bottom up. The last piece may grow in its place, so nothing is ever moved.
function makeRoom(exports, ledger) {
  const memory = exports.memory;
  let top = exports.__heap_base.value;
  let taken = 0;
  function reach(end) {
    const pages = Math.ceil((end - memory.buffer.byteLength) / MEMORY_PAGE);
    if (pages <= 0) return;
    ledger.take(pages * MEMORY_PAGE);
    taken += pages * MEMORY_PAGE;
    try {
      memory.grow(pages);
    } catch {
      throw new NoMemory();
    }
  }
  return {
    lend(bytes) {
      const at = Math.ceil(top / 16) * 16;
      reach(at + bytes);
      top = at + bytes;
      return at;
    },
    // What was lent last, from there on, is lent no more.
    takeBack(at) { top = at; },
    // A place behind everything lent, with that many bytes from there on; the next such place is the same one.
    last(bytes) {
      const at = Math.ceil(top / 16) * 16;
      reach(at + bytes);
      return at;
    },
    giveBack() { ledger.give(taken); },
    u8: (at, count) => new Uint8Array(memory.buffer, at, count),
    u16: (at, count) => new Uint16Array(memory.buffer, at, count),
    u32: (at, count) => new Uint32Array(memory.buffer, at, count),
    view: (at, count) => new DataView(memory.buffer, at, count),
  };
}

// The settings in the order in which the calls take them, without and with the clip setting. The edition stands apart, since
// the calls take it last of all.
export function tilingOf(s) { return [s.across, s.down, s.bins, s.min, s.max]; }
export function settingsOf(s) { return [...tilingOf(s), s.clip, s.factor]; }
function sizeOf(film) { return [film.width, film.height]; }
function pictureOf(film) { return [film.picture, BigInt(film.width * film.height)]; }

// The calls on files, read and write, and the page's own.
function fileCalls(exports, room, cells) {
  return {
    readSizes(at, count) {
      const refusal = exports.tz_read_sizes(at, BigInt(count), cells + CELL.sizes) >>> 0;
      const [width, height, maxval] = room.u32(cells + CELL.sizes, 3);
      return {refusal, width, height, maxval};
    },
    plainSizes(at, count) {
      const refusal = exports.tz_plain_sizes(at, BigInt(count), cells + CELL.sizes) >>> 0;
      const [width, height, maxval] = room.u32(cells + CELL.sizes, 3);
      return {refusal, width, height, maxval};
    },
    readPlain(at, count, film) {
      return exports.tz_read_plain(at, BigInt(count), cells + CELL.sizes, ...pictureOf(film)) >>> 0;
    },
    readRaster(at, count) {
      const refusal = exports.tz_read_raster(at, BigInt(count), cells + CELL.part) >>> 0;
      return {refusal, start: room.view(cells + CELL.part, 8).getBigUint64(0, true)};
    },
    readGreys(at, count, start, film) {
      return exports.tz_read_greys(at, BigInt(count), start, film.width, film.height, film.maxval, ...pictureOf(film)) >>> 0;
    },
    write(greys, film, at, bytes) {
      const refusal = exports.tz_write(greys, BigInt(film.width * film.height), film.width, film.height, film.maxval, at,
        BigInt(bytes), cells + CELL.count) >>> 0;
      return {refusal, count: Number(room.view(cells + CELL.count, 8).getBigUint64(0, true))};
    },
    // A window in means of the zoom's blocks, whose side is a power of two.
    means(at, stride, {width, height, zoom}, to) { exports.viewer_means(at, stride, width, height, Math.log2(zoom.block), to); },
    digest(at, count) {
      exports.viewer_sha256(at, count, cells + CELL.digest);
      return String.fromCharCode(...room.u8(cells + CELL.digest, 64));
    },
  };
}

function footerIn(view) {
  return {limit: view.getUint32(CELL.limit, true), asked: view.getFloat32(CELL.asked, true),
    used: view.getFloat64(CELL.used, true)};
}

// The calls on films: count, map and draw; and around, of regions of their own.
function filmCalls(exports, room, cells) {
  const axes = Object.keys(AXES).map(name => cells + CELL[name]);
  const axis = name => room.u32(cells + CELL[name], AXES[name]);
  return {
    count(film, s, counts = MOST_ENTRIES) {
      return exports.tz_count(...sizeOf(film), ...pictureOf(film), ...tilingOf(s), film.counts, BigInt(counts)) >>> 0;
    },
    // With no counts lent nothing can be mapped: what the settings meet is given first, and 33 where they are in order.
    judge(film, s) { return this.map(film, s, 0).refusal; },
    map(film, s, counts = MOST_ENTRIES, maps = MOST_ENTRIES) {
      const refusal = exports.tz_map(film.number, ...sizeOf(film), ...settingsOf(s), film.counts, BigInt(counts),
        film.map, BigInt(maps), film.scratch, BigInt(MOST_SCRATCH), cells + CELL.record, cells + CELL.factor,
        cells + CELL.limit, cells + CELL.asked, cells + CELL.used, ...axes, cells + CELL.looks, BigInt(MOST_LOOKS),
        s.edition) >>> 0;
      const view = room.view(cells, CELL_BYTES);
      return {
        refusal,
        record: {numbers: room.u32(cells + CELL.record, RECORD_NUMBERS).slice(), factor: view.getFloat32(CELL.factor, true),
          axes: Object.fromEntries(Object.keys(AXES).map(name => [name, axis(name).slice()]))},
        footer: footerIn(view),
        // of each tile, tiles row by row, two numbers: no more than 2^45, so that JavaScript's numbers hold them; a refused grid has none
        looks: Array.from({length: refusal ? 0 : 2 * s.across * s.down}, (_, i) => Number(view.getBigUint64(CELL.looks + 8 * i, true))),
      };
    },
    // The settings are those wanted, the record the one that map left: the library compares them (15).
    draw(film, s, record, w, out) {
      room.u32(cells + CELL.record, RECORD_NUMBERS).set(record.numbers);
      for (const name of Object.keys(AXES)) axis(name).set(record.axes[name]);
      return exports.tz_draw(film.number, ...sizeOf(film), ...pictureOf(film), ...settingsOf(s), cells + CELL.record,
        record.factor, w.left, w.top, w.width, w.height, film.map, BigInt(MOST_ENTRIES), out,
        BigInt(w.width * w.height), ...axes, s.edition) >>> 0;
    },
    // All of a film, or of a part of one that is lent as a film; each pixel by the region around it.
    around(film, s, target, count) {
      const refusal = exports.tz_around(...sizeOf(film), ...pictureOf(film), s.side, s.bins, s.min, s.max, s.clip, s.factor, target,
        BigInt(count), film.scratch, BigInt(MOST_SCRATCH), cells + CELL.limit, cells + CELL.asked, cells + CELL.used,
        s.edition) >>> 0;
      return {refusal, footer: footerIn(room.view(cells, CELL_BYTES))};
    },
  };
}

export function makeLibrary(module, ledger) {
  const exports = instanceOf(module);
  const room = makeRoom(exports, ledger);
  const cells = room.lend(CELL_BYTES);
  return {
    room,
    ...fileCalls(exports, room, cells),
    ...filmCalls(exports, room, cells),
    // The header's own sentence for a refusal's number.
    sentence(refusal) {
      const at = exports.viewer_refusal_text(refusal);
      const text = room.u8(at, exports.memory.buffer.byteLength - at);
      return String.fromCharCode(...text.subarray(0, text.indexOf(0)));
    },
  };
}
