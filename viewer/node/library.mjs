// The flat calls of the library in WebAssembly, as tests want them: whole films in and out. A pointer is a number, a usize a
// BigInt, and a buffer is {at, length} in elements of `size` bytes.

const MOST_ENTRIES = 16 * 16 * 4096, MOST_BINS = 4096;

/** How many numbers a record's column edges, column centres, row edges and row centres are. */
export const AXES = [17, 16, 17, 16];

export class Library {
  constructor(wasm) {
    this.x = new WebAssembly.Instance(new WebAssembly.Module(wasm), {}).exports;
    this.top = this.x.__heap_base.value;
    this.map = this.lend(MOST_ENTRIES, 2);
    this.counts = this.lend(MOST_ENTRIES, 4);
    this.scratch = this.lend(MOST_BINS, 4);
    this.list = this.lend(2 * 16 * 16, 8);
    this.numbers = this.lend(10, 4);
    this.axes = AXES.map(count => this.lend(count, 4));
    this.answers = this.lend(8, 8);
  }

  /** Room for `length` elements of `size` bytes, never given back. */
  lend(length, size) {
    const at = Math.ceil(this.top / 16) * 16, memory = this.x.memory;
    this.top = at + length * size;
    const lacking = this.top - memory.buffer.byteLength;
    if (lacking > 0) memory.grow(Math.ceil(lacking / 65536));
    return { at, length, size };
  }

  bytes(buffer) { return new Uint8Array(this.x.memory.buffer, buffer.at, buffer.length * buffer.size); }
  view(buffer) { return new DataView(this.x.memory.buffer, buffer.at); }

  /** Bytes in the library's memory. */
  put(bytes) {
    const buffer = this.lend(bytes.length, 1);
    this.bytes(buffer).set(bytes);
    return buffer;
  }

  read(file) {
    const lent = this.put(file), answers = this.answers.at, view = this.view(this.answers);
    done(this.x.tz_read_sizes(...slice(lent), answers));
    const [width, height, maxval] = [0, 4, 8].map(at => view.getUint32(at, true));
    done(this.x.tz_read_raster(...slice(lent), answers));
    const start = view.getBigUint64(0, true), picture = this.lend(width * height, 2);
    done(this.x.tz_read_greys(...slice(lent), start, width, height, maxval, ...slice(picture)));
    return { width, height, maxval, picture };
  }

  /** A plain file's film, its sizes asked first. */
  readPlain(file) {
    const lent = this.put(file), answers = this.answers.at, view = this.view(this.answers);
    done(this.x.tz_plain_sizes(...slice(lent), answers));
    const [width, height, maxval] = [0, 4, 8].map(at => view.getUint32(at, true)), picture = this.lend(width * height, 2);
    done(this.x.tz_read_plain(...slice(lent), answers, ...slice(picture)));
    return { width, height, maxval, picture };
  }

  greys(film) { return new Uint16Array(this.x.memory.buffer, film.picture.at, film.width * film.height).slice(); }

  writtenPlain(film) {
    const out = this.lend(18 + 5 * film.width * film.height, 1);
    done(this.x.tz_write_plain(...slice(film.picture), film.width, film.height, film.maxval, ...slice(out), this.answers.at + 24));
    return Buffer.from(this.bytes(out).subarray(0, Number(this.view(this.answers).getBigUint64(24, true))));
  }

  write(film, picture) {
    const out = this.lend(18 + 2 * film.width * film.height, 1);
    // apart from where a footer lies
    done(this.x.tz_write(...slice(picture), film.width, film.height, film.maxval, ...slice(out), this.answers.at + 24));
    const count = Number(this.view(this.answers).getBigUint64(24, true));
    return Buffer.from(this.bytes(out).subarray(0, count));
  }

  /** Where a call puts a record's numbers and its factor, limit and the two factors, and the record's edges and centres. */
  recordPlaces() { return [this.numbers.at, this.answers.at]; }
  footerPlaces() { return [4, 8, 16].map(by => this.answers.at + by); }
  axesPlaces() { return this.axes.map(axis => axis.at); }
  footer() {
    const view = this.view(this.answers);
    return { limit: view.getUint32(4, true), asked: view.getFloat32(8, true), used: view.getFloat64(16, true) };
  }

  /** Of each tile, tiles row by row, its excess and its looks, as prepare or map left them. */
  listed(s) {
    const view = this.view(this.list);
    return Array.from({ length: 2 * s.across * s.down }, (_, i) => Number(view.getBigUint64(8 * i, true)));
  }

  /** tz_prepare or, by '_bytes', tz_prepare_bytes. */
  prepare(film, number, s, kind = '') {
    return this.x[`tz_prepare${kind}`](number, film.width, film.height, ...slice(film.picture), ...ranged(s), s.clip, s.factor,
      ...slice(this.map), ...slice(this.scratch), ...this.recordPlaces(), ...this.footerPlaces(), ...this.axesPlaces(),
      ...slice(this.list), edition(s));
  }
  count(film, s) {
    return this.x.tz_count(film.width, film.height, ...slice(film.picture), ...ranged(s), ...slice(this.counts));
  }
  mapped(film, number, s) {
    return this.x.tz_map(number, film.width, film.height, ...ranged(s), s.clip, s.factor, ...slice(this.counts),
      ...slice(this.map), ...slice(this.scratch), ...this.recordPlaces(), ...this.footerPlaces(), ...this.axesPlaces(),
      ...slice(this.list), edition(s));
  }
  enhance(film, picture, s, kind = '') {
    return this.x[`tz_enhance${kind}`](film.width, film.height, ...slice(picture), ...ranged(s), s.clip, s.factor,
      ...slice(this.map), ...slice(this.scratch), ...this.footerPlaces(), edition(s));
  }
  /** A window, with the record and the mappings that the last call left. */
  draw(film, number, s, window, out, kind = '') {
    return this.x[`tz_draw${kind}`](number, film.width, film.height, ...slice(film.picture), ...ranged(s), s.clip, s.factor,
      this.numbers.at, this.view(this.answers).getFloat32(0, true), window.left, window.top, window.width, window.height,
      ...slice(this.map), ...slice(out), ...this.axesPlaces(), edition(s));
  }

  sentence(number) { return this.text(this.x.viewer_refusal_text(number)); }
  digest(bytes) {
    const lent = this.put(bytes), out = this.lend(65, 1);
    this.x.viewer_sha256(lent.at, lent.length, out.at);
    return this.text(out.at);
  }
  text(at) {
    const bytes = new Uint8Array(this.x.memory.buffer, at);
    return Buffer.from(bytes.subarray(0, bytes.indexOf(0))).toString();
  }
}

const slice = buffer => [buffer.at, BigInt(buffer.length)];
const ranged = s => [s.across, s.down, s.bins, s.min, s.max];
const edition = s => s.edition || 0; // ours, where none is said

/** A refusal where none is expected. */
export function done(refusal) {
  if (refusal !== 0) throw new Error(`refused with ${refusal}`);
}
