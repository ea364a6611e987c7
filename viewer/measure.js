// Measuring on the scanned greys, as docs/MEASURE.md defines it. Functions of numbers alone: no page and no library. Sums are
// whole numbers below 2^53, and what is shown is rounded once, from a fraction of BigInts or the root of one.

export const MOST_LANES = 101;
const UNITS = 1000000n; // six digits behind the point: a pitch in whole pm, a length in whole nm
export const LIMITS = {
  um: {least: UNITS / 10n, most: 10000n * UNITS, words: 'from 0.1 to 10000'},
  mm: {least: UNITS / 1000n, most: 10000n * UNITS, words: 'from 0.001 to 10000'},
};

// ---- numbers as they are shown ----

function withPoint(whole, digits, minus) {
  const text = whole.toString().padStart(digits + 1, '0');
  const sign = minus && whole > 0n ? '-' : '';
  return digits === 0 ? sign + text : `${sign}${text.slice(0, -digits)}.${text.slice(-digits)}`;
}

// top / bottom, bottom above 0, to the nearest; of two as near the one farther from zero.
export function shownRatio(top, bottom, digits) {
  const size = top < 0n ? -top : top;
  return withPoint((2n * size * 10n ** BigInt(digits) + bottom) / (2n * bottom), digits, top < 0n);
}

// The greatest whole number whose square is not above this one. Newton's way from above, begun near the root.
export function rootOf(square) {
  if (square < 2n) return square;
  let root = 1n << BigInt((square.toString(2).length + 1) >> 1);
  for (;;) {
    const next = (root + square / root) >> 1n;
    if (next >= root) return root;
    root = next;
  }
}

// The root of top / bottom in units of the last digit, to the nearest: half of the root of four times as much, rounded up.
function rootUnits(top, bottom, digits) {
  return (rootOf(4n * top * 100n ** BigInt(digits) / bottom) + 1n) / 2n;
}

export function shownRoot(top, bottom, digits) { return withPoint(rootUnits(top, bottom, digits), digits, false); }

// Whole millionths without the zeros at the end: how a pitch, a resolution and a length are written.
export function shownMillionths(units) { return withPoint(units, 6, false).replace(/\.?0+$/, ''); }

// ---- numbers as they are typed ----

// In whole millionths, or null where the text is no such number or lies outside its limits.
export function millionthsOf(text, limits) {
  const word = text.trim();
  if (!/^([0-9]+(\.[0-9]{0,6})?|\.[0-9]{1,6})$/.test(word)) return null;
  const [whole, part = ''] = word.split('.');
  const units = BigInt(whole || '0') * UNITS + BigInt(part.padEnd(6, '0'));
  return units < limits.least || units > limits.most ? null : units;
}

// What is wrong with a text that is no such number.
export function whyNot(what, text, unit, limits, kept) {
  const still = kept === null ? 'There is none yet.' : `${shownMillionths(kept)} ${unit} still counts.`;
  return `${what}: “${text}” is no number of ${unit} ${limits.words} with at most six digits behind the point. ${still}`;
}

// ---- lengths ----

export function squaredOf(line) { return (line.x1 - line.x0) ** 2 + (line.y1 - line.y0) ** 2; }

export function distancePixels(line) { return shownRoot(BigInt(squaredOf(line)), 1n, 2); }

// pitch: in pm; the distance in mm is root of squared x pitch / 10^9.
export function distanceMm(line, pitch) { return shownRoot(BigInt(squaredOf(line)) * pitch * pitch, 10n ** 18n, 3); }

export function lengthMm(pixels, pitch) { return shownRatio(BigInt(pixels) * pitch, 10n ** 9n, 3); }

// The pitch in pm of a line whose length is known in nm; null where that is no pitch.
export function pitchFrom(line, length) {
  const squared = BigInt(squaredOf(line));
  if (squared === 0n) return null;
  const pitch = rootUnits(length * length, squared * 10n ** 6n, 6);
  return pitch < LIMITS.um.least || pitch > LIMITS.um.most ? null : pitch;
}

// ---- places ----

export function isWholeNumber(value) { return Number.isInteger(value); }

export function pixelInside(film, x, y) {
  return isWholeNumber(x) && isWholeNumber(y) && x >= 0 && y >= 0 && x < film.width && y < film.height;
}

export function rectangleInside(film, box) {
  return [box.left, box.top, box.width, box.height].every(isWholeNumber) && box.left >= 0 && box.top >= 0 && box.width > 0 &&
    box.height > 0 && box.left + box.width <= film.width && box.top + box.height <= film.height;
}

// The rectangle that has two pixels in its corners.
export function rectangleOf(x0, y0, x1, y1) {
  return {left: Math.min(x0, x1), top: Math.min(y0, y1), width: Math.abs(x1 - x0) + 1, height: Math.abs(y1 - y0) + 1};
}

// ---- the line profile ----

export function lanesTaken(lanes) { return isWholeNumber(lanes) && lanes >= 1 && lanes <= MOST_LANES && lanes % 2 === 1; }

// The bilinear grey at column X / n and row Y / n, times n^2; -1 beyond the centres of the film's outer pixels.
function bilinear(film, X, Y, n) {
  if (X < 0 || Y < 0 || X > (film.width - 1) * n || Y > (film.height - 1) * n) return -1;
  const c = Math.floor(X / n);
  const r = Math.floor(Y / n);
  const u = X - c * n;
  const v = Y - r * n;
  const at = r * film.width + c;
  const {greys} = film;
  let sum = (n - u) * (n - v) * greys[at];
  if (u > 0) sum += u * (n - v) * greys[at + 1];
  if (v > 0) sum += (n - u) * v * greys[at + film.width];
  if (u > 0 && v > 0) sum += u * v * greys[at + film.width + 1];
  return sum;
}

// The distance rounded to a whole number: the last sample's number.
export function stepsOf(line) { return Number(rootUnits(BigInt(squaredOf(line)), 1n, 0)); }

// {n, sums, counts}: sample i is sums[i] / (counts[i] n^2). At most 101 lanes of 4095 x 5792^2, below 2^53.
export function profileOf(film, line, lanes) {
  const dx = line.x1 - line.x0;
  const dy = line.y1 - line.y0;
  const n = stepsOf(line);
  const half = (lanes - 1) / 2;
  const sums = [];
  const counts = [];
  for (let i = 0; i <= n; i++) {
    let sum = 0;
    let count = 0;
    for (let k = -half; k <= half; k++) {
      const grey = bilinear(film, line.x0 * n + dx * i - dy * k, line.y0 * n + dy * i + dx * k, n);
      if (grey < 0) continue;
      sum += grey;
      count++;
    }
    sums.push(sum);
    counts.push(count);
  }
  return {n, sums, counts};
}

export function shownSamples(profile) {
  const {n, sums, counts} = profile;
  const square = BigInt(n) * BigInt(n);
  return sums.map((sum, i) => shownRatio(BigInt(sum), BigInt(counts[i]) * square, 2));
}

// ---- the dip of a wire pair ----

function greatestDivisor(a, b) { return b === 0n ? a : greatestDivisor(b, a % b); }

// The heights of samples p to q above their background, all times one and the same whole number `scale`.
function heightsOf(profile, p, q) {
  const many = [...new Set(profile.counts)].map(BigInt).reduce((a, b) => a / greatestDivisor(a, b) * b, 1n);
  const value = i => BigInt(profile.sums[i]) * (many / BigInt(profile.counts[i]));
  const [first, last] = [value(p), value(q)];
  const heights = [];
  for (let i = p; i <= q; i++) heights.push(value(i) * BigInt(q - p) - first * BigInt(q - i) - last * BigInt(i - p));
  const sum = heights.reduce((a, b) => a + b, 0n);
  return {heights: sum < 0n ? heights.map(h => -h) : heights, flat: sum === 0n, dark: sum < 0n,
    scale: many * BigInt(q - p) * BigInt(profile.n) ** 2n};
}

// The greatest height before each place.
function greatestBefore(heights) {
  const found = [];
  let most = heights[0];
  heights.forEach(h => {
    found.push(most);
    if (h > most) most = h;
  });
  return found;
}

// The valley between two wires: {at, a, b, c} in the scale of the heights, or null.
function valleyOf(heights) {
  const before = greatestBefore(heights);
  const behind = greatestBefore(heights.slice().reverse()).reverse();
  const most = heights.reduce((a, b) => a > b ? a : b);
  let best = null;
  for (let i = 1; i < heights.length - 1; i++) {
    const lesser = before[i] < behind[i] ? before[i] : behind[i];
    const deep = lesser - heights[i];
    if (2n * lesser < most || deep <= 0n || (best && deep <= best.deep)) continue;
    best = {at: i, a: before[i], b: behind[i], c: heights[i], deep};
  }
  return best;
}

// The dip between samples p and q, as shown; null where there is none.
export function dipOf(profile, p, q) {
  const {heights, flat, dark, scale} = heightsOf(profile, p, q);
  const valley = flat ? null : valleyOf(heights);
  if (!valley) return null;
  const {a, b, c} = valley;
  const show = height => shownRatio(height, scale, 2);
  return {at: p + valley.at, a: show(a), b: show(b), c: show(c), dark, parted: 5n * (a + b - 2n * c) > a + b,
    percent: shownRatio(100n * (a + b - 2n * c), a + b, 1)};
}

// ---- the region ----

// Pixels, sum, sum of squares, least and greatest: below 2^53 for the largest film.
export function sumsOf(film, box) {
  const found = {pixels: box.width * box.height, sum: 0, squares: 0, least: Infinity, greatest: 0};
  for (let y = box.top; y < box.top + box.height; y++) {
    const from = y * film.width + box.left;
    for (let i = from; i < from + box.width; i++) {
      const grey = film.greys[i];
      found.sum += grey;
      found.squares += grey * grey;
      if (grey < found.least) found.least = grey;
      if (grey > found.greatest) found.greatest = grey;
    }
  }
  return found;
}

// As shown; null where there is none. resolution: in pm, or null.
export function regionOf(sums, resolution) {
  const [n, s, q] = [sums.pixels, sums.sum, sums.squares].map(BigInt);
  const spread = n * q - s * s; // n (n - 1) times the deviation's square
  const told = {pixels: sums.pixels, least: sums.least, greatest: sums.greatest, mean: shownRatio(s, n, 2), deviation: null,
    snr: null, snrN: null};
  if (n < 2n) return told;
  told.deviation = shownRoot(spread, n * (n - 1n), 2);
  if (spread === 0n) return told;
  const top = s * s * (n - 1n);
  told.snr = shownRoot(top, n * spread, 2);
  if (resolution !== null) told.snrN = shownRoot(top * 88600000n ** 2n, n * spread * resolution * resolution, 2);
  return told;
}
