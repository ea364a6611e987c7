// The film's histogram beneath Min and Max, and the plot of the counts, limit and mapping of a tile or of a pixel's own region.
import {element} from './dom.js';
import {mostLevel} from './panel.js';

export const INK = {bar: '#6f6f6f', faint: '#4a4a4a', text: '#9a9a9a', line: '#e0e0e0', limit: '#d8a54a', out: '#2b2b2b'};
const AXIS = 12; // room for the numbers beneath

// How large the canvases are, asked once until the page is sized anew: to ask has the browser lay out the page before its time.
const sizes = {asked: new Map()};

export function forgetSizes() { sizes.asked.clear(); }

function canvasSize(canvas) {
  if (!sizes.asked.has(canvas)) {
    const size = {width: canvas.clientWidth, height: canvas.clientHeight};
    if (size.width === 0) return size; // it is not shown yet
    sizes.asked.set(canvas, size);
  }
  return sizes.asked.get(canvas);
}

// A pen for the canvas at the screen's own pixels, with lengths in the page's.
export function penFor(canvas) {
  const {width, height} = canvasSize(canvas);
  canvas.width = Math.round(width * devicePixelRatio);
  canvas.height = Math.round(height * devicePixelRatio);
  const pen = canvas.getContext('2d');
  pen.scale(devicePixelRatio, devicePixelRatio);
  pen.font = '10.5px system-ui, "DejaVu Sans", sans-serif';
  return {pen, width, height};
}

// The greatest of some counts for each column of the plot: a column may stand for several.
function columnsOf(counts, width) {
  const columns = new Float64Array(Math.max(1, Math.floor(width)));
  for (let i = 0; i < counts.length; i++) {
    const at = Math.floor(i * columns.length / counts.length);
    const to = Math.max(at + 1, Math.floor((i + 1) * columns.length / counts.length));
    for (let k = at; k < to; k++) columns[k] = Math.max(columns[k], counts[i]);
  }
  return columns;
}

// ---- the histogram ----

// From 0 to the file's maxval, or to Max where that is above it: a grey's share of the plot's width less a dot.
export function shareOf(film, grey) { return Math.max(0, Math.min(1, grey / mostLevel(film))); }
function greyToX(film, grey, width) { return shareOf(film, grey) * (width - 1); }

let histogramKey = ''; // what it was drawn for: a display that is dragged leaves it alone

export function drawHistogram(film) {
  const canvas = element('histogram');
  const key = film ? [film.number, film.settings.min, film.settings.max, ...Object.values(canvasSize(canvas)),
    devicePixelRatio].join() : '';
  if (film && key === histogramKey) return;
  histogramKey = key;
  const {pen, width, height} = penFor(canvas);
  if (!film) return;
  const high = height - AXIS;
  const columns = columnsOf(film.histogram, width * (film.maxval + 1) / (mostLevel(film) + 1));
  // by the logarithm, so that a single pixel can be seen: one outside the range is enough for a refusal
  const top = Math.log1p(Math.max(...columns));
  const from = greyToX(film, film.settings.min, width);
  const to = greyToX(film, film.settings.max, width);
  pen.fillStyle = INK.out;
  pen.fillRect(0, 0, width, high);
  pen.fillStyle = '#161616';
  pen.fillRect(from, 0, Math.max(1, to - from), high);
  columns.forEach((count, x) => {
    pen.fillStyle = x >= from - 1 && x <= to + 1 ? '#8a8a8a' : '#5f5f5f';
    const bar = high * Math.log1p(count) / top;
    if (count > 0) pen.fillRect(x, high - bar, 1, bar);
  });
  histogramText(pen, film, width, height);
}

function histogramText(pen, film, width, height) {
  pen.fillStyle = INK.text;
  pen.textBaseline = 'bottom';
  pen.textAlign = 'left';
  pen.fillText('0', 0, height + 1);
  pen.textAlign = 'right';
  pen.fillText(String(mostLevel(film)), width, height + 1);
  pen.textAlign = 'center';
  pen.fillText('grey; height: pixels, by the logarithm', width / 2, height + 1);
}

// ---- the tile ----

const MARGIN = {left: 34, right: 34, top: 13, bottom: 24};

export function drawTilePlot(probe) {
  const {pen, width, height} = penFor(element('tile-plot'));
  const box = {x: MARGIN.left, y: MARGIN.top, width: width - MARGIN.left - MARGIN.right,
    height: height - MARGIN.top - MARGIN.bottom};
  pen.fillStyle = '#161616';
  pen.fillRect(box.x, box.y, box.width, box.height);
  if (!probe) return emptyTile(pen, box);
  const columns = columnsOf(probe.counts, box.width);
  const most = Math.max(...columns, probe.limit, 1);
  drawBars(pen, box, columns, most);
  if (probe.limit > 0) drawLimit(pen, box, probe.limit, most);
  if (probe.mapping) drawMapping(pen, box, probe);
  drawReading(pen, box, probe);
  labelTile(pen, box, probe, most);
}

function emptyTile(pen, box) {
  pen.fillStyle = INK.text;
  pen.textAlign = 'center';
  pen.textBaseline = 'middle';
  pen.fillText('point at the film for its tile or region', box.x + box.width / 2, box.y + box.height / 2);
}

function drawBars(pen, box, columns, most) {
  pen.fillStyle = INK.bar;
  columns.forEach((count, x) => {
    const bar = box.height * count / most;
    pen.fillRect(box.x + x, box.y + box.height - bar, 1, bar);
  });
}

function drawLimit(pen, box, limit, most) {
  const y = Math.round(box.y + box.height * (1 - limit / most)) + 0.5;
  pen.strokeStyle = pen.fillStyle = INK.limit;
  pen.setLineDash([4, 3]);
  pen.beginPath();
  pen.moveTo(box.x, y);
  pen.lineTo(box.x + box.width, y);
  pen.stroke();
  pen.setLineDash([]);
  pen.textAlign = 'left';
  pen.textBaseline = y - box.y > 14 ? 'bottom' : 'top';
  pen.fillText(`L ${limit}`, box.x + 3, y);
}

// Steps: all greys of a bin become one grey.
function drawMapping(pen, box, probe) {
  const yOf = grey => box.y + box.height * (1 - (grey - probe.min) / (probe.max - probe.min));
  const step = box.width / probe.bins;
  pen.strokeStyle = INK.line;
  pen.lineWidth = 1.2;
  pen.beginPath();
  pen.moveTo(box.x, yOf(probe.mapping[0]));
  probe.mapping.forEach((grey, bin) => {
    pen.lineTo(box.x + bin * step, yOf(grey));
    pen.lineTo(box.x + (bin + 1) * step, yOf(grey));
  });
  pen.stroke();
  pen.lineWidth = 1;
}

// Where the pixel's own grey stands.
function drawReading(pen, box, probe) {
  const x = box.x + box.width * (probe.scanned - probe.min + 0.5) / (probe.max - probe.min + 1);
  pen.strokeStyle = '#8a8a8a';
  pen.beginPath();
  pen.moveTo(x, box.y);
  pen.lineTo(x, box.y + box.height + 3);
  pen.stroke();
}

function labelTile(pen, box, probe, most) {
  const foot = box.y + box.height;
  pen.fillStyle = INK.text;
  pen.textBaseline = 'top';
  pen.textAlign = 'left';
  pen.fillText(`pixels in a bin, of ${probe.tile.pixels}`, 0, 0);
  pen.fillText(String(probe.min), box.x, foot + 2);
  pen.textAlign = 'right';
  pen.fillText(String(probe.max), box.x + box.width, foot + 2);
  if (probe.mapping) pen.fillText('becomes grey', box.x + box.width + MARGIN.right, 0);
  pen.textAlign = 'center';
  pen.fillText(`scanned grey, in ${probe.bins} bins`, box.x + box.width / 2, foot + 12);
  pen.textAlign = 'right';
  pen.fillText(String(most), box.x - 3, box.y);
  pen.textBaseline = 'bottom';
  pen.fillText('0', box.x - 3, foot);
  pen.textAlign = 'left';
  if (!probe.mapping) return;
  pen.fillText(String(probe.min), box.x + box.width + 3, foot);
  pen.textBaseline = 'top';
  pen.fillText(String(probe.max), box.x + box.width + 3, box.y);
}
