// From greys to the dots that are shown. This is the display alone: nothing here reaches the rendering or what is saved of it. A
// grey is shown as one of 256 shades; 12 bits lose their lower four that way.
import {MOST_GREY} from './calls.js';

// The lowest grey of the display window. Whole numbers, so that level 2048 and width 4096 show grey g as shade g / 16.
export function displayLow(display) { return display.level - Math.floor(display.width / 2); }

// For each grey the dot to be painted, red, green, blue and full cover in the order of the bytes.
export function shadeTable(display) {
  const low = displayLow(display);
  const table = new Uint32Array(MOST_GREY + 1);
  for (let grey = 0; grey < table.length; grey++) {
    const step = (grey - low) * 256 / display.width;
    const lit = step < 0 ? 0 : step > 255 ? 255 : step | 0;
    const shown = display.invert ? 255 - lit : lit;
    table[grey] = 0xff000000 | shown << 16 | shown << 8 | shown;
  }
  return table;
}

// Eight a turn, since the turns of so short a loop take longer than what is done in them.
function shadeInOrder(cells, table, dots) {
  const whole = dots.length - dots.length % 8;
  for (let i = 0; i < whole; i += 8) {
    dots[i] = table[cells[i]];
    dots[i + 1] = table[cells[i + 1]];
    dots[i + 2] = table[cells[i + 2]];
    dots[i + 3] = table[cells[i + 3]];
    dots[i + 4] = table[cells[i + 4]];
    dots[i + 5] = table[cells[i + 5]];
    dots[i + 6] = table[cells[i + 6]];
    dots[i + 7] = table[cells[i + 7]];
  }
  for (let i = whole; i < dots.length; i++) dots[i] = table[cells[i]];
}

// Lays cells, row by row as the film has them, on dots as they are seen: mirrored and turned.
export function shadeCells(cells, columns, rows, turn, table, dots) {
  if (!turn.aside && !turn.reverseX && !turn.reverseY) return shadeInOrder(cells, table, dots);
  const wide = turn.aside ? rows : columns;
  const high = turn.aside ? columns : rows;
  const stepX = turn.reverseX ? -1 : 1;
  const stepY = turn.reverseY ? -columns : columns;
  const start = (turn.reverseX ? columns - 1 : 0) + (turn.reverseY ? (rows - 1) * columns : 0);
  const [right, below] = turn.aside ? [stepY, stepX] : [stepX, stepY];
  for (let y = 0, to = 0; y < high; y++) {
    for (let x = 0, at = start + y * below; x < wide; x++, at += right) dots[to++] = table[cells[at]];
  }
}

// ---- a display of the scan's own ----

const LEFT_OUT = 200; // one pixel of so many is left out at each end

// The window from the grey below which one pixel of 200 lies to the one above which one of 200 lies: a flat scan uses few of the
// screen's shades, and would flatter the rendering.
export function autoWindow(histogram) {
  const total = histogram.reduce((sum, count) => sum + count, 0);
  const end = way => {
    let sum = 0;
    let grey = way > 0 ? 0 : histogram.length - 1;
    while (LEFT_OUT * (sum + histogram[grey]) <= total && grey + way >= 0 && grey + way < histogram.length) {
      sum += histogram[grey];
      grey += way;
    }
    return grey;
  };
  const low = end(1);
  const high = Math.max(low, end(-1));
  const width = high - low + 1;
  return {level: low + Math.floor(width / 2), width};
}

// The display that a side of a film is shown with.
export function displayOf(film, side) {
  const {level, width, invert, auto} = film.display;
  return side === 'scanned' && auto ? {...autoWindow(film.histogram), invert} : {level, width, invert};
}
