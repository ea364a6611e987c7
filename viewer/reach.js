// What a pixel's rendered grey depends on, and how far a rectangle of the film reaches (docs/RULES.md, 4.3 and 4.4), by the
// edges and centres in the library's own record, or by the side of own regions. Numbers alone: nothing here knows the page.
//
// A side is the film's columns or its rows: {grid, edges, centres}, as many tiles as the grid, each from its edge up to the next.

export function sidesOf({columnEdges, columnCentres, rowEdges, rowCentres}, s) {
  return {columns: {grid: s.across, edges: columnEdges, centres: columnCentres},
    rows: {grid: s.down, edges: rowEdges, centres: rowCentres}};
}

// At factor 1.0 the film is shown as it is: a pixel is its own grey, whatever its tiles are.
export function isAsScanned(s) { return Boolean(s.clip) && Math.fround(s.factor) === 1; }

// The tile columns (rows) that a column (row) uses, each with its weight. One that stands between two centres weighs each of the
// two tiles by the distance from the other's centre; before the first centre, and from the last one on, that tile is used alone,
// by its own width. A tile of weight 0 is not used.
export function sharesOf({grid, edges, centres}, at) {
  let next = 0; // the first tile whose centre lies behind it
  while (next < grid && centres[next] <= at) next++;
  if (next === 0 || next === grid) {
    const tile = next === 0 ? 0 : grid - 1;
    return [{tile, weight: edges[tile + 1] - edges[tile]}];
  }
  return [{tile: next - 1, weight: centres[next] - at}, {tile: next, weight: at - centres[next - 1]}]
    .filter(({weight}) => weight > 0);
}

// The tiles that a pixel's rule uses, at most four, row by row: place in the grid, rectangle, and the product of both weights.
export function usedTiles({columns, rows}, x, y) {
  return sharesOf(rows, y).flatMap(row => sharesOf(columns, x).map(column => ({
    across: column.tile, down: row.tile, weight: row.weight * column.weight,
    left: columns.edges[column.tile], top: rows.edges[row.tile],
    width: columns.edges[column.tile + 1] - columns.edges[column.tile],
    height: rows.edges[row.tile + 1] - rows.edges[row.tile],
  })));
}

// The columns (rows) that use a tile in which one of the columns (rows) from first on, that many, lies: behind the centre before
// those tiles, and before the centre behind them.
function spanReached({grid, edges, centres}, first, count) {
  let low = 0;
  while (edges[low + 1] <= first) low++;
  let high = low;
  while (edges[high + 1] < first + count) high++;
  const from = low === 0 ? 0 : centres[low - 1] + 1;
  return {from, count: (high === grid - 1 ? edges[grid] : centres[high + 1]) - from};
}

// A rectangle and half a side around it, cut off at the film's border: of a pixel its own region, of a window what its pixels
// depend on, and of any rectangle the pixels in whose regions a part of it lies.
export function regionAbout(film, {side}, {left, top, width, height}) {
  const half = side >> 1;
  const from = {left: Math.max(0, left - half), top: Math.max(0, top - half)};
  return {...from, width: Math.min(film.width, left + width + half) - from.left,
    height: Math.min(film.height, top + height + half) - from.top};
}

// All pixels that a rectangle can reach, which are a rectangle too: those that use a tile in which a part of it lies, or in
// whose own region it does. Its own are among them, and at factor 1.0 there are no others. axes: of the film's record, where it
// has one.
export function reachOf(film, axes, s, {left, top, width, height}) {
  if (isAsScanned(s)) return {left, top, width, height};
  if (s.around) return regionAbout(film, s, {left, top, width, height});
  const sides = sidesOf(axes, s);
  const columns = spanReached(sides.columns, left, width);
  const rows = spanReached(sides.rows, top, height);
  return {left: columns.from, top: rows.from, width: columns.count, height: rows.count};
}
