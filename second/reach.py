"""How far a scratch reaches: order 10 of document 02, and the scratch rows of
FILMS.md.

Run: python3 second/reach.py   prints the text that FILMS.md describes.
The rows are read from crates/test_reach_films/stdin, which the proved program reads
too.  Besides, each row is held to what the order promises.
"""

import sys

sys.dont_write_bytecode = True

import clahe
import films

SCRATCH = "no case pokeat pokeval x y".split()

BYTES = films.Calls(clahe.prepare_bytes, clahe.draw_bytes, clahe.enhance_bytes,
                    lambda entries: bytearray(v % 256 for v in entries))

# The calls that a row goes through, by its letter.
CALLS = {"S": films.WIDE, "B": BYTES}


# --- what a pixel depends on, and what a pixel reaches ----------------------

def weights(side, grid, x):
    """Order 6: the tile columns (rows) that column (row) x uses, each with its
    weight: "a column between two centres weighs each of the two tiles by its
    distance from the other's centre, over the distance between the centres,
    and one outside the first or last centre uses that tile alone", where it has
    all the weight, as much as it is wide.  A tile of weight 0 isn't used."""
    centres = [clahe.centre_of(side, grid, i) for i in range(grid)]
    behind = [i for i in range(grid) if centres[i] > x]
    if not behind or behind[0] == 0:
        alone = behind[0] if behind else grid - 1
        return [(alone, clahe.edge_of(side, grid, alone + 1) - clahe.edge_of(side, grid, alone))]
    right = behind[0]
    left = right - 1
    pair = [(left, centres[right] - x), (right, x - centres[left])]
    return [(tile, weight) for tile, weight in pair if weight > 0]


def used_tiles(width, height, settings, x, y):
    """Order 10: "the tiles that this pixel's rule uses, at most four": each
    tile's number, tiles row by row, and its weight.  The weights add up to the
    product of the two distances, or widths, that they're parts of."""
    columns = weights(width, settings.across, x)
    return [(j * settings.across + i, above * beside)
            for j, above in weights(height, settings.down, y) for i, beside in columns]


def reached(side, grid, first, last):
    """The columns (rows) that a scratch in the columns first to last can alter:
    those that use a tile in which it lies.  Hands back the first and the last
    of them."""
    tiles = [i for i in range(grid)
             if clahe.edge_of(side, grid, i) <= last and first < clahe.edge_of(side, grid, i + 1)]
    far = [x for x in range(side) if any(tile in tiles for tile, _ in weights(side, grid, x))]
    return far[0], far[-1]


def reach_of(width, height, settings, left, top, right, bottom):
    """Every pixel that a change in the columns left to right and the rows top to
    bottom can alter: the changed ones, by their own greys, and those that use a
    tile in which one of these lies; at factor 1.0, where the film is shown as
    it is, the changed ones alone."""
    own = {(x, y) for y in range(top, bottom + 1) for x in range(left, right + 1)}
    if clahe.factor_is_one(settings.clip):
        return own
    met = {k for k, tile in enumerate(clahe.tiles_of(width, height, settings))
           if tile.left <= right and left < tile.right and tile.top <= bottom and top < tile.bottom}
    return own | {(x, y) for y in range(height) for x in range(width)
                  if any(tile in met for tile, _ in used_tiles(width, height, settings, x, y))}


# --- the rows ----------------------------------------------------------------

def shown(row, picture, x, y, calls):
    """Prepare then draw, and enhance: the answers of the three calls and the
    grey of the pixel x, y by each of the two ways."""
    width, height, settings = row["width"], row["height"], films.settings_of(row)
    maps, output = calls.lent(films.map_fill(row)), calls.lent([0])
    prepared = calls.prepare(row["film"], width, height, picture, settings, maps,
                             films.scratch_fill(row), films.looks_fill(row))
    record = films.record_of(films.record_numbers(row), row) if isinstance(prepared, int) else prepared[0]
    drawn = calls.draw(row["film"], width, height, picture, settings, record, (x, y, 1, 1), maps, output)
    enhanced = calls.enhance(width, height, picture, settings, calls.lent(films.map_fill(row)),
                             films.scratch_fill(row))
    return [prepared if isinstance(prepared, int) else 0, drawn, output[0],
            enhanced if isinstance(enhanced, int) else 0, picture[y * width + x]]


def by_used(row, picture, x, y):
    """The rendered grey of the pixel x, y from the tiles that it uses alone."""
    settings = films.settings_of(row)
    if clahe.factor_is_one(settings.clip):
        return picture[y * row["width"] + x]
    tiles = clahe.tiles_of(row["width"], row["height"], settings)
    bins = clahe.bin_count(settings.bins)
    own = clahe.bin_of(picture[y * row["width"] + x], settings.min, settings.max, bins)
    used = used_tiles(row["width"], row["height"], settings, x, y)
    total = 0
    for tile, weight in used:
        counts = clahe.tile_counts(picture, row["width"], tiles[tile], settings)
        total += weight * clahe.tile_mapping(counts, settings, clahe.pixels_of(tiles[tile]))[0][own]
    return total // sum(weight for _, weight in used)


def held(row, scratch, first, second):
    """What order 10 promises of a row: where the scratch lies in no tile that
    the pixel uses, it can't reach it, and both films show the same."""
    width, height, settings = row["width"], row["height"], films.settings_of(row)
    column, line = scratch["pokeat"] % width, scratch["pokeat"] // width
    tiles = clahe.tiles_of(width, height, settings)
    lies = [k for k, tile in enumerate(tiles)
            if tile.left <= column < tile.right and tile.top <= line < tile.bottom]
    used = [tile for tile, _ in used_tiles(width, height, settings, scratch["x"], scratch["y"])]
    assert len(lies) == 1 and 1 <= len(used) <= 4
    left, right = reached(width, settings.across, column, column)
    top, bottom = reached(height, settings.down, line, line)
    within = left <= scratch["x"] <= right and top <= scratch["y"] <= bottom
    assert within == (lies[0] in used), scratch
    assert within or first == second, scratch
    return used, lies[0]


def run():
    """The whole text, and of the four tiles that a pixel uses those in which a
    scratch was seen to alter it."""
    text, cases, altered = films.Text(), {}, set()
    for letter, numbers in films.lines("test_reach_films"):
        columns = films.COLUMNS["F"] if letter == "F" else SCRATCH
        row = dict(zip(columns, numbers))
        assert len(row) == len(columns) == len(numbers), numbers
        if letter == "F":
            cases[row["no"]] = row
            continue
        film, calls = cases[row["case"]], CALLS[letter]
        x, y = row["x"], row["y"]
        pictures = [films.film(film), films.film(dict(film, pokeat=row["pokeat"], pokeval=row["pokeval"]))]
        greys = [by_used(film, picture, x, y) for picture in pictures]
        first, second = [shown(film, calls.lent(picture), x, y, calls) for picture in pictures]
        assert [first[2], first[4], second[2], second[4]] == [greys[0]] * 2 + [greys[1]] * 2, row
        used, lies = held(film, row, first, second)
        if first != second and len(used) == 4 and pictures[0][y * film["width"] + x] == pictures[1][y * film["width"] + x]:
            altered.add(used.index(lies))
        tiles = used_tiles(film["width"], film["height"], films.settings_of(film), x, y)
        text.line("U", row["no"], *[number for pair in tiles for number in pair])
        text.line("A", row["no"], *first)
        text.line("B", row["no"], *second)
        text.line("K", row["no"], 1 if first == second else 0)
    return text.whole(), altered


if __name__ == "__main__":
    whole, altered = run()
    assert altered == {0, 1, 2, 3}, altered
    sys.stdout.write(whole)
