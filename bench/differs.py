#!/usr/bin/env python3
"""differs.py: takes apart why the rendering of 1994 differs from ours.

Run: python3 -B bench/differs.py   needs Python alone, and took 20 seconds.

A rendering is cut into seven steps. Each stands here twice: as 1994 has it (bench/clahe1994.c) and as we have it, which
is second/clahe.py's own function wherever it has one for the step. For each film three things are measured against
our picture:

  one after another   all steps above and this one are ours, those below are still 1994's
  only this ours      1994's picture with this step alone exchanged for ours
  only this 1994's    our picture with this step alone exchanged for 1994's

`differ` is the share of the pixels that differ, `most` the greatest difference in greys, `mean` the mean difference in
greys over all pixels.

The program ends with 1 unless: all steps ours is the second program's picture, pixel for pixel; all steps 1994's is the
picture of bench/clahe1994.c (where `cc` is there to compile it); the films are those that bench/run left in
target/bench (where it did).
"""
import ctypes
import os
import shutil
import struct
import subprocess
import sys
import tempfile
from collections import namedtuple
from itertools import accumulate

TOP = os.path.dirname(os.path.dirname(os.path.abspath(__file__)))
sys.path.insert(0, os.path.join(TOP, "second"))

import clahe  # noqa: E402  (found by the line above)

WORD = 1 << 64  # the listing's unsigned long on the benchmark's machines, and the film generator's state
GRID, BINS = 8, 128
THREE = 0x40400000  # the benchmark's factor, 3.0, as f32 bits
CROSSING = 0x4041BCB7  # 3.0271432: for tiles of 61 by 61 its limit is 87, and 88 by float product

# A film with what it is rendered at; `bits` names the file that bench/run writes of it, None where it writes none.
Case = namedtuple("Case", "name side bits picture settings")
# A case with what all its renderings share.
Work = namedtuple("Work", "case tile pixels")


# --- numbers of the C program ------------------------------------------------------------------------------------

def f32(value):
    """The f32 nearest to a float. One operation of two f32 in double, then this, is the operation in f32."""
    return struct.unpack("f", struct.pack("f", value))[0]


def f32_of(bits):
    """The f32 that has these bits."""
    return struct.unpack(">f", struct.pack(">I", bits))[0]


# --- the steps as 1994 has them ----------------------------------------------------------------------------------

def bin_1994(grey, low, high, bins):
    """The entry of the lookup table for a grey."""
    return (grey - low) // (1 + (high - low) // bins)


def limit_1994(factor, pixels, bins):
    """The limit as a float product and quotient, cut off."""
    return max(1, int(f32(f32(f32_of(factor) * f32(pixels)) / f32(bins))))


def share_1994(counts, limit):
    """The even share, with the listing's slip: a bin that is filled up costs its count minus `upper`, which is unsigned
    there. The excess never falls below 0: each bin takes the share at most."""
    excess = clahe.excess_of(counts, limit)
    share = excess // len(counts)
    upper = (limit - share) % WORD
    result = []
    for count in counts:
        if count > limit:
            result.append(limit)
        elif count > upper:
            excess -= count - upper
            result.append(limit)
        else:
            excess -= share
            result.append(count + share)
    return result, excess


def walk_1994(counts, limit, left):
    """The leftover handed out; as mended, a run of all starts that gives nothing is the last."""
    before = None
    while left and left != before:
        before = left
        left -= sum(given for _, given in starts(counts, limit, left))
    return counts


def mapping_1994(counts, low, high, pixels):
    """The mapping by a float scale. With `low` above 0 a machine that fuses product and sum may give another."""
    scale = f32(f32(high - low) / f32(pixels))
    result, total = [], 0
    for count in counts:
        total += count
        result.append(min(high, int(f32(low + f32(f32(total) * scale)))))
    return result


def places_1994(side, tile, tiles):
    """For each column (or row) the two tiles, the place between them and the span's size. The first and the last span
    are half a tile, cut off: where a tile has odd sides the last column belongs to none and is not rendered."""
    spans = [(0, 0, tile // 2)] + [(i - 1, i, tile) for i in range(1, tiles)] + [(tiles - 1, tiles - 1, tile // 2)]
    places = [(low, high, at, size) for low, high, size in spans for at in range(size)]
    return places + [None] * (side - len(places))


def quotient_1994(total, area):
    """A shift where the area is a power of two, else a division."""
    return total // area if area & (area - 1) else total >> (area.bit_length() - 1)


# --- the steps as we have them -----------------------------------------------------------------------------------

def starts(counts, limit, left):
    """One run of the leftover walk through all starts, the same in both. Yields each start's step and what it gave."""
    for start in range(len(counts)):
        if not left:
            return
        before, step = left, max(1, len(counts) // left)
        for i in range(start, len(counts), step):
            if left and counts[i] < limit:
                counts[i] += 1
                left -= 1
        yield step, before - left


def share_ours(counts, limit):
    """The even share by the rule: a bin that is filled up takes the limit minus its count."""
    excess = clahe.excess_of(counts, limit)
    share = excess // len(counts)
    result = [min(limit, count + share) for count in counts]
    return result, excess - sum(after - count for after, count in zip(result, counts) if count <= limit)


def walk_ours(counts, limit, left):
    """The leftover handed out to the end. The rule has an end where the bins can hold what is left."""
    if left > limit * len(counts) - sum(counts):
        raise ValueError("more is left than the bins can hold")
    while left:
        left -= sum(given for _, given in starts(counts, limit, left))
    return counts


def places_ours(side, tile, tiles):
    """For each column (or row) the two tiles, the place between their centres and how far these are apart. With tiles of one
    size that is the tile's."""
    places = [clahe.place_of(side, tiles, at) for at in range(side)]
    assert all(place.span == tile for place in places)
    return [(place.tile, place.other, place.other_weight, place.span) for place in places]


def quotient_ours(total, area):
    """The division."""
    return total // area


# Name, 1994's, ours; in the order of a rendering.
STEPS = (
    ("bin of a grey", bin_1994, clahe.bin_of),
    ("limit", limit_1994, clahe.limit_of),
    ("even share", share_1994, share_ours),
    ("leftover walk", walk_1994, walk_ours),
    ("mapping", mapping_1994, clahe.mapping_of),
    ("weights", places_1994, places_ours),
    ("quotient", quotient_1994, quotient_ours),
)
ALL = frozenset(range(len(STEPS)))
NONE = frozenset()


# --- a rendering with any choice of steps ------------------------------------------------------------------------

def chosen(ours):
    """The functions of the steps, ours for the numbers in `ours` and 1994's for the others."""
    return [now if i in ours else then for i, (_, then, now) in enumerate(STEPS)]


def counts_of(work, bins, row, column):
    """The counts of a tile, from the bins of all pixels."""
    counts = [0] * BINS
    for y in range(row * work.tile, (row + 1) * work.tile):
        at = y * work.case.side + column * work.tile
        for b in bins[at:at + work.tile]:
            counts[b] += 1
    return counts


def bins_of(work, bin_of):
    """The bin of each pixel."""
    low, high = work.case.settings.min, work.case.settings.max
    table = {grey: bin_of(grey, low, high, BINS) for grey in range(low, high + 1)}
    return [table[grey] for grey in work.case.picture]


def clip_of(work, counts, ours):
    """The limit, what is left after the even share, and the clipped counts of a tile."""
    _, limit_of, share, walk = chosen(ours)[:4]
    limit = limit_of(work.case.settings.clip, work.pixels, BINS)
    counts, left = share(counts, limit)
    return limit, left, walk(counts, limit, left)


def maps_of(work, bins, ours):
    """The mappings of all tiles, row by row."""
    mapping = chosen(ours)[4]
    low, high = work.case.settings.min, work.case.settings.max
    return [[mapping(clip_of(work, counts_of(work, bins, row, column), ours)[2], low, high, work.pixels)
             for column in range(GRID)] for row in range(GRID)]


def rendered(work, ours):
    """The picture with the steps in `ours` ours and the others 1994's."""
    bin_of, _, _, _, _, places_of, quotient = chosen(ours)
    bins = bins_of(work, bin_of)
    maps = maps_of(work, bins, ours)
    places = places_of(work.case.side, work.tile, GRID)
    picture = list(work.case.picture)
    at = -1
    for row in places:
        for column in places:
            at += 1
            if row is None or column is None:
                continue
            up, down, p, height = row
            left, right, o, width = column
            b = bins[at]
            upper = (width - o) * maps[up][left][b] + o * maps[up][right][b]
            lower = (width - o) * maps[down][left][b] + o * maps[down][right][b]
            picture[at] = quotient((height - p) * upper + p * lower, width * height)
    return picture


# --- films -------------------------------------------------------------------------------------------------------

def film(side, bits):
    """The noisy film that bench/film.c draws."""
    state = 20 * side + bits
    middle, half = side // 2, side // 6
    picture = []
    for y in range(side):
        away = abs(y - middle)
        band = (half - away) * 900 // half if away < half else 0
        for x in range(side):
            state = (state * 6364136223846793005 + 1442695040888963407) % WORD
            noise = (state >> 60) + (state >> 52 & 63) + (state >> 44 & 63)
            grey = 500 + x * 1800 // side + y * 500 // side + band + noise
            picture.append(grey >> 4 if bits == 8 else grey)
    return picture


def settings(high, factor):
    """The benchmark's settings with this range from 0 and this factor."""
    return clahe.Settings(GRID, GRID, BINS, 0, high, factor)


def cases():
    """The benchmark's two films; the second cut to 8 bits; and a film that shows what each step can do: its tiles have
    odd sides, many of its sums meet a whole grey, and its factor's float product crosses a whole number. Without it a
    step that makes no difference could not be told from a switch that does nothing."""
    deep = film(512, 12)
    return (
        Case("512 square, 8 bits", 512, 8, film(512, 8), settings(255, THREE)),
        Case("512 square, 12 bits", 512, 12, deep, settings(4095, THREE)),
        Case("512 square, the film of 12 bits cut to 8 (grey >> 4)", 512, None, [grey >> 4 for grey in deep],
             settings(255, THREE)),
        Case("488 square, 12 bits, range 0 to 3904, factor %.7f" % f32_of(CROSSING), 488, None, film(488, 12),
             settings(3904, CROSSING)),
    )


# --- checks ------------------------------------------------------------------------------------------------------

def compiled(folder):
    """clahe1994 from bench/clahe1994.c, or None where there is no cc."""
    if shutil.which("cc") is None:
        return None
    target = os.path.join(folder, "clahe1994.so")
    source = os.path.join(TOP, "bench", "clahe1994.c")
    subprocess.run(["cc", "-std=c11", "-O1", "-shared", "-fPIC", "-o", target, source], check=True)
    call = ctypes.CDLL(target).clahe1994
    call.argtypes = [ctypes.c_void_p] + [ctypes.c_uint] * 7 + [ctypes.c_float]
    return call


def picture_of_c(call, case):
    """The case rendered by the C program of 1994."""
    pixels = (ctypes.c_uint16 * len(case.picture))(*case.picture)
    s = case.settings
    code = call(pixels, case.side, case.side, s.min, s.max, s.across, s.down, s.bins, f32_of(s.clip))
    return list(pixels) if code == 0 else None


def picture_of_second(case):
    """The case rendered by the second program."""
    picture = list(case.picture)
    clahe.enhance(case.side, case.side, picture, case.settings, [0] * (GRID * GRID * BINS), [0] * BINS)
    return picture


def film_of_bench(case):
    """The film as bench/run left it, or None."""
    path = os.path.join(TOP, "target", "bench", "%d-%s-noisy.pgm" % (case.side, case.bits))
    if case.bits is None or not os.path.exists(path):
        return None
    size = 1 if case.settings.max < 256 else 2
    with open(path, "rb") as source:
        raster = source.read()[-size * len(case.picture):]
    return [int.from_bytes(raster[i:i + size], "big") for i in range(0, len(raster), size)]


def check(case, call, ours, then):
    """Prints what was compared and ends the program where it is not the same."""
    held = [("all steps ours: the second program's picture", ours, picture_of_second(case))]
    if call is not None:
        held.append(("all steps 1994's: the picture of bench/clahe1994.c", then, picture_of_c(call, case)))
    drawn = film_of_bench(case)
    if drawn is not None:
        held.append(("the film: that of bench/run", case.picture, drawn))
    for what, one, other in held:
        if one != other:
            sys.exit("differs.py: %s: not the same: %s" % (case.name, what))
        print("checked, %s" % what)


# --- what is printed ---------------------------------------------------------------------------------------------

def numbers(picture, ours):
    """Share of the pixels that differ, greatest and mean difference, as text."""
    by = [abs(a - b) for a, b in zip(picture, ours)]
    return "%6.2f%% %5d %8.4f" % (100 * sum(d != 0 for d in by) / len(by), max(by), sum(by) / len(by))


def print_steps(then, ours, pictures):
    """The table of the steps; `pictures` renders a choice of steps."""
    print("\n%-14s | %-22s | %-22s | %s" % ("", "one after another", "only this ours", "only this 1994's"))
    print("%-14s | %s" % ("step", " | ".join(["%7s %5s %8s" % ("differ", "most", "mean")] * 3)))
    print("%-14s | %s |" % ("all 1994's", numbers(then, ours)))
    for i, (name, _, _) in enumerate(STEPS):
        choices = (frozenset(range(i + 1)), frozenset([i]), ALL - {i})
        print("%-14s | %s" % (name, " | ".join(numbers(pictures(choice), ours) for choice in choices)))


def print_tiles(work):
    """In how many tiles the slip has a bin to meet, and how far it takes the clipped counts."""
    bins = bins_of(work, clahe.bin_of)
    met, totals, sums = 0, [], []
    for row in range(GRID):
        for column in range(GRID):
            counts = counts_of(work, bins, row, column)
            limit, _, then = clip_of(work, counts, NONE)
            share = clahe.excess_of(counts, limit) // BINS
            met += any(limit - share < count <= limit for count in counts)
            totals.append(sum(then) - work.pixels)
            ours = clip_of(work, counts, ALL)[2]
            sums.append(max(abs(a - b) for a, b in zip(accumulate(then), accumulate(ours))))
    span = work.case.settings.max - work.case.settings.min
    print("\nTiles with a bin above U and not above L: %d of %d." % (met, len(totals)))
    print("1994's clipped counts do not add up to the tile's %d pixels in %d tiles: %+d to %+d."
          % (work.pixels, sum(d != 0 for d in totals), min(totals), max(totals)))
    print("A sum S of 1994 is off by at most %d counts, in %d tiles by more than the total. A count is %.4f greys."
          % (max(sums), sum(by > abs(d) for by, d in zip(sums, totals)), span / work.pixels))


def worked_place(work, then, ours):
    """A pixel of the greatest difference, with one tile alone if there is such a pixel: x, y, and its tiles."""
    places = places_ours(work.case.side, work.tile, GRID)
    most = max(abs(a - b) for a, b in zip(then, ours))
    found = None
    for at, (a, b) in enumerate(zip(then, ours)):
        if abs(a - b) == most:
            y, x = divmod(at, work.case.side)
            rows = {places[y][0]} | ({places[y][1]} if places[y][2] else set())
            columns = {places[x][0]} | ({places[x][1]} if places[x][2] else set())
            tiles = [(row, column) for row in sorted(rows) for column in sorted(columns)]
            if found is None or len(tiles) < len(found[2]):
                found = (x, y, tiles)
    return found


def print_worked(work, then, ours):
    """One pixel of the greatest difference, with its tiles."""
    x, y, tiles = worked_place(work, then, ours)
    at = y * work.case.side + x
    bins = bins_of(work, clahe.bin_of)
    print("\nPixel x %d, y %d: grey %d, bin %d. 1994: %d. Ours: %d."
          % (x, y, work.case.picture[at], bins[at], then[at], ours[at]))
    for row, column in tiles:
        print_tile(work, counts_of(work, bins, row, column), row, column, bins[at])


def print_tile(work, counts, row, column, b):
    """A tile's clipping and its mapping of bin b, 1994's and ours."""
    limit = clahe.limit_of(work.case.settings.clip, work.pixels, BINS)
    excess = clahe.excess_of(counts, limit)
    share = excess // BINS
    between = [(i, count) for i, count in enumerate(counts) if limit - share < count <= limit]
    full = sum(count > limit for count in counts)
    print("Tile row %d, column %d: L %d, E %d, q %d, U %d; %d bins above L, %d take q; above U and not above L: %s"
          % (row, column, limit, excess, share, limit - share, full, BINS - full - len(between),
             ", ".join("bin %d with %d" % pair for pair in between)))
    print("  counts: %s" % " ".join("%d:%d" % (i, count) for i, count in enumerate(counts) if count))
    for name, ours in (("1994", NONE), ("ours", ALL)):
        limit, left, clipped = clip_of(work, counts, ours)
        shared, _ = chosen(ours)[2](counts, limit)
        steps = ", ".join("%d by step %d" % (given, step) for step, given in starts(shared, limit, left))
        mapped = chosen(ours)[4](clipped, work.case.settings.min, work.case.settings.max, work.pixels)
        print("  %s: L %d, r %d (the starts give %s); total %d, S to bin %d %d, mapped %d"
              % (name, limit, left, steps, sum(clipped), b, sum(clipped[:b + 1]), mapped[b]))


def take_apart(case, call):
    """All that is printed of a case."""
    tile = case.side // GRID
    work = Work(case, tile, tile * tile)
    kept = {}

    def pictures(choice):
        """The picture of a choice of steps, rendered once."""
        if choice not in kept:
            kept[choice] = rendered(work, choice)
        return kept[choice]

    then, ours = pictures(NONE), pictures(ALL)
    print("## %s\n" % case.name)
    check(case, call, ours, then)
    print_steps(then, ours, pictures)
    print_tiles(work)
    print_worked(work, then, ours)
    print(flush=True)


def main():
    """Takes each case apart."""
    with tempfile.TemporaryDirectory() as folder:
        call = compiled(folder)
        if call is None:
            print("no cc here: 1994's picture is not compared with that of bench/clahe1994.c\n")
        for case in cases():
            take_apart(case, call)


if __name__ == "__main__":
    main()
