"""What the page has to show: films, and their renderings by the second program (second/), which shares no line with the
library, the command line or the page."""

import base64
import collections
import hashlib
import os
import random
import re
import struct
import sys

TOP = os.path.dirname(os.path.dirname(os.path.dirname(os.path.abspath(__file__))))
sys.path.insert(0, os.path.join(TOP, "second"))
sys.path.insert(0, os.path.join(TOP, "station", "faults"))

import around  # noqa: E402
import bins  # noqa: E402
import clahe  # noqa: E402
import pgm  # noqa: E402

ZOOMS = {"1-4": (1, 4), "1-2": (1, 2), "1-1": (1, 1), "2-1": (2, 1), "4-1": (4, 1), "8-1": (8, 1)}


# Settings of own regions: their side, and settings of the second program whose grid is not looked at.
Regions = collections.namedtuple("Regions", "side settings")


class Film:
    """A film's greys row by row, and its renderings as far as they were asked for."""

    def __init__(self, name, width, height, maxval, greys):
        self.name, self.width, self.height, self.maxval, self.greys = name, width, height, maxval, greys
        self.kept = {}

    def file(self):
        """The film as a raw PGM file."""
        head = b"P5\n%d %d\n%d\n" % (self.width, self.height, self.maxval)
        if self.maxval < 256:
            return head + bytes(self.greys)
        return head + struct.pack(">%dH" % len(self.greys), *self.greys)

    def plain(self, end=b"\n"):
        """The film as a plain PGM file, a sample a line."""
        head = b"P2" + end + b"%d %d" % (self.width, self.height) + end + b"%d" % self.maxval + end
        return head + b"".join(b"%d" % grey + end for grey in self.greys)

    def usual(self, factor=3.0):
        """The settings that a film starts with: 8 by 8 tiles, or as many as it has pixels, and the bins that hold the factor."""
        across, down = min(8, self.width), min(8, self.height)
        chosen = bins.chosen(*bins.judged(self.width, self.height, "%dx%d" % (across, down)), 0, self.maxval, factor)
        return settings(across, down, chosen, 0, self.maxval, factor)

    def tile_at(self, x, y, asked):
        """The number and the rectangle of the tile in which a pixel lies."""
        for number, tile in enumerate(clahe.tiles_of(self.width, self.height, asked)):
            if tile.left <= x < tile.right and tile.top <= y < tile.bottom:
                return number, tile
        raise AssertionError("column %d, row %d lies in no tile" % (x, y))

    def plot(self, x, y, asked):
        """What the plot of a pixel's tile has to hold: its pixels, counts and limit, the mapping, and its excess and looks."""
        number, tile = self.tile_at(x, y, asked)
        part = slice(number * asked.bins, (number + 1) * asked.bins)
        pixels = clahe.pixels_of(tile)
        return {"pixels": pixels, "counts": self.counts(asked)[part],
                "limit": clahe.limit_of(asked.clip, pixels, asked.bins), "mapping": self.mappings(asked)[0][part],
                "excess": self.mappings(asked)[2][2 * number], "looks": self.mappings(asked)[2][2 * number + 1]}

    def counts(self, asked):
        """Each tile's counts."""
        counts = [0] * clahe.entries_of(asked)
        refusal = clahe.count(self.width, self.height, self.greys, asked, counts)
        assert refusal == 0, refusal
        return counts

    def mappings(self, asked):
        """The mappings, the footer, and of each tile its excess and looks."""
        key = "maps", asked
        if key not in self.kept:
            maps, scratch = [0] * clahe.entries_of(asked), [0] * clahe.bin_count(asked.bins)
            listed = [0] * (2 * asked.across * asked.down)
            answer = clahe.prepare(0, self.width, self.height, self.greys, asked, maps, scratch, listed)
            assert not isinstance(answer, int), answer
            self.kept[key] = maps, answer[1], listed
        return self.kept[key]

    def region_plot(self, x, y, asked):
        """The same of a pixel's own region, and its rectangle: left, right, top, bottom, the second and fourth not inside."""
        own = around.region(self.width, self.height, asked.side, x, y)
        pixels, bins = clahe.pixels_of(own), clahe.bin_count(asked.settings.bins)
        counts = clahe.tile_counts(self.greys, self.width, own, asked.settings)
        mapping, (excess, looks) = clahe.tile_mapping(counts, asked.settings, pixels)
        return own, {"pixels": pixels, "counts": counts, "limit": clahe.limit_of(asked.settings.clip, pixels, bins),
                     "mapping": mapping, "excess": excess, "looks": looks}

    def grey_at(self, x, y, asked):
        """One rendered grey."""
        grey = self.greys[y * self.width + x]
        if clahe.factor_is_one(asked.settings.clip if isinstance(asked, Regions) else asked.clip):
            return grey
        if isinstance(asked, Regions):
            return around.grey(self.width, self.height, self.greys, asked.side, asked.settings, x, y)
        return clahe.grey_at(x, y, grey, self.width, self.height, asked, self.mappings(asked)[0])

    def rendered(self, asked):
        """All rendered greys."""
        if asked not in self.kept:
            self.kept[asked] = [self.grey_at(x, y, asked) for y in range(self.height) for x in range(self.width)]
        return self.kept[asked]


EDITIONS = {clahe.OURS: "ours", clahe.OF_1986: "1986"}


def settings(across, down, bins, low, high, factor, edition=clahe.OURS):
    """Settings of the second program; factor None is clip off."""
    clip = None if factor is None else struct.unpack(">I", struct.pack(">f", factor))[0]
    return clahe.Settings(across, down, bins, low, high, clip, edition)


def factor_of(asked):
    """The factor as a number, None for clip off."""
    return None if asked.clip is None else struct.unpack(">f", struct.pack(">I", asked.clip))[0]


def footer_of(film, asked):
    """L, the factor asked and the factor used."""
    footer = around.footer_of(film.width, film.height, *asked) if isinstance(asked, Regions) else clahe.footer_of(
        film.width, film.height, asked)
    return (footer.limit, struct.unpack(">f", struct.pack(">I", footer.asked))[0],
            struct.unpack(">d", struct.pack(">Q", footer.used))[0])


def rendering_words(film, number, asked, data=None):
    """What tells a rendering: no other film, number or setting has it."""
    by = "side%d" % asked.side if isinstance(asked, Regions) else "%dx%d" % (asked.across, asked.down)
    asked = asked.settings if isinstance(asked, Regions) else asked
    factor = factor_of(asked)
    clip = "clipoff" if factor is None else "clip%.9g" % factor
    return "film%d-%s-%dbins-%dto%d-%s-%s-%s" % (number, by, asked.bins or 128, asked.min, asked.max, clip, EDITIONS[asked.edition],
                                                 digest_of(film, data)[:12])


def saved_name(film, number, asked, data=None):
    """The name of a saved rendering, without its ending."""
    return "%s-rendered-%s" % (film.name[:-4], rendering_words(film, number, asked, data))


def view_name(film, number, asked, words, data=None):
    """The name of a saved view, without its ending; words: what is shown, and how."""
    rest = "-%s-view-%s" % (rendering_words(film, number, asked, data), words)
    return film.name[:-4][:min(100, 235 - len(rest))] + rest


def digest_of(film, data=None):
    """The SHA-256 of a film's file."""
    return hashlib.sha256(data or film.file()).hexdigest()


# ---- films ----

def film_of(name, data):
    """The film in a file's bytes."""
    _, width, height, maxval, start = pgm.read(data)
    greys = [0] * (width * height)
    assert pgm.greys(data, start, width, height, maxval, greys) == 0
    return Film(name, width, height, maxval, greys)


def sample():
    """The sample film that is in the page."""
    with open(os.path.join(TOP, "docs/weld.pgm"), "rb") as file:
        return film_of("weld.pgm", file.read())


def twin(film):
    """Another film of the same size, in which no part looks like the first: upside down, darker, with noise of its own."""
    noise = random.Random(7)
    rows = [film.greys[y * film.width:(y + 1) * film.width] for y in reversed(range(film.height))]
    greys = [grey * 3 // 4 + noise.randrange(200) for row in rows for grey in row]
    return Film("twin.pgm", film.width, film.height, film.maxval, greys)


def noisy(name, width, height, maxval=4095):
    """The benchmark's noisy plate (bench/film.c), here also of other shapes."""
    state, greys = 20 * height + 12, []
    half = height // 6
    for y in range(height):
        away = abs(y - height // 2)
        row = 500 + y * 500 // height + ((half - away) * 900 // half if away < half else 0)
        for x in range(width):
            state = (state * 6364136223846793005 + 1442695040888963407) & 0xFFFFFFFFFFFFFFFF
            grain = (state >> 60 & 15) + (state >> 52 & 63) + (state >> 44 & 63)
            greys.append(row + x * 1800 // width + grain)
    if maxval < 4095:
        greys = [grey * maxval // 4095 for grey in greys]
    return Film(name, width, height, maxval, greys)


def four_of(name, film):
    """A film of twice the width and height, made of the same one four times."""
    rows = [film.greys[y * film.width:(y + 1) * film.width] * 2 for y in range(film.height)]
    return Film(name, 2 * film.width, 2 * film.height, film.maxval, [grey for row in rows for grey in row] * 2)


# ---- what is shown ----

def shades(level, width, invert=False):
    """For each grey the shade that is shown: the display window's `width` greys about `level` spread evenly over 0 to 255."""
    low = level - width // 2
    table = [max(0, min(255, (grey - low) * 256 // width)) for grey in range(4096)]
    return [255 - shade for shade in table] if invert else table


def spans(side, zoom):
    """Where each cell of a side begins and ends at a zoom of so many 1024ths: from floor(k 1024 / zoom) to where the next one
    begins, and at least one pixel."""
    return [(k * 1024 // zoom, min(side, max(k * 1024 // zoom + 1, (k + 1) * 1024 // zoom)))
            for k in range(-(-side * zoom // 1024))]


def any_cells(film, greys, zoom):
    """The same for any zoom, in 1024ths: the means of the pixels that each cell has."""
    across, down = spans(film.width, zoom), spans(film.height, zoom)
    means = []
    for top, bottom in down:
        rows = [greys[y * film.width:(y + 1) * film.width] for y in range(top, bottom)]
        for left, right in across:
            part = sum(sum(row[left:right]) for row in rows)
            count = (bottom - top) * (right - left)
            means.append((2 * part + count) // (2 * count))
    return len(across), len(down), means


def cells(film, greys, zoom):
    """Columns, rows and greys of what is shown at a zoom: pixels, or the means of blocks, rounded to the nearest."""
    if isinstance(zoom, int):
        return any_cells(film, greys, zoom)
    block = ZOOMS[zoom][1]
    if block == 1:
        return film.width, film.height, greys
    columns, rows = -(-film.width // block), -(-film.height // block)
    means = []
    for top in range(0, film.height, block):
        band = [greys[y * film.width:(y + 1) * film.width] for y in range(top, min(top + block, film.height))]
        for left in range(0, film.width, block):
            part = [grey for row in band for grey in row[left:left + block]]
            means.append((2 * sum(part) + len(part)) // (2 * len(part)))
    return columns, rows, means


def turned(columns, rows, seen, mirrored, quarters):
    """Cells mirrored left to right, and then turned clockwise by quarters."""
    lines = [seen[y * columns:(y + 1) * columns] for y in range(rows)]
    if mirrored:
        lines = [line[::-1] for line in lines]
    for _ in range(quarters):
        lines = [list(line) for line in zip(*lines[::-1])]
    return len(lines[0]), len(lines), [grey for line in lines for grey in line]


class Shown:
    """What one canvas has to hold: the film's cells as shades, each a square of `size` dots."""

    def __init__(self, film, greys, zoom, table, turn=(False, 0)):
        self.size = 1 if isinstance(zoom, int) else ZOOMS[zoom][0]
        key = "cells", id(greys), zoom
        if key not in film.kept:
            film.kept[key] = cells(film, greys, zoom)
        self.columns, self.rows, seen = turned(*film.kept[key], *turn) if any(turn) else film.kept[key]
        self.bytes = bytes(table[grey] for grey in seen)

    def row(self, y):
        """A row of dots, squares drawn out."""
        line = self.bytes[y * self.columns:(y + 1) * self.columns]
        return line if self.size == 1 else bytes(shade for shade in line for _ in range(self.size))

    def edge(self, canvas):
        """Where the film's first dot lies on the canvas (it may lie beyond the canvas), or None where no place fits."""
        if canvas.wide >= self.columns * self.size and canvas.high >= self.rows * self.size:
            return (canvas.left, canvas.top) if self.fits(canvas, canvas.left, canvas.top) else None
        for dot in range(self.size * self.size):
            place = self.place(canvas, dot % self.size, dot // self.size)
            if place:
                return place
        return None

    def place(self, canvas, right, down):
        """Looks for a row of the canvas, taken from a dot that is `right` and `down` from its middle, in the film."""
        y = canvas.high // 2 + down
        line = canvas.row(y)[right::self.size][1:-1]
        at = self.bytes.find(line)
        while at >= 0:
            column, row = at % self.columns, at // self.columns
            left = canvas.left + right - (column - 1) * self.size
            for low in range(self.size):
                top = canvas.top + y - row * self.size - low
                if self.fits(canvas, left, top):
                    return left, top
            at = self.bytes.find(line, at + 1)
        return None

    def fits(self, canvas, left, top):
        """Whether the canvas holds the film from this edge on, every dot of it, and nothing else."""
        box = (max(0, left), max(0, top), min(canvas.width, left + self.columns * self.size),
               min(canvas.height, top + self.rows * self.size))
        if box != (canvas.left, canvas.top, canvas.left + canvas.wide, canvas.top + canvas.high):
            return False
        known = (-1, b"")
        for y in range(box[1], box[3]):
            cell = (y - top) // self.size
            if cell != known[0]:
                known = cell, self.row(cell)[box[0] - left:box[2] - left]
            if canvas.row(y - canvas.top) != known[1]:
                return False
        return True


class Canvas:
    """What is on a canvas: its size, the box that is covered, and the shades in it."""

    def __init__(self, read):
        self.width, self.height, self.tinted = read["width"], read["height"], read["tinted"]
        self.left, self.top, self.wide, self.high = read["left"], read["top"], read["wide"], read["high"]
        self.covered = read["covered"]
        self.shades = base64.b64decode(read["shades"])

    def row(self, y):
        """A row of the box."""
        return self.shades[y * self.wide:(y + 1) * self.wide]

    def blank(self):
        """Whether nothing is on it."""
        return self.covered == 0


def own_window(film):
    """Level and width of the scan's own display: one pixel of 200 left out at each end."""
    ordered, left_out = sorted(film.greys), len(film.greys) // 200
    low, high = ordered[left_out], ordered[-1 - left_out]
    return low + (high - low + 1) // 2, high - low + 1


def sentences():
    """The sentence of each refusal, from the header's own text."""
    with open(os.path.join(TOP, "station/tzofnadir.h"), encoding="utf-8") as header:
        body = header.read().split("tz_refusal_text(uint32_t refusal)", 1)[1].split("};", 1)[0]
    return re.findall(r'^\s+"(.*)",$', body, re.M)
