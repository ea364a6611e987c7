"""The bins that are chosen where none are given, read once more from docs/STATION.md, in fractions: what station/bins.c and
viewer/numbers.js are held to. A row has a grid, or in its place the side of the region around each pixel.

Run: bins.py TABLE   prints each row of the table that says another number, and ends with 1 where there is one.
"""
import math
import struct
import sys
from fractions import Fraction

MOST = 1024


def holds(factor, pixels, bins, greys):
    """Whether the factor used is within a tenth of the one asked, or with a bin for each grey a quarter below at most."""
    limit = max(1, math.floor(factor * pixels / bins), math.ceil(Fraction(pixels, bins)))
    least = factor * (Fraction(3, 4) if bins == greys else Fraction(9, 10))
    return least <= Fraction(limit * bins, pixels) <= factor * Fraction(11, 10)


def judged(width, height, place):
    """The pixels of the least tile, or of a whole region, and the most bins that serve there."""
    if "x" in place:
        across, down = (int(n) for n in place.split("x"))
        return (width // across) * (height // down), MOST
    pixels = min(width, int(place)) * min(height, int(place))
    return pixels, min(256, max(64, pixels // 8))


def chosen(pixels, most, low, high, factor):
    """The most bins that hold the factor, of those that some limit makes the best of; factor is None with clip off."""
    greys = high - low + 1
    most = min(most, greys)
    if factor is None or not 1 < factor <= 1024:
        return most
    exact = Fraction(struct.unpack(">f", struct.pack(">f", factor))[0])
    if holds(exact, pixels, most, greys):
        return most
    for limit in range(math.floor(exact * pixels / most) + 1, math.floor(exact * pixels / 2) + 1):
        for bins in (math.floor(exact * pixels / limit), math.ceil(Fraction(pixels, limit))):
            if 2 <= bins <= most and holds(exact, pixels, bins, greys):
                return bins
    return 2


def rows(path):
    """The rows of the table: the words of each, and its number of bins."""
    with open(path, encoding="ascii") as table:
        return [line.split() for line in table if not line.startswith("#") and line.strip()]


def main():
    wrong = 0
    for size, place, span, clip, bins in rows(sys.argv[1]):
        width, height = (int(n) for n in size.split("x"))
        low, high = (int(n) for n in span.split(":"))
        found = chosen(*judged(width, height, place), low, high, None if clip == "off" else float(clip))
        if found != int(bins):
            print(size, place, span, clip, bins, "and by the rule", found)
            wrong += 1
    return 1 if wrong else 0


if __name__ == "__main__":
    sys.exit(main())
