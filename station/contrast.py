#!/usr/bin/env python3
"""contrast.py [--at X,Y] FILM.pgm ..: how well the line of lacking fusion of the sample film (weld.py) stands out, in it
and in renderings of it. With --at the films are parts of the sample that begin at column X, row Y; columns that they do
not have are left out.

For each column from 290 to 369 the line's pixel is held against the mean of the two pixels three rows above and below it.
Contrast is the mean of these differences, in percent of maxval. Noise is how far the same differences stray (the standard
deviation) beside the line, 8 and 10 rows above and below. Prints the file, the contrast, and contrast over noise.
"""
import argparse
import statistics

import png
import weld

COLUMNS = range(290, 370)
AWAY = 3
BESIDE = (-10, -8, 8, 10)


def difference(picture, x, row):
    """How much darker a pixel is than those above and below it."""
    width, _, _, greys = picture
    around = (greys[(row - AWAY) * width + x] + greys[(row + AWAY) * width + x]) / 2
    return around - greys[row * width + x]


def place(word):
    """The two numbers of X,Y."""
    left, top = (int(number) for number in word.split(","))
    return left, top


def measured(picture, at=(0, 0)):
    """Contrast in percent of maxval, and contrast over noise."""
    left, top = at
    rows = {x - left: round(weld.MIDDLE - weld.LACK_ABOVE + 1.4 * weld.wave(x, 53.0)) - top
            for x in COLUMNS if 0 <= x - left < picture[0]}
    if not rows or min(rows.values()) + BESIDE[0] < AWAY or max(rows.values()) + BESIDE[-1] + AWAY >= picture[1]:
        raise SystemExit("contrast.py: the line, and 13 rows above and below it, do not lie inside the film")
    contrast = statistics.mean(difference(picture, x, rows[x]) for x in rows)
    noise = statistics.pstdev(difference(picture, x, rows[x] + off) for x in rows for off in BESIDE)
    return 100 * contrast / picture[2], contrast / noise if noise else 0.0  # a film of one grey shows nothing


def main():
    words = argparse.ArgumentParser(description=__doc__, formatter_class=argparse.RawDescriptionHelpFormatter)
    words.add_argument("films", metavar="FILM.pgm", nargs="+")
    words.add_argument("--at", type=place, metavar="X,Y", default=(0, 0))
    asked = words.parse_args()
    for path in asked.films:
        with open(path, "rb") as source:
            print("%s\t%.2f\t%.2f" % ((path,) + measured(png.read_pgm(source.read()), asked.at)))


if __name__ == "__main__":
    main()
