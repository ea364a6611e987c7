#!/usr/bin/env python3
"""pits.py FILM.pgm ..: how well the pits of the corroded plate (plate.py) stand out, in it and in renderings of it.
pits.py --part X,Y --margin N WHOLE.pgm PART.pgm: how far a rendering depends on where the film was cut.

A pit's contrast is how much darker its middle is than the mean of the pixels seven above, below, left and right of it, in
percent of maxval. Noise is how far the same differences stray at as many places without a pit: the median of their sizes,
by which the borders of scabs, that some of the places meet, do not count much. Prints the file, the contrast that half of
the pits have at least, the one that nine of ten have, the noise, and the first over the noise.

With --part the second film is a rendering of the part of the scan that begins at column X, row Y, and the first one of the
whole scan. Of the pixels that are in both, but for N along the part's borders, prints the mean and the greatest difference, in
percent of maxval.
"""
import argparse
import statistics

import plate
import png
from weld import Noise

AWAY = 7


def difference(picture, x, y):
    """How much darker a pixel is than those around it."""
    width, _, _, greys = picture
    around = [greys[(y + down) * width + x + right] for right, down in ((-AWAY, 0), (AWAY, 0), (0, -AWAY), (0, AWAY))]
    return sum(around) / 4 - greys[y * width + x]


def places(found):
    """As many columns and rows as there are pits, away from them all."""
    noise, free = Noise(77), []
    while len(free) < len(found):
        x, y = plate.between(noise, 12, plate.WIDTH - 12), plate.between(noise, 12, plate.HEIGHT - 12)
        if all((x - px) * (x - px) + (y - py) * (y - py) > 150.0 for px, py, _ in found):
            free.append((x, y, 0.0))
    return free


def at_all(picture, spots):
    """The differences at these places, in percent of maxval, upward."""
    return sorted(100 * difference(picture, int(x + 0.5), int(y + 0.5)) / picture[2] for x, y, _ in spots)


def measured(picture):
    """The contrast of half of the pits, of nine in ten, and the noise."""
    found = plate.pits()
    contrasts = at_all(picture, found)
    noise = statistics.median(abs(each) for each in at_all(picture, places(found)))
    return statistics.median(contrasts), contrasts[len(contrasts) // 10], noise


def moved(whole, part, at, margin):
    """The mean and the greatest difference, in percent of maxval."""
    left, top = at
    differences = [abs(whole[3][(top + y) * whole[0] + left + x] - part[3][y * part[0] + x])
                   for y in range(margin, part[1] - margin) for x in range(margin, part[0] - margin)]
    return 100 * statistics.mean(differences) / whole[2], 100 * max(differences) / whole[2]


def place(word):
    """The two numbers of X,Y."""
    left, top = (int(number) for number in word.split(","))
    return left, top


def read(path):
    with open(path, "rb") as source:
        return png.read_pgm(source.read())


def main():
    words = argparse.ArgumentParser(description=__doc__, formatter_class=argparse.RawDescriptionHelpFormatter)
    words.add_argument("films", metavar="FILM.pgm", nargs="+")
    words.add_argument("--part", type=place, metavar="X,Y")
    words.add_argument("--margin", type=int, default=0, metavar="N")
    asked = words.parse_args()
    if asked.part:
        whole, part = asked.films
        print("%s\t%.2f\t%.2f" % ((part,) + moved(read(whole), read(part), asked.part, asked.margin)))
        return
    for path in asked.films:
        half, most, noise = measured(read(path))
        print("%s\t%.2f\t%.2f\t%.2f\t%.2f" % (path, half, most, noise, half / noise if noise else 0.0))


if __name__ == "__main__":
    main()
