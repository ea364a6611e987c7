#!/usr/bin/env python3
"""weld.py [OUT.pgm [--force]]: draws a synthetic radiograph of a girth weld, 512 by 384 pixels, 12 bits, as raw PGM.

The film shows a base plate whose grey rises from one corner to the other, a weld bead with its ripples, the root band
along the middle, eleven pores, a faint line of lack of fusion at the upper side wall, and film noise. Only the four
basic operations are used, and the noise comes from a fixed generator, so every machine draws the same bytes.
"""
import sys

import png

WIDTH, HEIGHT, MAXVAL = 512, 384, 4095
MIDDLE = 196.0  # the row of the weld's axis
BEAD = 74.0  # half the bead's width
ROOT = 13.0  # half the root band's width

# pores: column, row, radius, depth
PORES = [
    (58, 176, 3.1, 150), (71, 183, 2.0, 110), (77, 171, 1.6, 90), (84, 180, 2.4, 120),
    (213, 224, 3.6, 160), (222, 217, 1.8, 100), (231, 229, 2.2, 110),
    (402, 233, 2.7, 130), (436, 205, 1.7, 100), (447, 212, 2.9, 140), (468, 199, 2.0, 105),
]
# lack of fusion: first and last column, rows above the axis, depth
LACK_FROM, LACK_TO, LACK_ABOVE, LACK_DEPTH = 268, 392, 39.0, 62.0


class Noise:
    """A linear congruential generator; grain() is the sum of six throws, so roughly bell-shaped around 0."""

    def __init__(self, seed):
        self.state = seed

    def throw(self):
        self.state = (self.state * 6364136223846793005 + 1442695040888963407) % 2**64
        return self.state >> 54  # 0 to 1023

    def grain(self):
        return sum(self.throw() for _ in range(6)) - 3069


def wave(x, period):
    """A smooth wave between -1 and 1, made of parabolas."""
    t = x / period % 1.0
    return 16 * t * (0.5 - t) if t < 0.5 else -16 * (t - 0.5) * (1.0 - t)


def hump(d, half):
    """1 at d = 0, falling smoothly to 0 at d = half on both sides."""
    r = d / half
    return (1 - r * r) * (1 - r * r) if -1 < r < 1 else 0.0


def plate(x, y):
    return 420.0 + 4.1 * x + 1.7 * y + 160.0 * hump(x - 300.0, 420.0)


def bead(x, y):
    """The bead is thicker than the plate, so the film is lighter there."""
    d = y - MIDDLE - 3.0 * wave(x, 171.0)
    ripple = 13.0 * wave(x + d * d / 90.0, 15.0) * hump(d, BEAD)
    root = 85.0 * hump(d - 1.5 * wave(x, 67.0), ROOT)
    return 330.0 * hump(d, BEAD) + ripple + root


def flaws(x, y):
    """What is missing in the metal lets more rays through: the film is darker there."""
    dark = sum(depth * hump(0.5 * ((x - px) ** 2 + (y - py) ** 2) / radius, 2 * radius)
               for px, py, radius, depth in PORES if abs(x - px) < 12 and abs(y - py) < 12)
    if LACK_FROM <= x <= LACK_TO:
        row = MIDDLE - LACK_ABOVE + 1.4 * wave(x, 53.0)
        end = hump(x - (LACK_FROM + LACK_TO) / 2, (LACK_TO - LACK_FROM) / 1.6)
        dark += LACK_DEPTH * end * hump(y - row, 2.2)
    return dark


def film():
    noise = Noise(1994)
    grain = [[noise.grain() for _ in range(WIDTH + 1)] for _ in range(HEIGHT + 1)]
    for y in range(HEIGHT):
        for x in range(WIDTH):
            # neighbours share a part of their grain, as on film
            own = 2 * grain[y][x] + grain[y + 1][x] + grain[y][x + 1]
            grey = plate(x, y) + bead(x, y) - flaws(x, y) + own / 190.0
            yield min(max(int(grey), 0), MAXVAL)


def write(greys):
    """Writes a film of these greys as raw PGM, to the file that the words name or to standard output."""
    raster = bytearray()
    for grey in greys:
        raster += bytes((grey >> 8, grey & 255))
    data = b"P5\n%d %d\n%d\n" % (WIDTH, HEIGHT, MAXVAL) + bytes(raster)
    if len(sys.argv) > 1:
        png.put(data, sys.argv[1], "--force" in sys.argv[2:])
    else:
        sys.stdout.buffer.write(data)


if __name__ == "__main__":
    write(film())
