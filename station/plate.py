#!/usr/bin/env python3
"""plate.py [OUT.pgm [--force]]: draws a synthetic radiograph of a corroded plate, 512 by 384 pixels, 12 bits, as raw PGM.

The film shows a plate whose wall gets thinner to the right and downward. Nine scabs have eaten into it, shallow fields with
ragged borders that partly lie over each other, rough inside; 180 pits of one depth lie all over it; and there is film noise.
Only the four basic operations are used, and all chance comes from a fixed generator, so every machine draws the same bytes.
"""
from weld import HEIGHT, MAXVAL, WIDTH, Noise, hump, write

PITS, DEEP = 180, 120.0  # how many pits, and how much darker they are
ROUGH = ((37, 60.0), (15, 30.0))  # the roughness of scabs: from bump to bump, and how high
RAGGED = ((53, 0.5), (23, 0.25), (9, 0.12))  # and of their borders
EDGE = 9.0  # how many pixels a border takes from the plate down into the scab

# scabs: column, row, half the width, half the height, depth
SCABS = [
    (70, 60, 95, 70, 210), (200, 30, 80, 60, 380), (330, 100, 120, 80, 290), (470, 50, 70, 100, 450), (110, 210, 130, 70, 330),
    (270, 235, 80, 90, 520), (430, 250, 100, 70, 260), (50, 345, 90, 60, 470), (340, 350, 160, 60, 340),
]


def between(noise, least, most):
    return least + (most - least) * noise.throw() / 1023.0


def smooth(t):
    """From 0 to 1, level at both ends."""
    t = min(max(t, 0.0), 1.0)
    return t * t * (3.0 - 2.0 * t)


class Bumps:
    """Heights at the corners of a square net, and smooth between them."""

    def __init__(self, noise, apart, high):
        self.apart = apart
        self.heights = [[between(noise, -high, high) for _ in range(WIDTH // apart + 2)]
                        for _ in range(HEIGHT // apart + 2)]

    def at(self, x, y):
        column, row = x // self.apart, y // self.apart
        right, down = smooth(x % self.apart / self.apart), smooth(y % self.apart / self.apart)
        upper, lower = self.heights[row], self.heights[row + 1]
        above = upper[column] + (upper[column + 1] - upper[column]) * right
        below = lower[column] + (lower[column + 1] - lower[column]) * right
        return above + (below - above) * down


def scab(of, x, y, ragged):
    """How deep one scab is here; its border is ragged."""
    column, row, half, high, deep = of
    wide, tall = (x - column) / half, (y - row) / high
    return deep * smooth((1.0 - wide * wide - tall * tall + ragged) * half / EDGE / 2.0)


def eaten(x, y, ragged):
    """How much of the wall the scabs have taken: where they lie over each other, the deepest and half of the others."""
    deep = sorted(scab(of, x, y, ragged) for of in SCABS)
    return deep[-1] + 0.5 * sum(deep[:-1])


def pits():
    """Column, row and half the width of each; none is near another, or near the film's border."""
    noise, found = Noise(1912), []
    while len(found) < PITS:
        x, y, half = between(noise, 12, WIDTH - 12), between(noise, 12, HEIGHT - 12), between(noise, 3.0, 4.5)
        if all((x - px) * (x - px) + (y - py) * (y - py) > 300.0 for px, py, _ in found):
            found.append((x, y, half))
    return found


def pitted():
    """How much darker each pixel is by its pit, row by row."""
    dark = [[0.0] * WIDTH for _ in range(HEIGHT)]
    for px, py, half in pits():
        for y in range(int(py - half), int(py + half) + 2):
            for x in range(int(px - half), int(px + half) + 2):
                dark[y][x] = DEEP * hump(((x - px) * (x - px) + (y - py) * (y - py)) / half, half)
    return dark


def film():
    noise = Noise(13)
    rough = [Bumps(noise, apart, high) for apart, high in ROUGH]
    border = [Bumps(noise, apart, high) for apart, high in RAGGED]
    grain = [[noise.grain() for _ in range(WIDTH + 1)] for _ in range(HEIGHT + 1)]
    dark = pitted()
    for y in range(HEIGHT):
        for x in range(WIDTH):
            # neighbours share a part of their grain, as on film
            own = 2 * grain[y][x] + grain[y + 1][x] + grain[y][x + 1]
            gone = eaten(x, y, sum(bumps.at(x, y) for bumps in border))
            bumpy = sum(bumps.at(x, y) for bumps in rough) * (0.15 + gone / 400.0)
            # what is missing in the metal lets more rays through: the film is darker there
            grey = 3500.0 - 1.9 * x - 1.3 * y - 1.5 * gone + bumpy - dark[y][x] + own / 190.0
            yield min(max(int(grey), 0), MAXVAL)


if __name__ == "__main__":
    write(film())
