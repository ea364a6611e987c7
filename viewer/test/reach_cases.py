#!/usr/bin/env python3
"""viewer/test/reach_cases.py: prints cases for the page's reach.js, one a line, with the answers of the second program
(second/reach.py): films' sizes and grids, of some pixels the tiles that they use, and of some rectangles what they reach."""

import json
import os
import random
import sys

sys.dont_write_bytecode = True
sys.path.insert(0, os.path.join(os.path.dirname(os.path.abspath(__file__)), "..", "..", "second"))

import clahe  # noqa: E402
import reach  # noqa: E402

THREE = 0x40400000  # factor 3.0
SIZES = [(5, 5, 2, 2), (17, 16, 16, 16), (64, 48, 4, 3), (4096, 2, 16, 2), (3, 4095, 2, 15), (333, 16, 16, 16)]


def rectangle(of, width, height):
    """A rectangle of a film: its first column and row, its last column and row."""
    columns, rows = (sorted((of.randrange(width), of.randrange(width))), sorted((of.randrange(height), of.randrange(height))))
    return columns[0], rows[0], columns[1], rows[1]


def case(of, width, height, across, down):
    """One film's size and grid, with pixels and rectangles; all corners and centres are among the pixels."""
    settings = clahe.Settings(across, down, 2, 0, 255, THREE, clahe.OURS)
    columns = [clahe.centre_of(width, across, i) for i in range(across)] + [0, width - 1]
    rows = [clahe.centre_of(height, down, j) for j in range(down)] + [0, height - 1]
    pixels = [(of.randrange(width), of.randrange(height)) for _ in range(20)]
    pixels += [(max(0, of.choice(columns) - of.randrange(2)), max(0, of.choice(rows) - of.randrange(2))) for _ in range(20)]
    boxes = [rectangle(of, width, height) for _ in range(6)] + [(0, 0, width - 1, height - 1), (*pixels[0], *pixels[0])]
    told = []
    for left, top, right, bottom in boxes:
        far = reach.reached(width, across, left, right), reach.reached(height, down, top, bottom)
        told.append([[left, top, right, bottom], [far[0][0], far[1][0], far[0][1], far[1][1]]])
    return {"width": width, "height": height, "across": across, "down": down, "boxes": told,
            "pixels": [[x, y, reach.used_tiles(width, height, settings, x, y)] for x, y in pixels]}


def main():
    """The sizes above, and random ones."""
    of = random.Random(10)
    sizes = list(SIZES)
    while len(sizes) < 150:
        width, height = of.randrange(2, 300), of.randrange(2, 300)
        sizes.append((width, height, of.randrange(2, min(16, width) + 1), of.randrange(2, min(16, height) + 1)))
    for size in sizes:
        print(json.dumps(case(of, *size)))


if __name__ == "__main__":
    main()
