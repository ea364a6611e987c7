"""The listing program of document 01, "Numbers to check by hand", for films of
any size as document 02's order 6 has them, and with the looks of its order 7.

As a function, bytes -> bytes; as a program, standard input -> standard output.
"""

import sys

sys.dont_write_bytecode = True

import clahe
import pgm

# "reads a PGM of at most 8,192 pixels and 32,768 bytes from standard input"
MOST_PIXELS = 8192
MOST_BYTES = 32768
# "uses grid 2 by 2, 4 bins, range 0 to maxval, factor 2."
GRID = 2
BINS = 4
FACTOR_TWO = 0x40000000


def line(fields):
    """"Fields are parted by tabs." "Every line ends in LF, the last too." """
    return "\t".join(str(field) for field in fields) + "\n"


def refused(number):
    """"A refusal prints `refused`, tab, number" """
    return line(["refused", number]).encode("ascii")


def listing(data):
    """The listing of the PGM bytes: "First line: width, height, grid across,
    grid down, bins, Min, Max, L. Then a line per tile: row, column, E, the
    mapping."  Order 7, of the number of looks: "The listing gets it as a new
    field after E." """
    # "a longer input is 22 before all else"
    if len(data) > MOST_BYTES:
        return refused(22)
    # "a larger film is 22 where read's own 22 stands": behind the header's
    # 20 and 21, before 23.
    found = pgm.header(data)
    if isinstance(found, int):
        return refused(found)
    _, width, height, maxval, start = found
    if width * height > MOST_PIXELS:
        return refused(22)
    answer = pgm.read_sizes(data)
    if isinstance(answer, int):
        return refused(answer)
    picture = [0] * (width * height)
    answer = pgm.greys(data, start, width, height, maxval, picture)
    if answer != 0:
        return refused(answer)
    settings = clahe.Settings(GRID, GRID, BINS, 0, maxval, FACTOR_TWO)
    maps = [0] * (GRID * GRID * BINS)
    looks = [0] * (2 * GRID * GRID)
    answer = clahe.prepare(0, width, height, picture, settings, maps, [0] * BINS, looks)
    if isinstance(answer, int):
        return refused(answer)
    # Order 6: "the footer shows those of tile 0, 0", and so does the first
    # line; each tile's E, which prepare's list has before its looks, stands
    # above its own L.
    text = line([width, height, GRID, GRID, BINS, 0, maxval, answer[1].limit])
    for k in range(GRID * GRID):
        text += line([k // GRID, k % GRID] + looks[2 * k:2 * k + 2] + maps[k * BINS:(k + 1) * BINS])
    return text.encode("ascii")


if __name__ == "__main__":
    sys.stdout.buffer.write(listing(sys.stdin.buffer.read(MOST_BYTES + 1)))
