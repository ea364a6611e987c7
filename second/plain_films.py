"""The rows of plain files of FILMS.md, run through the second program.

Run: python3 second/plain_films.py   prints the text that FILMS.md describes.
The rows are read from crates/test_plain_films/stdin, which the proved program reads
too.
"""

import os
import sys

sys.dont_write_bytecode = True

import pgm

TOP = os.path.dirname(os.path.dirname(os.path.abspath(__file__)))


def rows():
    """(letter, numbers) of each row; a line that starts with # is a note."""
    path = os.path.join(TOP, "crates", "test_plain_films", "stdin")
    with open(path, encoding="ascii") as text:
        lines = [line.split() for line in text if line.strip()]
    return [(line[0], [int(n) for n in line[1:]]) for line in lines
            if not line[0].startswith("#")]


def answered(answer, left):
    """The number of an answer, and its values; left where it is refused."""
    return [answer] + left if isinstance(answer, int) else [0] + list(answer[1:])


def show(letter, no, fields):
    """One line."""
    print("\t".join([letter] + [str(n) for n in [no] + fields]))


def read(no, data, room):
    """Sizes alone, then the whole file with a target of room entries; cells
    that nothing was handed out to hold 9, entries of the target 7."""
    show("S", no, answered(pgm.plain_sizes(data), [9, 9, 9]))
    target = [7] * room
    fields = answered(pgm.read_plain(data, target), [9, 9, 9])
    show("Q", no, fields + target)


def write(no, room, width, height, maxval, picture):
    """A picture into an out of room bytes."""
    out = [7] * room
    fields = answered(pgm.write_plain(picture, width, height, maxval, out), [9])
    show("X", no, fields + out)


def raw_film(data):
    """('ok', width, height, maxval, greys) of a raw file, or the refusal."""
    found = pgm.read_sizes(data)
    if isinstance(found, int):
        return found
    target = [7] * 64
    refusal = pgm.greys(pgm.read_raster(data), 0, found[1], found[2], found[3], target)
    return refusal or found + (target[:found[1] * found[2]],)


def plain_film(data):
    """The same of a plain file."""
    target = [7] * 64
    found = pgm.read_plain(data, target)
    return found if isinstance(found, int) else found + (target[:found[1] * found[2]],)


def moved(letter, no, film, writer):
    """Writes a film that was read, and prints it; its bytes, or None where it
    was refused."""
    if isinstance(film, int):
        show(letter, no, [film])
        return None
    _, width, height, maxval, greys = film
    out = [0] * 512
    fields = answered(writer(greys, width, height, maxval, out), [0])
    show(letter, no, fields + out[:fields[1]])
    return bytes(out[:fields[1]])


def from_raw(no, data):
    """Raw to plain and back."""
    plain = moved("T", no, raw_film(data), pgm.write_plain)
    if plain is not None:
        moved("V", no, plain_film(plain), pgm.write)


def from_plain(no, data):
    """Plain to raw and back."""
    raw = moved("U", no, plain_film(data), pgm.write)
    if raw is not None:
        moved("Y", no, raw_film(raw), pgm.write_plain)


def run():
    """Every row in its order."""
    for letter, (no, room, width, height, maxval, *entries) in rows():
        if letter == "Q":
            read(no, bytes(entries), room)
        elif letter == "X":
            write(no, room, width, height, maxval, entries)
        elif letter == "T":
            from_raw(no, bytes(entries))
        else:
            from_plain(no, bytes(entries))


if __name__ == "__main__":
    run()
