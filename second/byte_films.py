"""The byte rows of FILMS.md, run through the second program's byte calls.

Run: python3 second/byte_films.py   prints the text that FILMS.md describes.
The rows are read from crates/test_byte_films/stdin, which the proved program reads
too.
"""

import sys

sys.dont_write_bytecode = True

import clahe
import films

# Pictures, maps and outputs are made as for the wide rows, each entry taken modulo 256.
BYTES = films.Calls(clahe.prepare_bytes, clahe.draw_bytes, clahe.enhance_bytes,
                    lambda entries: bytearray(v % 256 for v in entries))


def run():
    """The whole text."""
    found = films.rows("test_byte_films")
    cases = films.film_rows(found)
    text = films.Text()
    for letter, row, _ in found:
        if letter == "F":
            films.run_film(text, row, BYTES)
        else:
            films.run_draw(text, row, cases, BYTES)
    return text.whole()


if __name__ == "__main__":
    sys.stdout.write(run())
