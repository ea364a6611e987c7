"""The plain rows of order 12 in FILMS.md, run through the plain engine and,
beside it, through enhance.

Run: python3 second/direct_films.py   prints the text that FILMS.md describes.
The rows are read from crates/test_direct_films/stdin, which the proved program reads
too.  Besides, each row is held to what the order promises.
"""

import sys

sys.dont_write_bytecode = True

import clahe
import direct
import films

FILM = films.COLUMNS["F"] + ["targetlen"]


def answer_line(text, letter, no, answer):
    """The line of direct or enhance, which answer alike."""
    if isinstance(answer, int):
        text.line(letter, no, answer)
    else:
        text.line(letter, no, 0, *films.footer_fields(answer))


def held(row, painted, target, scratch, enhanced, picture, spare):
    """What order 12 promises of a row: with a target of width x height,
    answers, scratch and, of an accepted film, pictures are the same, unless
    enhance says 11.  Direct says neither 11 nor 32."""
    assert painted not in (11, 32), row
    if row["targetlen"] != row["width"] * row["height"] or enhanced == 11:
        return
    assert painted == enhanced and scratch == spare, row
    assert isinstance(painted, int) or target == picture, row


def run():
    """The whole text."""
    text = films.Text()
    for letter, numbers in films.lines("test_direct_films"):
        row = dict(zip(FILM, numbers))
        assert letter == "F" and len(row) == len(FILM) == len(numbers), numbers
        no, width, height, settings = row["no"], row["width"], row["height"], films.settings_of(row)
        picture, target, scratch = films.film(row), films.output_fill(row["targetlen"]), films.scratch_fill(row)
        painted = direct.direct(width, height, picture, settings, target, scratch)
        answer_line(text, "T", no, painted)
        text.digests("t", no, picture, target, scratch)
        text.small("o", no, target)
        maps, spare = films.map_fill(row), films.scratch_fill(row)
        enhanced = clahe.enhance(width, height, picture, settings, maps, spare)
        answer_line(text, "E", no, enhanced)
        text.digests("e", no, picture, maps, spare)
        text.small("i", no, picture)
        if not isinstance(painted, int) and not isinstance(enhanced, int):
            text.line("K", no, 1 if films.digest(target) == films.digest(picture) else 0)
        held(row, painted, target, scratch, enhanced, picture, spare)
    return text.whole()


if __name__ == "__main__":
    sys.stdout.write(run())
