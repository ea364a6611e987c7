"""The count rows of FILMS.md, run through the second program's counting and
mapping.

Run: python3 second/count_films.py   prints the text that FILMS.md describes.
The rows are read from crates/test_count_films/stdin, which the proved program reads
too.
"""

import sys

sys.dont_write_bytecode = True

import clahe
import films

FILM = films.COLUMNS["F"] + ["countslen"]
MAPPING = ("no film width height case countslen gainat gain lossat loss step across down bins min max "
           "clip factor maplen scratchlen fillbase fillmod looklen each turns edition").split()
# What each further mapping of a row has of its own.
TURN = "clip factor edition".split()

WORD = 2 ** 32


def counts_fill(row):
    """The counts before counting."""
    return [3000000000 + i % 1000 for i in range(row["countslen"])]


def answer_line(text, no, answer):
    """The line of mapping or prepare, which answer alike."""
    if isinstance(answer, int):
        text.line("P", no, answer)
    else:
        text.line("P", no, 0, *(films.footer_fields(answer[1]) + films.record_fields(answer[0])))


def lent(row):
    """Map, scratch and the list of order 7 as they are lent to the first mapping or prepare."""
    return films.map_fill(row), films.scratch_fill(row), films.looks_fill(row)


def run_mapping(text, row, counts, maps, scratch, looks):
    """One mapping over the lent counts."""
    answer = clahe.map_counts(row["film"], row["width"], row["height"], films.settings_of(row),
                              counts, maps, scratch, looks)
    answer_line(text, row["no"], answer)
    text.digests("m", row["no"], counts, maps, scratch, looks)
    text.small("q", row["no"], maps)
    text.small("x", row["no"], looks)
    return answer


def run_film(text, row):
    """One film: counted, mapped, and prepared beside it."""
    no, width, height, settings = row["no"], row["width"], row["height"], films.settings_of(row)
    picture, counts = films.film(row), counts_fill(row)
    text.line("C", no, clahe.count(width, height, picture, settings, counts))
    text.digests("c", no, picture, counts)
    text.small("n", no, counts)

    by_counts = lent(row)
    mapped = run_mapping(text, row, counts, *by_counts)

    by_pixels = lent(row)
    prepared = clahe.prepare(row["film"], width, height, picture, settings, *by_pixels)
    answer_line(text, no, prepared)
    text.digests("p", no, picture, *by_pixels)
    if not isinstance(mapped, int) and not isinstance(prepared, int):
        alike = all(films.digest(a) == films.digest(b) for a, b in zip(by_counts, by_pixels))
        text.line("K", no, 1 if alike else 0)


def run_turns(text, row, turns, case):
    """One row of mappings, in turn over the counts of a film."""
    picture, counts = films.film(case), counts_fill(case)
    clahe.count(case["width"], case["height"], picture, films.settings_of(case), counts)
    counts = counts[:row["countslen"]]
    for at, more in ((row["gainat"], row["gain"]), (row["lossat"], WORD - row["loss"])):
        if at < len(counts):
            counts[at] = (counts[at] + more) % WORD
    if row["step"]:
        for at in range(0, len(counts), row["step"]):
            counts[at] = (counts[at] + row["each"]) % WORD
    buffers = lent(row)
    run_mapping(text, row, counts, *buffers)
    for turn in turns:
        run_mapping(text, dict(row, **turn), counts, *buffers)


def run():
    """The whole text."""
    text, cases = films.Text(), {}
    for letter, numbers in films.lines("test_count_films"):
        columns = FILM if letter == "F" else MAPPING
        row, rest = dict(zip(columns, numbers)), numbers[len(columns):]
        assert len(row) == len(columns) and len(rest) == (0 if letter == "F" else len(TURN) * row["turns"]), numbers
        if letter == "F":
            cases[row["no"]] = row
            run_film(text, row)
        else:
            turns = [dict(zip(TURN, rest[at:])) for at in range(0, len(rest), len(TURN))]
            run_turns(text, row, turns, cases[row["case"]])
    return text.whole()


if __name__ == "__main__":
    sys.stdout.write(run())
