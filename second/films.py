"""The film set of FILMS.md, run through the second program.

Run: python3 second/films.py   prints the text that FILMS.md describes.
The rows are read from crates/test_films/stdin, which the proved programs read too.

The generator (no random source): g -> (g * 1103515245 + 12345) mod 2^31,
started at the row's seed.  The digest of a buffer: h = 7, then
h = (h * 31 + v + 1) mod 2^32 over its entries v and last over its length.
"""

import os
import sys
from collections import namedtuple

sys.dont_write_bytecode = True

import clahe
import listing
import pgm

SMALL = 64

COLUMNS = {
    "F": ("no film width height kind length lo hi seed pokeat pokeval across down bins min max clip "
          "factor maplen scratchlen fillbase fillmod looklen edition").split(),
    "D": ("no film width height case outlen left top field value "
          "pixat pixval mapat mapval").split(),
    "R": "no target count".split(),
    "G": "no target count start width height maxval".split(),
    "W": ("no maxval width height kind length lo hi seed pokeat pokeval "
          "outlen target").split(),
    "L": "no outlen count".split(),
}

# The rows that list bytes behind their columns.
LISTS = "RGL"

# The numbers in the column field of a draw that change a field of the made record.
RECORD_FIELDS = 11

# How many bytes a listing asks for.
LISTING_ROOM = 512


# The calls that film and draw rows go through, and what makes a lent picture, map or output of its entries.
Calls = namedtuple("Calls", "prepare draw enhance lent")

WIDE = Calls(clahe.prepare, clahe.draw, clahe.enhance, list)

# The number in the column field of a draw whose film is prepared by the wide calls.
WIDE_RECORD = 11

# The numbers in the column field of a draw that changes an entry of the record's edges or centres, and where that entry is.
ENTRIES = {20: ("columns", "edges"), 21: ("columns", "centres"), 22: ("rows", "edges"), 23: ("rows", "centres")}


def lines(crate):
    """The rows of a set: each a letter and its numbers."""
    found = []
    path = os.path.join(os.path.dirname(os.path.abspath(__file__)), "..", "crates", crate, "stdin")
    with open(path, encoding="ascii") as text:
        for line in text:
            words = line.split("#")[0].split()
            if words:
                found.append((words[0], [int(word, 0) for word in words[1:]]))
    return found


def rows(crate):
    """The rows of a set: each a letter, a dictionary of its columns, and the bytes that it lists."""
    found = []
    for letter, numbers in lines(crate):
        columns = COLUMNS[letter]
        row, listed = dict(zip(columns, numbers)), bytes(numbers[len(columns):])
        assert len(row) == len(columns) and len(listed) == (row["count"] if letter in LISTS else 0), numbers
        found.append((letter, row, listed))
    return found


def film_rows(found):
    """The film rows by their numbers, for the draws."""
    return {row["no"]: row for letter, row, _ in found if letter == "F"}


# --- the film rule and the fills -------------------------------------------

def film(row):
    """The picture of a row, by the film rule."""
    w, h, lo, seed = row["width"], row["height"], row["lo"], row["seed"]
    span = row["hi"] - lo
    g = seed
    picture = []
    for i in range(row["length"]):
        if row["kind"] >= 2:
            g = (g * 1103515245 + 12345) % 2 ** 31
        if row["kind"] == 0:
            t = seed % (span + 1)
        elif row["kind"] == 1:
            t = (i % w + i // w) * span // (w + h - 2)
        elif row["kind"] == 2:
            t = g // 256 % (span + 1)
        elif row["kind"] == 3:
            t = span if g // 65536 % 4 == 0 else 0
        else:
            col, line = i % w, i // w
            u = abs(2 * line + 1 - h)
            if 3 * u < h:
                t = 5 * span // 8 + (3 * col + u) % 8 * span // 64
            else:
                t = span // 4 + col * span // (8 * w)
            if u <= 1:
                t -= span // 8
            if u == 3 and col % 13 == 5:
                t -= span // 8
            t += g // 256 % (span // 16 + 1)
        picture.append(lo + t)
    if row["pokeat"] < len(picture):
        picture[row["pokeat"]] = row["pokeval"]
    return picture


def map_fill(row):
    """The map buffer before a call."""
    return [row["fillbase"] + (i * 7 + 3) % row["fillmod"] for i in range(row["maplen"])]


def scratch_fill(row):
    """The scratch before a call."""
    return [1 + i * 5 % 1000 for i in range(row["scratchlen"])]


def looks_fill(row):
    """The list of order 7 before the first call: entries that 32 bits don't hold."""
    return [2 ** 40 + i % 1000 for i in range(row["looklen"])]


def output_fill(length):
    """The output before draw."""
    return [50000 + i % 1000 for i in range(length)]


def target_fill(length):
    """The target before greys."""
    return [40000 + i % 1000 for i in range(length)]


def out_fill(length):
    """The out bytes before write."""
    return [100 + i % 100 for i in range(length)]


# --- settings and records ---------------------------------------------------

def made_settings(across, down, bins, low, high, clip, factor, edition):
    """The settings that eight numbers make."""
    return clahe.Settings(across, down, bins, low, high, factor if clip else None,
                          clahe.OF_1986 if edition else clahe.OURS)


def settings_numbers(row):
    """The eight numbers of a row's settings."""
    return [row["across"], row["down"], row["bins"], row["min"], row["max"], row["clip"], row["factor"],
            row["edition"]]


def settings_of(row):
    """The settings of a film row."""
    return made_settings(*settings_numbers(row))


def record_numbers(row):
    """The eleven numbers of a film row's made record."""
    return [row["film"], row["width"], row["height"]] + settings_numbers(row)


def made_axis(side, grid):
    """An axis of a made record: all 0 where the rule has none."""
    if 2 <= grid <= 16 and grid <= side <= 4096:
        return clahe.axis_of(side, grid)
    return clahe.Axis([0] * clahe.EDGES, [0] * clahe.CENTRES)


def record_of(numbers, row):
    """The record that eleven numbers make, with the axes of a film row's made record."""
    number, width, height = numbers[:3]
    return clahe.Record(number, width, height, made_settings(*numbers[3:]),
                        made_axis(row["width"], row["across"]), made_axis(row["height"], row["down"]))


def changed_entry(record, field, value):
    """The record with the entry value / 65536 of the field's list, if there is one, made value mod 65536."""
    axis, part = ENTRIES[field]
    entries = list(getattr(getattr(record, axis), part))
    if value // 65536 < len(entries):
        entries[value // 65536] = value % 65536
    return record._replace(**{axis: getattr(record, axis)._replace(**{part: entries})})


# --- printing ---------------------------------------------------------------

def digest(entries):
    """The digest of a buffer."""
    h = 7
    for v in entries:
        h = (h * 31 + v + 1) & 0xFFFFFFFF
    return (h * 31 + len(entries) + 1) & 0xFFFFFFFF


class Text:
    """Collects the lines."""

    def __init__(self):
        self.lines = []

    def whole(self):
        return "".join(line + "\n" for line in self.lines)

    def line(self, letter, no, *fields):
        self.lines.append("\t".join([letter, str(no)] + [str(field) for field in fields]))

    def digests(self, letter, no, *buffers):
        self.line(letter, no, *[digest(buffer) for buffer in buffers])

    def small(self, letter, no, buffer):
        if 1 <= len(buffer) <= SMALL:
            self.line(letter, no, *buffer)


def footer_fields(footer):
    """L, asked f32, used f64."""
    return [footer.limit, "%08x" % footer.asked, "%016x" % footer.used]


def record_fields(record):
    """The eleven fields of a returned record, and the digests of its edges and centres."""
    s = record.settings
    return ([record.film_number, record.width, record.height, s.across, s.down, s.bins, s.min,
             s.max, 0 if s.clip is None else 1, "%08x" % (s.clip or 0), s.edition]
            + [digest(entries) for entries in record.columns + record.rows])


# --- the six tables --------------------------------------------------------

def run_film(text, row, calls=WIDE):
    """One row of the table films."""
    no, width, height = row["no"], row["width"], row["height"]
    settings = settings_of(row)
    picture, maps, scratch = calls.lent(film(row)), calls.lent(map_fill(row)), scratch_fill(row)
    looks = looks_fill(row)
    prepared = calls.prepare(row["film"], width, height, picture, settings, maps, scratch, looks)
    record = record_of(record_numbers(row), row)
    if isinstance(prepared, int):
        text.line("P", no, prepared)
    else:
        record = prepared[0]
        text.line("P", no, 0, *(footer_fields(prepared[1]) + record_fields(record)))
    text.digests("p", no, picture, maps, scratch, looks)
    text.small("m", no, maps)
    text.small("x", no, looks)

    output = calls.lent(output_fill(row["length"]))
    drawn = calls.draw(row["film"], width, height, picture, settings, record,
                       (0, 0, width, height), maps, output)
    text.line("D", no, drawn)
    text.digests("d", no, picture, maps, output)
    text.small("o", no, output)

    maps, scratch = calls.lent(map_fill(row)), scratch_fill(row)
    enhanced = calls.enhance(width, height, picture, settings, maps, scratch)
    if isinstance(enhanced, int):
        text.line("E", no, enhanced)
    else:
        text.line("E", no, 0, *footer_fields(enhanced))
    text.digests("e", no, picture, maps, scratch)
    text.small("i", no, picture)

    if not isinstance(prepared, int) and drawn == 0 and not isinstance(enhanced, int):
        text.line("K", no, 1 if digest(output) == digest(picture) else 0)


def run_draw(text, row, films, calls=WIDE):
    """One row of the table draws."""
    case = films[row["case"]]
    settings = settings_of(case)
    first = WIDE if row["field"] == WIDE_RECORD else calls
    picture, maps, scratch = first.lent(film(case)), first.lent(map_fill(case)), scratch_fill(case)
    prepared = first.prepare(case["film"], case["width"], case["height"], picture, settings,
                             maps, scratch, looks_fill(case))
    picture, maps = calls.lent(picture), calls.lent(maps)
    numbers = record_numbers(case)
    if row["field"] < RECORD_FIELDS:
        numbers[row["field"]] = row["value"]
        record = record_of(numbers, case)
    elif isinstance(prepared, int):
        record = record_of(numbers, case)
    else:
        record = prepared[0]
    if row["field"] in ENTRIES:
        record = changed_entry(record, row["field"], row["value"])
    if row["pixat"] < len(picture):
        picture[row["pixat"]] = row["pixval"]
    if row["mapat"] < len(maps):
        maps[row["mapat"]] = row["mapval"]
    output = calls.lent(output_fill(row["outlen"]))
    window = (row["left"], row["top"], row["width"], row["height"])
    drawn = calls.draw(row["film"], case["width"], case["height"], picture, settings, record,
                       window, maps, output)
    text.line("W", row["no"], drawn)
    text.digests("w", row["no"], picture, maps, output)
    text.small("v", row["no"], output)


def reading_steps(text, no, data, target_length):
    """The reading steps; hands back the target when the greys were made."""
    sizes = pgm.read_sizes(data)
    if isinstance(sizes, int):
        text.line("S", no, sizes)
    else:
        text.line("S", no, 0, *sizes[1:])
    raster = pgm.read_raster(data)
    text.line("R", no, len(raster), digest(raster), digest(data))
    if isinstance(sizes, int):
        return None
    target = target_fill(target_length)
    answer = pgm.greys(data, len(data) - len(raster), sizes[1], sizes[2], sizes[3], target)
    text.line("G", no, answer)
    text.digests("g", no, data, target)
    text.small("t", no, target)
    return target if answer == 0 else None


def run_file(text, row, data):
    """One row of the table files."""
    reading_steps(text, row["no"], data, row["target"])


def run_greys(text, row, data):
    """One row of the table greys."""
    target = target_fill(row["target"])
    answer = pgm.greys(data, row["start"], row["width"], row["height"], row["maxval"], target)
    text.line("H", row["no"], answer)
    text.digests("h", row["no"], data, target)
    text.small("u", row["no"], target)


def run_write(text, row):
    """One row of the table writes."""
    no = row["no"]
    picture, out = film(row), out_fill(row["outlen"])
    answer = pgm.write(picture, row["width"], row["height"], row["maxval"], out)
    if isinstance(answer, int):
        text.line("B", no, answer)
    else:
        text.line("B", no, 0, answer[1])
    text.digests("b", no, picture, out)
    text.small("c", no, out)
    if not isinstance(answer, int):
        target = reading_steps(text, no, bytes(out[:answer[1]]), row["target"])
        if target is not None:
            text.line("K", no, 1 if digest(target[:len(picture)]) == digest(picture) else 0)


def run_list(text, row, data):
    """One row of the table listings."""
    out, listed = out_fill(row["outlen"]), listing.listing(data)
    if len(out) < LISTING_ROOM:
        text.line("L", row["no"], 27)
    else:
        out[:len(listed)] = listed
        text.line("L", row["no"], 0, len(listed))
    text.digests("l", row["no"], data, out)


def run():
    """The whole text."""
    found = rows("test_films")
    films = film_rows(found)
    text = Text()
    for letter, row, listed in found:
        if letter == "F":
            run_film(text, row)
        elif letter == "D":
            run_draw(text, row, films)
        elif letter == "R":
            run_file(text, row, listed)
        elif letter == "G":
            run_greys(text, row, listed)
        elif letter == "W":
            run_write(text, row)
        else:
            run_list(text, row, listed)
    return text.whole()


if __name__ == "__main__":
    sys.stdout.write(run())
