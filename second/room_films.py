"""Order 11 of document 02, one room for many films, read a second time; and the
room rows of FILMS.md, run through it.

Run: python3 second/room_films.py   prints the text that FILMS.md describes.
The rows are read from crates/test_room_films/stdin, which the proved program reads
too.

A room is a list of sets (number, width, height, settings); where a set's
entries lie is worked out anew each time, from the sets before it.  A film is
stored, drawn and dropped by the calls of clahe.py on a copy of the part of the
buffer that is its own.  A quoted sentence is order 11's.
"""

import sys
from collections import namedtuple

sys.dont_write_bytecode = True

import clahe
import films

# The mappings of one film: "A set takes tiles times bins entries, at factor 1.0 too".
Set = namedtuple("Set", "number width height settings")

# "the mappings of up to eight films in a single lent buffer"
MOST = 8


def size_of(entry):
    """The entries of a set."""
    return clahe.entries_of(entry.settings)


def start_of(sets, place):
    """The entry at which the set at this place begins: they lie end to end."""
    return sum(size_of(entry) for entry in sets[:place])


def refusal_of_room(count, sets, buffer):
    """40: "a room record with over eight sets, a number twice, or sets that end to end exceed the buffer"."""
    numbers = [entry.number for entry in sets]
    if count > MOST or len(set(numbers)) < len(numbers) or start_of(sets, len(sets)) > len(buffer):
        return 40
    return 0


def place_of(sets, number):
    """The place of the set of this number, or None."""
    for place, entry in enumerate(sets):
        if entry.number == number:
            return place
    return None


def store(count, sets, number, width, height, picture, settings, buffer, scratch, looks):
    """A film is stored behind the last set.  Answers the refusal, or the footer and all sets.
    "40, 35, 36 .. in this order, stand before the film's own checks, 37 in 11's place"."""
    refusal = refusal_of_room(count, sets, buffer)
    if refusal:
        return refusal
    # "35, the number is already stored; 36, eight films are stored"
    if place_of(sets, number) is not None:
        return 35
    if len(sets) == MOST:
        return 36
    start = start_of(sets, len(sets))
    free = buffer[start:]
    answer = clahe.prepare(number, width, height, picture, settings, free, scratch, looks)
    if isinstance(answer, int):
        # "37, the free entries are fewer than the set needs"
        return 37 if answer == 11 else answer
    buffer[start:] = free
    kept = settings._replace(bins=clahe.bin_count(settings.bins))
    return answer[1], sets + [Set(number, width, height, kept)]


def axis_for(side, grid):
    """The axis of a film's own record: the room's record keeps none, so that none can differ."""
    return clahe.axis_of(side, grid) if 2 <= grid <= 16 else None


def refusal_of_number(count, sets, number, buffer):
    """40, then "38, draw or drop of a number that isn't stored", else 0."""
    return refusal_of_room(count, sets, buffer) or (38 if place_of(sets, number) is None else 0)


def draw(count, sets, number, width, height, picture, settings, window, buffer, output):
    """A film drawn "as if it alone had been prepared".  Answers 0 or the refusal: 40 and 38 first, and "a room draw gives
    no 11"."""
    refusal = refusal_of_number(count, sets, number, buffer)
    if refusal:
        return refusal
    place = place_of(sets, number)
    entry = sets[place]
    start = start_of(sets, place)
    part = buffer[start:start + size_of(entry)]
    # Settings that would need more entries than the set has are other settings, which is 15 and not 11.
    lacking = 0
    if 2 <= settings.across <= 16 and 2 <= settings.down <= 16:
        lacking = max(0, clahe.entries_of(settings) - len(part))
    record = clahe.Record(number, entry.width, entry.height, entry.settings,
                          axis_for(width, settings.across), axis_for(height, settings.down))
    return clahe.draw(number, width, height, picture, settings, record, window, part + [0] * lacking, output)


def drop(count, sets, number, buffer):
    """A film dropped: "the later sets move down, so that all free room is at the end"; "entries behind the last set after
    a drop keep what they held".  Answers the refusal, or the sets that are left."""
    refusal = refusal_of_number(count, sets, number, buffer)
    if refusal:
        return refusal
    place = place_of(sets, number)
    start, behind, end = start_of(sets, place), start_of(sets, place + 1), start_of(sets, len(sets))
    later = buffer[behind:end]
    buffer[start:start + len(later)] = later
    return (sets[:place] + sets[place + 1:],)


# --- the room record in cells -------------------------------------------------

COLUMNS = {
    "F": films.COLUMNS["F"],
    "N": "no lent fillbase fillmod".split(),
    "S": "no film field value case lent".split(),
    "D": "no film width height case outlen left top field value pixat pixval lent".split(),
    "X": "no film lent".split(),
    "C": "no cell value".split(),
    "M": "no mapat mapval".split(),
}

# Ten numbers a set; behind the numbers of all sets their factors, and then the count.
TEN = 10
FACTORS = TEN * MOST
COUNT = FACTORS + MOST


def one_nan(bits):
    """The bits of a factor; those of one NaN stand for all."""
    return 0x7FC00000 if bits % 2 ** 31 > 0x7F800000 else bits


class Room:
    """The cells of a room record, the buffer, and the films that are stored and not dropped, each with its row."""

    def __init__(self, row):
        self.cells = [0] * (COUNT + 1)
        self.buffer = [row["fillbase"] + (i * 7 + 3) % row["fillmod"] for i in range(row["lent"])]
        self.stored = []

    def count(self):
        return self.cells[COUNT]

    def places(self):
        """All eight places as sets."""
        found = []
        for place in range(MOST):
            number, width, height, across, down, bins, low, high, clip, edition = self.cells[TEN * place:TEN * place + TEN]
            found.append(Set(number, width, height,
                             films.made_settings(across, down, bins, low, high, clip, self.cells[FACTORS + place], edition)))
        return found

    def sets(self):
        """The sets that are stored; of a count above eight those that there are places for."""
        return self.places()[:self.count()]

    def write(self, sets, behind):
        """A call that is done writes all cells: the sets, and behind them what stood there."""
        self.cells[COUNT] = len(sets)
        for place, entry in enumerate(sets + behind[len(sets):]):
            s = entry.settings
            self.cells[TEN * place:TEN * place + TEN] = [entry.number, entry.width, entry.height, s.across, s.down, s.bins,
                                                         s.min, s.max, 0 if s.clip is None else 1, s.edition]
            self.cells[FACTORS + place] = s.clip or 0


# --- the steps ----------------------------------------------------------------

def handed(row, cases):
    """The film row that a step is handed, with the step's change."""
    case = dict(cases[row["case"]])
    if row["field"]:
        case[COLUMNS["F"][row["field"] - 1]] = row["value"]
    return case


def record_line(text, no, room):
    """The record: its count, the digest of its numbers, and its factors."""
    text.line("r", no, room.count(), films.digest(room.cells[:FACTORS]),
              *["%08x" % one_nan(bits) for bits in room.cells[FACTORS:COUNT]])


def run_store(text, row, case, room):
    """One store."""
    no, settings = row["no"], films.settings_of(case)
    picture, scratch, looks = films.film(case), films.scratch_fill(case), films.looks_fill(case)
    lent = room.buffer[:row["lent"]]
    answer = store(room.count(), room.sets(), row["film"], case["width"], case["height"], picture, settings, lent,
                   scratch, looks)
    room.buffer[:row["lent"]] = lent
    if isinstance(answer, int):
        text.line("S", no, answer)
    else:
        text.line("S", no, 0, *films.footer_fields(answer[0]))
        room.write(answer[1], room.places())
        room.stored.append((row["film"], case))
    text.digests("s", no, picture, room.buffer, scratch, looks)
    record_line(text, no, room)
    text.small("m", no, room.buffer)


def run_draw(text, row, case, room):
    """One draw."""
    no = row["no"]
    picture, output = films.film(case), films.output_fill(row["outlen"])
    if row["pixat"] < len(picture):
        picture[row["pixat"]] = row["pixval"]
    answer = draw(room.count(), room.sets(), row["film"], case["width"], case["height"], picture, films.settings_of(case),
                  (row["left"], row["top"], row["width"], row["height"]), room.buffer[:row["lent"]], output)
    text.line("D", no, answer)
    text.digests("d", no, picture, room.buffer, output)
    text.small("o", no, output)


def run_drop(text, row, room):
    """One drop."""
    no, lent = row["no"], room.buffer[:row["lent"]]
    answer = drop(room.count(), room.sets(), row["film"], lent)
    room.buffer[:row["lent"]] = lent
    if isinstance(answer, int):
        text.line("X", no, answer)
    else:
        text.line("X", no, 0)
        # "the later sets move down" in the record too, and the places behind the last set keep what they held.
        room.write(answer[0], room.places())
        room.stored = [film for film in room.stored if film[0] != row["film"]]
    text.digests("x", no, room.buffer)
    record_line(text, no, room)
    text.small("m", no, room.buffer)


def alone(number, case, known):
    """The film prepared alone, in buffers of its own, and drawn whole: the answer and the output's digest."""
    key = (number,) + tuple(case.values())
    if key not in known:
        width, height, settings, picture = case["width"], case["height"], films.settings_of(case), films.film(case)
        maps, output = films.map_fill(case), films.output_fill(len(picture))
        prepared = clahe.prepare(number, width, height, picture, settings, maps, films.scratch_fill(case),
                                 films.looks_fill(case))
        answer = clahe.draw(number, width, height, picture, settings, prepared[0], (0, 0, width, height), maps, output)
        known[key] = answer, films.digest(output)
    return known[key]


def run_stored(text, no, room, known):
    """Each film that is stored and not dropped "draws as if it alone had been prepared"."""
    for number, case in room.stored:
        picture = films.film(case)
        output = films.output_fill(len(picture))
        answer = draw(room.count(), room.sets(), number, case["width"], case["height"], picture, films.settings_of(case),
                      (0, 0, case["width"], case["height"]), room.buffer, output)
        same = (answer, films.digest(output)) == alone(number, case, known)
        text.line("K", no, number, answer, 1 if same else 0)


def run():
    """The whole text."""
    text, cases, known, room = films.Text(), {}, {}, None
    for letter, numbers in films.lines("test_room_films"):
        row = dict(zip(COLUMNS[letter], numbers))
        assert len(numbers) == len(COLUMNS[letter]), numbers
        if letter == "F":
            cases[row["no"]] = row
            continue
        if letter == "N":
            room = Room(row)
            text.digests("N", row["no"], room.buffer)
        elif letter == "S":
            run_store(text, row, handed(row, cases), room)
        elif letter == "D":
            run_draw(text, row, handed(row, cases), room)
        elif letter == "X":
            run_drop(text, row, room)
        elif letter == "C":
            room.cells[row["cell"]] = row["value"]
            record_line(text, row["no"], room)
        else:
            if row["mapat"] < len(room.buffer):
                room.buffer[row["mapat"]] = row["mapval"]
            text.digests("e", row["no"], room.buffer)
        run_stored(text, row["no"], room, known)
    return text.whole()


if __name__ == "__main__":
    sys.stdout.write(run())
