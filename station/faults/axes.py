"""axes.py EXAMPLES LIBRARY FILM.pgm: the record of tzofnadir.h over the shared library: prepare leaves the edges and centres of
the rule, as the second program has them; draw takes that record and no other, in any of its 66 entries; a refusal leaves it.
And prepare's list: the second program's excesses and looks, entries behind the last tile kept, 32 where it is one short.
"""
import ctypes
import os
import sys
from ctypes import POINTER, byref, c_size_t, c_uint16, c_uint32, c_uint64

sys.path[:0] = [sys.argv[1], os.path.join(os.path.dirname(os.path.abspath(__file__)), "../../second")]
sys.dont_write_bytecode = True
import clahe  # noqa: E402
import render  # noqa: E402


class Axis(ctypes.Structure):
    """tz_axis."""
    _fields_ = [("edges", c_uint32 * 17), ("centres", c_uint32 * 16)]


class Record(ctypes.Structure):
    """tz_record."""
    _fields_ = [("film", c_uint32), ("width", c_uint32), ("height", c_uint32), ("settings", render.Settings),
                ("columns", Axis), ("rows", Axis)]


class Window(ctypes.Structure):
    """tz_window."""
    _fields_ = [("left", c_uint32), ("top", c_uint32), ("width", c_uint32), ("height", c_uint32)]


FILM, WIDTH, HEIGHT, ACROSS, DOWN, BINS = 7, 131, 97, 7, 16, 128
RECORD, LOOKS_SHORT = 15, 32
ENTRIES, BEHIND = 2 * ACROSS * DOWN, 3  # of the list: two for each tile, and some behind them
library = render.load(sys.argv[2])
library.tzofnadir_prepare.argtypes = [c_uint32, c_uint32, c_uint32, render.GREYS, c_size_t, POINTER(render.Settings), render.GREYS,
                                      c_size_t, render.COUNTS, c_size_t, POINTER(Record), POINTER(render.Footer),
                                      POINTER(c_uint64), c_size_t]
library.tzofnadir_draw.argtypes = [c_uint32, c_uint32, c_uint32, render.GREYS, c_size_t, POINTER(render.Settings), POINTER(Record),
                                   POINTER(Window), render.GREYS, c_size_t, render.GREYS, c_size_t]
with open(sys.argv[3], "rb") as source:
    sizes, scan = render.read(library, source.read())
greys = (c_uint16 * (WIDTH * HEIGHT))(*(scan[y * sizes.width + x] for y in range(HEIGHT) for x in range(WIDTH)))
settings = render.Settings(ACROSS, DOWN, BINS, 0, 4095, 1, 3.0)
maps, scratch, listed = (c_uint16 * (ACROSS * DOWN * BINS))(), (c_uint32 * BINS)(), (c_uint64 * (ENTRIES + BEHIND))(*[5] * (ENTRIES + BEHIND))
record, footer = Record(), render.Footer()


def prepare(asked, entries=ENTRIES):
    """Prepare, with settings and so many entries of the list."""
    return library.tzofnadir_prepare(FILM, WIDTH, HEIGHT, greys, len(greys), byref(asked), maps, len(maps), scratch, len(scratch),
                                     byref(record), byref(footer), listed, entries)


def drawn(kept):
    """The whole film drawn with a record: the refusal, and what is in the output then."""
    out = (c_uint16 * len(greys))(*[9] * len(greys))
    refusal = library.tzofnadir_draw(FILM, WIDTH, HEIGHT, greys, len(greys), byref(settings), byref(kept),
                                     byref(Window(0, 0, WIDTH, HEIGHT)), maps, len(maps), out, len(out))
    return refusal, list(out)


def changed(axis, part, place):
    """The record with one entry more by one."""
    other = Record.from_buffer_copy(record)
    getattr(getattr(other, axis), part)[place] += 1
    return other


assert prepare(settings) == 0
for axis, wanted in ((record.columns, clahe.axis_of(WIDTH, ACROSS)), (record.rows, clahe.axis_of(HEIGHT, DOWN))):
    assert (list(axis.edges), list(axis.centres)) == (wanted.edges, wanted.centres), (list(axis.edges), list(axis.centres))
picture = list(greys)
asked = clahe.Settings(ACROSS, DOWN, BINS, 0, 4095, 0x40400000)
clahe.enhance(WIDTH, HEIGHT, picture, asked, [0] * clahe.entries_of(asked), [0] * BINS)
assert drawn(record) == (0, picture), "the picture is not the second program's"
for axis in ("columns", "rows"):
    for part, entries in (("edges", 17), ("centres", 16)):
        for place in range(entries):
            assert drawn(changed(axis, part, place)) == (RECORD, [9] * len(greys)), (axis, part, place)
wanted = [0] * ENTRIES
clahe.prepare(FILM, WIDTH, HEIGHT, list(greys), asked, [0] * clahe.entries_of(asked), [0] * BINS, wanted)
assert list(listed) == wanted + [5] * BEHIND, "the list is not the second program's"
before = bytes(record), bytes(footer), bytes(maps), bytes(scratch), bytes(listed)


def refused(number, asked, entries=ENTRIES):
    """Prepare gives this number, and everything stays."""
    assert prepare(asked, entries) == number, (number, entries)
    assert (bytes(record), bytes(footer), bytes(maps), bytes(scratch), bytes(listed)) == before, "a refusal changed something"


refused(3, render.Settings(17, DOWN, BINS, 0, 4095, 1, 3.0))
for clip, factor in ((1, 3.0), (1, 1.0), (0, 0.0)):
    refused(LOOKS_SHORT, render.Settings(ACROSS, DOWN, BINS, 0, 4095, clip, factor), ENTRIES - 1)
refused(LOOKS_SHORT, settings, 0)
assert prepare(settings, ENTRIES + BEHIND) == 0 and list(listed) == wanted + [5] * BEHIND, "entries behind the last tile changed"
assert prepare(render.Settings(ACROSS, DOWN, BINS, 0, 4095, 1, 1.0)) == 0 and list(listed) == wanted + [5] * BEHIND, "written at 1.0"
assert prepare(render.Settings(ACROSS, DOWN, BINS, 0, 4095, 0, 0.0)) == 0 and list(listed) == [0] * ENTRIES + [5] * BEHIND, "clip off"
print("66 entries, and the list")
