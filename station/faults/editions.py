"""editions.py EXAMPLES LIBRARY FILM.pgm: the editions over the shared library, by the structs of tzofnadir.h. Prepare by either
leaves the second program's mappings and list; draw takes the record of its own edition and gives 15 to the other's, with clip off
and at 1.0 too, and its output stays; any number but 0 is 1986's, and the record has 0 or 1; one counting serves both; the calls
on bytes give 30 to the edition of 1986, and everything stays.
"""
import ctypes
import os
import sys
from ctypes import POINTER, byref, c_size_t, c_uint8, c_uint16, c_uint32, c_uint64

sys.path[:0] = [sys.argv[1], os.path.join(os.path.dirname(os.path.abspath(__file__)), "../../second")]
sys.dont_write_bytecode = True
import clahe  # noqa: E402
import render  # noqa: E402


class Axis(ctypes.Structure):
    """tz_axis."""
    _fields_ = [("edges", c_uint32 * 17), ("centres", c_uint32 * 16)]


class Record(ctypes.Structure):
    """tz_record."""
    _fields_ = [("film", c_uint32), ("width", c_uint32), ("height", c_uint32), ("settings", render.Settings),
                ("columns", Axis), ("rows", Axis)]


class Window(ctypes.Structure):
    """tz_window."""
    _fields_ = [("left", c_uint32), ("top", c_uint32), ("width", c_uint32), ("height", c_uint32)]


FILM, WIDTH, HEIGHT, GRID, BINS, TOP = 7, 67, 59, 8, 64, 255
RECORD, PROFILE = 15, 30
SIZE, MAPS = WIDTH * HEIGHT, GRID * GRID * BINS
LOOKS = POINTER(c_uint64)
FACTORS = {None: 0.0, 0x3F800000: 1.0, 0x40400000: 3.0}  # of the second program's clip settings: off, 1.0 and 3.0
library = render.load(sys.argv[2])


def declared(name, grey):
    """A call's arguments, on greys or on bytes."""
    film = [c_uint32, c_uint32, c_uint32, grey, c_size_t, POINTER(render.Settings)]
    kinds = {"prepare": film + [grey, c_size_t, render.COUNTS, c_size_t, POINTER(Record), POINTER(render.Footer), LOOKS, c_size_t],
             "draw": film + [POINTER(Record), POINTER(Window), grey, c_size_t, grey, c_size_t],
             "enhance": film[1:] + [grey, c_size_t, render.COUNTS, c_size_t, POINTER(render.Footer)]}
    return kinds[name]


for name in ("prepare", "draw", "enhance"):
    getattr(library, "tzofnadir_" + name).argtypes = declared(name, render.GREYS)
    getattr(library, "tzofnadir_%s_bytes" % name).argtypes = declared(name, render.BYTES)
library.tzofnadir_count.argtypes = [c_uint32, c_uint32, render.GREYS, c_size_t, POINTER(render.Settings), render.COUNTS, c_size_t]
library.tzofnadir_map.argtypes = [c_uint32, c_uint32, c_uint32, POINTER(render.Settings), render.COUNTS, c_size_t, render.GREYS,
                                  c_size_t, render.COUNTS, c_size_t, POINTER(Record), POINTER(render.Footer), LOOKS, c_size_t]
with open(sys.argv[3], "rb") as source:
    sizes, scan = render.read(library, source.read())
greys = (c_uint16 * SIZE)(*(scan[y * sizes.width + x] // 16 for y in range(HEIGHT) for x in range(WIDTH)))


def settings_of(clip, edition):
    """The settings of a clip setting as the second program has it, and of a number for the edition."""
    return render.Settings(GRID, GRID, BINS, 0, TOP, clip is not None, FACTORS[clip], edition)


class Lent:
    """What prepare and map are lent, and what they said."""
    def __init__(self, kind=c_uint16):
        self.maps, self.scratch, self.listed = (kind * MAPS)(), (c_uint32 * BINS)(), (c_uint64 * (2 * GRID * GRID))()
        self.record, self.footer = Record(), render.Footer()

    def rest(self):
        """The arguments from the map on."""
        return (self.maps, MAPS, self.scratch, BINS, byref(self.record), byref(self.footer), self.listed, len(self.listed))

    def seen(self):
        """All of it."""
        return [bytes(part) for part in (self.maps, self.scratch, self.listed, self.record, self.footer)]


def prepared(settings):
    """Prepare's answer."""
    lent = Lent()
    assert library.tzofnadir_prepare(FILM, WIDTH, HEIGHT, greys, SIZE, byref(settings), *lent.rest()) == 0
    return lent


def drawn(settings, lent):
    """The whole film drawn: the refusal, and what is in the output then."""
    out = (c_uint16 * SIZE)(*[9] * SIZE)
    refusal = library.tzofnadir_draw(FILM, WIDTH, HEIGHT, greys, SIZE, byref(settings), byref(lent.record),
                                     byref(Window(0, 0, WIDTH, HEIGHT)), lent.maps, MAPS, out, SIZE)
    return refusal, list(out)


def by_the_second(clip, edition):
    """Maps, list and picture of the second program."""
    asked = clahe.Settings(GRID, GRID, BINS, 0, TOP, clip, edition)
    maps, listed, picture = [0] * MAPS, [0] * (2 * GRID * GRID), list(greys)
    clahe.prepare(FILM, WIDTH, HEIGHT, list(greys), asked, maps, [0] * BINS, listed)
    clahe.enhance(WIDTH, HEIGHT, picture, asked, [0] * MAPS, [0] * BINS)
    return maps, listed, picture


def check_editions(clip):
    """Both editions of a clip setting: drawn with their own records alone."""
    numbers = {clahe.OURS: [0], clahe.OF_1986: [1, 2, 7, 2**31, 2**32 - 1]}
    made = {edition: prepared(settings_of(clip, edition)) for edition in numbers}
    for edition, all_numbers in numbers.items():
        maps, listed, picture = by_the_second(clip, edition)
        for number in all_numbers:
            lent = prepared(settings_of(clip, number))
            assert lent.record.settings.edition == edition, (clip, number)
            assert (list(lent.maps), list(lent.listed)) == (maps, listed), (clip, number)
            assert lent.seen() == made[edition].seen(), (clip, number)
            assert drawn(settings_of(clip, number), lent) == (0, picture), (clip, number)
            other = made[clahe.OF_1986 - edition]
            assert drawn(settings_of(clip, number), other) == (RECORD, [9] * SIZE), (clip, number)
    return made


def check_counted(clip, made):
    """Counted once: ours, 1986 and ours again map as prepare does."""
    counts = (c_uint32 * MAPS)()
    assert library.tzofnadir_count(WIDTH, HEIGHT, greys, SIZE, byref(settings_of(clip, 5)), counts, MAPS) == 0
    for edition in (clahe.OURS, clahe.OF_1986, clahe.OURS):
        lent = Lent()
        asked = settings_of(clip, edition)
        assert library.tzofnadir_map(FILM, WIDTH, HEIGHT, byref(asked), counts, MAPS, *lent.rest()) == 0
        assert lent.seen() == made[edition].seen(), (clip, edition)


def check_bytes(clip):
    """On bytes: ours is taken, 1986 is refused with 30, and all that is lent stays."""
    film, lent, footer = (c_uint8 * SIZE)(*greys), Lent(c_uint8), render.Footer()
    for number in (1, 2, 2**32 - 1):
        asked, before = settings_of(clip, number), lent.seen()
        assert library.tzofnadir_prepare_bytes(FILM, WIDTH, HEIGHT, film, SIZE, byref(asked), *lent.rest()) == PROFILE
        assert library.tzofnadir_enhance_bytes(WIDTH, HEIGHT, film, SIZE, byref(asked), lent.maps, MAPS, lent.scratch, BINS,
                                               byref(footer)) == PROFILE
        out = (c_uint8 * SIZE)(*[9] * SIZE)
        assert library.tzofnadir_draw_bytes(FILM, WIDTH, HEIGHT, film, SIZE, byref(asked), byref(lent.record),
                                            byref(Window(0, 0, WIDTH, HEIGHT)), lent.maps, MAPS, out, SIZE) == PROFILE
        assert lent.seen() == before and list(film) == list(greys) and set(out) == {9}, "a refusal changed something"
    asked = settings_of(clip, 0)
    assert library.tzofnadir_prepare_bytes(FILM, WIDTH, HEIGHT, film, SIZE, byref(asked), *lent.rest()) == 0


for setting in FACTORS:
    check_counted(setting, check_editions(setting))
    check_bytes(setting)
print("three clip settings in both editions")
