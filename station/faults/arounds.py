"""arounds.py EXAMPLES LIBRARY: a window around each pixel over the shared library, by the structs of tzofnadir.h, on small films of
greys as they come, held to the second program (second/around.py), which counts every region anew. The film stays, a refusal leaves
target, scratch and footer as they were, entries behind the target and twice the bins keep their contents, and a part of the film
with a margin of half a side shows the same pixels.
"""
import os
import random
import struct
import sys
from ctypes import POINTER, byref, c_size_t, c_uint16, c_uint32

sys.path[:0] = [sys.argv[1], os.path.join(os.path.dirname(os.path.abspath(__file__)), "../../second")]
sys.dont_write_bytecode = True
import around  # noqa: E402
import clahe  # noqa: E402
import render  # noqa: E402

ROUNDS, SPARE = 1500, 3
BEFORE = (7, 8.0, 9.0)
library = render.load(sys.argv[2])
library.tzofnadir_around.argtypes = [c_uint32, c_uint32, render.GREYS, c_size_t, c_uint32, POINTER(render.Settings), render.GREYS,
                                     c_size_t, render.COUNTS, c_size_t, POINTER(render.Footer)]
library.tzofnadir_around.restype = c_uint32
library.tz_around_scratch.argtypes = [POINTER(render.Settings)]
library.tz_around_scratch.restype = c_size_t
dice = random.Random(13)
seen = {}


def mostly(good, bad):
    """One of the good ones, and now and then a bad one."""
    return dice.choice(good if dice.random() < 0.96 else bad)


def asked():
    """Settings, most of them good; no grid is looked at."""
    low = dice.choice((0, 0, 5, 900))
    high = low + mostly((14, 255, 3000), (0, 1, 4096))
    return render.Settings(dice.choice((0, 1, 8, 99)), dice.choice((0, 3, 17)), mostly((2, 3, 7, 14), (0, 1, 16, 4097)), low, high,
                           dice.choice((0, 1, 1, 9)), mostly((1.0, 1.0000001, 1.5, 3.0, 1024.0), (0.5, float("nan"))), dice.choice((0, 1, 2)))


def film_of(s):
    """A small film of greys of the range, at times with one outside it."""
    width, height = dice.randint(1, 11), dice.randint(1, 11)
    greys = [dice.randint(s.min, min(max(s.max, s.min), 4095)) for _ in range(width * height)]
    if dice.random() < 0.1:
        greys[dice.randrange(len(greys))] = dice.choice((0, 4095, 65535))
    return width, height, greys


def lent(kind, count, of):
    """A buffer with some entries behind it."""
    return (kind * (count + SPARE))(*[of] * (count + SPARE))


def by_library(width, height, greys, side, s, room, length):
    """Answer, target, scratch and footer; what must stay is looked at here."""
    film, target, scratch, footer = (c_uint16 * len(greys))(*greys), lent(c_uint16, length, 11), lent(c_uint32, room, 13), render.Footer(*BEFORE)
    answer = library.tzofnadir_around(width, height, film, len(greys), side, byref(s), target, length, scratch, room, byref(footer))
    told = footer.limit, footer.asked, footer.used
    assert list(film) == greys, "the film was altered"
    assert list(target)[length:] == [11] * SPARE and list(scratch)[room:] == [13] * SPARE, "entries behind were altered"
    if answer:
        assert set(target) == {11} and set(scratch) == {13} and told == BEFORE, "a refusal altered something"
    seen[answer] = seen.get(answer, 0) + 1
    return answer, list(target)[:length], list(scratch)[:room], told


def by_second(width, height, greys, side, s, room, length):
    """The same of the second program."""
    clip = int.from_bytes(struct.pack(">f", s.factor), "big") if s.clip else None
    settings = clahe.Settings(s.across, s.down, s.bins, s.min, s.max, clip, clahe.OF_1986 if s.edition else clahe.OURS)
    target, scratch = [11] * length, [13] * room
    answer = around.around(width, height, greys, side, settings, target, scratch)
    if isinstance(answer, int):
        return answer, target, scratch, BEFORE
    asked_, used = struct.unpack(">f", answer.asked.to_bytes(4, "big"))[0], struct.unpack(">d", answer.used.to_bytes(8, "big"))[0]
    return 0, target, scratch, (answer.limit, asked_, used)


def check_part(width, height, greys, side, s, room, shown):
    """The part from a column and a row on, with its margin, shows the same."""
    left, top, half = dice.randrange(width), dice.randrange(height), side // 2
    first, upper = max(0, left - half), max(0, top - half)
    part = [greys[y * width + x] for y in range(upper, height) for x in range(first, width)]
    answer, target, _, _ = by_library(width - first, height - upper, part, side, s, room, len(part))
    assert answer == 0
    for y in range(top, height):
        for x in range(left, width):
            assert target[(y - upper) * (width - first) + x - first] == shown[y * width + x], (width, height, greys, side, x, y)


for _ in range(ROUNDS):
    settings = asked()
    wide, high, picture = film_of(settings)
    region = mostly((3, 5, 7, 9, 31, 63), (0, 1, 2, 4, 64, 65, 2**32 - 1))
    twice = library.tz_around_scratch(byref(settings))
    space = max(0, twice - 1) if dice.random() < 0.08 else twice + dice.randint(0, 2)
    count = wide * high if dice.random() < 0.92 else dice.choice((0, wide * high - 1, wide * high + 1))
    ours = by_library(wide, high, picture, region, settings, space, count)
    assert ours == by_second(wide, high, picture, region, settings, space, count), (wide, high, picture, region, ours)
    if ours[0] == 0:
        check_part(wide, high, picture, region, settings, space, ours[1])

assert set(seen) >= {0, 7, 8, 9, 10, 12, 13, 17, 31, 39} and not set(seen) & {3, 4, 5, 6, 11, 32}, seen
print("%d films, %d renderings; refusals %s" % (ROUNDS, seen[0], " ".join(str(n) for n in sorted(set(seen) - {0}))))
