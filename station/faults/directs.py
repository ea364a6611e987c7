"""directs.py EXAMPLES LIBRARY: the plain engine over the shared library, by the structs of tzofnadir.h, beside enhance, on small
films of greys as they come: the same picture, footer, scratch and answer, but for 11, which it never gives, and 17, its own. The film
stays, a refusal leaves target, scratch and footer as they were, and entries behind the target and the bins keep their contents.
"""
import random
import sys
from ctypes import POINTER, byref, c_size_t, c_uint16, c_uint32

sys.path[:0] = [sys.argv[1]]
sys.dont_write_bytecode = True
import render  # noqa: E402

ROUNDS, SCRATCH_SHORT, OUTPUT_LENGTH, MAP_SHORT, SPARE = 2000, 12, 17, 11, 3
BEFORE = (7, 8.0, 9.0)
library = render.load(sys.argv[2])
library.tzofnadir_direct.argtypes = [c_uint32, c_uint32, render.GREYS, c_size_t, POINTER(render.Settings), render.GREYS, c_size_t,
                                     render.COUNTS, c_size_t, POINTER(render.Footer)]
library.tzofnadir_direct.restype = c_uint32
dice = random.Random(12)
seen = {}


def numbers(footer):
    """A footer's three."""
    return footer.limit, footer.asked, footer.used


def mostly(good, bad):
    """One of the good ones, and now and then a bad one."""
    return dice.choice(good if dice.random() < 0.95 else bad)


def asked():
    """Settings, most of them good."""
    low = dice.choice((0, 0, 5, 900))
    high = low + mostly((14, 255, 3000), (1, 4096))
    return render.Settings(mostly((2, 3, 4), (1, 17)), mostly((2, 3, 5), (0, 17)), mostly((2, 3, 7, 14), (0, 1, 16, 4097)), low, high,
                           dice.choice((0, 1, 1, 9)), mostly((1.0, 1.0000001, 1.5, 3.0, 1024.0), (0.5, float("nan"))), dice.choice((0, 1, 2)))


def film_of(s):
    """A small film of greys of the range, at times with one outside it."""
    width, height = mostly(range(5, 13), range(1, 5)), mostly(range(5, 13), range(1, 5))
    greys = [dice.randint(s.min, min(s.max, 4095)) for _ in range(width * height)]
    if dice.random() < 0.1:
        greys[dice.randrange(len(greys))] = dice.choice((0, 4095, 65535))
    return width, height, greys


def lent(kind, count, of):
    """A buffer with some entries behind it."""
    return (kind * (count + SPARE))(*[of] * (count + SPARE))


def by_direct(width, height, greys, s, room, length):
    """Answer, target, scratch and footer; what must stay is looked at here."""
    film, target, scratch, footer = (c_uint16 * len(greys))(*greys), lent(c_uint16, length, 11), lent(c_uint32, room, 13), render.Footer(*BEFORE)
    answer = library.tzofnadir_direct(width, height, film, len(greys), byref(s), target, length, scratch, room, byref(footer))
    assert list(film) == greys, "the film was altered"
    assert list(target)[length:] == [11] * SPARE and list(scratch)[room:] == [13] * SPARE, "entries behind were altered"
    if answer:
        assert set(target) == {11} and set(scratch) == {13} and numbers(footer) == BEFORE, "a refusal altered something"
    seen[answer] = seen.get(answer, 0) + 1
    return answer, list(target)[:length], list(scratch), numbers(footer)


def by_enhance(width, height, greys, s, room, entries):
    """The same of the fast engine, with so many map entries."""
    film, maps, scratch, footer = (c_uint16 * len(greys))(*greys), lent(c_uint16, entries, 17), lent(c_uint32, room, 13), render.Footer(*BEFORE)
    answer = library.tzofnadir_enhance(width, height, film, len(greys), byref(s), maps, entries, scratch, room, byref(footer))
    return answer, list(film), list(scratch), numbers(footer)


for _ in range(ROUNDS):
    settings = asked()
    wide, high, picture = film_of(settings)
    bins = library.tz_scratch_entries(byref(settings))
    short = dice.random() < 0.1
    space = bins - 1 if short and bins > 0 else bins + dice.randint(0, 2)
    painted = by_direct(wide, high, picture, settings, space, wide * high)
    full = library.tz_map_entries(byref(settings))
    rendered = by_enhance(wide, high, picture, settings, space, full)
    assert painted[0] == rendered[0] and painted[2:] == rendered[2:], (wide, high, picture, painted[0], rendered[0])
    assert painted[0] or painted[1] == rendered[1], (wide, high, picture)
    if full and by_enhance(wide, high, picture, settings, space, full - 1)[0] == MAP_SHORT:
        seen["without a map"] = seen.get("without a map", 0) + 1
    other = by_direct(wide, high, picture, settings, space, dice.choice((0, wide * high - 1, wide * high + 1)))[0]
    assert other == (OUTPUT_LENGTH if painted[0] in (0, 13) else painted[0]), (painted[0], other)

assert MAP_SHORT not in seen and seen["without a map"] > ROUNDS // 5, seen
assert set(seen) >= {0, 3, 4, 5, 6, 7, 9, 10, SCRATCH_SHORT, 13, OUTPUT_LENGTH, 31}, seen
print("%d films, %d of them done; refusals %s" % (ROUNDS, seen[0], " ".join(str(n) for n in sorted(set(seen) - {0, "without a map"}))))
