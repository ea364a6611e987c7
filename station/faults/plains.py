"""plains.py EXAMPLES LIBRARY: the calls on plain PGM over the shared library, by the structs of tzofnadir.h, held to the second
program: plain files, whole and altered in every manner, pictures of all depths, targets and outputs of any length. A refusal
leaves sizes, target, output and count as they were, and entries behind the last keep their contents.
"""
import ctypes
import os
import random
import sys
from ctypes import POINTER, byref, c_size_t, c_uint8, c_uint16, c_uint32

sys.path[:0] = [sys.argv[1], os.path.join(os.path.dirname(os.path.abspath(__file__)), "../../second")]
sys.dont_write_bytecode = True
import pgm  # noqa: E402
import render  # noqa: E402

library = render.load(sys.argv[2])
for name, arguments in {
        "tzofnadir_plain_sizes": [render.BYTES, c_size_t, POINTER(render.Sizes)],
        "tzofnadir_read_plain": [render.BYTES, c_size_t, POINTER(render.Sizes), render.GREYS, c_size_t],
        "tzofnadir_write_plain": [render.GREYS, c_size_t, POINTER(render.Sizes), render.BYTES, c_size_t, POINTER(c_size_t)],
}.items():
    getattr(library, name).argtypes, getattr(library, name).restype = arguments, c_uint32
library.tz_plain_bytes.argtypes, library.tz_plain_bytes.restype = [c_uint32, c_uint32], c_size_t
seen = {}
dice = random.Random(9)


def told(refusal, sizes):
    """An answer as the second program has it."""
    seen[refusal] = seen.get(refusal, 0) + 1
    return refusal if refusal else ("ok", sizes.width, sizes.height, sizes.maxval)


def check_read(data, room):
    """Both questions over the same bytes."""
    held, before = (c_uint8 * max(1, len(data)))(*data), (7, 8, 9)
    sizes, wanted = render.Sizes(*before), pgm.plain_sizes(data)
    assert told(library.tzofnadir_plain_sizes(held, len(data), byref(sizes)), sizes) == wanted, data
    assert isinstance(wanted, tuple) or (sizes.width, sizes.height, sizes.maxval) == before, data
    target, by_second = (c_uint16 * (room + 1))(*[5] * (room + 1)), [5] * room
    sizes, wanted = render.Sizes(*before), pgm.read_plain(data, by_second)
    assert told(library.tzofnadir_read_plain(held, len(data), byref(sizes), target, room), sizes) == wanted, data
    assert list(target) == by_second + [5], data
    assert isinstance(wanted, tuple) or (sizes.width, sizes.height, sizes.maxval) == before, data
    assert bytes(held[:len(data)]) == data, "the file was altered"


def check_write(picture, width, height, maxval, room):
    """A picture laid down."""
    out, by_second, count = (c_uint8 * (room + 1))(*[5] * (room + 1)), [5] * room, c_size_t(77)
    greys = (c_uint16 * max(1, len(picture)))(*picture)
    refusal = library.tzofnadir_write_plain(greys, len(picture), byref(render.Sizes(width, height, maxval)), out, room, byref(count))
    seen[refusal] = seen.get(refusal, 0) + 1
    wanted = pgm.write_plain(picture, width, height, maxval, by_second)
    assert (refusal or ("ok", count.value)) == wanted, (picture, width, height, maxval, room)
    assert list(out) == by_second + [5] and (refusal == 0 or count.value == 77), (picture, width, height, maxval, room)


def drawn():
    """A small picture: width, height, maxval and greys."""
    width, height, maxval = dice.randint(1, 4), dice.randint(1, 4), dice.choice((1, 9, 255, 256, 4095))
    return width, height, maxval, [dice.randint(0, maxval) for _ in range(width * height)]


def altered(data):
    """A file with a byte more, less or another, or cut."""
    at, byte = dice.randrange(len(data)), bytes([dice.choice(b" \t\r\n\v\f\0#-+x0123456789P\xff")])
    return dice.choice((data[:at], data[:at] + byte + data[at:], data[:at] + byte + data[at + 1:], data[:at] + data[at + 1:], data + byte))


for _ in range(4000):
    width, height, maxval, greys = drawn()
    apart = dice.choice((b"\n", b" ", b"\r\n", b"\t ", b"\n\n"))
    data = b"P2\n%d %d\n%d\n" % (width, height, maxval) + apart.join(b"%0*d" % (dice.choice((1, 1, 4, 5)), grey) for grey in greys)
    for _ in range(dice.choice((0, 1, 1, 2))):
        data = altered(data) if data else data
    check_read(data, dice.choice((width * height, width * height + 3, width * height - 1, 40)))
    full = len(b"P2\n%d %d\n%d\n" % (width, height, maxval)) + sum(len(str(grey)) + 1 for grey in greys)
    check_write(greys, width, height, maxval, dice.choice((full, full + 7, full - 1, 0)))
check_write([1, 2], 3, 1, 9, 99)
check_write([1, 12], 2, 1, 9, 99)
check_write([], 0, 1, 9, 99)
check_write([1], 1, 1, 4096, 99)
bounds = [library.tz_plain_bytes(*sides) for sides in ((512, 384), (0, 9), (4096, 4096), (2**32 - 1, 2**32 - 1), (2**32 - 1, 1))]
assert bounds == [983058, 18, 83886098, 83886098, 20498], bounds
assert set(seen) == {0, 2, 20, 21, 22, 23, 24, 25, 26, 27}, seen
print("8,000 files and pictures; refusals %s" % " ".join(str(number) for number in sorted(seen)))
