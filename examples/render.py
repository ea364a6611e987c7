#!/usr/bin/env python3
"""render.py LIBRARY IN.pgm OUT.pgm [FACTOR]: renders a film by the shared library, through ctypes.

LIBRARY is libtzofnadir.so, as station/install puts it into PREFIX/lib. The grid is 8 by 8, so that a film of any size from 8 by
8 pixels up is taken, the range 0 to the file's maxval, the bins are the least of 1024 and the greys in the range; so OUT is what
`tzofnadir enhance IN.pgm OUT.pgm --clip FACTOR --bins BINS` writes, which without --bins takes fewer for a small film. A refusal
ends the program with its sentence, and an OUT that is there already is not replaced. The limit and the factor used that are
printed are those of the upper left tile.
"""
import ctypes
import sys
from ctypes import POINTER, byref, c_char_p, c_double, c_float, c_size_t, c_uint8, c_uint16, c_uint32


class Settings(ctypes.Structure):
    """tz_settings of tzofnadir.h; an edition that is left out is 0, ours."""
    _fields_ = [("across", c_uint32), ("down", c_uint32), ("bins", c_uint32), ("min", c_uint32), ("max", c_uint32),
                ("clip", c_uint32), ("factor", c_float), ("edition", c_uint32)]


class Footer(ctypes.Structure):
    """tz_footer."""
    _fields_ = [("limit", c_uint32), ("asked", c_float), ("used", c_double)]


class Sizes(ctypes.Structure):
    """tz_sizes."""
    _fields_ = [("width", c_uint32), ("height", c_uint32), ("maxval", c_uint32)]


class Part(ctypes.Structure):
    """tz_part."""
    _fields_ = [("start", c_size_t), ("length", c_size_t)]


class Refused(Exception):
    """A refusal: its number and its sentence."""


BYTES, GREYS, COUNTS = POINTER(c_uint8), POINTER(c_uint16), POINTER(c_uint32)
# The calls that are used here: their arguments. ctypes would take a size for 32 bits where nothing is said.
CALLS = {
    "tzofnadir_read_sizes": [BYTES, c_size_t, POINTER(Sizes)],
    "tzofnadir_read_raster": [BYTES, c_size_t, POINTER(Part)],
    "tzofnadir_read_greys": [BYTES, c_size_t, c_size_t, POINTER(Sizes), GREYS, c_size_t],
    "tzofnadir_enhance": [c_uint32, c_uint32, GREYS, c_size_t, POINTER(Settings), GREYS, c_size_t, COUNTS, c_size_t,
                          POINTER(Footer)],
    "tzofnadir_write": [GREYS, c_size_t, POINTER(Sizes), BYTES, c_size_t, POINTER(c_size_t)],
}


def load(path):
    """The library, with the calls' arguments and answers declared."""
    library = ctypes.CDLL(path)
    for name, arguments in CALLS.items():
        call = getattr(library, name)
        call.argtypes, call.restype = arguments, c_uint32
    for name in ("tz_map_entries", "tz_scratch_entries"):
        getattr(library, name).argtypes, getattr(library, name).restype = [POINTER(Settings)], c_size_t
    library.tz_write_bytes.argtypes, library.tz_write_bytes.restype = [c_uint32, c_uint32], c_size_t
    library.tz_refusal_text.argtypes, library.tz_refusal_text.restype = [c_uint32], c_char_p
    return library


def call(library, name, *arguments):
    """A call that raises what it refuses."""
    refusal = getattr(library, name)(*arguments)
    if refusal != 0:
        raise Refused(refusal, library.tz_refusal_text(refusal).decode())


def read(library, data):
    """Sizes and greys of a raw PGM."""
    held, sizes, part = (c_uint8 * len(data)).from_buffer_copy(data), Sizes(), Part()
    call(library, "tzofnadir_read_sizes", held, len(data), byref(sizes))
    call(library, "tzofnadir_read_raster", held, len(data), byref(part))
    greys = (c_uint16 * (sizes.width * sizes.height))()
    call(library, "tzofnadir_read_greys", held, len(data), part.start, byref(sizes), greys, len(greys))
    return sizes, greys


def enhance(library, sizes, greys, factor):
    """Renders the greys in place, and hands back the footer."""
    settings = Settings(8, 8, min(1024, sizes.maxval + 1), 0, sizes.maxval, 1, factor)
    mappings = (c_uint16 * library.tz_map_entries(byref(settings)))()
    scratch = (c_uint32 * library.tz_scratch_entries(byref(settings)))()
    footer = Footer()
    call(library, "tzofnadir_enhance", sizes.width, sizes.height, greys, len(greys), byref(settings), mappings,
         len(mappings), scratch, len(scratch), byref(footer))
    return footer


def write(library, sizes, greys):
    """The bytes of a raw PGM."""
    out, count = (c_uint8 * library.tz_write_bytes(sizes.width, sizes.height))(), c_size_t()
    call(library, "tzofnadir_write", greys, len(greys), byref(sizes), out, len(out), byref(count))
    return bytes(out[:count.value])


def main():
    """Reads the film, renders it, and writes it once all went well."""
    if len(sys.argv) not in (4, 5):
        raise SystemExit(__doc__)
    library = load(sys.argv[1])
    with open(sys.argv[2], "rb") as source:
        data = source.read()
    try:
        sizes, greys = read(library, data)
        footer = enhance(library, sizes, greys, float(sys.argv[4]) if len(sys.argv) == 5 else 3.0)
        data = write(library, sizes, greys)
    except Refused as refused:
        raise SystemExit("render.py: refused, %d: %s" % refused.args) from None
    try:
        with open(sys.argv[3], "xb") as out:
            out.write(data)
    except FileExistsError:
        raise SystemExit("render.py: %s is there already, and may be a scan: it is not replaced" % sys.argv[3]) from None
    print("limit %d, factor asked %.9g, factor used %.17g" % (footer.limit, footer.asked, footer.used))


if __name__ == "__main__":
    main()
