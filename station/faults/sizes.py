"""Films of any size, held to the second program (second/), which shares no line with the library or the command line.

sizes.py cut FILM.pgm WIDTH HEIGHT OUT.pgm     the film's upper left part; beyond its edges the film goes on from its start
sizes.py judge IN.pgm OUT.pgm RECORD.json      ends with 0 where OUT is what the second program makes of IN with the settings that
                                               the record tells, whole or the window that it tells, and the footer its own

Prints what was seen.
"""
import json
import os
import struct
import sys

sys.path.insert(0, os.path.join(os.path.dirname(os.path.abspath(__file__)), "../../second"))
sys.dont_write_bytecode = True
import around  # noqa: E402
import clahe  # noqa: E402
import pgm  # noqa: E402


def read(path):
    """Width, height, maxval and greys of a raw PGM."""
    with open(path, "rb") as source:
        data = source.read()
    _, width, height, maxval, start = pgm.read(data)
    greys = [0] * (width * height)
    assert pgm.greys(data, start, width, height, maxval, greys) == 0
    return width, height, maxval, greys


def cut(film, width, height, out):
    """Writes a part of a film."""
    wide, high, maxval, greys = read(film)
    part = [greys[y % high * wide + x % wide] for y in range(int(height)) for x in range(int(width))]
    with open(out, "wb") as target:
        target.write(b"P5\n%d %d\n%d\n" % (int(width), int(height), maxval))
        target.write(bytes(part) if maxval < 256 else struct.pack(">%dH" % len(part), *part))


def bits(form, value):
    """A float's bits."""
    return int.from_bytes(struct.pack(form, value), "big")


def judge(film, out, record):
    """Holds a rendering and its record to the second program."""
    with open(record, encoding="utf-8") as source:
        told = json.load(source)
    s, width, height, maxval, greys = told["settings"], *read(film)
    clip = bits(">f", s["factor"]) if s["clip"] else None
    edition = {"ours": clahe.OURS, "1986": clahe.OF_1986}[s["edition"]]
    settings = clahe.Settings(s.get("across", 0), s.get("down", 0), s["bins"], s["min"], s["max"], clip, edition)
    if "side" in s:
        scanned, greys = greys, [0] * (width * height)
        footer = around.around(width, height, scanned, s["side"], settings, greys, [0] * (2 * s["bins"]))
    else:
        footer = clahe.enhance(width, height, greys, settings, [0] * clahe.entries_of(settings), [0] * s["bins"])
    window = told["window"] or {"left": 0, "top": 0, "width": width, "height": height}
    rows = range(window["top"], window["top"] + window["height"])
    part = [grey for y in rows for grey in greys[y * width + window["left"]:][:window["width"]]]
    seen = clahe.Footer(told["limit"], bits(">f", told["factor_asked"]), bits(">d", told["factor_used"]))
    if read(out) != (window["width"], window["height"], maxval, part) or seen != footer:
        raise SystemExit("not the second program's")
    print("the second program's, limit %d" % footer.limit)


if __name__ == "__main__":
    {"cut": cut, "judge": judge}[sys.argv[1]](*sys.argv[2:])
