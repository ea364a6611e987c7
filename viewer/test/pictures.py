"""The pictures of the page for the papers: docs/viewer-*.png, of 8 bits, with at most 256 colours."""

import base64
import collections
import os
import struct
import subprocess
import sys
import zlib

import expected
from person import hold, picture_of

MOST = 400_000  # bytes
LINE = (330, 157)  # a pixel of the line of lacking fusion (station/weld.py)
PORE = (213, 224)
PIT = (262, 243)  # a pixel of a corroded plate (station/plate.py)


def chunk(kind, body):
    """A part of a PNG."""
    return struct.pack(">I", len(body)) + kind + body + struct.pack(">I", zlib.crc32(kind + body))


def colours(rows):
    """Up to 256 colours for a screen: 128 greys, and those of the others that are most used."""
    others = collections.Counter(dot for row in rows for dot in row if max(dot) - min(dot) > 6)
    chosen = [(2 * i, 2 * i, 2 * i) for i in range(128)] + [dot for dot, _ in others.most_common(128)]
    place = {dot: i for i, dot in enumerate(chosen)}

    def nearest(dot):
        if dot not in place:
            if max(dot) - min(dot) <= 6:
                place[dot] = sum(dot) // 6
            else:
                place[dot] = min(range(128, len(chosen)), key=lambda i: sum((a - b) ** 2 for a, b in zip(chosen[i], dot)))
        return place[dot]
    return chosen, nearest


def packed(rows):
    """A PNG of 8 bits."""
    chosen, nearest = colours(rows)
    raw = b"".join(b"\0" + bytes(nearest(dot) for dot in row) for row in rows)
    head = struct.pack(">IIBBBBB", len(rows[0]), len(rows), 8, 3, 0, 0, 0)
    return (b"\x89PNG\r\n\x1a\n" + chunk(b"IHDR", head) + chunk(b"PLTE", bytes(part for dot in chosen for part in dot))
            + chunk(b"IDAT", zlib.compress(raw, 9)) + chunk(b"IEND", b""))


def keep(person, name):
    """Puts the screen into docs."""
    shot = person.tell("Page.captureScreenshot", format="png")
    data = packed(picture_of(base64.b64decode(shot["data"])))
    hold(len(data) <= MOST, name, "has", len(data), "bytes")
    path = os.path.join(expected.TOP, "docs", name)
    with open(path, "wb") as file:
        file.write(data)
    print("%s, %d bytes" % (os.path.relpath(path, expected.TOP), len(data)), flush=True)


def dot_of(person, x, y):
    """Where a pixel of the film lies on the page."""
    edge_x, edge_y, scale = person.script(
        "const {painted} = tzofnadir.look; return [painted.edgeX, painted.edgeY, painted.zoom.scale]")
    left, top, _, _ = person.box("canvas-scanned")
    return left + edge_x + (x + 0.5) * scale, top + edge_y + (y + 0.5) * scale


def point(person, x, y):
    """Points at a pixel of the film."""
    person.mouse("mouseMoved", *dot_of(person, x, y))
    person.settled()


def side_by_side(person):
    """The sample film and its settings, as it is opened."""
    person.arrive(1440, 760)
    person.click("welcome-sample")
    person.opened(set(), 1)
    point(person, *PORE)
    keep(person, "viewer-side.png")


def divided(person):
    """The divider across the line of lacking fusion, with the plot of its tile."""
    person.arrive(1280, 720)
    person.click("welcome-sample")
    person.opened(set(), 1)
    person.click("mode-divide")
    person.click("zoom-1-1")
    person.settled()
    x, y = dot_of(person, *LINE)
    person.wheel(x, y, -480)
    person.wheel(x, y, -480)
    across, down = person.middle("divider")
    person.drag(across, down, round(dot_of(person, *LINE)[0]), down)
    point(person, LINE[0] + 12, LINE[1])
    keep(person, "viewer-divider.png")


def refused(person):
    """A grid that is not taken."""
    person.arrive(1280, 720)
    person.click("welcome-sample")
    person.opened(set(), 1)
    person.type("across", "17")
    person.mouse("mouseMoved", 5, 5)
    keep(person, "viewer-refusal.png")


def beside(person):
    """A corroded plate by a grid, and beside it by own regions, with the region of a pixel and its plot."""
    person.arrive(1440, 760)
    path = os.path.join(person.room, "plate.pgm")
    subprocess.run([sys.executable, "-B", os.path.join(expected.TOP, "station/plate.py"), path], check=True)
    first, second = person.open(path)[0], person.open(path)[0]
    for number in (first, second):
        person.choose(number)
        person.click("range-film")
        person.settled()
    person.click("by-region")
    person.settled()
    person.click("mode-pair")
    person.choose(first)
    person.click("zoom-1-1")
    person.settled()
    person.choose(second)
    person.settled()
    point(person, *PIT)
    person.keys("t")
    keep(person, "viewer-regions.png")


def make(person, _):
    """Makes all of them."""
    for each in (side_by_side, divided, refused, beside):
        each(person)
    return 0
