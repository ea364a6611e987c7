"""Grey PNG of 8 and 16 bits."""
import io
import struct
import zlib

from said import Ended, package
from scan import Scan, spacing_of

COLOURS = {2: "is in colour (RGB)", 3: "has a palette, so its samples are no greys but numbers of colours",
           4: "has transparency beside its greys", 6: "is in colour, with transparency"}
GREY = "Have the scan given as a grey PNG or TIFF, without colour, palette or transparency."


def chunks(data):
    """The chunks up to the last, each whole and by its own sum."""
    at, found = 8, {}
    while at + 12 <= len(data):
        size, name = struct.unpack(">I4s", data[at:at + 8])
        body = data[at + 8:at + 8 + size]
        if len(body) < size or at + 12 + size > len(data):
            break
        if struct.unpack(">I", data[at + 8 + size:at + 12 + size])[0] != zlib.crc32(name + body):
            raise Ended("it is damaged: the sum of its chunk at byte %d is wrong" % at, "Have it sent or written again.")
        found.setdefault(name, body)
        if name == b"IEND":
            return found
        at += 12 + size
    raise Ended("it is cut off: its %d bytes end before its last chunk" % len(data), "Have it sent or written again.")


def spacing(found):
    """By pHYs, where it has a unit: pixels a metre."""
    body = found.get(b"pHYs", b"")
    if len(body) != 9 or body[8] != 1:
        return None
    across, down = struct.unpack(">II", body[:8])
    if across == 0 or down == 0:
        return None
    return spacing_of(1000 / down, 1000 / across, "pHYs")


def read(data):
    found = chunks(data)
    head = found.get(b"IHDR", b"")
    if len(head) != 13:
        raise Ended("it is damaged: it has no header", "Have it sent or written again.")
    _, _, bits, colour = struct.unpack(">IIBB", head[:10])
    if colour in COLOURS:
        raise Ended("it %s" % COLOURS[colour], GREY)
    if bits not in (8, 16) or colour != 0:
        raise Ended("it has %d bits a sample, and 8 or 16 are taken" % bits, GREY)
    if b"acTL" in found:
        raise Ended("it is an animation, of which one frame alone would be seen", "Have each frame given as a PNG of its own.")
    numpy, image = package("numpy"), package("PIL.Image")
    image.MAX_IMAGE_PIXELS = None  # a bound on pixels is ours to set
    try:
        greys = numpy.asarray(image.open(io.BytesIO(data)))
    except (OSError, SyntaxError, ValueError) as fault:
        raise Ended("it is damaged: %s" % fault, "Have it sent or written again.") from None
    kind = numpy.uint8 if bits == 8 else numpy.uint16
    return Scan("PNG", [greys.astype(kind)], bits, 2 ** bits - 1, spacing=spacing(found))
