"""PGM, PAM and bitmaps, of any depth, raw and plain, with comments; several in one file are frames."""
import re

from said import Ended, package
from scan import Scan

GAP = rb"(?:[ \t\r\n\v\f]|#[^\n]*\n)"
NUMBER = re.compile(GAP + rb"+(\d{1,9})")
PAM_LINE = re.compile(rb"[ \t]*(?:#[^\n]*|(\w+)(?:[ \t]+([^\n]*?))?)[ \t\r]*\n")


def cut_off(what, there, due):
    return Ended("it is cut off: %s takes %d bytes, and %d are there" % (what, due, there),
                 "Have it sent or scanned again.")


def numbers(data, at, count):
    """Numbers of a header, and the place behind them."""
    found = []
    for _ in range(count):
        match = NUMBER.match(data, at)
        if match is None:
            raise Ended("its header breaks off at byte %d, where a number is due" % at, "Have it written anew.")
        found.append(int(match.group(1)))
        at = match.end()
    return found, at


def checked(width, height, maxval):
    if width == 0 or height == 0 or not 0 < maxval < 65536:
        raise Ended("its header says %d by %d pixels and maxval %d" % (width, height, maxval), "Have it written anew.")


def raster(data, at, width, height, maxval):
    """Samples of one byte or of two, and the place behind them."""
    numpy = package("numpy")
    kind = numpy.dtype(numpy.uint8 if maxval < 256 else ">u2")
    due = width * height * kind.itemsize
    if len(data) - at < due:
        raise cut_off("the raster of %d by %d pixels" % (width, height), len(data) - at, due)
    return numpy.frombuffer(data, kind, width * height, at).reshape(height, width), at + due


def plain(data, at, width, height, letters):
    """Samples in text, as they come or each a letter; nothing stands behind them."""
    numpy = package("numpy")
    text = re.sub(rb"#[^\n]*", b"", data[at:])
    words = [bytes((c,)) for c in b"".join(text.split())] if letters else text.split()
    if len(words) != width * height or not all(word.isdigit() and len(word) < 6 for word in words):
        raise Ended("%d numbers are due behind its header, and %d words stand there" % (width * height, len(words)),
                    "Have it sent or written again.")
    greys = numpy.array([int(word) for word in words], dtype=numpy.int64)
    if greys.max() > 65535:
        raise Ended("it has a sample of %d, and 65535 is the most" % greys.max(), "Have it written anew.")
    return greys.astype(numpy.uint16).reshape(height, width), len(data)


def bits(data, at, width, height):
    """A raw bitmap: eight pixels a byte, each row from a byte of its own."""
    numpy = package("numpy")
    row = (width + 7) // 8
    if len(data) - at < row * height:
        raise cut_off("the raster of %d by %d pixels" % (width, height), len(data) - at, row * height)
    rows = numpy.frombuffer(data, numpy.uint8, row * height, at).reshape(height, row)
    return numpy.unpackbits(rows, axis=1)[:, :width], at + row * height


def bitmap(data, at, magic):
    """In a bitmap 1 is black."""
    (width, height), at = numbers(data, at + 2, 2)
    checked(width, height, 1)
    black, at = plain(data, at, width, height, True) if magic == b"P1" else bits(data, at + 1, width, height)
    if black.max() > 1:
        raise Ended("it is a bitmap, and has a sample of %d" % black.max(), "Have it written anew.")
    return 1 - black, 1, at


def graymap(data, at, magic):
    (width, height, maxval), at = numbers(data, at + 2, 3)
    checked(width, height, maxval)
    if magic == b"P2":
        greys, at = plain(data, at, width, height, False)
        return greys, maxval, at
    greys, at = raster(data, at + 1, width, height, maxval)
    return greys, maxval, at


def pam_header(data, at):
    """The named lines of a PAM's header, and the place behind it."""
    named = {}
    while True:
        match = PAM_LINE.match(data, at)
        if match is None:
            raise Ended("its header breaks off at byte %d" % at, "Have it written anew.")
        at = match.end()
        if match.group(1) == b"ENDHDR":
            return named, at
        if match.group(1):
            named[match.group(1).decode("ascii", "replace")] = (match.group(2) or b"").decode("ascii", "replace")


def anymap(data, at, magic):
    """A PAM of one sample a pixel."""
    named, at = pam_header(data, at + 3)
    try:
        width, height, depth, maxval = (int(named[name]) for name in ("WIDTH", "HEIGHT", "DEPTH", "MAXVAL"))
    except (KeyError, ValueError):
        raise Ended("its header lacks one of WIDTH, HEIGHT, DEPTH and MAXVAL", "Have it written anew.") from None
    if depth != 1:
        raise Ended("it has %d samples a pixel (%s), and a film has one" % (depth, named.get("TUPLTYPE", "of no type")),
                    "Have the scan given in grey, without colour or transparency.")
    checked(width, height, maxval)
    greys, at = raster(data, at, width, height, maxval)
    return greys, maxval, at


READERS = {b"P1": bitmap, b"P4": bitmap, b"P2": graymap, b"P5": graymap, b"P7": anymap}
NAMES = {b"P1": "PBM", b"P4": "PBM", b"P2": "PGM", b"P5": "PGM", b"P7": "PAM"}


def read(data):
    """All pictures of the file. Behind one another begins, or nothing."""
    frames, tops, at, magic = [], [], 0, data[:2]
    while at < len(data):
        if data[at:at + 2] not in READERS or (frames and data[at:at + 2] != magic):
            raise Ended("%d bytes stand behind its raster" % (len(data) - at), "Have it sent or written again.")
        greys, maxval, at = READERS[magic](data, at, magic)
        frames.append(greys)
        tops.append(maxval)
        if magic in (b"P1", b"P2"):
            break
    greatest = max(int(frame.max()) for frame in frames)
    scan = Scan(NAMES[magic], frames, max(tops).bit_length(), max(tops + [greatest]))
    if greatest > max(tops):
        scan.notes.append("samples go up to %d, above the file's maxval of %d" % (greatest, max(tops)))
    return scan
