#!/usr/bin/env python3
"""png.py IN.pgm OUT.png [--bits 8|16] [--crop X,Y,WxH] [--zoom N] [--force]: turns a raw PGM into a grey PNG, to look at or to
hand on.

Greys are scaled from 0..maxval to 0..255, or with --bits 16 to 0..65535, where no two of them become one. --crop takes the
part that begins at column X, row Y and is W by H pixels; --zoom makes each pixel N by N. An OUT that is there is replaced
with --force alone, and IN never (64).
"""
import argparse
import os
import re
import struct
import sys
import zlib

BAD_WORDS = 64


def read_pgm(data):
    """Width, height, maxval and the samples of a raw PGM without comments."""
    header = re.match(rb"P5[ \t\r\n]+(\d+)[ \t\r\n]+(\d+)[ \t\r\n]+(\d+)[ \t\r\n]", data)
    if header is None:
        raise SystemExit("png.py: not a raw PGM")
    width, height, maxval = (int(word) for word in header.groups())
    raster = data[header.end():]
    if not 0 < maxval < 65536:
        raise SystemExit("png.py: a maxval of %d" % maxval)
    if maxval < 256:
        greys = list(raster)
    else:
        greys = [high * 256 + low for high, low in zip(raster[::2], raster[1::2])]
    if len(greys) != width * height or len(raster) != len(greys) * (1 if maxval < 256 else 2):
        raise SystemExit("png.py: the raster does not fit the size")
    if max(greys, default=0) > maxval:
        raise SystemExit("png.py: a sample is above maxval")
    return width, height, maxval, greys


def cropped(picture, left, top, wide, high):
    """The part of a picture."""
    width, height, maxval, greys = picture
    if wide == 0 or high == 0 or left + wide > width or top + high > height:
        raise SystemExit("png.py: the part does not lie inside the film, which is %d by %d" % (width, height))
    return wide, high, maxval, [grey for y in range(top, top + high)
                                for grey in greys[y * width + left:y * width + left + wide]]


def zoomed(picture, by):
    """The picture with each pixel `by` by `by`."""
    width, height, maxval, greys = picture
    rows = ([grey for grey in greys[y * width:(y + 1) * width] for _ in range(by)] for y in range(height))
    return width * by, height * by, maxval, [grey for row in rows for _ in range(by) for grey in row]


def chunk(kind, body):
    return struct.pack(">I", len(body)) + kind + body + struct.pack(">I", zlib.crc32(kind + body))


def filtered(row, step):
    """Filter 1: each byte as its difference from the same byte of the pixel before, which packs better."""
    return bytes((here - before) % 256 for here, before in zip(row, bytes(step) + row))


def png(picture, bits):
    """The bytes of a grey PNG."""
    width, height, maxval, greys = picture
    top, form = (255, ">%dB") if bits == 8 else (65535, ">%dH")
    rows = bytearray()
    for y in range(height):
        row = struct.pack(form % width, *(grey * top // maxval for grey in greys[y * width:(y + 1) * width]))
        rows.append(1)
        rows += filtered(row, bits // 8)
    head = struct.pack(">IIBBBBB", width, height, bits, 0, 0, 0, 0)
    return (b"\x89PNG\r\n\x1a\n" + chunk(b"IHDR", head) + chunk(b"IDAT", zlib.compress(bytes(rows), 9))
            + chunk(b"IEND", b""))


def refuse(sentence, way):
    sys.stderr.write("%s: %s\n  %s\n" % (os.path.basename(sys.argv[0]), sentence, way))
    sys.exit(BAD_WORDS)


def put(data, path, force, source=None):
    """Puts a file in its place, whole. What is there may be a scan, as where a glob for one film finds two: it is replaced
    where that is asked for, a link itself and not what it leads to, and the source never. Devices and pipes are written to."""
    if source is not None and os.path.exists(path) and os.path.samefile(source, path):
        refuse("%s would take the scan's own place, which --force does not permit either" % path, "Give another name.")
    if os.path.realpath(path).startswith(("/dev/", "/proc/")) or os.path.abspath(path).startswith(("/dev/", "/proc/")):
        with open(path, "wb") as out:
            out.write(data)
        return
    if os.path.lexists(path) and not force:
        refuse("%s is there already, and is left as it was" % path,
               "Give another name, or, where this is no scan, say --force to have it replaced.")
    part = "%s.%d.part" % (path, os.getpid())
    try:
        with open(part, "xb") as out:
            out.write(data)
        os.replace(part, path)
    except BaseException:
        if os.path.lexists(part):
            os.unlink(part)
        raise


def part_of(word):
    """The four numbers of X,Y,WxH."""
    numbers = re.fullmatch(r"(\d+),(\d+),(\d+)x(\d+)", word)
    if numbers is None:
        raise argparse.ArgumentTypeError("not X,Y,WxH: " + word)
    return tuple(int(number) for number in numbers.groups())


def main():
    words = argparse.ArgumentParser(description=__doc__, formatter_class=argparse.RawDescriptionHelpFormatter)
    words.add_argument("source", metavar="IN.pgm")
    words.add_argument("target", metavar="OUT.png")
    words.add_argument("--bits", type=int, choices=(8, 16), default=8)
    words.add_argument("--crop", type=part_of, metavar="X,Y,WxH")
    words.add_argument("--zoom", type=int, choices=range(1, 17), default=1, metavar="N")
    words.add_argument("--force", action="store_true")
    asked = words.parse_args()
    try:
        with open(asked.source, "rb") as source:
            picture = read_pgm(source.read())
        if asked.crop:
            picture = cropped(picture, *asked.crop)
        put(png(zoomed(picture, asked.zoom), asked.bits), asked.target, asked.force, asked.source)
    except OSError as fault:
        raise SystemExit("png.py: %s: %s" % (fault.filename or asked.target, fault.strerror)) from None


if __name__ == "__main__":
    main()
