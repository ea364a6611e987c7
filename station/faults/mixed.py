"""mixed.py make FILM.pgm SCANS WANTED: writes 200 scans of ten kinds, each of a part of the sample film, no two alike, and
the films that have to become of them.

mixed.py look SCANS WANTED FILMS RENDERED: holds what station/import and tzofnadir left, whenever they were stopped: each film
is the one of its own scan, to the byte, with a JSON that has both digests; each rendering has a record with the digests of its
own film and of itself. Prints how many films and renderings are there; what is not right is named, and ends with 1.
"""
import glob
import hashlib
import json
import os
import sys

COUNT = 200


# ---- what is made

def write(name, *parts):
    with open(name, "wb") as out:
        out.write(b"".join(parts))


def pgm_of(greys, maxval):
    kind = ">u2" if maxval > 255 else "u1"
    return b"P5\n%d %d\n%d\n" % (greys.shape[1], greys.shape[0], maxval) + greys.astype(kind).tobytes()


def pam_of(greys):
    head = b"P7\nWIDTH %d\nHEIGHT %d\nDEPTH 1\nMAXVAL 4095\nTUPLTYPE GRAYSCALE\nENDHDR\n" % greys.shape[::-1]
    return head + greys.astype(">u2").tobytes()


def kinds():
    """How each kind of file is written, and what it is called: by the name without its end, of greys of 12 bits."""
    import numpy
    import scans
    import tifffile
    from PIL import Image
    return (
        (".dcm", lambda to, part: scans.save(to, scans.dicom(part, PatientID="W-7"))),
        (".tif", lambda to, part: tifffile.imwrite(to, part)),
        (".png", lambda to, part: Image.fromarray(part.astype(numpy.int32), "I").save(to)),
        (".pgm", lambda to, part: write(to, pgm_of(part, 65535))),
        (".pam", lambda to, part: write(to, pam_of(part))),
        (".dcm", lambda to, part: scans.save(to, scans.dicom(4095 - part, kind="MONOCHROME1"))),
        (".tif", lambda to, part: tifffile.imwrite(to, part, compression="zlib", predictor=True)),
        (".png", lambda to, part: Image.fromarray((part >> 4).astype(numpy.uint8)).save(to)),
        (".pgm", lambda to, part: write(to, pgm_of(part, 4095))),
        (".pgm", lambda to, part: write(to, pgm_of(part + 30000, 65535))),
    )


def wanted_of(kind, part):
    """Of 8 bits a film of 8, of greys beyond 4095 each less the least, and else the greys themselves."""
    if kind == 7:
        return pgm_of(part >> 4, 255)
    return pgm_of(part - part.min() if kind == 9 else part, 4095)


def make(film, to, wanted):
    sys.path.insert(0, os.path.dirname(os.path.abspath(__file__)))
    import scans
    whole, written, films = scans.read(film), kinds(), set()
    for i in range(COUNT):
        wide, high = 64 + i % 37, 48 + i % 23
        left, top = 13 * i % (512 - wide), 7 * i % (384 - high)
        part, name = whole[top:top + high, left:left + wide].copy(), "film-%03d" % i
        end, save = written[i % len(written)]
        save(os.path.join(to, name + end), part)
        film = wanted_of(i % len(written), part)
        write(os.path.join(wanted, name + ".pgm"), film)
        films.add(film)
    assert len(films) == COUNT, "two films are alike"


# ---- what is held

def bytes_of(name):
    with open(name, "rb") as source:
        return source.read()


def digest(name):
    return hashlib.sha256(bytes_of(name)).hexdigest()


def digests_in(name, *members):
    """The digests of a JSON's members; none of one that is not there or is cut."""
    try:
        with open(name, encoding="utf-8") as source:
            text = json.load(source)
        return [text[member]["sha256"] for member in members]
    except (OSError, ValueError, KeyError, TypeError):
        return []


def look(scans, wanted, films, rendered):
    bad = []
    there = sorted(glob.glob(os.path.join(films, "*.pgm")))
    for film in there:
        name = os.path.basename(film)[:-4]
        scan, = glob.glob(os.path.join(scans, name + ".*"))
        if bytes_of(film) != bytes_of(os.path.join(wanted, name + ".pgm")):
            bad.append("%s is not of its scan" % film)
        if digests_in(film[:-4] + ".json", "source", "film") != [digest(scan), digest(film)]:
            bad.append("%s has no JSON of its own" % film)
    made = sorted(glob.glob(os.path.join(rendered, "*.pgm")))
    for film in made:
        own = os.path.join(wanted, os.path.basename(film))
        if digests_in(film + ".json", "input", "output") != [digest(own), digest(film)]:
            bad.append("%s has no record of its own" % film)
    print("%d films, %d renderings, wrong: %s" % (len(there), len(made), ", ".join(bad[:3]) or "none"))
    return 1 if bad else 0


if __name__ == "__main__":
    sys.exit({"make": make, "look": look}[sys.argv[1]](*sys.argv[2:]))
