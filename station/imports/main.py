"""station/import: makes films of scans as they come. station/import, beside this folder, has its words."""
import hashlib
import json
import os
import re
import sys
from dataclasses import dataclass, field

sys.path.insert(0, os.path.dirname(os.path.abspath(__file__)))

import dicoms  # noqa: E402
import greys  # noqa: E402
import outputs  # noqa: E402
import parts  # noqa: E402
import pngs  # noqa: E402
import pnm  # noqa: E402
import tiffs  # noqa: E402
from said import BAD_WORDS, NO_INPUT, NO_MEMORY, IO_FAULT, Ended, hold_streams, say, say_ended, say_more, shown  # noqa: E402

TOP = os.path.dirname(os.path.dirname(os.path.dirname(os.path.abspath(__file__))))
ENDINGS = re.compile(r"(?i)(?<=.)\.(dcm|dicom|dic|diconde|tiff?|png|pgm|pnm|pbm|pam)\Z")
DICOM_ENDINGS = re.compile(r"(?i)\.(dcm|dicom|dic|diconde)\Z")


WITH_VALUE = ("--into", "--overlap")
OPTIONS = WITH_VALUE + ("--cut", "--force", "--quiet")


@dataclass
class Asked:
    files: list = field(default_factory=list)
    into: str = ""
    cut: bool = False
    overlap: int = 256
    force: bool = False
    quiet: bool = False


# ---- words

def bad(sentence, word=""):
    way = "'station/import --help' tells the words that are taken."
    return Ended(sentence + (": " + shown(word) if word else ""), way, BAD_WORDS)


def no_option(word):
    """It may be meant as a file's name."""
    return Ended("there is no such option: %s" % shown(word),
                 "A file whose name begins with a dash stands behind '--', or as ./%s" % shown(word), BAD_WORDS)


def option(asked, name, value):
    """Takes an option; `value` gets its value."""
    if name == "--into":
        asked.into = value()
    elif name == "--overlap":
        text = value()
        if not text.isascii() or not text.isdigit() or len(text) > 4 or int(text) > 2048:
            raise bad("--overlap takes a number of pixels up to 2048", text)
        asked.overlap = int(text)
    else:
        setattr(asked, name[2:], True)


def words(given):
    """What was asked."""
    asked, rest, seen = Asked(), list(given), set()
    while rest:
        word = rest.pop(0)
        if word == "--":
            asked.files += rest
            break
        if not word.startswith("-") or word == "-":
            asked.files.append(word)
            continue
        name, mark, text = word.partition("=")
        if name not in OPTIONS:
            raise no_option(word)
        if name in seen:
            raise bad("this option is given twice", name)
        seen.add(name)
        if mark and name not in WITH_VALUE:
            raise bad("this option takes no value", word)
        if not mark and name in WITH_VALUE and not rest:
            raise bad("a value is missing behind", name)
        option(asked, name, lambda: text if mark else rest.pop(0))
    check(asked)
    return asked


def check(asked):
    """Two scans may not want one name, and a scan needs a name."""
    if not asked.into:
        raise bad("--into FOLDER is missing, where the films are to go")
    if not asked.files:
        raise bad("a file is missing")
    names = {}
    for file in asked.files:
        if file in ("", "-"):
            raise bad("standard input has no name that a film could have")
        other = names.setdefault(base_of(file), file)
        if other is not file:
            raise bad("two films would have one name, import them into two folders: %s and" % shown(other), file)


def base_of(file):
    return ENDINGS.sub("", os.path.basename(file))


# ---- a file

def fetch(file):
    try:
        with open(file, "rb") as source:
            return source.read()
    except IsADirectoryError:
        raise Ended("it is a folder", "Name its files: %s/*" % shown(file.rstrip("/")), NO_INPUT) from None
    except (FileNotFoundError, PermissionError, NotADirectoryError) as fault:
        raise Ended("it cannot be opened: %s" % fault.strerror, "", NO_INPUT) from None
    except OSError as fault:
        raise Ended("it cannot be read: %s" % fault.strerror, "", IO_FAULT) from None


def scan_of(file, data):
    """By the first bytes, and not by the name."""
    if data[:2] in pnm.READERS:
        return pnm.read(data)
    if data[:8] == b"\x89PNG\r\n\x1a\n":
        return pngs.read(data)
    if data[:4] in (b"II*\0", b"MM\0*", b"II+\0", b"MM\0+"):
        return tiffs.read(data)
    if data[128:132] == b"DICM":
        return dicoms.read(data)
    if data[:2] in (b"P3", b"P6"):
        raise Ended("it is a PPM, in colour", "Have the scan given in grey.")
    if data[:3] == b"\xff\xd8\xff" or data[4:12] == b"jP  \r\n\x87\n" or data[:4] == b"\xff\x4f\xff\x51":
        raise Ended("it is a JPEG, whose packing alters greys", "Have the scan given as PNG, TIFF or DICONDE.")
    if data and DICOM_ENDINGS.search(file):
        return dicoms.read(data, forced=True)
    raise Ended("it is empty" if not data else "it is no file that is known here",
                "DICONDE, DICOM, TIFF, PNG, PGM and PAM are taken.")


def record_of(file, data, scan, rule, film):
    """What stands beside a film. There is no time in it: the same scan gives the same text."""
    with open(os.path.join(TOP, "VERSION"), encoding="ascii") as version:
        number = version.read().strip()
    height, width = scan.frames[film["frame"] - 1].shape
    value = "top - sample" if scan.inverted else "sample"
    return json.dumps({
        "program": "station/import", "version": number,
        "source": {"file": file, "sha256": hashlib.sha256(data).hexdigest(), "bytes": len(data), "kind": scan.kind,
                   "width": width, "height": height, "bits": scan.bits, "signed": scan.signed,
                   "frames": len(scan.frames), "frame": film["frame"]},
        "film": {"file": film["file"], "sha256": hashlib.sha256(film["bytes"]).hexdigest(), "bytes": len(film["bytes"]),
                 "width": film["part"][2], "height": film["part"][3], "maxval": rule.maxval},
        "greys": {"least": rule.least, "greatest": rule.greatest, "occurring": rule.distinct, "merged": rule.merged,
                  "inverted": scan.inverted or None, "top": scan.top if scan.inverted else None, "offset": rule.offset,
                  "step": rule.step, "rule": "grey = (%s - offset) / step, rounded down" % value},
        "part": dict(zip(("left", "top", "width", "height"), film["part"])) if film["part"][2:] != (width, height) else None,
        "pixel_spacing": scan.spacing, "rescale": scan.rescale, "component": scan.component, "notes": scan.notes,
    }, indent=2) + "\n"


def films_of(file, scan, asked):
    """Each film's frame, part and name."""
    places = [(number, part) for number, frame in enumerate(scan.frames, 1)
              for part in parts.parts_of(frame.shape[1], frame.shape[0], asked)]
    digits = len(str(len(scan.frames)))
    for number, part in places:
        height, width = scan.frames[number - 1].shape
        name = base_of(file) + ("-frame%0*d" % (digits, number) if len(scan.frames) > 1 else "")
        name += "-x%d-y%d" % part[:2] if part[2:] != (width, height) else ""
        yield {"frame": number, "part": part, "name": name, "file": name + ".pgm"}


def check_place(asked, name, taken, scans):
    """Not the place of another film of this call, nor of a scan, whatever is said."""
    if name in taken:
        raise Ended("another file of this call has a film of the name %s" % shown(name),
                    "Import it into another folder.", BAD_WORDS)
    try:
        there = os.stat(os.path.join(asked.into, name))
    except OSError:
        return
    if (there.st_dev, there.st_ino) in scans:
        raise Ended("%s is a scan of this call, which is never replaced" % shown(os.path.join(asked.into, name)),
                    "Import into another folder.", BAD_WORDS)


def import_file(file, asked, taken, scans):
    """The films of a file: how many, and how many of them were there already."""
    data = fetch(file)
    scan = scan_of(file, data)
    rule = greys.rule_of(scan)
    films = list(films_of(file, scan, asked))
    for film in films:
        for end in (".json", ".pgm"):
            check_place(asked, film["name"] + end, taken, scans)
    new = 0
    for film in films:
        left, top, wide, high = film["part"]
        film["bytes"] = greys.film_of(scan, rule, scan.frames[film["frame"] - 1][top:top + high, left:left + wide])
        record = record_of(file, data, scan, rule, film).encode("ascii")
        new += outputs.put(asked.into, [(film["name"] + ".json", record), (film["file"], film["bytes"])], asked.force)
        taken.update([film["name"] + ".json", film["file"]])
        del film["bytes"]
    if not asked.quiet:
        tell(file, scan, rule, len(films), new)
    return len(films), new


def tell(file, scan, rule, films, new):
    height, width = scan.frames[0].shape
    many = "" if films == 1 else ", %d films" % films
    say("%s: %s of %d by %d%s, %s%s" % (shown(file), scan.kind, width, height, many, greys.told(scan, rule),
                                        "" if new else "; there already"))
    for note in scan.notes:
        say_more(note)


# ---- all of them

def identities(files):
    """The scans themselves, by whatever name they are reached."""
    found = set()
    for file in files:
        try:
            there = os.stat(file)
            found.add((there.st_dev, there.st_ino))
        except OSError:
            pass
    return found


def import_all(asked):
    taken, scans, status, films, failed = set(), identities(asked.files), 0, 0, 0
    for at, file in enumerate(asked.files):
        try:
            count, _ = import_file(file, asked, taken, scans)
            films += count
            continue
        except MemoryError:
            ended = Ended("there is not enough memory for it", "Import it alone, or on a larger machine.", NO_MEMORY)
        except Ended as found:
            ended = found
        say_ended(file, ended)
        status, failed = status or ended.status, failed + 1
        rest = len(asked.files) - at - 1
        if ended.last and rest:
            say("%d files behind it were not begun" % rest)
            failed += rest
        if ended.last:
            break
    if failed:
        say("%d of %d files were not imported" % (failed, len(asked.files)))
    elif not asked.quiet:
        say("%d films of %d files are in %s" % (films, len(asked.files), shown(asked.into)))
    return status


def main():
    hold_streams()
    try:
        asked = words(sys.argv[1:])
        outputs.watch()
        outputs.make_folder(asked.into)
    except Ended as ended:
        say(ended.sentence)
        say_more(ended.way)
        return ended.status
    return import_all(asked)


if __name__ == "__main__":
    sys.exit(main())
