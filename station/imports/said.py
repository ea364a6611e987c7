"""What the import says, all of it on standard error, and what ends the work on a file."""
import importlib
import os
import sys

BAD_WORDS, REFUSED, NO_INPUT, NO_PACKAGE, NO_MEMORY, CANNOT_CREATE, IO_FAULT = 64, 65, 66, 69, 71, 73, 74

PACKAGES = {"numpy": "python3-numpy", "pydicom": "python3-pydicom", "tifffile": "python3-tifffile", "PIL.Image": "python3-pil"}


class Ended(Exception):
    """The work on a file is over: a sentence, the way out, and the status."""

    def __init__(self, sentence, way="", status=REFUSED, last=False):
        super().__init__(sentence)
        self.sentence, self.way, self.status = sentence, way, status
        self.last = last  # no other file would fare better


def shown(name):
    """A name for a person: what a terminal would take for a command is escaped."""
    plain = (c if c.isprintable() else c.encode("unicode_escape").decode("ascii") for c in name)
    return "".join(plain)


def hold_streams():
    """A standard stream that came closed would be the next file to be opened, and messages would land in a film."""
    for number in range(3):
        try:
            os.fstat(number)
        except OSError:
            os.open(os.devnull, os.O_RDWR)


def line(text):
    """Where nobody listens, the films count more."""
    try:
        sys.stderr.write(text + "\n")
        sys.stderr.flush()
    except (AttributeError, OSError):
        pass


def say(text):
    line("station/import: %s" % text)


def say_more(text):
    if text:
        line("  %s" % text)


def say_ended(name, ended):
    say("%s: %s" % (shown(name), ended.sentence))
    say_more(ended.way)


def package(name):
    """A package of the field, or the end with its Debian name."""
    try:
        return importlib.import_module(name)
    except ImportError:
        raise Ended("it cannot be read without %s, which this python3 does not have" % name.split(".")[0],
                    "On Debian: apt install %s" % PACKAGES[name], NO_PACKAGE) from None
