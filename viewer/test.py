#!/usr/bin/env python3
"""viewer/test.py [WAY..]: uses the reading page as a person does, in headless Chromium, and prints what it saw.

Pictures, footers and what is under the pointer are held to the second program (second/), what is saved to station/render.
The last line is 'N tried, N as expected'; exit status 0, and 1 where a way is not as expected, 69 where something could not
be built. With names of ways only these are gone. Where Chromium, its driver or selenium is not there, that is said, and
nothing is tried.

  --times      prints how long the page takes from an input to the painted window, as docs/BENCHMARK.md has it
  --pictures   makes the pictures docs/viewer-*.png
  --list       names the ways
"""

import os
import shutil
import subprocess
import sys
import tempfile
import time
import traceback

sys.dont_write_bytecode = True
HERE = os.path.dirname(os.path.abspath(__file__))
sys.path.insert(0, os.path.join(HERE, "test"))
SYSTEM = "/usr/bin/python3"  # has selenium where the system's own package is installed


def missing():
    """What this machine lacks, or None."""
    for program in ("chromium", "chromedriver"):
        if not shutil.which(program):
            return "there is no %s here" % program
    try:
        import selenium  # noqa: F401
    except ImportError:
        if os.path.exists(SYSTEM) and not os.path.samefile(os.path.realpath(sys.executable), os.path.realpath(SYSTEM)):
            os.execv(SYSTEM, [SYSTEM, os.path.abspath(__file__), *sys.argv[1:]])
        return "there is no selenium for Python here"
    return None


def built():
    """Whether the page and the command line are there and up to date."""
    return all(subprocess.run([os.path.join(HERE, "..", each)], check=False).returncode == 0
               for each in ("station/build", "viewer/build"))


class Films:
    """The films that the ways look at, each made when it is first asked for."""

    MADE = {
        "sample": lambda expected, films: expected.sample(),
        "twin": lambda expected, films: expected.twin(films.sample),
        "noisy": lambda expected, films: expected.noisy("noisy.pgm", 1280, 1024),
        "shallow": lambda expected, films: expected.noisy("shallow.pgm", 160, 120, 255),
        "odd": lambda expected, films: expected.noisy("odd.pgm", 77, 63),
        "small": lambda expected, films: expected.noisy("small.pgm", 12, 10),
        "long": lambda expected, films: expected.noisy("long.pgm", 1600, 64),
        "narrow": lambda expected, films: expected.noisy("narrow.pgm", 5, 40),
        "square": lambda expected, films: expected.noisy("square.pgm", 2048, 2048),
        "largest": lambda expected, films: expected.four_of("largest.pgm", films.square),
    }

    def __getattr__(self, name):
        import expected
        if name not in self.MADE:
            raise AttributeError(name)
        setattr(self, name, self.MADE[name](expected, self))
        return getattr(self, name)


def gone(way, person, films):
    """Goes one way; gives whether it was as expected, and what was seen."""
    from person import Unexpected
    try:
        person.arrive()
        saw = way(person, films)
        worse = person.complaints()
        return (not worse), saw if not worse else "the console has: %s" % worse[:3]
    except Unexpected as fault:
        return False, str(fault)[:600]
    except Exception:  # a fault of the page may well look like one of the test
        return False, traceback.format_exc()[-900:]


def go(ways, person, films):
    """Goes all ways and tells of each."""
    good = 0
    for way in ways:
        start = time.monotonic()
        is_good, saw = gone(way, person, films)
        good += is_good
        name = way.__name__.replace("_", " ")
        print("%-16s %-24s %s (%.0f s)" % ("as expected" if is_good else "NOT AS EXPECTED", name, saw, time.monotonic() - start),
              flush=True)
    print("%d tried, %d as expected" % (len(ways), good))
    return 0 if good == len(ways) else 1


def all_ways():
    """The ways in their order."""
    import ways_films
    import ways_hand
    import ways_load
    import ways_looking
    import ways_marks
    import ways_measure
    import ways_out
    import ways_reach
    import ways_regions
    import ways_report
    import ways_screen
    import ways_settings
    return (ways_films.WAYS + ways_settings.WAYS + ways_looking.WAYS + ways_screen.WAYS + ways_hand.WAYS + ways_out.WAYS
            + ways_measure.WAYS + ways_marks.WAYS + ways_reach.WAYS + ways_regions.WAYS + ways_report.WAYS + ways_load.WAYS)


def begin(words, room):
    """Does what the words say, in a folder of its own."""
    from person import Person, browser
    log = not words or not words[0].startswith("--")
    driver = browser(room, log)
    try:
        person = Person(driver, os.path.join(os.path.dirname(HERE), "target/viewer/tzofnadir.html"), room, log)
        if words == ["--times"]:
            import times
            return times.measure(person, Films())
        if words == ["--pictures"]:
            import pictures
            return pictures.make(person, Films())
        ways = all_ways()
        unknown = set(words) - {way.__name__ for way in ways}
        if unknown:
            print("viewer/test.py: there is no way %s; --list names them" % sorted(unknown)[0], file=sys.stderr)
            return 64
        return go([way for way in ways if not words or way.__name__ in words], person, Films())
    finally:
        driver.quit()


def main(words):
    """The whole test."""
    if words and words[0] in ("-h", "--help", "help"):
        print(__doc__)
        return 0
    lack = missing()
    if lack:
        print("not tried        the page in a browser: " + lack)
        return 0
    if words == ["--list"]:
        for way in all_ways():
            print("%-24s %s" % (way.__name__, " ".join(way.__doc__.split())))
        return 0
    if not built():
        return 69
    with tempfile.TemporaryDirectory(ignore_cleanup_errors=True) as room:
        return begin(words, room)


if __name__ == "__main__":
    sys.exit(main(sys.argv[1:]))
