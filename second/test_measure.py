"""The worked numbers of docs/MEASURE.md, one by one, and, where there is a
node, the page's measuring against the second program's and its reports
(viewer/node/measuring.mjs, reporting.mjs).

Run: python3 second/test_measure.py   (prints the number of checks)
"""

import os
import shutil
import subprocess
import sys
from fractions import Fraction

sys.dont_write_bytecode = True

import measure

TOP = os.path.dirname(os.path.dirname(os.path.abspath(__file__)))
checks = 0


def same(found, wanted):
    """One check."""
    global checks
    checks += 1
    assert found == wanted, "found %r, wanted %r" % (found, wanted)


def um(text):
    """A typed number of um."""
    return measure.number(text, measure.UM)


def samples(film, line, lanes):
    """A profile as shown."""
    return [measure.shown(grey, 2) for grey in measure.profile(film, line, lanes)]


def row(*greys):
    """The dip over a whole row of greys, one lane."""
    film = len(greys), 1, list(greys)
    found = measure.profile(film, (0, 0, len(greys) - 1, 0), 1)
    same(found, [Fraction(grey) for grey in greys])
    return measure.dip_shown(found, 0, len(greys) - 1)


def rounding():
    """Of two as near the one farther from zero, and no minus before nothing."""
    same([measure.shown(Fraction(x, 200), 2) for x in (1, -1, 3, -3)], ["0.01", "-0.01", "0.02", "-0.02"])
    same(measure.shown(Fraction(-1, 300), 2), "0.00")
    same([measure.shown_root(Fraction(x, 4), 0) for x in (1, 9, 8)], ["1", "2", "1"])


def lengths():
    """Distance, pitch from a known length, a rectangle."""
    same(measure.distance((0, 0, 3, 4), um("50")), ("5.00", "0.250"))
    same(measure.distance((0, 0, 1, 1), um("42.333333")), ("1.41", "0.060"))
    same(measure.distance((5, 5, 5, 5), None), ("0.00", None))
    same(measure.pitch_of((0, 0, 200, 0), Fraction(10)), "50")
    same(measure.pitch_of((0, 0, 2, 1), Fraction(1)), "447.213595")
    same(measure.pitch_of((0, 0, 1, 0), Fraction(11)), None)
    same(measure.pitch_of((7, 7, 7, 7), Fraction(10)), None)
    same(measure.rectangle_mm((10, 0, 3, 1), um("50")), ["0.500", "0.000", "0.150", "0.050"])


def profiles():
    """The samples of small films."""
    same(samples((2, 2, [0, 10, 20, 40]), (0, 0, 1, 1), 1), ["0.00", "40.00"])
    same(samples((2, 2, [0, 10, 20, 40]), (0, 0, 1, 0), 3), ["10.00", "25.00"])
    same(samples((3, 3, list(range(1, 10))), (0, 0, 2, 1), 1), ["1.00", "3.50", "6.00"])


def dips():
    """Light wires, dark ones, none."""
    same(row(10, 10, 30, 20, 30, 10, 10), [3, "20.00", "20.00", "10.00", "50.0"])
    same(row(40, 40, 20, 30, 20, 40, 40), [3, "20.00", "20.00", "10.00", "50.0"])
    same(row(10, 20, 30, 20, 10), None)
    same(row(10, 50, 9, 12, 10), None)
    same(row(0, 50, 9, 25, 0), [2, "50.00", "25.00", "9.00", "76.0"])
    same(row(0, 50, 9, 24, 0), None)
    same(row(10, 10, 10), None)


def regions():
    """Mean, deviation, SNR and SNR_N."""
    same(measure.region((2, 2, [1, 2, 3, 4]), (0, 0, 2, 2), um("100")), [4, 1, 4, "2.50", "1.29", "1.94", "1.72"])
    same(measure.region((2, 2, [1, 2, 3, 4]), (0, 0, 1, 1), um("100")), [1, 1, 1, "1.00", None, None, None])
    same(measure.region((2, 1, [7, 7]), (0, 0, 2, 1), None), [2, 7, 7, "7.00", "0.00", None, None])


def page():
    """The page's own code, under node."""
    if not shutil.which("node"):
        print("not tried        the page's measuring: there is no node here")
        return
    for trials in ("viewer/node/measuring.mjs", "viewer/node/reporting.mjs"):
        done = subprocess.run(["node", trials], cwd=TOP, capture_output=True, text=True, check=False)
        assert done.returncode == 0, done.stdout + done.stderr
        print("%s: %s" % (trials, done.stdout.splitlines()[-1]))


if __name__ == "__main__":
    for part in (rounding, lengths, profiles, dips, regions, page):
        part()
    print("%d checks of measuring" % checks)
