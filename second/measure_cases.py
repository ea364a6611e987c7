"""Random cases of measuring with the second program's answers, as JSON: what
viewer/node/measuring.mjs holds the page's own code to.

Run: python3 second/measure_cases.py   prints 200 cases each of profile, region
and mm, one a line, and the same ones at every run.
"""

import json
import random
import sys

sys.dont_write_bytecode = True

import measure

CASES = 200


def film_of(dice):
    """A small film: noise, one grey, or steep edges."""
    width, height, most = dice.randint(2, 40), dice.randint(1, 40), dice.choice([1, 255, 4095])
    way = dice.randrange(3)
    grey = dice.randint(0, most)
    greys = [grey if way == 1 else dice.choice([0, most]) if way == 2 else dice.randint(0, most)
             for _ in range(width * height)]
    return width, height, greys


def long_film(dice):
    """Three rows of noise, for a profile of many samples."""
    return 1500, 3, [dice.randint(0, 4095) for _ in range(4500)]


def line_of(dice, width, height):
    """Two different pixels of a film, now and then neighbours or along a row."""
    while True:
        x0, y0 = dice.randrange(width), dice.randrange(height)
        x1, y1 = dice.randrange(width), dice.randrange(height)
        if dice.random() < 0.2:
            y1 = y0
        if dice.random() < 0.1:
            x1, y1 = min(width - 1, x0 + 1), min(height - 1, y0 + 1)
        if (x0, y0) != (x1, y1):
            return x0, y0, x1, y1


def micrometres(dice):
    """A typed number of um, of one to all six digits behind the point."""
    digits = dice.randint(0, 6)
    whole = dice.choice([dice.randint(1, 9), dice.randint(10, 200), dice.randint(1, 10000 * 10 ** digits) // 10 ** digits])
    return str(whole) if digits == 0 else "%d.%0*d" % (min(whole, 9999), digits, dice.randrange(10 ** digits))


def profile_case(dice):
    """A line with its width and, where it is long enough, a part for the dip."""
    film = film_of(dice) if dice.random() < 0.98 else long_film(dice)
    line, lanes = line_of(dice, film[0], film[1]), 2 * dice.randint(0, 6) + 1
    samples = measure.profile(film, line, lanes)
    last = len(samples) - 1
    part = None
    if last >= 2:
        p = dice.randint(0, last - 2)
        part = [0, last] if dice.random() < 0.5 else [p, dice.randint(p + 2, last)]
    return {"film": film, "line": line, "lanes": lanes, "part": part, "samples": [measure.shown(x, 2) for x in samples],
            "dip": part and measure.dip_shown(samples, *part)}


def region_case(dice):
    """A rectangle, with a basic resolution or without."""
    film = film_of(dice)
    left, top = dice.randrange(film[0]), dice.randrange(film[1])
    box = left, top, dice.randint(1, film[0] - left), dice.randint(1, film[1] - top)
    text = dice.choice([None, micrometres(dice)])
    resolution = None if text is None else measure.number(text, measure.UM)
    return {"film": film, "box": box, "resolution": text, "told": measure.region(film, box, resolution)}


def mm_case(dice):
    """A line on a film of any size: its distance by a pitch, the pitch by a length, a rectangle."""
    width, height = dice.randint(2, 4096), dice.randint(2, 4096)
    line, text = line_of(dice, width, height), micrometres(dice)
    length = "%d.%0*d" % (dice.randint(1, 400), dice.randint(1, 6), dice.randrange(10))
    pitch = measure.number(text, measure.UM)
    box = [dice.randrange(width), dice.randrange(height), dice.randint(1, width), dice.randint(1, height)]
    return {"line": line, "pitch": text, "distance": measure.distance(line, pitch), "length": length,
            "pitch_of": measure.pitch_of(line, measure.number(length, measure.MM)), "box": box,
            "box_mm": measure.rectangle_mm(box, pitch)}


WORDS = ["0", "0.0", "-1", "", " ", "abc", "1e3", "1,5", ".", "..5", "1.2.3", "NaN", "Infinity", "0x10", "0.1", "0.099999",
         ".1", "5.", "10000", "10000.000001", "10000.0", "42.333333", "42.3333333", "007", "1 2", " 5 ", "\t7.5\n",
         "0" * 60 + "1", "\u0663", "99999999999"]


def word_case(text):
    """A typed word, and the number that it is, in um and in mm."""
    found = [measure.number(text, limits) for limits in (measure.UM, measure.MM)]
    return {"word": text, "um_mm": [None if x is None else str(int(x * 10 ** 6)) for x in found]}


def main():
    """Prints all cases."""
    dice = random.Random(88600)
    for kind, case in (("profile", profile_case), ("region", region_case), ("mm", mm_case)):
        for _ in range(CASES):
            print(json.dumps({"kind": kind, **case(dice)}))
    for text in WORDS:
        print(json.dumps({"kind": "word", **word_case(text)}))


if __name__ == "__main__":
    main()
