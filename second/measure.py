"""Measuring, from the definitions of docs/MEASURE.md alone.

Greys are a list of rows' pixels one after the other. Exact numbers are
Fractions; a root stays the Fraction beneath it until it is rounded. What a
rule does not give is None.
"""

import math
import re
import sys
from fractions import Fraction

sys.dont_write_bytecode = True

# "a number of um with at most six digits behind the point, from 0.1 to 10,000"
UM = Fraction(1, 10), Fraction(10000)
# "in mm, from 0.001 to 10,000"
MM = Fraction(1, 1000), Fraction(10000)
MOST_LANES = 101


# ---- Exactness

def shown(value, digits):
    """"to the nearest with that many digits behind the point, and of two that
    are as near to the one farther from zero" """
    if value is None:
        return None
    size = math.floor(abs(value) * 10 ** digits + Fraction(1, 2))
    return written("-" if value < 0 and size else "", size, digits)


def shown_root(square, digits):
    """The root of a Fraction, rounded once: the greatest whole number whose
    distance below the root is at most a half unit."""
    if square is None:
        return None
    scaled = square * 10 ** (2 * digits)
    size = math.isqrt(scaled.numerator // scaled.denominator)
    # size <= root < size + 1; up where the root is size + 1/2 or more
    if scaled >= Fraction(2 * size + 1, 2) ** 2:
        size += 1
    return written("", size, digits)


def written(sign, size, digits):
    """A whole number of units of the last digit."""
    text = str(size).rjust(digits + 1, "0")
    return sign + (text[:-digits] + "." + text[-digits:] if digits else text)


def trimmed(text):
    """"6, zeros at the end left out" """
    return text.rstrip("0").rstrip(".")


def number(text, limits):
    """A number that is typed, or None. "white space around it does not count" """
    text = text.strip()
    if not re.fullmatch(r"[0-9]+(\.[0-9]{0,6})?|\.[0-9]{1,6}", text, re.A):
        return None
    value = Fraction(text if not text.endswith(".") else text[:-1])
    return value if limits[0] <= value <= limits[1] else None


# ---- Pixel pitch, and mm

def squared(line):
    """The square of the distance of a line's ends, in pixels."""
    x0, y0, x1, y1 = line
    return (x1 - x0) ** 2 + (y1 - y0) ** 2


def distance(line, pitch):
    """The distance as shown, in pixels, and in mm where there is a pitch."""
    square = Fraction(squared(line))
    mm = None if pitch is None else square * (pitch / 1000) ** 2
    return shown_root(square, 2), shown_root(mm, 3)


def pitch_of(line, length):
    """The pitch in um as shown, from a length in mm; None where it is none."""
    if squared(line) == 0:
        return None
    text = shown_root((length * 1000) ** 2 / squared(line), 6)
    return trimmed(text) if UM[0] <= Fraction(text) <= UM[1] else None


def rectangle_mm(rectangle, pitch):
    """Left, top, width and height in mm, as shown."""
    return [shown(side * pitch / 1000, 3) for side in rectangle]


# ---- Line profile

def steps(line):
    """n: the distance rounded to a whole number."""
    return int(shown_root(Fraction(squared(line)), 0))


def bilinear(film, column, row):
    """The grey at a place, None beyond the centres of the outer pixels."""
    width, height, greys = film
    if not (0 <= column <= width - 1 and 0 <= row <= height - 1):
        return None
    c, r = math.floor(column), math.floor(row)
    u, v = column - c, row - r
    total = Fraction(0)
    for weight, x, y in (((1 - u) * (1 - v), c, r), (u * (1 - v), c + 1, r),
                         ((1 - u) * v, c, r + 1), (u * v, c + 1, r + 1)):
        if weight:
            total += weight * greys[y * width + x]
    return total


def profile(film, line, lanes):
    """The samples along a line, each the mean of its lanes."""
    x0, y0, x1, y1 = line
    dx, dy, n = x1 - x0, y1 - y0, steps(line)
    half = (lanes - 1) // 2
    samples = []
    for i in range(n + 1):
        found = [bilinear(film, x0 + Fraction(dx * i - dy * k, n), y0 + Fraction(dy * i + dx * k, n))
                 for k in range(-half, half + 1)]
        inside = [grey for grey in found if grey is not None]
        samples.append(sum(inside) / len(inside))
    return samples


# ---- Dip of a duplex wire pair

def heights(samples, p, q):
    """Each sample's grey less the background, which is the straight line
    through samples p and q; the sign is that of the wires."""
    raised = [samples[i] - (samples[p] + (samples[q] - samples[p]) * Fraction(i - p, q - p))
              for i in range(p, q + 1)]
    return [-h for h in raised] if sum(raised) < 0 else raised


def dip(samples, p, q):
    """(valley, A, B, C, dip), or None where there is no dip."""
    h = heights(samples, p, q)
    if sum(h) == 0:
        return None
    best, most = None, max(h)
    for i in range(1, len(h) - 1):
        before, behind = max(h[:i]), max(h[i + 1:])
        lesser = min(before, behind)
        if 2 * lesser >= most and lesser > h[i] and (best is None or lesser - h[i] > best[0]):
            best = lesser - h[i], p + i, before, behind, h[i]
    if best is None:
        return None
    _, valley, a, b, c = best
    return valley, a, b, c, 100 * (a + b - 2 * c) / (a + b)


def dip_shown(samples, p, q):
    """The dip as shown: its place, A, B, C and percent; None for none."""
    found = dip(samples, p, q)
    return None if found is None else [found[0]] + [shown(x, 2) for x in found[1:4]] + [shown(found[4], 1)]


# ---- Region

def region(film, rectangle, resolution):
    """Pixels, least, greatest, mean, deviation, SNR and SNR_N as shown."""
    width, _, greys = film
    left, top, wide, high = rectangle
    inside = [grey for y in range(top, top + high) for grey in greys[y * width + left:y * width + left + wide]]
    n, s = len(inside), sum(inside)
    mean = Fraction(s, n)
    square = None if n < 2 else sum((grey - mean) ** 2 for grey in inside) / (n - 1)
    ratio = None if not square else mean ** 2 / square
    normal = None if ratio is None or resolution is None else ratio * (Fraction(886, 10) / resolution) ** 2
    return [n, min(inside), max(inside), shown(mean, 2), shown_root(square, 2), shown_root(ratio, 2),
            shown_root(normal, 2)]
