"""What is done to the greys of a scan so that they fit a film: nothing, an offset, or an even step."""
from dataclasses import dataclass

from said import package

MOST = 4095
ROWS = 256  # looked at together, so that a large film needs little room


@dataclass
class Rule:
    """grey = (value - offset) / step, rounded down; value is the sample, or top - sample where the scan is inverted."""
    least: int
    greatest: int
    distinct: int  # greys that occur in the scan
    merged: int  # of them, how many became one with another
    offset: int
    step: int
    maxval: int


def values_of(scan, block):
    """Samples as numbers, the lightest the greatest."""
    numbers = block.astype(package("numpy").int32)
    return scan.top - numbers if scan.inverted else numbers


def occurring(scan):
    """The greys that occur, in order."""
    numpy = package("numpy")
    base = 1 << 16
    seen = numpy.zeros(2 * base + 1, dtype=bool)
    for frame in scan.frames:
        for row in range(0, frame.shape[0], ROWS):
            seen[values_of(scan, frame[row:row + ROWS]) + base] = True
    return numpy.flatnonzero(seen) - base


def step_for(found):
    """The least step that brings the span down to 4096 greys. Greys that all stand some way apart, as those of 12 bits
    written into 16 do, take a multiple of that way: then none becomes one with another before it must."""
    span = int(found[-1] - found[0])
    gap = int(package("numpy").diff(found).min())
    step = gap
    while span // step > MOST:
        step += gap
    return step


def maxval_of(scan, greatest):
    """The file's own where samples are kept as they are and it fits."""
    return scan.top if not scan.signed and greatest <= scan.top <= MOST else MOST


def rule_of(scan):
    """One rule for all frames of a file, so that they can be compared."""
    found = occurring(scan)
    least, greatest, distinct = int(found[0]), int(found[-1]), len(found)
    if least >= 0 and greatest <= MOST:
        return Rule(least, greatest, distinct, 0, 0, 1, maxval_of(scan, greatest))
    if scan.signed and scan.bits <= 12:  # all that the file may hold fits, and its films stay alike
        return Rule(least, greatest, distinct, 0, -(1 << scan.bits - 1), 1, (1 << scan.bits) - 1)
    if greatest - least <= MOST:
        return Rule(least, greatest, distinct, 0, least, 1, MOST)
    step = step_for(found)
    offset = 0 if least >= 0 and greatest // step <= MOST else least
    left = len(package("numpy").unique((found - offset) // step))
    return Rule(least, greatest, distinct, distinct - left, offset, step, MOST)


def film_of(scan, rule, frame):
    """The bytes of the raw PGM of a frame or a part of one."""
    numpy = package("numpy")
    height, width = frame.shape
    greys = numpy.empty((height, width), dtype=numpy.uint8 if rule.maxval < 256 else numpy.dtype(">u2"))
    for row in range(0, height, ROWS):
        greys[row:row + ROWS] = (values_of(scan, frame[row:row + ROWS]) - rule.offset) // rule.step
    return b"P5\n%d %d\n%d\n" % (width, height, rule.maxval) + greys.tobytes()


def told(scan, rule):
    """What was done, in a few words."""
    done = ["%d bits, greys %d to %d" % (scan.bits, rule.least, rule.greatest)]
    if scan.inverted:
        done.append("turned round (%s)" % scan.inverted)
    if rule.step > 1:
        done.append("a step of %d taken for one grey, %s of the %d that occur became one with another"
                    % (rule.step, rule.merged or "none", rule.distinct))
    if rule.offset:
        done.append("each %s %d" % ("less" if rule.offset > 0 else "plus", abs(rule.offset)))
    if rule.step == 1 and not rule.offset and not scan.inverted:
        done.append("kept as they are")
    return ", ".join(done)
