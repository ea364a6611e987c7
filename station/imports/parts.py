"""A film that is too large, cut into parts that overlap."""
from said import Ended

MOST_SIDE = 4096


def places(side, overlap):
    """Where the parts of a side begin, and how long each is: as few as serve, all of one length, evenly apart."""
    if side <= MOST_SIDE:
        return [0], side
    count = -(-(side - overlap) // (MOST_SIDE - overlap))
    length = -(-(side + (count - 1) * overlap) // count)
    return [i * (side - length) // (count - 1) for i in range(count)], length


def parts_of(width, height, asked):
    """Left, top, width and height of each part; of a film that fits, all of it."""
    if width <= MOST_SIDE and height <= MOST_SIDE:
        return [(0, 0, width, height)]
    lefts, wide = places(width, asked.overlap)
    tops, high = places(height, asked.overlap)
    if not asked.cut:
        raise Ended("it is %d by %d pixels, and %d a side are the most" % (width, height, MOST_SIDE),
                    "--cut makes %d by %d films of it, of %d by %d pixels, that overlap by %d or more."
                    % (len(lefts), len(tops), wide, high, asked.overlap))
    return [(left, top, wide, high) for top in tops for left in lefts]
