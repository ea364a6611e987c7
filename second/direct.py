"""The plain engine: a reading of document 02's order 12, with document 01 and
orders 2, 3, 6 and 8 behind it.

"for each pixel it counts the tiles it needs straight from the film, clips and
sums, and keeps no mappings between pixels".  Nothing here is taken from
clahe.py, which makes every tile's mapping first, but the records that settings
and footers are: what the two give alike, two texts give.

A quoted sentence is document 01's own where no order is named before it.  An
answer is a whole number (the refusal) or a footer.
"""

import struct
from fractions import Fraction

from clahe import OURS, Footer


def factor_of(bits):
    """"the factor's f32 bits are taken as the exact binary fraction they
    denote"; None for a NaN or an infinity, which denote none."""
    if bits >> 23 & 255 == 255:
        return None
    return Fraction(struct.unpack(">f", struct.pack(">I", bits))[0])


def bins_of(settings):
    """"0 means 128." """
    return settings.bins or 128


def unchanged(settings):
    """"exactly 1.0 returns the film unchanged"."""
    return settings.clip is not None and factor_of(settings.clip) == 1


def refusal(width, height, picture, settings, scratch, target):
    """The first that applies, or 0: those of prepare "but for 11, which it
    never gives, and its own 17", order 12."""
    b, low, high = bins_of(settings), settings.min, settings.max
    factor = 1 if settings.clip is None else factor_of(settings.clip)
    rows = [
        (1, not (1 <= width <= 4096 and 1 <= height <= 4096)),
        (2, len(picture) != width * height),
        (3, not 2 <= settings.across <= 16),
        (4, not 2 <= settings.down <= 16),
        # Order 6: "5 and 6 now mean a side shorter than the grid".
        (5, width < settings.across),
        (6, height < settings.down),
        (7, high > 4095),
        (8, not low < high),
        (9, not 2 <= b <= 4096),
        # Order 3: "31, bins (after 0 is read as 128) above R + 1, after 9."
        (31, b > high - low + 1),
        (10, factor is None or not 1 <= factor <= 1024),
        (12, len(scratch) < b),
        # Order 12: "17 if the target's length is not width x height, after 12."
        (17, len(target) != width * height),
    ]
    for number, applies in rows:
        if applies:
            return number
    return 13 if any(not low <= grey <= high for grey in picture) else 0


def stretch(side, grid, k):
    """Order 6: "Tile column i shall run from floor(i x width / grid) up to
    floor((i + 1) x width / grid), rows likewise." """
    return k * side // grid, (k + 1) * side // grid


def neighbours(side, grid, x):
    """Order 6: the two tile columns (rows) of column (row) x, and what each of
    them weighs.  "A tile's centre is floor((its first column + the column after
    its last) / 2)"."""
    centres = [sum(stretch(side, grid, k)) // 2 for k in range(grid)]
    reached = [k for k in range(grid) if centres[k] <= x]
    if not reached or reached[-1] == grid - 1:
        # "one outside the first or last centre uses that tile alone"
        k = grid - 1 if reached else 0
        return (k, 1), (k, 0)
    k = reached[-1]
    # "weighs each of the two tiles by its distance from the other's centre"
    return (k, centres[k + 1] - x), (k + 1, x - centres[k])


def limit_of(settings, pixels):
    """"L = floor(factor x N / B) in whole numbers, and at least 1."  Order 2:
    "the larger of today's L and the tile's pixels over the bins, rounded up"."""
    b = bins_of(settings)
    return max(1, factor_of(settings.clip) * pixels // b, -(-pixels // b))


def clip_ours(counts, limit):
    """Rules 3 and 4 of document 01, in the counts themselves."""
    b = len(counts)
    excess = sum(count - limit for count in counts if count > limit)
    q = excess // b
    left = excess
    for k, count in enumerate(counts):
        if count > limit:
            counts[k] = limit
        elif count > limit - q:
            left -= limit - count
            counts[k] = limit
        else:
            left -= q
            counts[k] = count + q
    start = 0
    while left:
        # "the step is floor(B / r), at least 1, fixed for this start"
        for k in range(start, b, max(1, b // left)):
            if counts[k] < limit:
                counts[k] += 1
                left -= 1
                if not left:
                    return
        start = (start + 1) % b


def clip_of_1986(counts, limit):
    """Order 8: "P is the largest whole number from 0 to C for which what stands
    above P, summed over the bins, is at most B x (C - P)." """
    b, level = len(counts), limit
    while sum(count - level for count in counts if count > level) > b * (limit - level):
        level -= 1
    for k, count in enumerate(counts):
        # "A bin below P becomes its count plus C - P, any other becomes C."
        counts[k] = count + limit - level if count < level else limit


def tile_value(width, height, picture, settings, j, i, own):
    """The mapped value of the bin `own` by the tile in row j and column i,
    counted anew: "Min + floor(S x R / N), with S the sum of the clipped counts
    of bins 0 to b"."""
    left, right = stretch(width, settings.across, i)
    top, bottom = stretch(height, settings.down, j)
    low, span, b = settings.min, settings.max - settings.min, bins_of(settings)
    counts = [0] * b
    for y in range(top, bottom):
        for x in range(left, right):
            counts[(picture[y * width + x] - low) * b // (span + 1)] += 1
    pixels = (right - left) * (bottom - top)
    if settings.clip is not None:
        limit = limit_of(settings, pixels)
        if settings.edition == OURS:
            clip_ours(counts, limit)
        else:
            clip_of_1986(counts, limit)
            # Order 8: "The mapping divides by the new total T instead of N".
            pixels = sum(counts)
    return low + sum(counts[:own + 1]) * span // pixels


def grey_of(width, height, picture, settings, x, y):
    """The grey of the pixel x, y: the tiles' values of its bin, each by the
    product of its two weights, over all weights together."""
    # Order 3: "The bin of grey v shall be floor((v - Min) x B / (R + 1))."
    own = (picture[y * width + x] - settings.min) * bins_of(settings) // (settings.max - settings.min + 1)
    total = weights = 0
    for j, above in neighbours(height, settings.down, y):
        for i, beside in neighbours(width, settings.across, x):
            total += above * beside * tile_value(width, height, picture, settings, j, i, own)
            weights += above * beside
    return total // weights


def footer_of(width, height, settings):
    """"a footer record with L, the factor asked as f32 and the factor used as
    f64: L x B and N are each converted exactly and divided once."  Order 6:
    "the footer shows those of tile 0, 0"."""
    if settings.clip is None:
        return Footer(0, 0, 0)
    if unchanged(settings):
        return Footer(0, 0x3F800000, 0x3FF0000000000000)
    pixels = stretch(width, settings.across, 0)[1] * stretch(height, settings.down, 0)[1]
    limit = limit_of(settings, pixels)
    used = float(limit * bins_of(settings)) / float(pixels)
    return Footer(limit, settings.clip, struct.unpack(">Q", struct.pack(">d", used))[0])


def direct(width, height, picture, settings, target, scratch):
    """"It writes to a separate picture", with "only lent scratch for one tile's
    counts, left as enhance leaves it": its first B entries zero, and untouched
    at factor 1.0.  A refusal changes nothing."""
    refused = refusal(width, height, picture, settings, scratch, target)
    if refused:
        return refused
    if unchanged(settings):
        target[:] = picture
    else:
        target[:] = [grey_of(width, height, picture, settings, x, y) for y in range(height) for x in range(width)]
        scratch[:bins_of(settings)] = [0] * bins_of(settings)
    return footer_of(width, height, settings)
