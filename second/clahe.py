"""Prepare, draw and enhance: a second reading of document 01, and of document
02's orders 1 (byte films), 2 (no more refusal 14), 3 (bins that no pixel
reaches), 5 (a new factor without a new count), 6 (films of any size), 7 (how
long the leftover walk is) and 8 (the clip rule of 1986).

Plain and slow. Whole numbers and fractions.Fraction only; the one float is
the division behind the footer's "factor used", which Python rounds correctly
for two whole numbers.

A quoted sentence in a comment is document 01's own; below the headings of
orders, and where an order is named before it, document 02's.

An answer is either a whole number (the refusal) or a tuple (the results).
Pictures, map buffers, scratch, outputs and the lists of order 7 are lists that
the caller lends.
"""

import struct
from collections import namedtuple
from fractions import Fraction
from functools import lru_cache

# Order 8: "wants that edition beside ours"; "The edition is a setting".
OURS = 0
OF_1986 = 1

# "The clip setting is one of two: off, or a factor carried as f32. It sits
# inside the settings record."  clip is None for off, else the f32's 32 bits.
# Settings that name no edition are of ours.
Settings = namedtuple("Settings", "across down bins min max clip edition", defaults=(OURS,))

# "A map record holds the film's number (any 32-bit number), sizes and
# settings, with bins 0 kept as 128."  Order 6: "The map record keeps the
# edges and centres": those of the columns and those of the rows.
Record = namedtuple("Record", "film_number width height settings columns rows")

# The edges and centres of the columns (rows), as many as the largest grid has;
# behind the last of a smaller grid they are 0.
Axis = namedtuple("Axis", "edges centres")
EDGES = 17
CENTRES = 16

# A tile: its first column and the column after its last, and its rows
# likewise.
Tile = namedtuple("Tile", "left right top bottom")

# Where a column (row) stands: the two tile columns (rows) that it uses, what
# each of them weighs, and what both weigh together.
Place = namedtuple("Place", "tile other weight other_weight span")

# "a footer record with L, the factor asked as f32 and the factor used as f64"
# asked holds 32 bits, used holds 64 bits.
Footer = namedtuple("Footer", "limit asked used")

ONE_F32 = 0x3F800000


def f64_bits(value):
    """The 64 bits of an f64 (for the footer)."""
    return struct.unpack(">Q", struct.pack(">d", value))[0]


def factor_number(bits):
    """"the factor's f32 bits are taken as the exact binary fraction they
    denote."  None for NaN and the infinities, which denote none."""
    sign = -1 if bits >> 31 else 1
    exponent = (bits >> 23) & 0xFF
    mantissa = bits & 0x7FFFFF
    if exponent == 255:
        return None
    if exponent == 0:
        return sign * Fraction(mantissa, 2 ** 149)
    return sign * Fraction(mantissa + 2 ** 23, 2 ** 23) * Fraction(2) ** (exponent - 127)


def bin_count(bins):
    """"Bins B: 2 to 4096. 0 means 128." """
    return 128 if bins == 0 else bins


def entries_of(settings):
    """How many entries the mappings have: "(grid across) x (grid down) x
    B"."""
    return settings.across * settings.down * bin_count(settings.bins)


def edge_of(side, grid, i):
    """Order 6: "Tile column i shall run from floor(i x width / grid) up to
    floor((i + 1) x width / grid), rows likewise."  The first column (row) of
    tile i; that of tile i + 1 is the one after its last."""
    return i * side // grid


def centre_of(side, grid, i):
    """Order 6: "A tile's centre is floor((its first column + the column after
    its last) / 2)"."""
    return (edge_of(side, grid, i) + edge_of(side, grid, i + 1)) // 2


def axis_of(side, grid):
    """The edges and centres that the record keeps of the columns (rows)."""
    edges = [edge_of(side, grid, i) for i in range(grid + 1)]
    centres = [centre_of(side, grid, i) for i in range(grid)]
    return Axis(edges + [0] * (EDGES - len(edges)), centres + [0] * (CENTRES - len(centres)))


def tiles_of(width, height, settings):
    """Every tile of a film, "tiles row by row"."""
    across, down = settings.across, settings.down
    return [Tile(edge_of(width, across, column), edge_of(width, across, column + 1),
                 edge_of(height, down, row), edge_of(height, down, row + 1))
            for row in range(down) for column in range(across)]


def pixels_of(tile):
    """Order 6: "N and L are each tile's own": N, the pixels of a tile."""
    return (tile.right - tile.left) * (tile.bottom - tile.top)


def bin_of(grey, low, high, bins):
    """Order 3: "The bin of grey v shall be floor((v - Min) x B / (R + 1))."
    "R = Max - Min." """
    return (grey - low) * bins // (high - low + 1)


def limit_of(bits, pixels, bins):
    """"L = floor(factor x N / B) in whole numbers, and at least 1. Nothing is
    rounded before the floor."  Order 2: "Let the limit be the larger of
    today's L and the tile's pixels over the bins, rounded up." """
    exact = factor_number(bits) * pixels / bins
    today = max(1, exact.numerator // exact.denominator)
    rounded_up = pixels // bins + (1 if pixels % bins else 0)
    return max(today, rounded_up)


def excess_of(counts, limit):
    """"Excess E is the sum over bins of what stands above L." """
    return sum(count - limit for count in counts if count > limit)


def clipped(counts, limit):
    """Steps 3 and 4: the clipped counts of a tile (a new list), and order 7's
    "number of looks that the rule in 01 takes" in step 4."""
    counts = list(counts)
    bins = len(counts)
    excess = excess_of(counts, limit)
    # "q = floor(E / B), U = L - q."
    share = excess // bins
    upper = limit - share
    taken = 0
    for b in range(bins):
        if counts[b] > limit:
            # "A bin above L becomes L;"
            counts[b] = limit
        elif counts[b] > upper:
            # "a bin above U and not above L becomes L and takes L minus its
            # count;"
            taken += limit - counts[b]
            counts[b] = limit
        else:
            # "any other takes q."
            taken += share
            counts[b] += share
    # "What is left of E is r."
    left = excess - taken
    # "Leftover: while r > 0, starts run from bin 0 to bin B - 1, then from 0
    # again."
    looks = 0
    start = 0
    while left > 0:
        # "At each start with r > 0 the step is floor(B / r), at least 1,
        # fixed for this start."
        step = max(1, bins // left)
        # "From the start upward by that step, a bin under L gains one and r
        # loses one."
        for b in range(start, bins, step):
            # Order 7: "a look at a full bin counted too", and so whatever the
            # bin holds; a bin that the step passes over is not looked at.
            looks += 1
            if counts[b] < limit:
                counts[b] += 1
                left -= 1
                # "All of it stops the moment r reaches 0."
                if left == 0:
                    break
        start += 1
        if start == bins:
            start = 0
    return counts, looks


def level_of(counts, limit):
    """Order 8: "With C our limit, P is the largest whole number from 0 to C for
    which what stands above P, summed over the bins, is at most B x (C - P)." """
    # From C down one by one, so that the first that is found is the largest.
    for level in range(limit, -1, -1):
        if excess_of(counts, level) <= len(counts) * (limit - level):
            return level
    # Order 8 asks to "Prove that P exists": 0 is one, as C times B is not
    # below the counts' total.
    raise AssertionError("no level for %r at %d" % (counts, limit))


def older(counts, limit):
    """Order 8: "A bin below P becomes its count plus C - P, any other becomes
    C."  The new counts (a new list)."""
    level = level_of(counts, limit)
    return [count + limit - level if count < level else limit for count in counts]


def mapping_of(counts, low, high, divisor):
    """"Mapping of bin b: Min + floor(S x R / N), with S the sum of the clipped
    counts of bins 0 to b."  The divisor is N, or order 8's T."""
    result = []
    total = 0
    for count in counts:
        total += count
        result.append(low + total * (high - low) // divisor)
    return result


def tile_counts(picture, width, tile, settings):
    """The raw counts of a tile."""
    bins = bin_count(settings.bins)
    counts = [0] * bins
    for y in range(tile.top, tile.bottom):
        for grey in picture[y * width + tile.left:y * width + tile.right]:
            counts[bin_of(grey, settings.min, settings.max, bins)] += 1
    return counts


def tile_mapping(counts, settings, pixels):
    """The mapping of a tile from its raw counts, and the tile's "two entries:
    E, and the number of looks" of order 7.  "With clip off, steps 2 to 4 are
    skipped and the raw counts are mapped."  Order 7: "With clip off both are
    0"."""
    # Order 8: "Clip off and factor 1.0 stay as in 01."
    if settings.clip is None:
        return mapping_of(counts, settings.min, settings.max, pixels), [0, 0]
    limit = limit_of(settings.clip, pixels, len(counts))
    # E is the raw counts': the clipped ones have nothing above L.  Order 8:
    # "In order 7's list E is what stands above C, and the looks are 0 here."
    excess = excess_of(counts, limit)
    if settings.edition == OURS:
        counts, looks = clipped(counts, limit)
        divisor = pixels
    else:
        counts, looks = older(counts, limit), 0
        # Order 8: "The mapping divides by the new total T instead of N".
        divisor = sum(counts)
    return mapping_of(counts, settings.min, settings.max, divisor), [excess, looks]


def all_mappings(width, height, picture, settings):
    """Every tile's mapping in one list: "the mappings, tiles row by row, bins
    upward"; and every tile's entries of order 7 in another, "each tile in row
    order"."""
    maps = []
    entries = []
    for tile in tiles_of(width, height, settings):
        counts = tile_counts(picture, width, tile, settings)
        mapping, pair = tile_mapping(counts, settings, pixels_of(tile))
        maps.extend(mapping)
        entries.extend(pair)
    return maps, entries


# Kept, since all pixels of a column ask for the same.
@lru_cache(maxsize=None)
def place_of(side, grid, x):
    """Order 6: "a column between two centres weighs each of the two tiles by
    its distance from the other's centre, over the distance between the
    centres, and one outside the first or last centre uses that tile alone." """
    centres = [centre_of(side, grid, k) for k in range(grid)]
    for k in range(grid - 1):
        here, there = centres[k], centres[k + 1]
        # On a centre the distance from it is 0, and so is the other's weight.
        if here <= x < there:
            return Place(k, k + 1, there - x, x - here, there - here)
    # "Where one tile column (or row) is used alone, both sides of that pair
    # are the same tile": it has all the weight, as much as it is wide.
    k = 0 if x < centres[0] else grid - 1
    wide = edge_of(side, grid, k + 1) - edge_of(side, grid, k)
    return Place(k, k, wide, 0, wide)


def blend(column, row, a, b, c, d):
    """"floor(((th - p)((tw - o)A + oB') + p((tw - o)C + oD)) / (tw x th))",
    with the weights and distances of order 6 in the place of tw - o and o, of
    th - p and p, and of tw and th."""
    upper = column.weight * a + column.other_weight * b
    lower = column.weight * c + column.other_weight * d
    return (row.weight * upper + row.other_weight * lower) // (column.span * row.span)


def grey_at(x, y, grey, width, height, settings, maps):
    """The rendered grey of the pixel x, y: "With A, B', C, D the four tiles'
    mapped values (upper left, upper right, lower left, lower right) of the
    pixel's bin"."""
    bins = bin_count(settings.bins)
    column = place_of(width, settings.across, x)
    row = place_of(height, settings.down, y)
    b = bin_of(grey, settings.min, settings.max, bins)

    def mapped(j, k):
        return maps[(j * settings.across + k) * bins + b]

    return blend(column, row,
                 mapped(row.tile, column.tile), mapped(row.tile, column.other),
                 mapped(row.other, column.tile), mapped(row.other, column.other))


def refusal_of_sides(width, height):
    """Row 1 of the table.  0 when it doesn't apply."""
    # 1: "width or height is 0 or above 4096"
    if width == 0 or width > 4096 or height == 0 or height > 4096:
        return 1
    return 0


def refusal_of_length(width, height, picture):
    """Row 2 of the table.  0 when it doesn't apply."""
    # 2: "picture length is not width x height"
    if len(picture) != width * height:
        return 2
    return 0


def refusal_3_to_9(width, height, settings):
    """Rows 3 to 9 of the table, with 31 behind 9.  0 when none applies."""
    across, down, bins, low, high = settings[:5]
    # 3 / 4: "grid across / down is not 2 to 16"
    if not 2 <= across <= 16:
        return 3
    if not 2 <= down <= 16:
        return 4
    # Order 6: "5 and 6 now mean a side shorter than the grid".
    if width < across:
        return 5
    if height < down:
        return 6
    # 7 / 8: "Max above 4095 / Min not below Max"
    if high > 4095:
        return 7
    if not low < high:
        return 8
    # 9: "bins 1 or above 4096"
    if bins == 1 or bins > 4096:
        return 9
    # Order 3: "31, bins (after 0 is read as 128) above R + 1, after 9."
    if bin_count(bins) > high - low + 1:
        return 31
    return 0


def refusal_of_clip(clip):
    """Row 10 of the table.  0 when it doesn't apply."""
    # 10: "factor NaN, infinite, below 1.0 or above 1024.0"
    if clip is not None:
        factor = factor_number(clip)
        if factor is None or factor < 1 or factor > 1024:
            return 10
    return 0


def refusal_of_map(settings, map_buffer):
    """Row 11 of the table.  0 when it doesn't apply."""
    # 11: "map buffer shorter than (grid across) x (grid down) x B"
    if len(map_buffer) < entries_of(settings):
        return 11
    return 0


def refusal_of_scratch(settings, scratch):
    """Row 12 of the table.  0 when it doesn't apply."""
    # 12: "scratch shorter than B"
    if len(scratch) < bin_count(settings.bins):
        return 12
    return 0


def refusal_of_looks(settings, looks):
    """Order 7's 32.  0 when it doesn't apply."""
    # 32: "this list is shorter than twice the number of tiles"
    if len(looks) < 2 * settings.across * settings.down:
        return 32
    return 0


def refusal_of_pixels(settings, picture):
    """Row 13 of the table.  0 when it doesn't apply."""
    # 13: "a pixel outside Min to Max"
    for grey in picture:
        if grey < settings.min or grey > settings.max:
            return 13
    return 0


def refusal_1_to_10(width, height, picture, settings):
    """Rows 1 to 10 of the table, with 31 behind 9, "The first that applies is
    given."  0 when none applies."""
    return (refusal_of_sides(width, height)
            or refusal_of_length(width, height, picture)
            or refusal_3_to_9(width, height, settings)
            or refusal_of_clip(settings.clip))


def refusal_1_to_11(width, height, picture, settings, map_buffer):
    """Rows 1 to 11 of the table, with 31 behind 9.  0 when none applies."""
    return (refusal_1_to_10(width, height, picture, settings)
            or refusal_of_map(settings, map_buffer))


def refusal_1_to_12(width, height, picture, settings, map_buffer, scratch):
    """Rows 1 to 12 of the table, with 31 behind 9.  0 when none applies."""
    return (refusal_1_to_11(width, height, picture, settings, map_buffer)
            or refusal_of_scratch(settings, scratch))


def refusal_of_prepare(width, height, picture, settings, map_buffer, scratch, looks):
    """"Prepare and enhance: 1 to 14 upward."  Order 2: "Strike 14"; order 3
    puts 31 behind 9, and order 7 puts 32 "straight after 12".  Like 11 to 13,
    32 is given at factor 1.0 and with clip off too.  0 when none applies."""
    return (refusal_1_to_12(width, height, picture, settings, map_buffer, scratch)
            or refusal_of_looks(settings, looks)
            or refusal_of_pixels(settings, picture))


def refusal_of_enhance(width, height, picture, settings, map_buffer, scratch):
    """Those of prepare without 32: order 7 gives its list to prepare and
    mapping alone.  0 when none applies."""
    return (refusal_1_to_12(width, height, picture, settings, map_buffer, scratch)
            or refusal_of_pixels(settings, picture))


def factor_is_one(clip):
    """"exactly 1.0 returns the film unchanged" """
    return clip is not None and factor_number(clip) == 1


def footer_of(width, height, settings):
    """"a footer record with L, the factor asked as f32 and the factor used as
    f64: L x B and N are each converted exactly and divided once. Clip off: L
    0, both factors 0.0. Factor 1.0: L 0, both 1.0"  Order 6: of N and L "the
    footer shows those of tile 0, 0."  Order 8 says nothing of it: C is L, and
    the edition is not asked."""
    if settings.clip is None:
        return Footer(0, 0, f64_bits(0.0))
    if factor_is_one(settings.clip):
        return Footer(0, ONE_F32, f64_bits(1.0))
    bins = bin_count(settings.bins)
    pixels = pixels_of(tiles_of(width, height, settings)[0])
    limit = limit_of(settings.clip, pixels, bins)
    # int / int is the correctly rounded quotient; both fit an f64 exactly.
    return Footer(limit, settings.clip, f64_bits(limit * bins / pixels))


def kept_record(film_number, width, height, settings):
    """The map record, "with bins 0 kept as 128.", and with its edges and
    centres."""
    kept = settings._replace(bins=bin_count(settings.bins))
    return Record(film_number, width, height, kept,
                  axis_of(width, settings.across), axis_of(height, settings.down))


def lay_down(maps, settings, map_buffer, scratch):
    """"the map buffer's first (grid across) x (grid down) x B entries are the
    mappings, tiles row by row, bins upward; the first B scratch entries are
    zero; all other entries keep their contents."  "Factor 1.0: [...] map and
    scratch stay as they were." """
    if factor_is_one(settings.clip):
        return
    for i, value in enumerate(maps):
        map_buffer[i] = value
    for i in range(bin_count(settings.bins)):
        scratch[i] = 0


def lay_looks(entries, settings, looks):
    """Order 7: "one more lent list, in which each tile in row order has two
    entries"; "at factor 1.0 the list keeps its contents, as do entries behind
    the last tile." """
    if factor_is_one(settings.clip):
        return
    for i, value in enumerate(entries):
        looks[i] = value


def prepare(film_number, width, height, picture, settings, map_buffer, scratch, looks):
    """"**prepare** (make the tile mappings of a film)".  "It returns the map
    record and a footer record".  A refusal changes nothing."""
    refusal = refusal_of_prepare(width, height, picture, settings, map_buffer, scratch, looks)
    if refusal:
        return refusal
    maps, entries = all_mappings(width, height, picture, settings)
    lay_down(maps, settings, map_buffer, scratch)
    lay_looks(entries, settings, looks)
    return kept_record(film_number, width, height, settings), footer_of(width, height, settings)


def enhance(width, height, picture, settings, map_buffer, scratch):
    """"Enhance: the same buffers and footer, and the picture rendered. Factor
    1.0: nothing changes." """
    refusal = refusal_of_enhance(width, height, picture, settings, map_buffer, scratch)
    if refusal:
        return refusal
    maps, _ = all_mappings(width, height, picture, settings)
    lay_down(maps, settings, map_buffer, scratch)
    if not factor_is_one(settings.clip):
        for y in range(height):
            for x in range(width):
                at = y * width + x
                picture[at] = grey_at(x, y, picture[at], width, height, settings, map_buffer)
    return footer_of(width, height, settings)


def same_clip(asked, kept):
    """The clip settings compared: off equals off only, factors as numbers (a
    NaN equals nothing)."""
    if asked is None or kept is None:
        return asked is None and kept is None
    a = factor_number(asked)
    k = factor_number(kept)
    return a is not None and k is not None and a == k


def record_differs(film_number, width, height, settings, record):
    """15: "draw: record differs in film number, size or any setting (bins 0
    read as 128 on both sides)"; "the film number and settings for 15 come
    with the call".  Order 6: "15 is also given where the record's edges or
    centres aren't those of this rule", for the sizes and the grid of the call;
    the zeros behind the last are compared too.  Order 8: "The edition is a
    setting, so it is part of what 15 compares", whatever the clip is."""
    kept = record.settings
    return not (film_number == record.film_number
                and width == record.width
                and height == record.height
                and settings.across == kept.across
                and settings.down == kept.down
                and bin_count(settings.bins) == bin_count(kept.bins)
                and settings.min == kept.min
                and settings.max == kept.max
                and same_clip(settings.clip, kept.clip)
                and settings.edition == kept.edition
                and record.columns == axis_of(width, settings.across)
                and record.rows == axis_of(height, settings.down))


def refusal_of_draw(film_number, width, height, picture, settings, record, window,
                    map_buffer, output):
    """"Draw: 1 to 11, 15, 16, 17, then 13 over the window, then 18 (not at
    factor 1.0)".  0 when none applies."""
    refusal = refusal_1_to_11(width, height, picture, settings, map_buffer)
    if refusal:
        return refusal
    if record_differs(film_number, width, height, settings, record):
        return 15
    left, top, window_width, window_height = window
    # 16: "draw: window empty or not inside the film"
    if window_width == 0 or window_height == 0:
        return 16
    if left + window_width > width or top + window_height > height:
        return 16
    # 17: "output length is not the window's area"
    if len(output) != window_width * window_height:
        return 17
    # "then 13 over the window"
    for y in range(top, top + window_height):
        for x in range(left, left + window_width):
            grey = picture[y * width + x]
            if grey < settings.min or grey > settings.max:
                return 13
    # 18: "draw: one of the first (grid across) x (grid down) x B map entries
    # outside Min to Max"
    if not factor_is_one(settings.clip):
        for i in range(entries_of(settings)):
            if map_buffer[i] < settings.min or map_buffer[i] > settings.max:
                return 18
    return 0


def draw(film_number, width, height, picture, settings, record, window, map_buffer, output):
    """"Draw: the window's pixels row by row in the output, each by the rule
    above from the map entries as lent, whoever wrote them. At factor 1.0 it
    copies them."  Answers 0 when drawn, else the refusal."""
    refusal = refusal_of_draw(film_number, width, height, picture, settings, record, window,
                              map_buffer, output)
    if refusal:
        return refusal
    left, top, window_width, window_height = window
    copy = factor_is_one(settings.clip)
    at = 0
    for y in range(top, top + window_height):
        for x in range(left, left + window_width):
            grey = picture[y * width + x]
            if not copy:
                grey = grey_at(x, y, grey, width, height, settings, map_buffer)
            output[at] = grey
            at += 1
    return 0


# --- byte films: document 02, order 1 ---------------------------------------

def refusal_1_to_30(width, height, picture, settings):
    """"30 for a setting outside the profile, after 10."  The profile: "Min 0,
    Max 255, grid 8 by 8 only, bins 64, 128 (or 0) or 256".  Order 8: "The byte
    profile keeps the present edition only."  0 when none applies."""
    refusal = refusal_1_to_10(width, height, picture, settings)
    if refusal:
        return refusal
    if settings.across != 8 or settings.down != 8:
        return 30
    if bin_count(settings.bins) not in (64, 128, 256):
        return 30
    if settings.min != 0 or settings.max != 255:
        return 30
    if settings.edition != OURS:
        return 30
    return 0


# "Widening the film, running the present rules and narrowing again must give
# the same picture and mappings": inside the profile a byte film goes through
# the calls above.  Pictures, maps and outputs are bytearrays, which hold no
# other number than a byte, so a mapping or a grey that is none stops the
# program.  The calls above ask for 1 to 10 again, which don't apply any more,
# and go on with 11.

def prepare_bytes(film_number, width, height, picture, settings, map_buffer, scratch, looks):
    """Prepare: "byte pictures in place", "mappings kept as bytes".  "Later rule
    changes reach it unless they say not": order 7's list is lent here too, and
    is no list of bytes."""
    refusal = refusal_1_to_30(width, height, picture, settings)
    if refusal:
        return refusal
    return prepare(film_number, width, height, picture, settings, map_buffer, scratch, looks)


def enhance_bytes(width, height, picture, settings, map_buffer, scratch):
    """Enhance on a byte picture, in place."""
    refusal = refusal_1_to_30(width, height, picture, settings)
    if refusal:
        return refusal
    return enhance(width, height, picture, settings, map_buffer, scratch)


def draw_bytes(film_number, width, height, picture, settings, record, window, map_buffer, output):
    """Draw of a byte film into a byte output."""
    refusal = refusal_1_to_30(width, height, picture, settings)
    if refusal:
        return refusal
    return draw(film_number, width, height, picture, settings, record, window, map_buffer, output)


# --- counting and mapping: document 02, order 5 ------------------------------

def refusal_of_counts(settings, counts):
    """"33, counts buffer shorter than tiles times bins".  0 when it doesn't
    apply."""
    if len(counts) < entries_of(settings):
        return 33
    return 0


def refusal_of_sums(width, height, settings, counts):
    """"34, a tile's counts don't add up to its pixels": each tile by itself,
    and each by its own N.  0 when it doesn't apply."""
    bins = bin_count(settings.bins)
    for k, tile in enumerate(tiles_of(width, height, settings)):
        if sum(counts[k * bins:(k + 1) * bins]) != pixels_of(tile):
            return 34
    return 0


def refusal_of_count(width, height, picture, settings, counts):
    """"Counting gives 1 to 9 with 31 after 9, then 33, then 13": neither the
    clip setting nor the edition is asked.  0 when none applies."""
    return (refusal_of_sides(width, height)
            or refusal_of_length(width, height, picture)
            or refusal_3_to_9(width, height, settings)
            or refusal_of_counts(settings, counts)
            or refusal_of_pixels(settings, picture))


def refusal_of_mapping(width, height, settings, counts, map_buffer, scratch, looks):
    """"mapping gives 1, 3 to 12 with 31 after 9, then 33, then 34": there is
    no picture to refuse.  Order 7 puts 32 "straight after 12".  As 11 to 13
    are, 32, 33 and 34 are given at factor 1.0 and with clip off too.  0 when
    none applies."""
    return (refusal_of_sides(width, height)
            or refusal_3_to_9(width, height, settings)
            or refusal_of_clip(settings.clip)
            or refusal_of_map(settings, map_buffer)
            or refusal_of_scratch(settings, scratch)
            or refusal_of_looks(settings, looks)
            or refusal_of_counts(settings, counts)
            or refusal_of_sums(width, height, settings, counts))


def count(width, height, picture, settings, counts):
    """"counting, which fills only the front of a lent buffer with each tile's
    raw counts in the mappings' order".  Answers 0 when counted, else the
    refusal, which changes nothing."""
    refusal = refusal_of_count(width, height, picture, settings, counts)
    if refusal:
        return refusal
    bins = bin_count(settings.bins)
    for k, tile in enumerate(tiles_of(width, height, settings)):
        counts[k * bins:(k + 1) * bins] = tile_counts(picture, width, tile, settings)
    return 0


def map_counts(film_number, width, height, settings, counts, map_buffer, scratch, looks):
    """"mapping, which makes the mappings and footer from those counts", the
    counts "which mapping doesn't change".  "Mapping leaves map buffer and
    scratch as prepare does, at factor 1.0 too."  So it does order 7's list.
    Answers what prepare answers."""
    refusal = refusal_of_mapping(width, height, settings, counts, map_buffer, scratch, looks)
    if refusal:
        return refusal
    bins = bin_count(settings.bins)
    maps = []
    entries = []
    for k, tile in enumerate(tiles_of(width, height, settings)):
        mapping, pair = tile_mapping(counts[k * bins:(k + 1) * bins], settings, pixels_of(tile))
        maps.extend(mapping)
        entries.extend(pair)
    lay_down(maps, settings, map_buffer, scratch)
    lay_looks(entries, settings, looks)
    return kept_record(film_number, width, height, settings), footer_of(width, height, settings)
