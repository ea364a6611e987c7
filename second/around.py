"""A window around each pixel: order 13 of document 02, and the around rows of
FILMS.md.

Run: python3 second/around.py   prints the text that FILMS.md describes.
The rows are read from crates/test_around_films/stdin, which the proved program reads
too.  Every region is counted anew here: nothing moves on from pixel to pixel.
Besides, each accepted film is held to what the order promises of regions.
"""

import sys

sys.dont_write_bytecode = True

import clahe
import films

AROUND = films.COLUMNS["F"] + "side targetlen".split()


# --- the rule ----------------------------------------------------------------

def span(side, most, x):
    """"the region centred on the pixel and cut off at the film's border", of
    the columns (rows): the first, and the one after the last."""
    half = side // 2
    return max(0, x - half), min(most, x + half + 1)


def region(width, height, side, x, y):
    """The region of the pixel x, y."""
    left, right = span(side, width, x)
    top, bottom = span(side, height, y)
    return clahe.Tile(left, right, top, bottom)


def region_mapping(width, height, picture, side, settings, x, y):
    """"N the pixels that are left, then bins, limit, clipping and mapping as
    today." """
    own = region(width, height, side, x, y)
    counts = clahe.tile_counts(picture, width, own, settings)
    return clahe.tile_mapping(counts, settings, clahe.pixels_of(own))[0]


def grey(width, height, picture, side, settings, x, y):
    """"The grey is the mapping of the pixel's own bin." """
    bins = clahe.bin_count(settings.bins)
    own = clahe.bin_of(picture[y * width + x], settings.min, settings.max, bins)
    return region_mapping(width, height, picture, side, settings, x, y)[own]


# --- the call ----------------------------------------------------------------

def refusal_of_side(side):
    """"39, side even or not 3 to 63".  0 when it doesn't apply."""
    return 39 if side % 2 == 0 or side < 3 or side > 63 else 0


def refusal_of_range(settings):
    """Rows 7 to 9 and 31: those of a film whose grid is in order."""
    return clahe.refusal_3_to_9(2, 2, settings._replace(across=2, down=2))


def refusal(width, height, picture, side, settings, target, scratch):
    """The first that applies: 39 stands "in the place of 3 to 6", 17 straight
    after 12; 11 and 32 are never given.  0 when none applies."""
    first = (clahe.refusal_of_sides(width, height) or clahe.refusal_of_length(width, height, picture)
             or refusal_of_side(side) or refusal_of_range(settings) or clahe.refusal_of_clip(settings.clip))
    if first:
        return first
    # "Scratch is twice the bins (12)"
    if len(scratch) < 2 * clahe.bin_count(settings.bins):
        return 12
    # "17 for the target as in order 12": "if the target's length is not width
    # x height, after 12"
    if len(target) != width * height:
        return 17
    return clahe.refusal_of_pixels(settings, picture)


def footer_of(width, height, side, settings):
    """"The footer shows the region of column 0, row 0.": as that of a film
    which is that region, in one tile."""
    first = region(width, height, side, 0, 0)
    return clahe.footer_of(first.right - first.left, first.bottom - first.top, settings._replace(across=1, down=1))


def around(width, height, picture, side, settings, target, scratch):
    """The call: a refusal, or the footer; target and scratch are lent."""
    number = refusal(width, height, picture, side, settings, target, scratch)
    if number:
        return number
    # "factor 1.0 copies the film and leaves scratch"
    if clahe.factor_is_one(settings.clip):
        target[:] = picture
    else:
        target[:] = [grey(width, height, picture, side, settings, x, y)
                     for y in range(height) for x in range(width)]
        # "Scratch is .. zero afterwards"
        for k in range(2 * clahe.bin_count(settings.bins)):
            scratch[k] = 0
    return footer_of(width, height, side, settings)


# --- what the order promises -------------------------------------------------

def held_counts(row, picture, settings):
    """"Moving one pixel right drops one column of counts and adds another": a
    region's counts, less those of the columns that it loses and with those of
    the columns that it gains, are a fresh region's."""
    width, height, side = row["width"], row["height"], row["side"]
    for y in (0, height // 2, height - 1):
        for x in range(width - 1):
            here, there = region(width, height, side, x, y), region(width, height, side, x + 1, y)
            lost = here._replace(right=there.left)
            gained = there._replace(left=here.right)
            moved = [a - b + c for a, b, c in zip(
                *[clahe.tile_counts(picture, width, part, settings) for part in (here, lost, gained)])]
            assert moved == clahe.tile_counts(picture, width, there, settings), (row["no"], x, y)


def held_part(row, picture, settings, target):
    """A part of the film with a margin of half a side, or up to the border,
    shows the same pixels."""
    width, height, side = row["width"], row["height"], row["side"]
    left, right = width // 3, width - width // 4
    top, bottom = height // 4, height - height // 3
    outer_left, outer_right = span(side, width, left)[0], span(side, width, right - 1)[1]
    outer_top, outer_bottom = span(side, height, top)[0], span(side, height, bottom - 1)[1]
    wide, high = outer_right - outer_left, outer_bottom - outer_top
    part = [picture[y * width + x] for y in range(outer_top, outer_bottom) for x in range(outer_left, outer_right)]
    shown, scratch = [0] * len(part), [0] * (2 * clahe.bin_count(settings.bins))
    assert not isinstance(around(wide, high, part, side, settings, shown, scratch), int)
    for y in range(top, bottom):
        for x in range(left, right):
            assert shown[(y - outer_top) * wide + x - outer_left] == target[y * width + x], (row["no"], x, y)


# --- the rows ----------------------------------------------------------------

def run_row(text, row):
    """One row."""
    settings, picture = films.settings_of(row), films.film(row)
    target, scratch = films.output_fill(row["targetlen"]), films.scratch_fill(row)
    answer = around(row["width"], row["height"], picture, row["side"], settings, target, scratch)
    if isinstance(answer, int):
        text.line("E", row["no"], answer)
    else:
        text.line("E", row["no"], 0, *films.footer_fields(answer))
        held_counts(row, picture, settings)
        held_part(row, picture, settings, target)
    text.digests("e", row["no"], picture, target, scratch)
    text.small("o", row["no"], target)


def run():
    """The whole text."""
    text = films.Text()
    for letter, numbers in films.lines("test_around_films"):
        row = dict(zip(AROUND, numbers))
        assert letter == "F" and len(row) == len(AROUND) == len(numbers), numbers
        run_row(text, row)
    return text.whole()


if __name__ == "__main__":
    sys.stdout.write(run())
