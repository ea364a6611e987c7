"""The worked numbers of document 01, "Numbers to check by hand", one by one,
as document 02's orders 2 and 3 change them, the profile of its order 1, the
counting and mapping of its order 5, the films of any size of its order 6, the
looks of its order 7, the clip rule of 1986 of its order 8, and the regions of
its order 13.

Run: python3 second/test_worked.py   (prints the number of checks)
"""

import os
import struct
import sys

sys.dont_write_bytecode = True

import around
import clahe
import listing
import pgm

checks = 0


def same(found, wanted):
    """One check."""
    global checks
    checks += 1
    assert found == wanted, "found %r, wanted %r" % (found, wanted)


def f32(value):
    """The 32 bits of an f32."""
    return struct.unpack(">I", struct.pack(">f", value))[0]


def prepared(width, height, across, down, bins, low, high, clip, grey=0, film=7):
    """Prepare over a flat film with buffers longer than needed."""
    b = clahe.bin_count(bins)
    return clahe.prepare(film, width, height, [grey] * (width * height),
                         clahe.Settings(across, down, bins, low, high, clip),
                         [9999] * (across * down * b + 3), [8888] * (b + 3), [7777] * (2 * across * down + 3))


def limits():
    """"N 100, B 64: factor 1.5 gives L 2" and "N 1, B 4, factor 2: L 1."
    Order 2: "N 100, B 64, factor 1.25 gives L 2, and N 17, B 4 gives L 5 for
    a factor that gave 4." """
    same(clahe.limit_of(f32(1.5), 100, 64), 2)
    same(clahe.limit_of(f32(1.25), 100, 64), 2)
    same(prepared(20, 20, 2, 2, 64, 0, 255, f32(1.5))[1].limit, 2)
    same(prepared(20, 20, 2, 2, 64, 0, 255, f32(1.25))[1].limit, 2)
    same(clahe.limit_of(f32(2.0), 1, 4), 1)
    same(prepared(2, 2, 2, 2, 4, 0, 255, f32(2.0))[1].limit, 1)
    # N 17 is a tile of 17 by 1; 1.125 and the f32 next above 1.0 both gave 4.
    same(clahe.limit_of(f32(1.125), 17, 4), 5)
    same(prepared(34, 2, 2, 2, 4, 0, 15, f32(1.125))[1].limit, 5)
    same(clahe.limit_of(0x3F800001, 17, 4), 5)
    # N a multiple of B, N below B, and a factor whose own L is the larger.
    same(clahe.limit_of(0x3F800001, 16, 4), 4)
    same(clahe.limit_of(0x3F800001, 3, 4), 1)
    same(clahe.limit_of(f32(1.5), 17, 4), 6)
    # "the larger of today's L and the tile's pixels over the bins, rounded
    # up": it holds the tile, and where it is not today's L no lower number
    # does.
    for bits in (0x3F800001, f32(1.25), f32(1.5), f32(3.0)):
        factor = clahe.factor_number(bits)
        found = [(pixels, b, clahe.limit_of(bits, pixels, b)) for pixels in range(1, 70) for b in range(2, 40)]
        same(all(limit * b >= pixels for pixels, b, limit in found), True)
        same(all(limit == max(1, int(factor * pixels / b)) or (limit - 1) * b < pixels
                 for pixels, b, limit in found), True)


def clips():
    """"B 4, L 6, counts 16,0,0,0: result 6,4,3,3; for range 0..15 the mapping
    is 5,9,12,15." and the further rows of counts; with each the looks of
    order 7."""
    same(clahe.clipped([16, 0, 0, 0], 6), ([6, 4, 3, 3], 5))
    same(clahe.mapping_of([6, 4, 3, 3], 0, 15, 16), [5, 9, 12, 15])
    same(clahe.clipped([9, 5, 1, 1], 6), ([6, 6, 2, 2], 4))
    same(clahe.clipped([11, 5, 0, 0], 6), ([6, 6, 3, 1], 4))
    same(clahe.clipped([19, 6, 0, 0], 7), ([7, 7, 6, 5], 8))
    same(sum(clahe.clipped([19, 6, 0, 0], 7)[0]), 25)
    same(clahe.clipped([16, 0, 0, 0], 4), ([4, 4, 4, 4], 4))
    # Order 2: L 5 where N is 17 and B is 4, which L 4 could not hold.
    same(clahe.clipped([17, 0, 0, 0], 5)[0], [5, 4, 4, 4])
    # The same 16,0,0,0 at L 6 through prepare: a flat film with tiles of 4 by
    # 4, factor 1.5.  E is 10.
    maps = [77] * 18
    scratch = [88] * 6
    looks = [99] * 10
    answer = clahe.prepare(5, 8, 8, [0] * 64, clahe.Settings(2, 2, 4, 0, 15, f32(1.5)),
                           maps, scratch, looks)
    same(answer[1].limit, 6)
    same(maps, [5, 9, 12, 15] * 4 + [77, 77])
    same(scratch, [0, 0, 0, 0, 88, 88])
    same(looks, [10, 5] * 4 + [99, 99])


def every_counts(bins, total):
    """All counts of so many bins that add up to the total."""
    if bins == 1:
        yield [total]
        return
    for first in range(total + 1):
        for rest in every_counts(bins - 1, total - first):
            yield [first] + rest


def leftover(counts, limit):
    """r, "What is left of E": no bin takes more of the even share than it has
    room for."""
    excess = sum(count - limit for count in counts if count > limit)
    share = excess // len(counts)
    return excess - sum(min(share, limit - count) for count in counts if count <= limit)


def looked_at(counts, limit):
    """The bins that rule 4 of document 01 looks at, one by one, in the words of
    the rule: a list of (bin, whether it gained one) in the order of the
    walk."""
    left, bins = leftover(counts, limit), len(counts)
    share = sum(count - limit for count in counts if count > limit) // bins
    room = [limit - min(limit, count + share) for count in counts]
    seen = []
    start = 0
    while left > 0:
        step = bins // left if left <= bins else 1
        b = start
        while b < bins and left > 0:
            gains = room[b] > 0
            seen.append((b, gains))
            if gains:
                room[b] -= 1
                left -= 1
            b += step
        start = (start + 1) % bins
    return seen


def sound(counts, limit):
    """Whether the looks of these counts are those of the rule, and within the
    bound of order 7."""
    bins, left, seen = len(counts), leftover(counts, limit), looked_at(counts, limit)
    result, looks = clahe.clipped(counts, limit)
    return (looks == len(seen)
            and left == sum(gains for _, gains in seen)
            and looks <= left * bins * (bins + 1) // 2
            and (looks == 0) == (left == 0) == (clahe.excess_of(counts, limit) == 0)
            and sum(result) == sum(counts) and max(result) <= limit)


def walks():
    """Order 7: "the number of looks that the rule in 01 takes, a look at a full
    bin counted too"; "With r units left at the start of the walk and B bins it
    is 0 when r is 0 and never more than r x B x (B + 1) / 2." """
    # The walks of the worked numbers, bin by bin.
    full, gain = False, True
    same(looked_at([16, 0, 0, 0], 6), [(0, full), (1, gain), (2, gain), (3, gain), (1, gain)])
    same(looked_at([9, 5, 1, 1], 6), [(0, full), (1, gain), (2, gain), (3, gain)])
    same(looked_at([11, 5, 0, 0], 6), [(0, full), (2, gain), (1, full), (2, gain)])
    same(looked_at([19, 6, 0, 0], 7), [(0, full), (1, full), (2, gain), (3, gain), (1, full), (2, gain), (3, gain),
                                       (2, gain)])
    same(looked_at([16, 0, 0, 0], 4), [(0, full), (1, gain), (2, gain), (3, gain)])
    # Nothing above L, and so no walk: also where every bin is full.
    for even in ([4, 4, 4, 4], [0, 0, 0, 0], [4, 0, 3, 4], [1, 1]):
        same(clahe.clipped(even, 4), (even, 0))
    # r 1: the step is B, and every start looks at one bin; what the steps
    # pass over is not looked at.
    same(clahe.clipped([5] + [0] * 99, 4), ([4, 1] + [0] * 98, 2))
    same(clahe.clipped([4] * 99 + [5, 0], 4), ([4] * 100 + [1], 101))
    # r 2 of 8 bins: the first start steps to bin 4, where the walk breaks off
    # in the middle.
    same(looked_at([0, 0, 0, 0, 0, 0, 0, 6], 4), [(0, gain), (4, gain)])
    same(clahe.clipped([0, 0, 0, 0, 0, 0, 0, 6], 4), ([1, 0, 0, 0, 1, 0, 0, 4], 2))
    # Two bins: the starts go round by 2, 1, 2, 1 looks; with r 1 the step is
    # 2, and a start at bin 0 looks at that alone.
    same(clahe.clipped([24, 0], 12), ([12, 12], 9))
    same(looked_at([24, 0], 12), [(0, full), (1, gain), (1, gain)] * 3)
    same(clahe.clipped([12, 0], 6), ([6, 6], 5))
    same(looked_at([12, 0], 6), [(0, full), (1, gain), (1, gain), (0, full), (1, gain)])
    # Of a few bins all counts that the limit can hold.  r is 0 only where E
    # is: a bin above L takes nothing of the even share.
    for bins, highest in ((2, 9), (3, 6), (4, 4), (5, 3)):
        for limit in range(1, highest + 1):
            same(all(sound(counts, limit) for total in range(bins * limit + 1)
                     for counts in every_counts(bins, total)), True)


def listed():
    """Order 7: what the list holds after prepare and mapping, and the refusal
    32, "this list is shorter than twice the number of tiles, straight after
    12"."""
    settings = clahe.Settings(2, 2, 4, 0, 15, f32(2.0))
    counts = [4, 0, 0, 0, 1, 1, 1, 1, 0, 0, 0, 4, 2, 0, 0, 2]

    def after(clip, length, call="prepare", **changed):
        """The answer's number and the list, lent with so many entries.  A
        refusal leaves all that was lent."""
        looks, asked = list(range(100, 100 + length)), settings._replace(clip=clip)
        maps, scratch = [9] * changed.get("room", 16), [8] * changed.get("scratch", 4)
        before = list(maps), list(scratch), list(looks)
        picture = changed.get("picture", WORKED_FILM)
        if call == "prepare":
            answer = clahe.prepare(5, 4, 4, picture, asked, maps, scratch, looks)
        else:
            answer = clahe.map_counts(5, 4, 4, asked, changed.get("counts", counts), maps, scratch, looks)
        if isinstance(answer, int):
            same((maps, scratch, looks), before)
            return answer, looks
        return 0, looks

    for call in ("prepare", "mapping"):
        # "each tile in row order has two entries: E, and the number of looks";
        # "entries behind the last tile" keep their contents.
        same(after(f32(2.0), 8, call), (0, [2, 3, 0, 0, 2, 2, 0, 0]))
        same(after(f32(2.0), 11, call), (0, [2, 3, 0, 0, 2, 2, 0, 0, 108, 109, 110]))
        # All four bins end full at L 1, and E is 3, 0, 3 and 2.
        same(after(0x3F800001, 9, call), (0, [3, 4, 0, 0, 3, 3, 2, 3, 108]))
        # "With clip off both are 0; at factor 1.0 the list keeps its contents".
        same(after(None, 9, call), (0, [0] * 8 + [108]))
        same(after(f32(1.0), 9, call), (0, list(range(100, 109))))
        for clip in (f32(2.0), None, f32(1.0)):
            for short in (7, 4, 1, 0):
                same(after(clip, short, call)[0], 32)
            # Behind 11 and 12.
            same(after(clip, 7, call, room=15, scratch=3)[0], 11)
            same(after(clip, 7, call, room=15)[0], 11)
            same(after(clip, 7, call, scratch=3)[0], 12)
        same(after(0x7FC00000, 7, call)[0], 10)
    for clip in (f32(2.0), None, f32(1.0)):
        # Before 13, and before 33 and 34.
        same(after(clip, 7, picture=[16] * 16)[0], 32)
        same(after(clip, 8, picture=[16] * 16)[0], 13)
        same(after(clip, 7, "mapping", counts=counts[:15])[0], 32)
        same(after(clip, 8, "mapping", counts=counts[:15])[0], 33)
        same(after(clip, 7, "mapping", counts=[5] + counts[1:])[0], 32)
        same(after(clip, 8, "mapping", counts=[5] + counts[1:])[0], 34)
    # Twice across times down, not a sum of the two, up to the largest grid.
    for across, down in ((3, 4), (16, 2), (16, 16)):
        asked = clahe.Settings(across, down, 2, 0, 15, f32(2.0))
        for length in (2 * across * down - 1, 2 * across * down):
            answer = clahe.prepare(5, 16, 16, [3] * 256, asked, [0] * 512, [0] * 2, [0] * length)
            same(answer == 32, length < 2 * across * down)
    # Order 6: "N and L are each tile's own", and so is E: N 1, 2, 2 and 4 at L
    # 1, 1, 1 and 3; by the L of tile 0, 0 the last would have 3.
    looks = [9] * 8
    clahe.prepare(4, 3, 3, [0] * 9, clahe.Settings(2, 2, 2, 0, 15, f32(1.5)), [0] * 8, [0] * 2, looks)
    same(looks, [0, 0, 1, 2, 1, 2, 1, 2])
    # Order 2: E stands above L 5, rounded up; above 4 it would be 13.
    clahe.prepare(4, 34, 2, [0] * 68, clahe.Settings(2, 2, 4, 0, 15, f32(1.125)), [0] * 16, [0] * 4, looks)
    same(looks, [12, 4] * 4)
    # The byte profile: 30 before 11, 12 and 32, behind which nothing else
    # stands there, since every byte lies in 0 to 255.
    looks = [5] * 130
    picture = bytearray(i * 37 % 256 for i in range(24 * 16))
    wide = [5] * 130
    made = clahe.prepare(3, 24, 16, list(picture), profile(), [0] * 4096, [0] * 64, wide)
    same(clahe.prepare_bytes(3, 24, 16, picture, profile(), bytearray(4096), [0] * 64, looks), made)
    same(looks, wide)
    for length, room, scratch, changed, wanted in (
            (127, 4096, 64, {}, 32), (127, 4096, 63, {}, 12), (127, 4095, 64, {}, 11), (127, 4096, 64, {"max": 254}, 30),
            (127, 4096, 64, {"clip": f32(1.0)}, 32), (127, 4096, 64, {"clip": None}, 32), (128, 4096, 63, {}, 12)):
        same(clahe.prepare_bytes(3, 24, 16, picture, profile(**changed), bytearray(room), [0] * scratch, [5] * length),
             wanted)


def bins():
    """"Range 0..255: B 128 puts 255 in bin 127".  Order 3: "Range 0..255 with
    B 100 now puts 255 in bin 99, with B 255 in bin 254." """
    same(clahe.bin_of(255, 0, 255, 128), 127)
    same(clahe.bin_of(255, 0, 255, 100), 99)
    same(clahe.bin_of(255, 0, 255, 255), 254)
    same([clahe.bin_of(grey, 0, 5, 4) for grey in range(6)], [0, 0, 1, 2, 2, 3])
    same([clahe.bin_of(grey, 100, 200, 4) for grey in (100, 125, 126, 130, 200)], [0, 0, 1, 1, 3])
    # "Show that every bin has at least one grey."  And with one bin more than
    # there are greys some bin has none.
    for low, high in ((0, 1), (0, 15), (7, 29), (0, 255), (4000, 4095), (0, 4095)):
        greys = high - low + 1
        for b in (2, 3, greys // 2, greys - 1, greys):
            if 2 <= b <= greys:
                same({clahe.bin_of(grey, low, high, b) for grey in range(low, high + 1)}, set(range(b)))
        same(len({clahe.bin_of(grey, low, high, greys + 1) for grey in range(low, high + 1)}) < greys + 1, True)


def unreached():
    """Order 3: "31, bins (after 0 is read as 128) above R + 1, after 9." """
    for low, high in ((0, 1), (0, 15), (100, 110), (0, 255), (1, 4095)):
        for clip in (None, 0x3F800000, f32(2.0)):
            same(isinstance(prepared(8, 8, 2, 2, high - low + 1, low, high, clip, low), tuple), True)
            same(prepared(8, 8, 2, 2, high - low + 2, low, high, clip, low), 31)
    same(isinstance(prepared(8, 8, 2, 2, 0, 0, 127, None), tuple), True)
    same(prepared(8, 8, 2, 2, 0, 0, 126, None), 31)
    # Behind 9 and 8, before 10 and all that follows.
    same(prepared(8, 8, 2, 2, 4097, 0, 4095, None), 9)
    same(prepared(8, 8, 2, 2, 2, 9, 9, None, 9), 8)
    same(prepared(8, 8, 2, 2, 17, 0, 15, 0x7FC00000), 31)
    settings = clahe.Settings(2, 2, 17, 0, 15, None)
    same(clahe.enhance(8, 8, [99] * 64, settings, [], []), 31)
    record = clahe.kept_record(1, 8, 8, settings)
    same(clahe.draw(1, 8, 8, [0] * 64, settings, record, (0, 0, 8, 8), [0] * 68, [0] * 64), 31)
    same(clahe.draw(2, 8, 8, [0] * 64, settings, record, (0, 0, 0, 0), [], []), 31)
    # "in a strongly clipped tile the whites stop well short of Max": now they
    # reach it, with 255 bins on 0 to 255 as with 128.
    for b in (128, 255):
        picture = [0, 0, 0, 255] * 16
        clahe.enhance(8, 8, picture, clahe.Settings(2, 2, b, 0, 255, 0x3F800001), [0] * 4 * b, [0] * b)
        same(max(picture), 255)


def blends():
    """"Tiles 2 by 2, grid 2 by 2, mapped values 10, 20, 30, 41: pixel x 2, y 2
    gives 25; x 1, y 2 gives 20; x 2, y 0 gives 15." """
    settings = clahe.Settings(2, 2, 2, 0, 255, None)
    maps = [10, 10, 20, 20, 30, 30, 41, 41]
    same(clahe.grey_at(2, 2, 0, 4, 4, settings, maps), 25)
    same(clahe.grey_at(1, 2, 0, 4, 4, settings, maps), 20)
    same(clahe.grey_at(2, 0, 0, 4, 4, settings, maps), 15)
    # The same through draw, one pixel windows.
    record = clahe.kept_record(3, 4, 4, settings)
    for (x, y, wanted) in ((2, 2, 25), (1, 2, 20), (2, 0, 15)):
        output = [0]
        same(clahe.draw(3, 4, 4, [0] * 16, settings, record, (x, y, 1, 1), maps, output), 0)
        same(output, [wanted])


def footers():
    """"L 2, B 64, N 100: factor used is 128 / 100 in f64. Factor 1024.0 and
    1.0 accepted; the next f32 on the outer side refused with 10." """
    record, footer = prepared(20, 20, 2, 2, 64, 0, 255, f32(1.5))
    same(footer.used, struct.unpack(">Q", struct.pack(">d", 1.28))[0])
    same(footer.asked, 0x3FC00000)
    axis = clahe.Axis([0, 10, 20] + [0] * 14, [5, 15] + [0] * 14)
    same(record, clahe.Record(7, 20, 20, clahe.Settings(2, 2, 64, 0, 255, 0x3FC00000), axis, axis))
    same(f32(1024.0), 0x44800000)
    same(prepared(20, 20, 2, 2, 64, 0, 255, 0x44800000)[1].limit, 1600)
    same(prepared(20, 20, 2, 2, 64, 0, 255, 0x44800001), 10)
    same(prepared(20, 20, 2, 2, 64, 0, 255, 0x3F800000)[1],
         clahe.Footer(0, 0x3F800000, 0x3FF0000000000000))
    same(prepared(20, 20, 2, 2, 64, 0, 255, 0x3F7FFFFF), 10)
    same(prepared(20, 20, 2, 2, 64, 0, 255, None)[1], clahe.Footer(0, 0, 0))
    # Order 2: "The footer shows that L and the factor it really stands for."
    record, footer = prepared(20, 20, 2, 2, 64, 0, 255, f32(1.25))
    same(footer, clahe.Footer(2, 0x3FA00000, struct.unpack(">Q", struct.pack(">d", 1.28))[0]))
    same(record.settings.clip, 0x3FA00000)


WORKED_FILM = [0, 0, 0, 4, 0, 0, 8, 12, 15, 15, 0, 0, 15, 15, 15, 15]
WORKED_FILE = b"P5\n4 4\n15\n" + bytes(WORKED_FILM)
WORKED_TEXT = (b"4\t4\t2\t2\t4\t0\t15\t2\n"
               b"0\t0\t2\t3\t7\t11\t15\t15\n"
               b"0\t1\t0\t0\t3\t7\t11\t15\n"
               b"1\t0\t2\t2\t3\t3\t7\t15\n"
               b"1\t1\t0\t0\t7\t7\t7\t15\n")


def listings():
    """The listing example with order 7's looks behind E, its rendered pixel
    ("The rendered pixel x 2, y 2 is 5.") and the listing's refusals."""
    same(listing.listing(WORKED_FILE), WORKED_TEXT)
    settings = clahe.Settings(2, 2, 4, 0, 15, f32(2.0))
    picture = list(WORKED_FILM)
    maps = [0] * 16
    same(clahe.enhance(4, 4, picture, settings, maps, [1] * 4).limit, 2)
    same(picture[2 * 4 + 2], 5)
    record, _ = clahe.prepare(1, 4, 4, WORKED_FILM, settings, maps, [1] * 4, [1] * 8)
    output = [0]
    same(clahe.draw(1, 4, 4, WORKED_FILM, settings, record, (2, 2, 1, 1), maps, output), 0)
    same(output, [5])
    # "a longer input is 22 before all else"
    same(listing.listing(b"x" * 32769), b"refused\t22\n")
    same(listing.listing(b"x" * 32768), b"refused\t20\n")
    # "a larger film is 22 where read's own 22 stands"
    same(listing.listing(b"P5\n128 65\n0\n"), b"refused\t22\n")
    same(listing.listing(b"P5\n128 65\n#"), b"refused\t21\n")
    same(listing.listing(b"P5\n128 64\n0\n"), b"refused\t23\n")
    same(listing.listing(b"P5\n128 64\n255\n"), b"refused\t24\n")
    # Order 3: four bins want four greys.  26, and order 6's 5 and 6, come
    # first.
    for maxval in (1, 2):
        same(listing.listing(b"P5\n2 2\n%d\n" % maxval + b"\x00\x01\x01\x00"), b"refused\t31\n")
    same(listing.listing(b"P5\n2 2\n3\n\x00\x01\x02\x03")[:16], b"2\t2\t2\t2\t4\t0\t3\t1\n")
    same(listing.listing(b"P5\n2 2\n1\n\x00\x01\x02\x00"), b"refused\t26\n")
    same(listing.listing(b"P5\n1 2\n1\n" + b"\x00" * 2), b"refused\t5\n")
    same(listing.listing(b"P5\n2 1\n1\n" + b"\x00" * 2), b"refused\t6\n")
    same(listing.listing(b"P5\n1 1\n1\n\x00"), b"refused\t5\n")
    same(listing.listing(b"P5\n3 2\n1\n" + b"\x00" * 6), b"refused\t31\n")
    # The largest film, two bytes a sample.
    same(listing.listing(b"P5\n128 64\n4095\n" + b"\x0f\xff" * 8192)[:29],
         b"128\t64\t2\t2\t4\t0\t4095\t1024\n0\t0\t")
    same(listing.listing(b"P5\n4 4\n15\n" + b"\x10" * 16), b"refused\t26\n")
    same(listing.listing(b"P5\n4 4\n15\n" + b"\x10" * 17), b"refused\t25\n")
    same(listing.listing(b""), b"refused\t20\n")
    # Order 6: tiles of 2, 3, 4 and 6 pixels, whose limits are 1, 1, 2 and 3;
    # the first line has that of tile 0, 0.
    same(listing.listing(b"P5\n5 3\n15\n" + bytes([0, 0, 4, 4, 4, 0, 8, 8, 8, 8, 0, 0, 15, 8, 8])),
         b"5\t3\t2\t2\t4\t0\t15\t1\n"
         b"0\t0\t1\t2\t7\t15\t15\t15\n"
         b"0\t1\t2\t2\t5\t10\t15\t15\n"
         b"1\t0\t1\t2\t7\t11\t15\t15\n"
         b"1\t1\t2\t3\t2\t5\t12\t15\n")


def files():
    """The writer's header and the reading of what it wrote."""
    out = [1] * 30
    same(pgm.write(WORKED_FILM, 4, 4, 15, out), ("ok", 26))
    same(bytes(out[:26]), WORKED_FILE)
    same(out[26:], [1] * 4)
    same(pgm.read_sizes(WORKED_FILE), ("ok", 4, 4, 15))
    same(pgm.read_raster(WORKED_FILE), bytes(WORKED_FILM))
    target = [5] * 18
    same(pgm.greys(WORKED_FILE, 10, 4, 4, 15, target), 0)
    same(target, WORKED_FILM + [5, 5])


def profile(**changed):
    """Settings of the byte profile, but for what is changed."""
    return clahe.Settings(8, 8, 64, 0, 255, f32(3.0))._replace(**changed)


def byte_films():
    """Document 02, order 1: "Min 0, Max 255, grid 8 by 8 only, bins 64, 128
    (or 0) or 256"; "30 for a setting outside the profile, after 10"; and
    widening, the wide calls and narrowing give the same."""
    picture = bytearray(i * 37 % 256 for i in range(24 * 16))
    wide = list(picture)

    def answer(settings, room=16384):
        return clahe.prepare_bytes(3, 24, 16, picture, settings, bytearray(room), [1] * 256, [1] * 128)

    for inside in (0, 64, 128, 256):
        same(isinstance(answer(profile(bins=inside)), tuple), True)
    for outside in ({"across": 4}, {"down": 4}, {"bins": 100}, {"min": 1}, {"max": 254}):
        same(answer(profile(**outside)), 30)
        same(answer(profile(**outside), 0), 30)
        same(answer(profile(clip=f32(1025.0), **outside)), 10)
    same(answer(profile(across=17)), 3)
    same(answer(profile(bins=1)), 9)
    # Order 3: 31 behind 9, before 10 and so before 30; in the profile it is
    # never met.
    for few in ({"max": 62}, {"bins": 0, "max": 126}, {"bins": 256, "min": 1}, {"bins": 257}):
        same(answer(profile(**few)), 31)
        same(answer(profile(clip=f32(1025.0), across=4, **few)), 31)
    same(answer(profile(max=63)), 30)
    same(answer(profile(bins=0, max=127)), 30)
    same(answer(profile(bins=4097, max=62)), 9)
    same(answer(profile(max=4096)), 7)
    same(answer(profile(), 4095), 11)
    for clip in (None, f32(1.0), f32(3.0)):
        settings, maps, bytes_maps = profile(clip=clip), [9] * 4100, bytearray([9] * 4100)
        looks, bytes_looks = [9] * 130, [9] * 130
        made = clahe.prepare(3, 24, 16, wide, settings, maps, [1] * 64, looks)
        same(clahe.prepare_bytes(3, 24, 16, picture, settings, bytes_maps, [1] * 64, bytes_looks), made)
        same((list(bytes_maps), bytes_looks), (maps, looks))
        output, bytes_output, window = [5] * 12, bytearray(12), (2, 3, 4, 3)
        same(clahe.draw(3, 24, 16, wide, settings, made[0], window, maps, output), 0)
        same(clahe.draw_bytes(3, 24, 16, picture, settings, made[0], window, bytes_maps, bytes_output), 0)
        same(list(bytes_output), output)
        rendered, bytes_rendered = list(wide), bytearray(picture)
        same(clahe.enhance_bytes(24, 16, bytes_rendered, settings, bytes_maps, [1] * 64),
             clahe.enhance(24, 16, rendered, settings, maps, [1] * 64))
        same(list(bytes_rendered), rendered)


def counts():
    """Order 5: "counting then mapping with factor f gives prepare's mappings,
    record and footer for f, for each f in turn over the same counts, which
    mapping doesn't change"; and the refusals 33 and 34."""
    settings = clahe.Settings(2, 2, 4, 0, 15, 0x7FC00000)
    lent = [7] * 18
    # "fills only the front of a lent buffer with each tile's raw counts in
    # the mappings' order"; the clip is not asked.
    same(clahe.count(4, 4, WORKED_FILM, settings, lent), 0)
    same(lent, [4, 0, 0, 0, 1, 1, 1, 1, 0, 0, 0, 4, 2, 0, 0, 2, 7, 7])
    kept, maps, scratch, looks = list(lent), [9] * 19, [8] * 6, [7] * 10
    for clip in (f32(2.0), f32(1.0), None, 0x3F800001, f32(1.0), f32(1024.0), f32(2.0)):
        asked, own_maps, own_scratch, own_looks = settings._replace(clip=clip), list(maps), list(scratch), list(looks)
        same(clahe.map_counts(5, 4, 4, asked, lent, maps, scratch, looks),
             clahe.prepare(5, 4, 4, WORKED_FILM, asked, own_maps, own_scratch, own_looks))
        same((lent, maps, scratch, looks), (kept, own_maps, own_scratch, own_looks))
    # Counting: 1 to 9, 31, 33, 13, and never 10.
    same(clahe.count(4, 0, WORKED_FILM, settings, []), 1)
    same(clahe.count(4, 4, WORKED_FILM[1:], settings, []), 2)
    same(clahe.count(4, 4, WORKED_FILM, settings._replace(bins=17), []), 31)
    same(clahe.count(4, 4, [16] * 16, settings, lent[:15]), 33)
    same(clahe.count(4, 4, [16] * 16, settings, lent), 13)
    same(clahe.count(4, 4, WORKED_FILM, settings._replace(bins=0, max=255), [0] * 511), 33)
    # Mapping: 1, 3 to 9, 31, 10, 11, 12, 32, 33, 34, at factor 1.0 and off too.
    wrong = [5] + lent[1:]
    same(clahe.map_counts(5, 4, 0, settings, [], [], [], []), 1)
    same(clahe.map_counts(5, 4, 1, settings, [], [], [], []), 6)
    same(clahe.map_counts(5, 4, 4, settings._replace(bins=17), [], [], [], []), 31)
    same(clahe.map_counts(5, 4, 4, settings, [], [], [], []), 10)
    for clip in (f32(2.0), f32(1.0), None):
        asked = settings._replace(clip=clip)
        same(clahe.map_counts(5, 4, 4, asked, [], [9] * 15, [], []), 11)
        same(clahe.map_counts(5, 4, 4, asked, [], maps, [8] * 3, []), 12)
        same(clahe.map_counts(5, 4, 4, asked, [], maps, scratch, []), 32)
        same(clahe.map_counts(5, 4, 4, asked, wrong[:15], maps, scratch, looks), 33)
        same(clahe.map_counts(5, 4, 4, asked, wrong, maps, scratch, looks), 34)
        # A count moved between two tiles keeps the total of all tiles; 2^32
        # more keeps a tile's total in 32 bits.
        same(clahe.map_counts(5, 4, 4, asked, [3, 0, 0, 0, 2] + lent[5:], maps, scratch, looks), 34)
        same(clahe.map_counts(5, 4, 4, asked, [4, 2 ** 32 - 1, 1] + lent[3:], maps, scratch, looks), 34)
        same(isinstance(clahe.map_counts(5, 4, 4, asked, [3, 1] + lent[2:], maps, scratch, looks), tuple), True)
    same((lent, maps[16:], scratch, looks[8:]), (kept, [9] * 3, [0] * 4 + [8] * 2, [7] * 2))
    # Bins 0 where the other has 128.
    lent = [0] * 512
    same(clahe.count(4, 4, WORKED_FILM, clahe.Settings(2, 2, 0, 0, 255, None), lent), 0)
    asked = clahe.Settings(2, 2, 128, 0, 255, f32(2.0))
    same(clahe.map_counts(5, 4, 4, asked, lent, [0] * 512, [0] * 128, [0] * 8),
         clahe.prepare(5, 4, 4, WORKED_FILM, asked, [0] * 512, [0] * 128, [0] * 8))


# C, counts, P, the new counts, T, and the mapping for range 0 to 15.
OLDER = (
    (6, [16, 0, 0, 0], 2, [6, 4, 4, 4], 18, [5, 8, 11, 15]),
    (6, [9, 5, 1, 1], 5, [6, 6, 2, 2], 16, [5, 11, 13, 15]),
    (6, [11, 5, 0, 0], 4, [6, 6, 2, 2], 16, [5, 11, 13, 15]),
    (7, [19, 6, 0, 0], 1, [7, 7, 6, 6], 26, [4, 8, 11, 15]),
    (4, [16, 0, 0, 0], 0, [4, 4, 4, 4], 16, [3, 7, 11, 15]),
    (5, [17, 0, 0, 0], 1, [5, 4, 4, 4], 17, [4, 7, 11, 15]),
    (6, [4, 4, 4, 4], 6, [4, 4, 4, 4], 16, [3, 7, 11, 15]),
)


def older_sound(counts, limit):
    """Order 8: whether P is the largest of 0 to C, "T is at least N and less
    than N + B", and "no bin is above C or below the smaller of C and its count
    plus C - P"; and whether the mapping "still ends at Max"."""
    bins, level, new = len(counts), clahe.level_of(counts, limit), clahe.older(counts, limit)
    levels = [p for p in range(limit + 1)
              if sum(max(0, count - p) for count in counts) <= bins * (limit - p)]
    return (level == max(levels)
            and sum(counts) <= sum(new) < sum(counts) + bins
            and max(new) <= limit
            and all(after >= min(limit, before + limit - level) for before, after in zip(counts, new))
            and clahe.mapping_of(new, 7, 29, sum(new))[-1] == 29)


def olders():
    """Order 8: P, the new counts, T and the mapping, worked by hand, and its
    facts of all counts of a few bins."""
    for limit, counts, level, new, total, mapping in OLDER:
        same(clahe.level_of(counts, limit), level)
        same(clahe.older(counts, limit), new)
        same(sum(new), total)
        same(clahe.mapping_of(new, 0, 15, total), mapping)
        same(older_sound(counts, limit), True)
    # C above all counts, and C the largest of them: P is C and nothing moves.
    for counts in ([4, 0, 3, 4], [1, 1], [0, 0, 9]):
        for limit in (max(counts), max(counts) + 1, 1000):
            same((clahe.level_of(counts, limit), clahe.older(counts, limit)), (limit, counts))
    # N = B x C: every bin ends at C, and P is the smallest count.
    same((clahe.level_of([9, 1, 2, 4], 4), clahe.older([9, 1, 2, 4], 4)), (1, [4, 4, 4, 4]))
    # All counts of a few bins that the limit can hold.  T - N is anything from
    # 0 to B - 2: where P is below C some bin stands above P + 1, so that what
    # stands above grows by at least 1 from P + 1 down to P, and the room by B.
    for bins, highest in ((2, 9), (3, 6), (4, 4), (5, 3)):
        above = set()
        for limit in range(1, highest + 1):
            found = [counts for total in range(1, bins * limit + 1) for counts in every_counts(bins, total)]
            same(all(older_sound(counts, limit) for counts in found), True)
            above |= {sum(clahe.older(counts, limit)) - sum(counts) for counts in found}
        same(above, set(range(bins - 1)))


def by_editions():
    """Order 8: the film of the listing, the list of order 7, the footer and
    both of 01's kept cases, in either edition."""
    ours = clahe.Settings(2, 2, 4, 0, 15, f32(2.0))
    older = ours._replace(edition=clahe.OF_1986)
    maps, looks = [99] * 18, [88] * 10
    record, footer = clahe.prepare(1, 4, 4, WORKED_FILM, older, maps, [1] * 4, looks)
    same(maps, [6, 9, 12, 15, 3, 7, 11, 15, 3, 6, 9, 15, 7, 7, 7, 15, 99, 99])
    # "E is what stands above C, and the looks are 0 here."
    same(looks, [2, 0, 0, 0, 2, 0, 0, 0, 88, 88])
    same(footer, clahe.prepare(1, 4, 4, WORKED_FILM, ours, [0] * 16, [1] * 4, [0] * 8)[1])
    same(record.settings, older)
    picture, output = list(WORKED_FILM), [0]
    same(clahe.enhance(4, 4, picture, older, [0] * 16, [1] * 4), footer)
    same(picture[2 * 4 + 2], 4)
    same(clahe.draw(1, 4, 4, WORKED_FILM, older, record, (2, 2, 1, 1), maps, output), 0)
    same(output, [4])
    # "Clip off and factor 1.0 stay as in 01."
    for clip in (None, f32(1.0)):
        left = []
        for edition in (clahe.OURS, clahe.OF_1986):
            asked, rendered = ours._replace(clip=clip, edition=edition), list(WORKED_FILM)
            maps, scratch, looks = [99] * 17, [8] * 5, [88] * 9
            made = clahe.prepare(1, 4, 4, WORKED_FILM, asked, maps, scratch, looks)
            clahe.enhance(4, 4, rendered, asked, [99] * 17, [8] * 5)
            left.append((made[1], maps, scratch, looks, rendered))
        same(left[0], left[1])
    # Each tile's own N, C, P and T: of a flat film N 16, 20, 20 and 25, C 6, 7,
    # 7 and 9, P 2, 2, 2 and 3, T 18, 22, 22 and 27.
    maps, looks = [0] * 16, [0] * 8
    asked = clahe.Settings(2, 2, 4, 0, 15, f32(1.5), clahe.OF_1986)
    clahe.prepare(1, 9, 9, [0] * 81, asked, maps, [0] * 4, looks)
    same(maps, [5, 8, 11, 15, 4, 8, 11, 15, 4, 8, 11, 15, 5, 8, 11, 15])
    same(looks, [10, 0, 13, 0, 13, 0, 16, 0])


def compared():
    """Order 8: "The edition is a setting, so it is part of what 15 compares";
    "The byte profile keeps the present edition only"; and one counting serves
    both editions."""
    for clip in (f32(2.0), None, f32(1.0)):
        for edition in (clahe.OURS, clahe.OF_1986):
            asked = clahe.Settings(2, 2, 4, 0, 15, clip, edition)
            record, maps = clahe.kept_record(1, 4, 4, asked), [0] * 16
            other = record._replace(settings=asked._replace(edition=1 - edition))
            whole, output = (0, 0, 4, 4), [0] * 16
            same(clahe.draw(1, 4, 4, WORKED_FILM, asked, record, whole, maps, output), 0)
            same(clahe.draw(1, 4, 4, WORKED_FILM, asked, other, whole, maps, output), 15)
            # Behind 11, before 16.
            same(clahe.draw(1, 4, 4, WORKED_FILM, asked, other, whole, maps[1:], output), 11)
            same(clahe.draw(1, 4, 4, WORKED_FILM, asked, other, (0, 0, 0, 0), maps, []), 15)
        picture, outside = bytearray(64), profile(clip=clip, edition=clahe.OF_1986)
        record = clahe.kept_record(3, 8, 8, outside)
        same(clahe.prepare_bytes(3, 8, 8, picture, outside, bytearray(4095), [], []), 30)
        same(clahe.enhance_bytes(8, 8, picture, outside, bytearray(4095), []), 30)
        same(clahe.draw_bytes(3, 8, 8, picture, outside, record, (0, 0, 8, 8), bytearray(4095), []), 30)
        same(clahe.prepare_bytes(3, 8, 8, picture, outside._replace(max=62), bytearray(), [], []), 31)
    same(clahe.prepare_bytes(3, 8, 8, picture, outside._replace(clip=f32(1025.0)), bytearray(), [], []), 10)
    # Counted once, then mapped in turn.
    lent, seen = [0] * 16, []
    asked = clahe.Settings(2, 2, 4, 0, 15, f32(2.0))
    same(clahe.count(4, 4, WORKED_FILM, asked._replace(edition=clahe.OF_1986), lent), 0)
    for edition in (clahe.OURS, clahe.OF_1986, clahe.OURS):
        turn, maps, looks = asked._replace(edition=edition), [0] * 16, [0] * 8
        own_maps, own_looks = [0] * 16, [0] * 8
        same(clahe.map_counts(5, 4, 4, turn, lent, maps, [0] * 4, looks),
             clahe.prepare(5, 4, 4, WORKED_FILM, turn, own_maps, [0] * 4, own_looks))
        same((maps, looks), (own_maps, own_looks))
        seen.append((maps, looks))
    same((seen[0] == seen[2], seen[0] == seen[1]), (True, False))


def axes():
    """Order 6: the edges, the centres and the places of columns, worked by
    hand."""
    same(clahe.edge_of(17, 16, 16), 17)
    same(clahe.centre_of(17, 16, 15), 16)
    same(clahe.axis_of(17, 16), clahe.Axis(list(range(16)) + [17], list(range(15)) + [16]))
    same([clahe.place_of(17, 16, x)[:4] for x in (0, 14, 15, 16)],
         [(0, 1, 1, 0), (14, 15, 2, 0), (14, 15, 1, 1), (15, 15, 2, 0)])
    same(clahe.place_of(17, 16, 15).span, 2)
    # As many columns as tiles: each column is its own tile's.
    same(clahe.axis_of(16, 16), clahe.Axis(list(range(17)), list(range(16))))
    same([clahe.place_of(16, 16, x) for x in (0, 14, 15)],
         [clahe.Place(0, 1, 1, 0, 1), clahe.Place(14, 15, 1, 0, 1), clahe.Place(15, 15, 1, 0, 1)])
    same(clahe.axis_of(5, 2), clahe.Axis([0, 2, 5] + [0] * 14, [1, 3] + [0] * 14))
    same([clahe.place_of(5, 2, x) for x in range(5)],
         [clahe.Place(0, 0, 2, 0, 2), clahe.Place(0, 1, 2, 0, 2), clahe.Place(0, 1, 1, 1, 2),
          clahe.Place(1, 1, 3, 0, 3), clahe.Place(1, 1, 3, 0, 3)])
    same(clahe.axis_of(4095, 2), clahe.Axis([0, 2047, 4095] + [0] * 14, [1023, 3071] + [0] * 14))
    same([clahe.place_of(4095, 2, x) for x in (1022, 1023, 2047, 3070, 3071)],
         [clahe.Place(0, 0, 2047, 0, 2047), clahe.Place(0, 1, 2048, 0, 2048), clahe.Place(0, 1, 1024, 1024, 2048),
          clahe.Place(0, 1, 1, 2047, 2048), clahe.Place(1, 1, 2048, 0, 2048)])
    # The tiles cover the side, none is empty, and a centre is a column of its
    # own tile; so no two coincide.  The weights add up to the span.
    for grid in range(2, 17):
        for side in list(range(grid, 100)) + [127, 511, 1023, 2049, 4094, 4095, 4096]:
            edges, centres = clahe.axis_of(side, grid)
            same((edges[0], edges[grid], edges[grid + 1:]), (0, side, [0] * (16 - grid)))
            same(all(edges[i] <= centres[i] < edges[i + 1] for i in range(grid)), True)
            places = [clahe.place_of(side, grid, x) for x in range(0, side, 1 + side // 50)]
            same(all(p.weight + p.other_weight == p.span and p.weight > 0 for p in places), True)


def sizes():
    """Order 6: films whose tiles differ."""
    # The grey at 2, 2 of a film of 5 by 5, and all around it.
    settings = clahe.Settings(2, 2, 2, 0, 255, None)
    maps = [10, 10, 20, 20, 30, 30, 41, 41]
    same(clahe.grey_at(2, 2, 0, 5, 5, settings, maps), 25)
    same([[clahe.grey_at(x, y, 0, 5, 5, settings, maps) for x in range(5)] for y in range(5)],
         [[10, 10, 15, 20, 20]] * 2 + [[20, 20, 25, 30, 30]] + [[30, 30, 35, 41, 41]] * 2)
    # "N and L are each tile's own, and the footer shows those of tile 0, 0."
    picture, flat = [0] * 9, clahe.Settings(2, 2, 2, 0, 15, f32(1.5))
    same([clahe.pixels_of(tile) for tile in clahe.tiles_of(3, 3, flat)], [1, 2, 2, 4])
    maps = [99] * 8
    record, footer = clahe.prepare(4, 3, 3, picture, flat, maps, [9] * 2, [9] * 8)
    same(maps, [15, 15, 7, 15, 7, 15, 11, 15])
    same(footer, clahe.Footer(1, f32(1.5), struct.unpack(">Q", struct.pack(">d", 2.0))[0]))
    axis = clahe.Axis([0, 1, 3] + [0] * 14, [0, 2] + [0] * 14)
    same((record.columns, record.rows), (axis, axis))
    # "5 and 6 now mean a side shorter than the grid"; as long as it is
    # accepted.
    for grid in (2, 3, 8, 16):
        for side in (grid - 1, grid, grid + 1):
            same(prepared(side, 40, grid, 2, 2, 0, 15, f32(2.0)) == 5, side < grid)
            same(prepared(40, side, 2, grid, 2, 0, 15, None) == 6, side < grid)
    same(prepared(2, 2, 3, 3, 2, 0, 15, None), 5)
    same(prepared(2, 2, 3, 17, 2, 0, 15, None), 4)
    same(prepared(9, 2, 3, 3, 2, 0, 4096, None), 6)
    # "15 is also given where the record's edges or centres aren't those of
    # this rule": every entry, those behind the last too.
    output = [0] * 9
    same(clahe.draw(4, 3, 3, picture, flat, record, (0, 0, 3, 3), maps, output), 0)
    for name in ("columns", "rows"):
        for part in ("edges", "centres"):
            for at in range(len(getattr(axis, part))):
                entries = list(getattr(axis, part))
                entries[at] += 1
                other = record._replace(**{name: axis._replace(**{part: entries})})
                same(clahe.draw(4, 3, 3, picture, flat, other, (0, 0, 3, 3), maps, output), 15)
    # 34 by each tile's own N: 4 and 6 beside each other, not above.
    asked = clahe.Settings(2, 2, 2, 0, 15, f32(2.0))
    for width, height, wanted in ((5, 4, 0), (4, 5, 34), (4, 4, 34), (6, 4, 34)):
        answer = clahe.map_counts(1, width, height, asked, [4, 0, 1, 5, 2, 2, 6, 0], [0] * 8, [0] * 2, [0] * 8)
        same(0 if isinstance(answer, tuple) else answer, wanted)
    # The byte profile, whose grid is 8 by 8.
    for width, height, wanted in ((8, 8, 0), (9, 15, 0), (100, 37, 0), (7, 8, 5), (8, 7, 6), (7, 7, 5)):
        answer = clahe.prepare_bytes(3, width, height, bytearray(width * height), profile(), bytearray(4096), [0] * 64,
                                     [0] * 128)
        same(0 if isinstance(answer, tuple) else answer, wanted)
    same(clahe.prepare_bytes(3, 7, 8, bytearray(56), profile(max=254), bytearray(4096), [0] * 64, [0] * 128), 5)
    same(clahe.prepare_bytes(3, 9, 8, bytearray(72), profile(across=9), bytearray(4608), [0] * 64, [0] * 144), 30)


def fitted_place(x, tile, count):
    """Where a column stood before order 6, in document 01's words: "Half =
    floor(tw / 2). A column x below half uses tile column 0 alone. Otherwise k
    = floor((x - half) / tw), o the remainder; if k is the last tile column it
    is used alone, else columns k and k + 1 with weights tw - o and o." """
    half = tile // 2
    if x < half:
        return clahe.Place(0, 0, tile, 0, tile)
    k = (x - half) // tile
    o = (x - half) % tile
    if k == count - 1:
        return clahe.Place(k, k, tile, 0, tile)
    return clahe.Place(k, k + 1, tile - o, o, tile)


def fitted():
    """Order 6: "Films that fitted before must come out the same": sides that
    are multiples of the grid have the tiles and the places that they had."""
    for grid in range(2, 17):
        for tile in list(range(1, 25)) + [64, 97, 4096 // grid]:
            side = tile * grid
            same(clahe.axis_of(side, grid).edges[:grid + 1], [i * tile for i in range(grid + 1)])
            same([clahe.place_of(side, grid, x) for x in range(side)],
                 [fitted_place(x, tile, grid) for x in range(side)])
    for width, height, settings in ((12, 10, clahe.Settings(3, 2, 5, 0, 99, f32(1.5))),
                                    (16, 21, clahe.Settings(16, 7, 3, 0, 99, None)),
                                    (30, 8, clahe.Settings(2, 8, 16, 0, 99, 0x3F800001))):
        picture = [i * i * 7 % 100 for i in range(width * height)]
        tall, wide, b = height // settings.down, width // settings.across, settings.bins
        maps = []
        for row in range(settings.down):
            for column in range(settings.across):
                tile = [picture[y * width + x] for y in range(row * tall, row * tall + tall)
                        for x in range(column * wide, column * wide + wide)]
                counts = [sum(clahe.bin_of(grey, 0, 99, b) == k for grey in tile) for k in range(b)]
                maps += clahe.tile_mapping(counts, settings, tall * wide)[0]
        drawn = []
        for i, grey in enumerate(picture):
            across, down = fitted_place(i % width, wide, settings.across), fitted_place(i // width, tall, settings.down)
            corners = [maps[(j * settings.across + k) * b + clahe.bin_of(grey, 0, 99, b)]
                       for j in (down.tile, down.other) for k in (across.tile, across.other)]
            drawn.append(clahe.blend(across, down, *corners))
        found = [0] * len(maps)
        clahe.enhance(width, height, picture, settings, found, [0] * b)
        same((found, picture), (maps, drawn))


def larges():
    """Numbers of films that no program of the toolchain has room for: sums above 32 bits, and the largest tile whose
    division the library makes a product. The program `test_numbers` prints them; what it must print is held to the rules here."""
    path = os.path.join(os.path.dirname(os.path.abspath(__file__)), "..", "crates", "test_numbers", "stdout")
    with open(path, encoding="ascii") as text:
        stored = dict(line.rstrip("\n").split("\t") for line in text)
    wanted = clahe.mapping_of([2048 * 2048 - 1, 1], 0, 4095, 2048 * 2048)[0]
    same(stored["2048 by 2048 pixels: the mapped value"], str(wanted))
    settings = clahe.Settings(2, 2, 8, 0, 4095, None)
    maps = [4095] * 24 + [4094] + [4095] * 7
    for side, past, where in ((2048, 1, ""), (1024, 1, ""), (2048, 1024, ", midway")):
        wanted = clahe.grey_at(side // 2 + past, side // 2 + past, 0, 2 * side, 2 * side, settings, maps)
        for how in ("one pixel", "many pixels"):
            same(stored["%d by %d pixels%s: %s" % (side, side, where, how)], str(wanted))


def regions():
    """Order 13: side 3 on the 4 by 4 film of the listing, 4 bins, range 0 to
    15, factor 2, worked by hand: N, L, the counts, the clipped counts and the
    grey of three pixels, in both editions."""
    film = [0, 0, 0, 4, 0, 0, 8, 12, 15, 15, 0, 0, 15, 15, 15, 15]
    for x, y, pixels, limit, counts, ours, grey, olders_, older_grey in (
            (0, 0, 4, 2, [4, 0, 0, 0], [2, 1, 1, 0], 7, [2, 1, 1, 1], 6),
            (1, 1, 9, 4, [6, 0, 1, 2], [4, 1, 2, 2], 6, [4, 1, 2, 3], 6),
            (2, 1, 9, 4, [5, 1, 1, 2], [4, 2, 1, 2], 11, [4, 2, 2, 3], 10)):
        own = around.region(4, 4, 3, x, y)
        settings = clahe.Settings(0, 0, 4, 0, 15, f32(2.0))
        same(clahe.pixels_of(own), pixels)
        same(clahe.limit_of(f32(2.0), pixels, 4), limit)
        same(clahe.tile_counts(film, 4, own, settings), counts)
        same(clahe.clipped(counts, limit)[0], ours)
        same(clahe.older(counts, limit), olders_)
        same(around.grey(4, 4, film, 3, settings, x, y), grey)
        same(around.grey(4, 4, film, 3, settings._replace(edition=clahe.OF_1986), x, y), older_grey)
    # "The footer shows the region of column 0, row 0", cut off on two sides.
    same(around.footer_of(4, 4, 3, clahe.Settings(0, 0, 4, 0, 15, f32(2.0))),
         clahe.Footer(2, f32(2.0), clahe.f64_bits(2.0)))
    # "39, side even or not 3 to 63"
    same([side for side in range(70) if around.refusal_of_side(side) == 0], list(range(3, 64, 2)))


if __name__ == "__main__":
    limits()
    clips()
    walks()
    listed()
    bins()
    unreached()
    blends()
    footers()
    listings()
    files()
    byte_films()
    counts()
    olders()
    by_editions()
    compared()
    axes()
    sizes()
    fitted()
    larges()
    regions()
    print("%d checks hold" % checks)
