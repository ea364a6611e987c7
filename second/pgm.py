"""Read and write of raw and plain PGM: a second reading of document 01, and
of order 9 in document 02.

A quoted sentence in a comment is document 01's own, and order 9's where the
function is one of plain files.  An answer is a whole number (the refusal), or
what each function states.
"""

# "White space is space, tab, CR, LF."
WHITE = (32, 9, 13, 10)
HASH = 35
DIGITS = range(48, 58)


def header(data, kind=b"5"):
    """20: "header not "P5", then three numbers of 1 to 5 digits, each after
    one or more white space bytes, and exactly one white space byte at the
    end".  "Read: header bytes from the front, where, behind `P5`, a `#`
    instead of white space or a digit is 21 and any other misfit, or the end
    of input, is 20".  "Leading zeros count as digits."

    Order 9: "the second reader gives 20 (with P2) to 23 as 01 does": kind is
    the second byte.

    Hands back ('ok', width, height, maxval, start of the raster), or 20 or
    21."""
    if data[0:1] != b"P" or data[1:2] != kind:
        return 20
    at = 2

    def misfit(at):
        # What stands at a place where it does not fit: 21 for '#', else 20;
        # the end of input is 20.
        return 21 if at < len(data) and data[at] == HASH else 20

    numbers = []
    for _ in range(3):
        # "each after one or more white space bytes"
        if not (at < len(data) and data[at] in WHITE):
            return misfit(at)
        while at < len(data) and data[at] in WHITE:
            at += 1
        # "three numbers of 1 to 5 digits"
        if not (at < len(data) and data[at] in DIGITS):
            return misfit(at)
        value = 0
        count = 0
        while count < 5 and at < len(data) and data[at] in DIGITS:
            value = value * 10 + (data[at] - 48)
            count += 1
            at += 1
        numbers.append(value)
        # A sixth digit, or any other byte, now stands where white space must.
    # "and exactly one white space byte at the end": the byte behind it is
    # already the raster's.
    if not (at < len(data) and data[at] in WHITE):
        return misfit(at)
    return "ok", numbers[0], numbers[1], numbers[2], at + 1


def refusal_22_23(width, height, maxval):
    """22 / 23: "size as in 1 / maxval 0 or above 4095" """
    if width == 0 or width > 4096 or height == 0 or height > 4096:
        return 22
    if maxval == 0 or maxval > 4095:
        return 23
    return 0


def sample_bytes(maxval):
    """"samples take one byte if maxval is below 256, else two, high byte
    first." """
    return 1 if maxval < 256 else 2


def refusal_22_to_25(length, width, height, maxval):
    """22, 23, then 24 / 25: "raster too short / bytes behind it" """
    refusal = refusal_22_23(width, height, maxval)
    if refusal:
        return refusal
    need = width * height * sample_bytes(maxval)
    if length < need:
        return 24
    if length > need:
        return 25
    return 0


def read(data):
    """What both readings share: ('ok', width, height, maxval, start), or the
    refusal: the header's, "then 22 to 25"."""
    found = header(data)
    if isinstance(found, int):
        return found
    _, width, height, maxval, start = found
    refusal = refusal_22_to_25(len(data) - start, width, height, maxval)
    if refusal:
        return refusal
    return found


def read_sizes(data):
    """"Read is asked twice over the same bytes [...]: for the sizes and
    maxval".  ('ok', width, height, maxval) or the refusal."""
    found = read(data)
    return found if isinstance(found, int) else found[:4]


def read_raster(data):
    """"and for the raster handed back as that part of the caller's bytes";
    "A refusal hands back an empty part." """
    found = read(data)
    return data[0:0] if isinstance(found, int) else data[found[4]:]


def greys(data, start, width, height, maxval, target):
    """"a second call turns it into greys, and entries behind the last grey
    keep their contents."  The raster is data[start:], empty when start lies
    behind the end.  "Turning a raster into greys: 22, 23, 24, 25, 27, 26."
    Answers 0 when done, else the refusal."""
    raster = data[start:] if start < len(data) else data[0:0]
    refusal = refusal_22_to_25(len(raster), width, height, maxval)
    if refusal:
        return refusal
    # 27: "the caller's target too short"
    if len(target) < width * height:
        return 27
    if sample_bytes(maxval) == 1:
        samples = list(raster)
    else:
        samples = [raster[i] * 256 + raster[i + 1] for i in range(0, len(raster), 2)]
    # 26: "a sample above maxval"
    for sample in samples:
        if sample > maxval:
            return 26
    for i, sample in enumerate(samples):
        target[i] = sample
    return 0


def laid_down(picture, width, height, maxval, out, file_bytes):
    """"Write: 22, 23, 2, 26, 27."  "Write: returns the byte count; bytes
    behind it keep their contents."  file_bytes gives the file's bytes of a
    picture that is in order.

    Answers ('ok', byte count), or the refusal."""
    refusal = refusal_22_23(width, height, maxval)
    if refusal:
        return refusal
    # 2: "picture length is not width x height"
    if len(picture) != width * height:
        return 2
    # 26: "a sample above maxval"
    for grey in picture:
        if grey > maxval:
            return 26
    laid = file_bytes()
    # 27: "the caller's target too short"
    if len(out) < len(laid):
        return 27
    for i, byte in enumerate(laid):
        out[i] = byte
    return "ok", len(laid)


def write(picture, width, height, maxval, out):
    """"The writer lays down `P5`, LF, width, space, height, LF, maxval, LF, no
    leading zeros, and the raster is written straight behind the header bytes
    already laid down."  Answers as laid_down."""
    def file_bytes():
        laid = list(b"P5\n%d %d\n%d\n" % (width, height, maxval))
        for grey in picture:
            if sample_bytes(maxval) == 2:
                laid.append(grey // 256)
            laid.append(grey % 256)
        return laid
    return laid_down(picture, width, height, maxval, out, file_bytes)


def plain_sizes(data):
    """"20 (with P2) to 23 as 01 does": ('ok', width, height, maxval), or the
    refusal.  No sample is looked at."""
    found = header(data, b"2")
    if isinstance(found, int):
        return found
    _, width, height, maxval, _ = found
    return refusal_22_23(width, height, maxval) or found[:4]


def sample(data, at, maxval):
    """The sample from a place on, behind white space: ('ok', its value, the
    place behind it), or 24 or 26."""
    # "numbers parted by white space"
    while at < len(data) and data[at] in WHITE:
        at += 1
    # a sample is "all bytes up to white space or the end"
    value = 0
    count = 0
    digits = True
    while at < len(data) and data[at] not in WHITE:
        digits = digits and data[at] in DIGITS
        value = value * 10 + (data[at] - 48)
        count += 1
        at += 1
    # "missing or not 1 to 5 digits (24)"
    if count == 0 or count > 5 or not digits:
        return 24
    # "or above maxval (26)"
    if value > maxval:
        return 26
    return "ok", value, at


def read_plain(data, target):
    """"the second reader gives 20 (with P2) to 23 as 01 does, then 27, then 24
    or 26 at the first sample [...], then 25".  Answers ('ok', width, height,
    maxval) with the greys at the target's front, or the refusal."""
    found = header(data, b"2")
    if isinstance(found, int):
        return found
    _, width, height, maxval, at = found
    refusal = refusal_22_23(width, height, maxval)
    if refusal:
        return refusal
    # 27: "the caller's target too short"
    if len(target) < width * height:
        return 27
    greys_read = []
    for _ in range(width * height):
        answer = sample(data, at, maxval)
        if isinstance(answer, int):
            return answer
        _, value, at = answer
        greys_read.append(value)
    # "nothing but white space behind the last sample", else 25
    while at < len(data):
        if data[at] not in WHITE:
            return 25
        at += 1
    for i, grey in enumerate(greys_read):
        target[i] = grey
    return found[:4]


def write_plain(picture, width, height, maxval, out):
    """"Write P2 with our three header lines and then one sample and LF per
    line; refusals as for write."  Answers as laid_down."""
    def file_bytes():
        laid = list(b"P2\n%d %d\n%d\n" % (width, height, maxval))
        for grey in picture:
            laid.extend(b"%d\n" % grey)
        return laid
    return laid_down(picture, width, height, maxval, out, file_bytes)
