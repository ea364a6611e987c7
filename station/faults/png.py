"""png.py FILE.png FILE.pgm BITS: holds a PNG to the film that it was made of, grey by grey, and prints its size."""
import struct
import sys
import zlib


def chunks(data):
    """Kind and body of each chunk, whose sums have to be right."""
    assert data[:8] == b"\x89PNG\r\n\x1a\n", "no PNG"
    at = 8
    while at < len(data):
        length, = struct.unpack(">I", data[at:at + 4])
        kind, body = data[at + 4:at + 8], data[at + 8:at + 8 + length]
        assert struct.unpack(">I", data[at + 8 + length:at + 12 + length])[0] == zlib.crc32(kind + body), kind
        yield kind, body
        at += 12 + length


def main(png, pgm, bits):
    parts = list(chunks(open(png, "rb").read()))
    assert [kind for kind, _ in parts] == [b"IHDR", b"IDAT", b"IEND"]
    width, height, *rest = struct.unpack(">IIBBBBB", parts[0][1])
    assert rest == [bits, 0, 0, 0, 0], rest
    film = open(pgm, "rb").read().split(b"\n", 3)
    assert (width, height) == tuple(map(int, film[1].split()))
    maxval, raster = int(film[2]), film[3]
    rows, step = zlib.decompress(parts[1][1]), 1 + width * bits // 8
    assert len(rows) == height * step and not any(rows[::step]), "rows"
    entry = 1 if maxval < 256 else 2
    wide = entry * width
    assert len(raster) == height * wide
    # each sample of the film, and what it has to be in the PNG; row by row, since the largest film has 16,777,216
    scaled = {grey.to_bytes(entry, "big"): (grey * (2**bits - 1) // maxval).to_bytes(bits // 8, "big") for grey in range(maxval + 1)}
    for y in range(height):
        row = raster[y * wide:(y + 1) * wide]
        due = b"".join(scaled[row[x:x + entry]] for x in range(0, wide, entry))
        assert rows[y * step + 1:(y + 1) * step] == due, "greys of row %d" % y
    print(width, "by", height)


main(sys.argv[1], sys.argv[2], int(sys.argv[3]))
