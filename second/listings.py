"""What the program `test_listings` has to print, by the second program.

Run: python3 second/listings.py > crates/test_listings/stdout

The inputs that stand as byte strings in crates/test_listings/src/main.rt are read from
there (its byte strings are Python's too); the four that it makes in arrays are made
here by what document 01 says of a file: header, then the raster.
"""

import ast
import os
import re
import sys

sys.dont_write_bytecode = True

import listing

SOURCE = os.path.join(os.path.dirname(os.path.abspath(__file__)), "..", "crates", "test_listings", "src", "main.rt")

MADE = {
    29: bytes(32768),
    30: bytes(32769),
    31: b"P5\n128 64\n15\n" + bytes(8192),
    32: b"P5\n64 128\n300\n" + b"\x01\x2c" * 8192,
}


def inputs():
    """Every input, by its index."""
    found = dict(MADE)
    with open(SOURCE, encoding="utf-8") as text:
        for index, literal in re.findall(r'show\(\s*(\d+),\s*(b"(?:[^"\\]|\\.)*")', text.read()):
            found[int(index)] = ast.literal_eval(literal)
    assert sorted(found) == list(range(len(found))), sorted(found)
    return [found[index] for index in range(len(found))]


if __name__ == "__main__":
    for index, data in enumerate(inputs()):
        sys.stdout.buffer.write(b"%d\n" % index + listing.listing(data))
