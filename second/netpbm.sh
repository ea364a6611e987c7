#!/usr/bin/env bash
# Holds raw and plain PGM as we read and write them to Netpbm's own tools, where they are installed (docs/NETPBM.md).
# Builds the command line first, whose writer is the proved one. Last line: 'netpbm: N files agree, ..', or what does not agree and exit status 1.
set -euo pipefail
cd "$(dirname "$0")/.."
if ! command -v pamtopnm > /dev/null; then
    echo "netpbm: not installed, nothing compared"
    exit 0
fi
if ! pgmnoise -randomseed=1 -maxval=4095 1 1 > /dev/null 2>&1; then
    echo "netpbm: an old edition whose pgmnoise takes no -maxval, nothing compared"
    exit 0
fi
station/build
PYTHONDONTWRITEBYTECODE=1 PYTHONPATH=second exec python3 - << 'END'
import subprocess
import sys

import pgm

agreed = 0


def tool(command, data=b""):
    """What a command of Netpbm's prints."""
    done = subprocess.run(["bash", "-c", command], input=data, stdout=subprocess.PIPE, stderr=subprocess.DEVNULL)
    return done.stdout


def agree(what, ours, netpbm):
    global agreed
    if ours != netpbm:
        sys.exit("netpbm: not the same: %s" % what)
    agreed += 1


# 1. The files that the program `test_netpbm` reads: the bytes of its input, a line behind each command, and what it prints of them.
given = open("crates/test_netpbm/stdin").read().split("\n")
stored = {command: bytes(int(n) for n in numbers.split()) for command, numbers in zip(given[::2], given[1::2])}
printed = open("crates/test_netpbm/stdout").read()
for command, data in stored.items():
    if tool(command) != data:
        # Another edition of the tools may make other noise: the stored bytes still are theirs.
        print("netpbm: these tools make other bytes by: %s" % command)
    behind = printed.split(command + "\n", 1)[1]
    if not behind.startswith("refused"):
        text, last = behind.split("written ", 1)
        agree("test_netpbm's text of: " + command, text, tool("pamtopnm -plain", data).decode())
        raw = " ".join(str(n) for n in tool("pamtopnm", data))
        agree("test_netpbm's bytes of: " + command, last.split("\n", 1)[0], "raw: " + raw if data[:2] == b"P2" else "again: the same bytes")
        agreed -= 1

# 2. Files that the second program's writer makes: Netpbm reads the same film, and writes the same bytes. `pamtopnm` would turn maxval 1 into
# a bitmap; `pgmtopgm` keeps greys.
sizes = [(1, 1), (7, 5), (5, 7), (64, 48), (33, 17), (4096, 1), (1, 4096), (300, 200)]
seed = 12345
for width, height in sizes:
    for maxval in (1, 15, 254, 255, 256, 1000, 4094, 4095):
        picture = []
        for _ in range(width * height):
            seed = (seed * 1103515245 + 12345) % 2147483648
            picture.append(seed // 65536 % (maxval + 1))
        out = bytearray(40 + 2 * width * height)
        _, count = pgm.write(picture, width, height, maxval, out)
        data = bytes(out[:count])
        name = "the second program's file %d by %d, maxval %d" % (width, height, maxval)
        words = tool("pgmtopgm -plain", data).split()
        agree(name, [b"P2"] + [b"%d" % n for n in [width, height, maxval] + picture], words)
        agree(name + ", written by Netpbm", data, tool("pgmtopgm", data))
        agreed -= 1

# 3. Files that Netpbm makes: our reader finds the same film.
for width, height in sizes:
    for maxval in (1, 100, 255, 256, 4095):
        data = tool("pgmnoise -randomseed=%d -maxval=%d %d %d" % (width + maxval, maxval, width, height))
        found = pgm.read(data)
        target = [0] * (width * height)
        answer = pgm.greys(data, found[4], found[1], found[2], found[3], target)
        name = "Netpbm's file %d by %d, maxval %d" % (width, height, maxval)
        words = tool("pgmtopgm -plain", data).split()
        agree(name, [b"P2"] + [b"%d" % n for n in list(found[1:4]) + target], words if answer == 0 else [])

# 4. Files that the proved writer makes: at factor 1.0 the command line hands a film through read and write unchanged.
# Netpbm reads the same film, and writes the same bytes.
proved = 0
for width, height in [(2, 2), (64, 48), (34, 18), (4096, 2), (2, 4096), (300, 200)]:
    for maxval in (1, 15, 254, 255, 256, 1000, 4094, 4095):
        film = tool("pgmnoise -randomseed=%d -maxval=%d %d %d" % (width + maxval, maxval, width, height))
        data = tool("target/station/tzofnadir enhance - - --grid 2x2 --clip 1.0", film)
        name = "the proved writer's file %d by %d, maxval %d" % (width, height, maxval)
        agree(name, tool("pgmtopgm -plain", data).split(), tool("pgmtopgm -plain", film).split())
        agree(name + ", written by Netpbm", data, tool("pgmtopgm", data))
        agreed -= 1
        proved += 1

# 5. Plain files: what the second program's writer makes, Netpbm makes the raw file of, to the byte; and of the plain text that Netpbm makes of
# that raw file the second program's reader finds the film.
for width, height in sizes:
    for maxval in (1, 15, 254, 255, 256, 1000, 4094, 4095):
        picture = []
        for _ in range(width * height):
            seed = (seed * 1103515245 + 12345) % 2147483648
            picture.append(seed // 65536 % (maxval + 1))
        out = bytearray(18 + 5 * width * height)
        _, count = pgm.write_plain(picture, width, height, maxval, out)
        plain = bytes(out[:count])
        _, count = pgm.write(picture, width, height, maxval, out)
        raw = bytes(out[:count])
        name = "the second program's plain file %d by %d, maxval %d" % (width, height, maxval)
        agree(name, raw, tool("pgmtopgm", plain))
        target = [0] * (width * height)
        found = pgm.read_plain(tool("pgmtopgm -plain", raw), target)
        agree(name + ", read", (("ok", width, height, maxval), picture), (found, target))
        agreed -= 1

# 6. The same of the proved writer and reader, by the command line: `plain` makes what Netpbm makes the raw file of, to the byte, and `raw` makes the
# raw file of what Netpbm makes plain of it, to the byte.
for width, height in [(1, 1), (64, 48), (34, 18), (4096, 2), (2, 4096), (300, 200)]:
    for maxval in (1, 15, 254, 255, 256, 1000, 4094, 4095):
        film = tool("pgmnoise -randomseed=%d -maxval=%d %d %d" % (width + maxval, maxval, width, height))
        name = "the proved plain file %d by %d, maxval %d" % (width, height, maxval)
        plain = tool("target/station/tzofnadir plain - -", film)
        agree(name, tool("pgmtopgm", plain), film)
        agree(name + ", and back", tool("target/station/tzofnadir raw - -", plain), film)
        agree(name + ", of Netpbm's", tool("target/station/tzofnadir raw - -", tool("pgmtopgm -plain", film)), film)
        agreed -= 2
        proved += 1

print("netpbm: %d files agree, %d of them by the proved writers" % (agreed, proved))
END
