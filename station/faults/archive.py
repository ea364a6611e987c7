"""archive.py PROGRAM FOLDER COUNT: an archive of random plain films goes to raw and back, by the program and by Netpbm's tools.

Films have sides of 1 to 60, any maxval of 1 to 4095, samples with leading zeros, and white space of all four kinds; greys are
known from the making, and read back by lines of this file alone. Held to them are

  raw     `PROGRAM raw --into`: each file is to the byte the raw PGM of the greys
  back    `PROGRAM plain --into` of these: to the byte the three lines and a sample a line
  again   `PROGRAM raw --into` of those: the raw files again
  Netpbm  pgmtopgm of each plain film, and of each that we wrote: our raw file to the byte; `pgmtopgm -plain` of each raw film:
          `PROGRAM raw --into` makes our raw file of it again (pamtopnm and pnmtoplainpnm make bitmaps of films of maxval 1)

Ends with 1 where one differs. Prints what was seen, and `no Netpbm` where its tools are not there.
"""
import os
import random
import shutil
import struct
import subprocess
import sys

PROGRAM, FOLDER, COUNT = sys.argv[1], sys.argv[2], int(sys.argv[3])
WHITE = " \t\r\n"


def white(dice, least=1):
    """Some white space."""
    return "".join(dice.choice(WHITE) for _ in range(max(least, dice.choice((1, 1, 1, 2, 5)))))


def number(dice, value):
    """A number of up to five digits, with leading zeros now and then."""
    return str(value).zfill(dice.choice((1, 1, 1, 3, 5)))


def film(dice):
    """Width, height, maxval and greys."""
    width, height = dice.randint(1, 60), dice.randint(1, 60)
    maxval = dice.choice((1, 9, 255, 256, 4095, dice.randint(1, 4095)))
    greys = [dice.choice((0, maxval, dice.randint(0, maxval))) for _ in range(width * height)]
    return width, height, maxval, greys


def as_text(dice, width, height, maxval, greys):
    """A plain PGM as somebody may have written it."""
    apart = dice.choice((lambda: "\n", lambda: " ", lambda: "\r\n", lambda: white(dice)))
    parts = ["P2"] + [white(dice) + number(dice, value) for value in (width, height, maxval)] + [white(dice)]
    parts.append(apart().join(number(dice, grey) for grey in greys) if dice.random() < 0.5 else
                 "".join(number(dice, grey) + apart() for grey in greys))
    return "".join(parts).encode()


def as_raw(width, height, maxval, greys):
    """The raw PGM of it."""
    body = bytes(greys) if maxval < 256 else struct.pack(">%dH" % len(greys), *greys)
    return b"P5\n%d %d\n%d\n" % (width, height, maxval) + body


def as_lines(width, height, maxval, greys):
    """The plain PGM of it as the library writes it."""
    return b"P2\n%d %d\n%d\n" % (width, height, maxval) + b"".join(b"%d\n" % grey for grey in greys)


def place(name, i):
    """A film's file in one of the folders."""
    return os.path.join(FOLDER, name, "film-%04d.pgm" % i)


def put(name, i, data):
    """Writes a film's file."""
    with open(place(name, i), "wb") as out:
        out.write(data)


def held(name, wanted):
    """Each file of a folder is the wanted one, and no other is there."""
    assert sorted(os.listdir(os.path.join(FOLDER, name))) == ["film-%04d.pgm" % i for i in range(COUNT)], name
    for i, data in enumerate(wanted):
        with open(place(name, i), "rb") as source:
            assert source.read() == data, "%s differs in film %d" % (name, i)


def move(command, name, to):
    """By the program, a whole folder."""
    done = subprocess.run([PROGRAM, command, "-q", "--into", os.path.join(FOLDER, to), os.path.join(FOLDER, name)],
                          timeout=300, capture_output=True, check=False)
    assert done.returncode == 0 and not done.stderr, (command, name, done.returncode, done.stderr[:200])


def by_netpbm(words, name, i):
    """What Netpbm's tool makes of a film. In text it wants a byte behind the last sample."""
    with open(place(name, i), "rb") as source:
        data = source.read()
    data += b"\n" if data.startswith(b"P2") else b""
    return subprocess.run(words, input=data, timeout=60, capture_output=True, check=True).stdout


dice = random.Random(1986)
films = [film(dice) for _ in range(COUNT)]
os.makedirs(os.path.join(FOLDER, "plain"))
for i, one in enumerate(films):
    put("plain", i, as_text(dice, *one))
raws, lines = [as_raw(*one) for one in films], [as_lines(*one) for one in films]
move("raw", "plain", "raw")
held("raw", raws)
move("plain", "raw", "back")
held("back", lines)
move("raw", "back", "again")
held("again", raws)
print("%d films to raw and back" % COUNT)
if shutil.which("pgmtopgm") is None:
    print("no Netpbm: to raw and back by the program alone")
    raise SystemExit(0)
os.makedirs(os.path.join(FOLDER, "theirs"))
for i, raw in enumerate(raws):
    assert by_netpbm(["pgmtopgm"], "plain", i) == raw, "Netpbm reads film %d otherwise" % i
    assert by_netpbm(["pgmtopgm"], "back", i) == raw, "Netpbm reads our plain film %d otherwise" % i
    put("theirs", i, by_netpbm(["pgmtopgm", "-plain"], "raw", i))
move("raw", "theirs", "by_them")
held("by_them", raws)
print("%d films to raw and back, by the program and by Netpbm: the same greys" % COUNT)
