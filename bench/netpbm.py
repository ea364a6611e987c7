#!/usr/bin/env python3
"""netpbm.py FOLDER: how long Netpbm's tools take to move the films that `bench films` wrote between plain and raw PGM.

Prints "SIDE BITS FILM CALL NS" a line, CALL raw (pamtopnm of the text) or plain (pnmtoplainpnm of the raw film): the user time of
the tool's process, the best of some runs, less that on a film of one pixel, in nanoseconds a sample. What it writes goes nowhere.
"""
import glob
import os
import subprocess
import sys
import tempfile

RUNS = 5
TOOLS = (("raw", "pamtopnm", ".txt"), ("plain", "pnmtoplainpnm", ".pgm"))


def user_time(tool, path):
    """The best user time of some runs, in seconds."""
    best = None
    for _ in range(RUNS):
        with open(os.devnull, "wb") as nowhere:
            child = subprocess.Popen([tool, path], stdout=nowhere)
            _, status, used = os.wait4(child.pid, 0)
        child.returncode = status
        if status != 0:
            raise SystemExit("%s failed on %s" % (tool, path))
        best = used.ru_utime if best is None else min(best, used.ru_utime)
    return best


def main():
    """Each film that is there as text, in both moves."""
    folder = sys.argv[1]
    with tempfile.NamedTemporaryFile(suffix=".txt") as one:
        one.write(b"P2\n1 1\n9\n7\n")
        one.flush()
        start = {tool: user_time(tool, one.name) for _, tool, _ in TOOLS}
    for text in sorted(glob.glob(os.path.join(folder, "*.txt"))):
        parts = os.path.basename(text)[:-len(".txt")].split("-")
        if len(parts) != 3:
            continue
        side, bits, film = parts
        for call, tool, form in TOOLS:
            took = user_time(tool, os.path.join(folder, "-".join(parts) + form)) - start[tool]
            print(side, bits, film, call, "%.3f" % (max(took, 0) * 1e9 / int(side)**2))


if __name__ == "__main__":
    main()
