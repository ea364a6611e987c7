"""threads.py EXAMPLES LIBRARY FILM.pgm: renders a film on eight threads at once, each on buffers of its own and with a factor
of its own, several times over. Each has to come out as it does alone. ctypes lets go of Python's lock during a call, so the
calls do run at once.
"""
import sys
import threading

sys.path.insert(0, sys.argv[1])
sys.dont_write_bytecode = True
import render  # noqa: E402

FACTORS = [1.0, 1.25, 1.5, 2.0, 2.5, 3.0, 5.0, 1024.0]
library = render.load(sys.argv[2])
with open(sys.argv[3], "rb") as source:
    data = source.read()


def rendered(factor):
    """The rendering of the film with this factor, and its limit."""
    sizes, greys = render.read(library, data)
    footer = render.enhance(library, sizes, greys, factor)
    return bytes(greys), footer.limit


def keep(results, factor):
    """Renders ten times over, and keeps what came out."""
    results[factor] = {rendered(factor) for _ in range(10)}


alone = {factor: {rendered(factor)} for factor in FACTORS}
together = {}
threads = [threading.Thread(target=keep, args=(together, factor)) for factor in FACTORS]
for thread in threads:
    thread.start()
for thread in threads:
    thread.join()
if together != alone or len(set(map(frozenset, alone.values()))) != len(FACTORS):
    raise SystemExit("not the same")
