"""How long the page takes: from what a hand does to the painted window of 1024 by 768, medians of 50; of 15 where a film is
opened, of 20 where bins are changed.

The clock starts at the event's own time stamp, when the browser got the input, and stops right behind the paint of the
frame in which the rendered canvas was drawn on: the frame's callback posts a message that is delivered behind its paint.
The test has its own hook for this and asks the page for nothing. Each input waits until the page is at rest."""

import os
import platform
import re
import statistics
import subprocess
import time

from selenium.webdriver.common.keys import Keys

from person import hold, same

TURNS = 50
WIDE, HIGH = 1024, 768
LIMITS = {"factor": 50, "pan": 20}
LARGEST = {"first": 350, "factor": 40, "bins": 250, "display": 16, "film": 100}  # a film of 4096 by 4096
OPENINGS, BINS = 15, 20

CLOCK = """
window.clock = {start: 0, ends: []};
for (const kind of ['pointermove', 'keydown', 'wheel', 'drop'])
  addEventListener(kind, event => { clock.start = event.timeStamp; }, {capture: true});
const draws = CanvasRenderingContext2D.prototype.drawImage;
CanvasRenderingContext2D.prototype.drawImage = function (...words) {
  if (this.canvas.id === 'canvas-rendered') {
    const start = clock.start;
    requestAnimationFrame(() => {
      const channel = new MessageChannel();
      channel.port1.onmessage = () => clock.ends.push(performance.now() - start);
      channel.port2.postMessage(0);
    });
  }
  return draws.apply(this, words);
};
"""


def machine(person):
    """The machine's name, its load and the browser's edition."""
    model = re.search(r"Model name:\s*(.*)", subprocess.run(["lscpu"], capture_output=True, text=True, check=False).stdout)
    return "%s, %s, %d processors, %s, headless, without a graphics processor" % (
        platform.machine(), model.group(1) if model else "unnamed", os.cpu_count(),
        "Chromium " + person.driver.capabilities["browserVersion"])


def load():
    """How many processes wanted a processor, over the last minute."""
    return float(open("/proc/loadavg").read().split()[0])


def fitted(person, film):
    """Makes the window just so large that the divider's frame is 1024 by 768, and looks at a film there."""
    person.arrive(WIDE + 336, HIGH + 120)
    person.show(film)
    person.click("mode-divide")
    person.settled()
    _, _, width, height = person.box("canvas-rendered")
    person.size(round(WIDE + 336 + WIDE - width), round(HIGH + 120 + HIGH - height))
    person.until("a canvas of 1024 by 768", lambda: person.script(
        "const c = document.getElementById('canvas-rendered'); return [c.width, c.height]") == [WIDE, HIGH])
    person.settled()
    person.script(CLOCK)


def timed(person, move, last=False):
    """One time: from the move to its first paint, or to the last one where more than the margin has to be drawn."""
    person.script("clock.ends.length = 0")
    move()
    person.until("a paint", lambda: person.script("return clock.ends.length > 0"))
    person.settled()
    time.sleep(0.02)
    ends = person.script("return clock.ends")
    return ends[-1] if last else ends[0]


def factor(person):
    """The factor's slider, moved by the mouse, three dots at a time."""
    left, top, width, height = person.box("factor-slider")
    y, x = round(top + height / 2), round(left + 20)
    person.mouse("mouseMoved", x, y)
    person.mouse("mousePressed", x, y, button="left", buttons=1, clickCount=1)
    person.settled()
    step = (width - 40) / TURNS
    known, ms = set(), []
    for i in range(1, TURNS + 1):
        ms.append(timed(person, lambda: person.mouse("mouseMoved", x + step * i, y, button="left", buttons=1), True))
        known.add(person.value("factor"))
    person.mouse("mouseReleased", x + step * TURNS, y, button="left", clickCount=1)
    hold(len(known) > TURNS // 2, "the factor moved only", len(known), "times")
    return ms


def pan(person, step, last):
    """The film, dragged to and fro by so many dots at a time."""
    x, y = person.middle("canvas-rendered")
    x -= 120
    person.mouse("mouseMoved", x, y)
    person.mouse("mousePressed", x, y, button="left", buttons=1, clickCount=1)
    ms = []
    for i in range(TURNS):
        place = x + (step if i % 2 == 0 else 0), y + (step // 2 if i % 2 == 0 else 0)
        ms.append(timed(person, lambda: person.mouse("mouseMoved", *place, button="left", buttons=1), last))
    person.mouse("mouseReleased", *place, button="left", clickCount=1)
    person.settled()
    return ms


def first_picture(person, path):
    """A film that is dropped, and closed again."""
    ms = []
    words = {"x": 500, "y": 400, "data": {"items": [], "files": [path], "dragOperationsMask": 1}}
    for _ in range(OPENINGS):
        for entry in person.entries():
            person.click("close-%d" % entry["number"])
        person.settled()
        for kind in ("dragEnter", "dragOver"):
            person.tell("Input.dispatchDragEvent", type=kind, **words)
        ms.append(timed(person, lambda: person.tell("Input.dispatchDragEvent", type="drop", **words)))
    return ms


def by_key(person, name, keys, turns):
    """A key on a control, one of two in turn."""
    ms = []
    person.script("document.getElementById(arguments[0]).focus()", name)
    for i in range(turns):
        ms.append(timed(person, lambda: person.keys(keys[i % len(keys)]), True))
    return ms


def display(person):
    """Level and window, dragged with the right button."""
    x, y = person.middle("canvas-rendered")
    x -= 120
    person.mouse("mouseMoved", x, y)
    person.mouse("mousePressed", x, y, button="right", buttons=2, clickCount=1)
    ms = []
    for i in range(TURNS):
        place = x + (9 if i % 2 == 0 else 0), y + (7 if i % 2 == 0 else 0)
        ms.append(timed(person, lambda: person.mouse("mouseMoved", *place, button="right", buttons=2), True))
    person.mouse("mouseReleased", x, y, button="right", clickCount=1)
    person.settled()
    return ms


def largest(person, films):
    """The rows of a film of 4096 by 4096, at 1:4; whether all limits are kept."""
    film, name = films.largest, "4096 by 4096, 1:4"
    path = person.file(film.name, film.file())
    fitted(person, films.sample)
    kept = row("4096 by 4096", "dropped, to its first picture", first_picture(person, path), LARGEST["first"], OPENINGS)
    person.click("zoom-1-4")
    person.settled()
    kept &= row(name, "factor moved", factor(person), LARGEST["factor"])
    kept &= row(name, "bins changed", by_key(person, "bins-slider", (Keys.ARROW_LEFT, Keys.ARROW_RIGHT), BINS), LARGEST["bins"], BINS)
    kept &= row(name, "level and window dragged", display(person), LARGEST["display"])
    person.open(path)
    person.click("zoom-1-4")
    person.keys(Keys.PAGE_DOWN, Keys.PAGE_UP)
    kept &= row(name, "film changed", by_key(person, "stage", (Keys.PAGE_DOWN, Keys.PAGE_UP), TURNS), LARGEST["film"])
    return kept


def row(film, what, ms, limit, turns=TURNS):
    """A row of the table."""
    ms = sorted(ms)
    same("turns", len(ms), turns)
    print("| %s | %s | %.1f | %.1f | %.1f | %s |" % (film, what, statistics.median(ms), ms[4], ms[-5], limit or ""), flush=True)
    return not limit or statistics.median(ms) <= limit


def measure(person, films):
    """Prints the table; 1 where a limit is not kept."""
    print("Machine: %s. Load before: %.2f." % (machine(person), load()))
    print("\n| film | what is done | median, ms | fifth least | fifth greatest | limit |\n|---|---|---|---|---|---|")
    kept = True
    for film, name, zoom in ((films.square, "2048 by 2048, noisy", "1-1"), (films.sample, "sample, 512 by 384", "4-1")):
        fitted(person, film)
        person.click("zoom-" + zoom)
        person.settled()
        named = "%s, %s" % (name, zoom.replace("-", ":"))
        kept &= row(named, "factor moved", factor(person), LIMITS["factor"])
        kept &= row(named, "panned by 60 dots", pan(person, 60, False), LIMITS["pan"])
        row(named, "the same, to the window drawn anew", pan(person, 60, True), None)
        row(named, "panned by 300 dots, to the whole window", pan(person, 300, True), None)
    kept &= largest(person, films)
    print("\nLoad behind: %.2f." % load())
    return 0 if kept else 1
