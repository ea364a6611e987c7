"""Ways of measuring: what the tools tell is held to the second program (second/measure.py), on the scanned greys."""

import random
import re

from selenium.webdriver.common.action_chains import ActionChains
from selenium.webdriver.common.keys import Keys

import expected
import measure
from person import hold, same


# ---- what a person does ----

def steps(person, key, count):
    """Moves the reading by so many pixels: by tens with Ctrl, by ones without."""
    chain = ActionChains(person.driver).key_down(Keys.SHIFT)
    for _ in range(count % 10):
        chain.send_keys(key)
    chain.key_down(Keys.CONTROL)
    for _ in range(count // 10):
        chain.send_keys(key)
    chain.key_up(Keys.CONTROL).key_up(Keys.SHIFT).perform()
    person.settled()


def go(person, right, down):
    """Moves the reading."""
    steps(person, Keys.ARROW_RIGHT if right >= 0 else Keys.ARROW_LEFT, abs(right))
    steps(person, Keys.ARROW_DOWN if down >= 0 else Keys.ARROW_UP, abs(down))


def reading(person):
    """The pixel that is read; the one in the middle of what is seen where none was."""
    if person.text("at-column") == "–":
        go(person, 1, 0)
        go(person, -1, 0)
    return int(person.text("at-column")), int(person.text("at-row"))


def place(person, key, right, down, start=None):
    """Takes a tool by its key, goes to the start where one is given, takes the first point, moves, and takes the second, all by
    keys; gives the first."""
    person.script("document.getElementById('stage').focus()")
    at = reading(person)
    if start:
        go(person, start[0] - at[0], start[1] - at[1])
        same("the reading", reading(person), start)
    person.keys(key, Keys.ENTER)
    hold(person.element("tool-told").is_displayed(), "the tool has not begun")
    go(person, right, down)
    person.keys(Keys.ENTER)
    hold(not person.element("tool-told").is_displayed(), "the tool is still there:", person.text("tool-told"))
    return start or at


def unfolded(person, section):
    """Unfolds a section of the panel."""
    if not person.script("return document.getElementById(arguments[0]).open", section):
        person.driver.find_element("css selector", "#%s > summary" % section).click()
        person.settled()


def taken(person, name, text):
    """Types into a box of the measuring part, and takes it by Enter."""
    unfolded(person, "marks" if name.startswith("mark-") else "measure")
    person.type(name, text or Keys.DELETE)


# ---- what is told ----

def film_of(film):
    """A film as the second program takes it."""
    return film.width, film.height, film.greys


def line_of(person):
    """The line that is told."""
    found = re.fullmatch(r"Line (\d+), (\d+) to (\d+), (\d+)", person.text("line-place"))
    hold(found, "no line is told:", person.text("line-place"))
    return tuple(int(n) for n in found.groups())


def box_of(text):
    """The rectangle that is told."""
    found = re.search(r"column (\d+), row (\d+), (\d+) × (\d+) pixels", text)
    hold(found, "no rectangle is told:", text)
    return tuple(int(n) for n in found.groups())


def um(text):
    """A typed number of um."""
    return None if text is None else measure.number(text, measure.UM)


def greys_words(film, box, resolution=None):
    """What has to be told of a rectangle's scanned greys."""
    pixels, least, most, mean, deviation, snr, normal = [
        "–" if value is None else value for value in measure.region(film_of(film), box, um(resolution))]
    return "Scanned: mean %s, deviation %s, SNR %s, SNR_N %s; greys %s to %s, %s pixels" % (
        mean, deviation, snr, normal, least, most, pixels)


def box_words(box, pitch=None):
    """What has to be told of a rectangle's place and size."""
    words = "column %d, row %d, %d × %d pixels" % tuple(box)
    return words if pitch is None else words + "; at %s, %s mm, %s × %s mm" % tuple(measure.rectangle_mm(box, um(pitch)))


def length_words(line, pitch=None):
    """What has to be told of a line's length."""
    pixels, mm = measure.distance(line, um(pitch))
    return "%s pixels" % pixels if mm is None else "%s mm, %s pixels" % (mm, pixels)


def dip_words(film, line, lanes, part):
    """The dip's numbers as they have to be told."""
    samples = measure.profile(film_of(film), line, lanes)
    found = measure.dip_shown(samples, *part)
    if found is None:
        return "Scanned: no dip between samples %d and %d." % part
    at, a, b, c, percent = found
    raised = [samples[i] - (samples[part[0]] + (samples[part[1]] - samples[part[0]]) * measure.Fraction(i - part[0], part[1] - part[0]))
              for i in range(part[0], part[1] + 1)]
    parted = measure.dip(samples, *part)[4] > 20
    return "Scanned: dip %s %% at sample %d, %s wires: A %s, B %s, C %s. %s 20 %%: %sparted." % (
        percent, at, "dark" if sum(raised) < 0 else "light", a, b, c, "Above" if parted else "Not above",
        "" if parted else "not ")


PAIRS = {60: 9, 130: 6, 200: 4, 270: 3, 340: 1}  # the middle of each wire pair, and how far its wires are from it


def wires():
    """A film of wire pairs, dark on a slope, ever closer; the last pair is not parted."""
    dice, width, height = random.Random(19232), 400, 120
    dark = [0] * width
    for middle, apart in PAIRS.items():
        for wire in (middle - apart, middle + apart):
            for x in range(width):
                away = abs(x - wire)
                dark[x] += max(0, 600 - 150 * away)
    greys = [max(0, min(4095, 2600 + x - dark[x] + dice.randrange(60))) for _ in range(height) for x in range(width)]
    return expected.Film("wires.pgm", width, height, 4095, greys)


# ---- the ways ----

def line_by_keys(person, films):
    """A line by arrow keys alone: its length in pixels, in mm once a pitch is typed, and by a known length."""
    film = films.sample
    person.show(film)
    place(person, "l", 137, -42)
    line = line_of(person)
    same("the line's run", (line[2] - line[0], line[3] - line[1]), (137, -42))
    same("its length", person.text("line-length"), length_words(line))
    for pitch in ("50", "42.333333", "0.1", "10000"):
        taken(person, "pitch", pitch)
        same("its length by %s" % pitch, person.text("line-length"), length_words(line, pitch))
    taken(person, "known", "7.5")
    wanted = measure.pitch_of(line, measure.number("7.5", measure.MM))
    same("the pitch by 7.5 mm", person.value("pitch"), wanted)
    hold(person.text("line-length").startswith("7.500 mm"), "the known length is told as", person.text("line-length"))
    taken(person, "pitch", "")
    same("without a pitch", person.text("line-length"), length_words(line))
    return "%s; 7.5 mm give %s um" % (length_words(line), wanted)


def region_by_keys(person, films):
    """A region by arrow keys: mean, deviation, SNR and SNR_N of the scanned greys, whatever is rendered or displayed."""
    film = films.noisy
    person.show(film)
    place(person, "g", -83, 57)
    box = box_of(person.text("region-place"))
    same("its size", box[2:], (84, 58))
    same("greys", person.text("region-greys"), greys_words(film, box))
    taken(person, "resolution", "100.5")
    taken(person, "pitch", "50")
    same("greys with SR_b", person.text("region-greys"), greys_words(film, box, "100.5"))
    same("place", person.text("region-place"), "Region: " + box_words(box, "50"))
    told = person.text("region-greys")
    person.type("factor", "8")
    person.check("invert", True)
    person.type("level", "900")
    same("greys under another rendering and display", person.text("region-greys"), told)
    return told


def dips(person, films):
    """Duplex wires: the dip of each pair with one lane and with 21, and of a part of the line."""
    film = wires()
    person.show(film)
    told = []
    for middle in PAIRS:
        place(person, "l", 50, 0, (middle - 25, 40))
        line = line_of(person)
        same("the line", line, (middle - 25, 40, middle + 25, 40))
        for lanes in (1, 21):
            taken(person, "lanes", str(lanes))
            same("dip over %d lanes" % lanes, person.text("dip-told"), dip_words(film, line, lanes, (0, 50)))
        told.append(person.text("dip-told").split(":", 1)[1].split(" at")[0].strip())
    place(person, "l", 140, 3, (40, 60))
    line = line_of(person)
    for part in ((5, 40), (10, 30), (60, 120), (7, 9), (4, 4)):
        taken(person, "part-from", "0")
        taken(person, "part-to", str(part[1]))
        taken(person, "part-from", str(part[0]))
        if part[1] - part[0] >= 2:
            same("dip between %s" % (part,), person.text("dip-told"), dip_words(film, line, 21, part))
        else:
            hold("no dip" in person.text("dip-told"), "a dip of one sample:", person.text("dip-told"))
    return ", ".join(told)


BAD_UM = ["0", "0.0", "-5", "abc", "1e3", "1,5", "NaN", "Infinity", "10000.1", "0.05", "1.1234567", "5 0"]


def bad_numbers(person, films):
    """A pitch of 0 or no number, an even width, a part beyond the line: a plain sentence, and what was there still counts."""
    film = films.sample
    person.show(film)
    place(person, "l", 40, 30)
    line = line_of(person)
    taken(person, "pitch", "50")
    for name, what in (("pitch", "Pitch"), ("resolution", "Basic resolution")):
        for text in BAD_UM:
            taken(person, name, text)
            note = person.text("measure-note")
            hold(note.startswith("%s: “%s” is no number of µm from 0.1 to 10000" % (what, text)), "told of %r:" % text, note)
            same("the length", person.text("line-length"), length_words(line, "50"))
        person.keys(Keys.ESCAPE)
        same("left by Escape", person.value(name), "50" if name == "pitch" else "")
    for name, text in (("lanes", "2"), ("lanes", "0"), ("lanes", "103"), ("lanes", "x"), ("part-to", "51"), ("part-from", "-1")):
        taken(person, name, text)
        hold("“%s” is no" % text in person.text("measure-note"), name, text, "is taken:", person.text("measure-note"))
    taken(person, "known", "0")
    hold("no number of mm" in person.text("measure-note"), "a length of 0 is taken:", person.text("measure-note"))
    same("the length at last", person.text("line-length"), length_words(line, "50"))
    person.sees(film, film.usual())
    return "%d numbers" % (2 * len(BAD_UM) + 7)


def line_by_pointer(person, films):
    """A line and a region dragged on both pictures at 2:1, and one given up by Escape."""
    film = films.odd
    person.show(film)
    person.click("zoom-4-1")
    person.settled()
    for which in ("scanned", "rendered"):
        left, top = person.box("canvas-" + which)[:2]
        edge = person.sees(film, film.usual(), "4-1")
        dot = lambda x, y: (round(left + edge[0] + 4 * x + 2), round(top + edge[1] + 4 * y + 2))
        person.click("tool-line")
        person.drag(*dot(10, 12), *dot(10, 12))
        person.drag(*dot(10, 12), *dot(40, 33))
        same("the line on the %s picture" % which, line_of(person), (10, 12, 40, 33))
        person.click("tool-region")
        person.drag(*dot(30, 40), *dot(20, 25))
        same("the region", box_of(person.text("region-place")), (20, 25, 11, 16))
        same("greys", person.text("region-greys"), greys_words(film, (20, 25, 11, 16)))
    person.keys("l", Keys.ENTER)
    go(person, 3, 3)
    hold(person.element("tool-told").is_displayed(), "the tool has not begun")
    person.keys(Keys.ESCAPE)
    hold(not person.element("tool-told").is_displayed(), "Escape does not give up")
    same("given up", line_of(person), (10, 12, 40, 33))
    return "lines and regions on both pictures"


WAYS = [line_by_keys, region_by_keys, dips, bad_numbers, line_by_pointer]
