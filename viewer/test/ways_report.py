"""Ways of reporting: a report made, printed and saved, opened again with its film, and refused with any other."""

import base64
import hashlib
import json
import os

from selenium.webdriver.common.keys import Keys

import expected
import measure
from person import hold, picture_of, same
from ways_hand import ASKS
from ways_marks import listed, mark, rectangle
from ways_measure import box_of, film_of, line_of, place, taken, um
from ways_settings import set_now

TEXTS = ("a pore & <i>more</i>", "")


# ---- a reading ----

def read_film(person, film, edition=0):
    """Settings, display, pitch, a line, a region and two marks, by keys; gives what was read."""
    person.type("factor", "2.3456789")
    person.type("across", "7")
    person.click("edition-" + expected.EDITIONS[edition])
    person.type("level", "1900")
    person.type("width", "3000")
    taken(person, "pitch", "42.333333")
    taken(person, "resolution", "100")
    place(person, "l", 61, 17)
    taken(person, "lanes", "5")
    taken(person, "part-from", "3")
    place(person, "g", 30, -20)
    boxes = [mark(person, 24, 13, "2011", TEXTS[0]), mark(person, -40, 8, "401", TEXTS[1])]
    return {"line": line_of(person), "region": box_of(person.text("region-place")), "marks": boxes,
            "asked": expected.settings(7, 8, 1024, 0, 4095, 2.3456789, edition)}


def made(person):
    """Opens the report by its key, and waits for it."""
    person.script("document.getElementById('stage').focus()")
    person.keys("p")
    person.until("the report", lambda: person.element("report-panel").is_displayed())


def saved(person, button, end):
    """Saves by a button of the report; gives the name and the bytes."""
    before = set(os.listdir(person.saved))
    person.click(button)
    name = person.until("saved *" + end, lambda: next((each for each in os.listdir(person.saved)
                                                       if each not in before and each.endswith(end)), None))
    person.settled()
    with open(os.path.join(person.saved, name), "rb") as file:
        return name, file.read()


def report_of(person):
    """Makes the report and saves its JSON; gives its name and bytes."""
    made(person)
    for each in os.listdir(person.saved):
        os.remove(os.path.join(person.saved, each))
    found = saved(person, "report-json", ".json")
    person.click("report-close")
    return found


# ---- what a report has to say ----

def seal_of(data):
    """The digest that a report names, and that of what stands before it."""
    at = data.rindex(b'  "report_sha256"')
    return json.loads(data)["report_sha256"], hashlib.sha256(data[:at]).hexdigest()


def greys_told(film, box, resolution):
    """A rectangle's numbers as the JSON has them."""
    pixels, least, most, mean, deviation, snr, normal = measure.region(film_of(film), box, um(resolution))
    number = lambda text: None if text is None else float(text)
    return {"pixels": pixels, "least": least, "greatest": most, "mean": number(mean), "deviation": number(deviation),
            "snr": number(snr), "snr_n": number(normal)}


def box_told(film, box, pitch, resolution):
    """A rectangle as the JSON has it."""
    sides = dict(zip(("left", "top", "width", "height"), box))
    mm = dict(zip(sides, [float(text) for text in measure.rectangle_mm(box, um(pitch))]))
    return {**sides, "mm": mm, "scanned": greys_told(film, box, resolution)}


def line_told(film, line, lanes, part, pitch):
    """A line as the JSON has it."""
    samples = measure.profile(film_of(film), line, lanes)
    pixels, mm = measure.distance(line, um(pitch))
    found = measure.dip_shown(samples, *part)
    dip = None if found is None else dict(zip(("at", "a", "b", "c", "percent"), [found[0]] + [float(x) for x in found[1:]]))
    return {**dict(zip(("x0", "y0", "x1", "y1"), line)), "lanes": lanes, "from": part[0], "to": part[1],
            "distance_pixels": float(pixels), "distance_mm": float(mm),
            "samples": [float(measure.shown(grey, 2)) for grey in samples], "dip": dip}


def shots_held(film, asked, told, table):
    """Holds a mark's two pictures to the scan and to the second program's rendering, dot by dot; gives how many dots."""
    left, top, width, height = [told["picture"][side] for side in ("left", "top", "width", "height")]
    same("the picture's block", told["picture"]["block"], 1)
    for side, greys in (("scanned", film.greys), ("rendered", film.rendered(asked))):
        rows = picture_of(base64.b64decode(told["picture"][side]))
        wanted = [[(table[grey],) * 3 for grey in greys[y * film.width + left:y * film.width + left + width]]
                  for y in range(top, top + height)]
        same("mark %d as %s" % (told["number"], side), rows, wanted)
    return 2 * width * height


def record_held(film, asked, value, output):
    """Holds the record's members to the second program."""
    limit, factor, used = expected.footer_of(film, asked)
    size = {"width": film.width, "height": film.height, "maxval": film.maxval}
    data = film.file()
    with open(os.path.join(expected.TOP, "VERSION"), encoding="utf-8") as file:
        same("made by", [value["program"], value["version"]], ["tzofnadir", file.read().strip()])
    same("input", value["input"], {"file": film.name, "sha256": hashlib.sha256(data).hexdigest(), "bytes": len(data), **size})
    same("output", value["output"], {"file": output["name"], "sha256": hashlib.sha256(output["data"]).hexdigest(),
                                     "bytes": len(output["data"]), **size})
    same("settings", value["settings"], {"across": asked.across, "down": asked.down, "bins": asked.bins, "min": asked.min,
                                         "max": asked.max, "clip": True, "factor": float("%.9g" % factor),
                                         "edition": expected.EDITIONS[asked.edition], "by_bytes": False})
    same("footer", [value["limit"], value["factor_asked"], value["factor_used"]], [limit, float("%.9g" % factor), used])


# ---- the ways ----

def report_held(person, films):
    """Every number of a report by the second program, its pictures dot by dot, and its own digest; in both editions."""
    said = []
    for edition in expected.EDITIONS:
        person.arrive()
        said.append(one_held(person, films.sample, edition))
    return "; ".join(said)


def one_held(person, film, edition):
    """A reading's report in one edition; gives what was seen."""
    person.show(film)
    read = read_film(person, film, edition)
    name, data = report_of(person)
    value = json.loads(data)
    told = value["report"]
    same("the seal", *seal_of(data))
    rendered = expected.Film("x", film.width, film.height, film.maxval, film.rendered(read["asked"]))
    record_held(film, read["asked"], value, {"name": value["output"]["file"], "data": rendered.file()})
    same("form and edition", [told["form"], told["edition"]], [2, expected.EDITIONS[edition]])
    same("display", told["display"], {"level": 1900, "width": 3000, "invert": False, "auto": False})
    same("pitch and resolution", [told["pitch_um"], told["resolution_um"], told["measured"]], [42.333333, 100, "scanned"])
    steps = measure.steps(read["line"])
    same("the line", told["line"], line_told(film, read["line"], 5, (3, steps), "42.333333"))
    same("the region", told["region"], box_told(film, read["region"], "42.333333", "100"))
    dots = 0
    for number, (box, kind, text) in enumerate(zip(read["marks"], ("2011", "401"), TEXTS), 1):
        one = told["marks"][number - 1]
        same("mark %d" % number, {key: each for key, each in one.items() if key not in ("picture", "name")},
             {"number": number, "kind": kind, "text": text, **box_told(film, box, "42.333333", "100")})
        dots += shots_held(film, read["asked"], one, expected.shades(1900, 3000))
    return "%s: %d bytes, %d dots" % (name, len(data), dots)


def large_mark(person, films):
    """A mark of more than 512 pixels: its picture is of means, each the mean of its block of the film, and the report is opened
    again."""
    film = films.noisy
    person.show(film)
    mark(person, 3, 3, "2015", "")
    for side, text in (("left", "101"), ("top", "37"), ("width", "401"), ("height", "50")):
        taken(person, "mark-" + side, text)
    data = report_of(person)[1]
    told = json.loads(data)["report"]["marks"][0]["picture"]
    same("the part that is shown", [told[key] for key in ("left", "top", "width", "height", "block")], [0, 12, 704, 100, 2])
    table, wanted = expected.shades(2048, 4096), []
    for y in range(12, 112, 2):
        pairs = [film.greys[row * film.width:row * film.width + 704] for row in (y, y + 1)]
        sums = [pairs[0][x] + pairs[0][x + 1] + pairs[1][x] + pairs[1][x + 1] for x in range(0, 704, 2)]
        wanted.append([(table[(2 * sum_of + 4) // 8],) * 3 for sum_of in sums])
    same("its dots as scanned", picture_of(base64.b64decode(told["scanned"])), wanted)
    rendered = picture_of(base64.b64decode(told["rendered"]))
    same("its size as rendered", (len(rendered[0]), len(rendered)), (352, 50))
    person.arrive()
    person.element("open-input").send_keys("\n".join([person.file("large.json", data), person.file(film.name, film.file())]))
    person.until("the mark", lambda: len(listed(person)) == 1)
    return "704 by 100 pixels as 352 by 50 means"


def report_again(person, films):
    """Opened again with its film in a new page, a report brings everything back, and the report made then is the same file."""
    film = films.sample
    person.show(film)
    read = read_film(person, film, 1)
    texts = {name: person.text(name) for name in ("line-place", "line-length", "dip-told", "region-place", "region-greys")}
    marks, (name, data) = listed(person), report_of(person)
    for together in (True, False):
        person.arrive()
        report = person.file("again.json", data)
        if together:
            person.element("open-input").send_keys("\n".join([report, person.file(film.name, film.file())]))
        else:
            person.show(film)
            person.element("open-input").send_keys(report)
        person.until("the marks", lambda: listed(person) == marks)
        person.settled()
        same("what is told", {each: person.text(each) for each in texts}, texts)
        same("pitch", [person.value("pitch"), person.value("resolution"), person.value("lanes")], ["42.333333", "100", "5"])
        person.sees(film, read["asked"], table=expected.shades(1900, 3000))
        person.footed(film, read["asked"])
        again = report_of(person)
        hold(again == (name, data), "the report made again is another one:", again[0])
    return "%d bytes, twice" % len(data)


def report_without_edition(person, films):
    """A report of before there were two editions, of form 1, is read as ours and brings everything back."""
    film = films.sample
    person.show(film)
    read = read_film(person, film)
    marks, data = listed(person), report_of(person)[1]
    body = data[:data.rindex(b'  "report_sha256"')]
    for now, then in ((b'    "edition": "ours",\n    "by_bytes"', b'    "by_bytes"'), (b'"form": 2,', b'"form": 1,'),
                      (b'"edition": "ours"', b'"edition": "tzofnadir"')):
        same("places of %r" % now, body.count(now), 1)
        body = body.replace(now, then)
    old = body + b'  "report_sha256": "%s"\n}\n' % hashlib.sha256(body).hexdigest().encode()
    person.arrive()
    person.show(film)
    person.keys("e")
    person.element("open-input").send_keys(person.file("old.json", old))
    person.until("the marks", lambda: listed(person) == marks)
    person.settled()
    same("settings", set_now(person), read["asked"])
    person.sees(film, read["asked"], table=expected.shades(1900, 3000))
    hold(report_of(person)[1] == data, "the report made again is another one")
    return "%d bytes of form 1" % len(old)


def report_of_another_film(person, films):
    """A report with another film of the same size, or with none, is refused, both digests are named, and nothing is changed."""
    film, other = films.sample, films.twin
    person.show(film)
    read_film(person, film)
    data = report_of(person)[1]
    report = person.file("other.json", data)
    person.arrive()
    person.element("open-input").send_keys(report)
    text = fault_told(person)
    hold(expected.digest_of(film) in text and "is not open" in text, "told:", text)
    person.show(other)
    box = mark(person, 9, 9, "100", "mine")
    before = listed(person)
    person.element("open-input").send_keys(report)
    text = fault_told(person)
    for each in (film, other):
        hold(expected.digest_of(each) in text and each.name in text, each.name, "and its digest are not named:", text)
    same("marks", (listed(person), rectangle(person)), (before, box))
    person.sees(other, other.usual())
    return text[:80] + " .."


def fault_told(person):
    """What the page says of a report that is not opened; closes it by a key."""
    person.until("a sentence", lambda: person.element("fault-panel").is_displayed())
    text = person.text("fault-text")
    person.keys(Keys.ENTER)
    hold(not person.element("fault-panel").is_displayed(), "the sentence does not go away")
    return text


def sealed_anew(data, change):
    """A report changed and sealed anew, as one would who knows how."""
    value = json.loads(data)
    change(value)
    del value["report_sha256"]
    body = json.dumps(value, indent=2, ensure_ascii=False)[:-2].encode() + b",\n"
    return body + b'  "report_sha256": "%s"\n}\n' % hashlib.sha256(body).hexdigest().encode()


def at(*path):
    """A change of one member."""
    def change(value):
        for key in path[:-2]:
            value = value[key]
        value[path[-2]] = path[-1]
    return change


BAD = [
    ("outside", at("report", "marks", 0, "left", 511), "mark 1 lies outside the film: column 511"),
    ("pitch0", at("report", "pitch_um", 0), "pixel pitch is 0, and no number of µm"),
    ("pitchword", at("report", "pitch_um", "fine"), "pixel pitch is \"fine\", and no number of µm"),
    ("moved", at("report", "marks", 0, "top", 3), "give another answer here"),
    ("number", at("report", "marks", 1, "scanned", "mean", 1.25), "give another answer here"),
    ("limit", at("limit", 1), "give another answer here"),
    ("bins", at("settings", "bins", 9999), "its settings are refused, "),
    ("edition", at("settings", "edition", "1986"), "its edition is “ours”, and its settings name “1986”"),
    ("another", at("settings", "edition", "1987"), "its settings, its display or its names are not of this page"),
]


def bad_reports(person, films):
    """Truncated, altered and impossible reports: a plain sentence, and film, marks and pictures stay as they were."""
    film = films.sample
    person.show(film)
    read = read_film(person, film)
    before, data = listed(person), report_of(person)[1]
    trials = [("half", data[:len(data) // 2], "it breaks off"), ("less", data[:-5], "it breaks off"), ("empty", b"", "it is empty"),
              ("noise", bytes(range(256)) * 9, "it is no text"), ("prose", b"{\"a\": 1}", "it is no report"),
              ("altered", data.replace(b'"level": 1900', b'"level": 1901'), "it was changed since it was saved")]
    trials += [(name, sealed_anew(data, change), words) for name, change, words in BAD]
    for name, bytes_of, words in trials:
        person.element("open-input").send_keys(person.file("bad-%s.json" % name, bytes_of))
        text = fault_told(person)
        hold(words in text and "bad-%s.json" % name in text, name, "is told as:", text)
        same("marks", listed(person), before)
        same("films", len(person.entries()), 1)
    person.sees(film, read["asked"], table=expected.shades(1900, 3000))
    return "%d reports" % len(trials)


def reading_not_saved(person, films):
    """The page asks before it is left while marks are in no report, and not once a report is saved or opened."""
    film = films.odd
    person.show(film)
    hold(not person.script(ASKS), "it asks though nothing was done")
    mark(person, 5, 5, "100", "")
    hold(person.script(ASKS), "it does not ask though a mark is not saved")
    data = report_of(person)[1]
    hold(not person.script(ASKS), "it asks though the report is saved")
    taken(person, "mark-width", "9")
    hold(person.script(ASKS), "it does not ask behind a later change")
    person.element("open-input").send_keys(person.file("kept.json", data))
    person.until("the mark as it was", lambda: size_listed(person) == "6 × 6")
    person.settled()
    hold(not person.script(ASKS), "it asks though the report was opened")
    return "asked for marks, not behind the report"


def size_listed(person):
    """The size that the list tells of its first mark."""
    return listed(person)[0].split(", ")[1].replace(" pixels", "")


PRINTED = """const seen = [...document.body.querySelectorAll('*')].filter(each => each.checkVisibility());
return {text: document.getElementById('report-sheet').innerText, others: seen.filter(each =>
  !each.closest('#report-panel') && each.getBoundingClientRect().height > 0).map(each => each.id || each.tagName)}"""


def by_keyboard_alone(person, films):
    """From opening a film to a printed report without a pointer: o and the browser's own dialog, the edition, the pitch, a line, a
    region and a mark, p and Enter."""
    film = films.sample
    person.script("window.printed = 0; window.print = () => { window.printed++; };")
    person.open_by_key("o", person.file(film.name, film.file()))
    person.keys("e", "u", *"50", Keys.ENTER, Keys.ESCAPE)
    same("the pitch", person.value("pitch"), "50")
    place(person, "l", 33, 5)
    place(person, "g", 12, 12)
    mark(person, 14, 9, "100", "a crack along the bead")
    person.keys("p")
    person.until("the report", lambda: person.element("report-panel").is_displayed())
    same("the focus", person.script("return document.activeElement.id"), "report-print")
    person.keys(Keys.ENTER)
    same("printed", person.script("return window.printed"), 1)
    person.tell("Emulation.setEmulatedMedia", media="print")
    seen = person.script(PRINTED)
    pdf = base64.b64decode(person.tell("Page.printToPDF", printBackground=True)["data"])
    person.tell("Emulation.setEmulatedMedia", media="")
    for words in (film.name, expected.digest_of(film), "100 crack", "a crack along the bead", "not read off the rendered picture",
                  "scanned greys", "as scanned", "rendered", "L 9", "1986", "50 µm", "mm"):
        hold(words in seen["text"], "the printed page does not say:", words)
    hold(seen["others"] in ([], ["HTML"]), "printed beside the report:", seen["others"][:5])
    hold(pdf.startswith(b"%PDF") and len(pdf) > 8000, "no PDF:", len(pdf))
    person.keys(Keys.ESCAPE)
    hold(not person.element("report-panel").is_displayed(), "the report does not close")
    return "a PDF of %d bytes" % len(pdf)


def saved_page(person, films):
    """The saved page stands alone: opened from the disk it shows the same words and pictures, and asks for nothing."""
    film = films.sample
    person.show(film)
    mark(person, 24, 13, "2011", TEXTS[0])
    made(person)
    shown = person.script("return document.getElementById('report-sheet').textContent")
    name, data = saved(person, "report-html", ".html")
    person.driver.get("file://" + person.file("page.html", data))
    same("its words", person.script("return document.body.textContent.trim()"), shown.strip())
    sizes = person.script("return [...document.images].map(each => [each.naturalWidth, each.complete])")
    same("its pictures", [each[1] and each[0] > 0 for each in sizes], [True, True])
    return "%s, %d bytes" % (name, len(data))


WAYS = [report_held, large_mark, report_again, report_without_edition, report_of_another_film, bad_reports, reading_not_saved, by_keyboard_alone,
        saved_page]
