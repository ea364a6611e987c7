"""Ways out: what is saved, and what is said."""

import hashlib
import json
import os
import re
import subprocess

import expected
from person import hold, picture_of, same
from ways_settings import set_now

PROGRAM = os.path.join(expected.TOP, "station/render")
MOST_OFF = 16  # shades


def rendered_by_the_station(person, name, words, base, program=(PROGRAM,)):
    """Has station/render, or another program, render a film with the page's names, and gives the film's and the record's bytes."""
    room = person.folder("station")
    with open(os.path.join(person.room, name), "rb") as file, open(os.path.join(room, name), "wb") as copy:
        copy.write(file.read())
    out, record = base + ".pgm", base + ".json"
    done = subprocess.run([*program, name, out, "--record", record, "--force", *words], cwd=room, capture_output=True, check=False)
    hold(done.returncode == 0, "%s:" % " ".join(program), done.stderr.decode())
    return [open(os.path.join(room, each), "rb").read() for each in (out, record)]


TRIALS = [
    ({}, []),
    ({"across": "4", "down": "12", "bins": "300", "factor": "1.7"}, ["--grid", "4x12", "--bins", "300", "--clip", "1.7"]),
    ({"across": "7", "down": "5", "bins": "128"}, ["--grid", "7x5", "--bins", "128"]),
    ({"clip": False}, ["--clip", "off"]),
    ({"factor": "1"}, ["--clip", "1"]),
    ({"bins": "0", "min": "3", "factor": "1.00000012"}, ["--bins", "0", "--range", "3:4095", "--clip", "1.00000012"]),
    ({"factor": "2.3456789"}, ["--clip", "2.3456789"]),
    ({"edition": "1986"}, ["--edition", "1986"]),
    ({"across": "7", "down": "5", "bins": "128", "factor": "1.4", "edition": "1986"},
     ["--grid", "7x5", "--bins", "128", "--clip", "1.4", "--edition", "1986"]),
    ({"clip": False, "edition": "1986"}, ["--clip", "off", "--edition", "1986"]),
]


def save_film_and_record(person, films):
    """The saved film is station/render's to the byte, and the record its --record; both name the film, its number, the settings
    and a piece of its digest."""
    film = films.sample
    person.file(film.name, film.file())
    for boxes, words in TRIALS:
        person.arrive()
        number = person.show(film)
        set_boxes(person, boxes)
        base = expected.saved_name(film, number, set_now(person))
        pgm, record = rendered_by_the_station(person, film.name, words, base)
        hold(person.saved_file(base + ".pgm", "save-pgm") == pgm, "not station/render's film:", words)
        same("the record with %s" % words, person.saved_file(base + ".json", "save-record").decode(), record.decode())
    return "%d settings" % len(TRIALS)


def set_boxes(person, boxes):
    """Types into boxes, sets switches, and chooses an edition."""
    for box, text in boxes.items():
        if isinstance(text, bool):
            person.check(box, text)
        elif box == "edition":
            person.click("edition-" + text)
            person.settled()
        else:
            person.type(box, text)


def two_films_of_one_name(person, films):
    """weld.pgm from two folders, two settings of each and both editions: six renderings of six names, and each record names the
    film that was saved with it and has that file's digest."""
    sides = [("one", films.sample), ("two", expected.Film("weld.pgm", films.twin.width, films.twin.height, films.twin.maxval,
                                                           films.twin.greys))]
    numbers = []
    for folder, film in sides:
        person.folder(folder)
        numbers += person.open(person.file(os.path.join(folder, "weld.pgm"), film.file()))
    names = set()
    for boxes in ({"factor": "3"}, {"factor": "3.0000002"}, {"edition": "1986"}):
        for number, (_, film) in zip(numbers, sides):
            person.choose(number)
            set_boxes(person, boxes)
            names.add(own_record(person, film, number))
    same("names", len(names), 6)
    return "6 renderings, 6 names, such as " + sorted(names)[0]


def own_record(person, film, number):
    """Saves film and record, and holds the record to the saved file; gives their name."""
    asked = set_now(person)
    base = expected.saved_name(film, number, asked)
    record = json.loads(person.saved_file(base + ".json", "save-record"))
    hold("not saved yet" in person.text("message"), "that the film is not saved is not told:", person.text("message"))
    pgm = person.saved_file(base + ".pgm", "save-pgm")
    same("what is told", person.text("message"), "Saved %s.pgm" % base)
    same("the file that the record names", record["output"]["file"], base + ".pgm")
    same("its digest", record["output"]["sha256"], hashlib.sha256(pgm).hexdigest())
    same("the film's digest", record["input"]["sha256"], expected.digest_of(film))
    same("its greys", expected.film_of("saved", pgm).greys, film.rendered(asked))
    return base


def save_shallow(person, films):
    """A film of 8 bits under a name that needs care in the record and that no file system takes, and one with a name of 240
    letters: the file has the name that its record says."""
    film = films.shallow
    odd = expected.Film('a "b" \\ é.pgm', film.width, film.height, film.maxval, film.greys)
    long = expected.Film("é" * 120 + ".pgm", film.width, film.height, film.maxval, film.greys)
    for number, each, name in ((1, odd, "a _b_ _ é.pgm"), (2, long, "é" * 50 + ".pgm")):
        person.choose(person.show(each))
        base = expected.saved_name(expected.Film(name, 0, 0, 0, []), number, film.usual(), film.file())
        pgm, record = rendered_by_the_station(person, each.name, [], base)
        hold(person.saved_file(base + ".pgm", "save-pgm") == pgm, "not station/render's film:", each.name)
        same("the record of " + each.name, person.saved_file(base + ".json", "save-record").decode(), record.decode())
    return "%r and %d letters" % (odd.name, len(long.name))


def save_plain(person, films):
    """Films that came as plain PGM, with the shortest samples too, are seen and saved as station/render writes them, raw, and the
    record is of the plain file."""
    film = films.sample
    dark = expected.Film("dark.pgm", 64, 48, 9, [(x * 7 + x // 64) % 10 for x in range(64 * 48)])
    for each, end in ((film, b"\n"), (film, b" \r\n"), (dark, b" ")):
        data = each.plain(end)
        person.arrive()
        number, = person.open(person.file(each.name, data))
        person.click("zoom-1-1")
        person.settled()
        asked = set_now(person)
        person.sees(each, asked)
        base = expected.saved_name(each, number, asked, data)
        pgm, record = rendered_by_the_station(person, each.name, [], base)
        hold(pgm.startswith(b"P5"), "station/render writes another form")
        hold(person.saved_file(base + ".pgm", "save-pgm") == pgm, "not station/render's film")
        same("the record", person.saved_file(base + ".json", "save-record").decode(), record.decode())
    return "%d and %d bytes of text" % (len(film.plain()), len(dark.plain(b" ")))


HOOK_TEXT = """
window.drawn = [];
const fillText = CanvasRenderingContext2D.prototype.fillText;
CanvasRenderingContext2D.prototype.fillText = function (text, x, y) {
  if (!this.canvas.isConnected) drawn.push({text, x, y, font: this.font, right: x + this.measureText(text).width,
    width: this.canvas.width, height: this.canvas.height});
  return fillText.call(this, text, x, y);
};
"""

# The caption's dots once more, from the texts that were drawn, black on white.
REDRAW = """
const [lines, from] = arguments, [{width, height, font}] = lines, canvas = document.createElement('canvas');
canvas.width = width; canvas.height = height - from;
const pen = canvas.getContext('2d');
pen.fillStyle = '#fff'; pen.fillRect(0, 0, width, height); pen.fillStyle = '#000'; pen.font = font; pen.textBaseline = 'top';
for (const {text, x, y} of lines) pen.fillText(text, x, y - from);
const data = pen.getImageData(0, 0, canvas.width, canvas.height).data, dots = [];
for (let i = 0; i < data.length; i += 4) dots.push(data[i]);
return dots;
"""


def caption(film, number, asked, display, part):
    """What has to stand beneath a view."""
    limit, factor, used = expected.footer_of(film, asked)
    by, own = ("own regions of side %d" % asked.side, asked.settings) if isinstance(asked, expected.Regions) else (
        "grid %d by %d" % (asked.across, asked.down), asked)
    return " ".join([
        "%s, film %d: %d × %d pixels, maxval %d" % (film.name, number, film.width, film.height, film.maxval),
        "SHA-256 " + expected.digest_of(film),
        "Rendering by Tzofnadir %s: %s, %d bins, range %d to %d, factor asked %.9g, used %s, L %d, %s" % (
            open(os.path.join(expected.TOP, "VERSION"), encoding="utf-8").read().strip(), by, own.bins, own.min, own.max, factor,
            ("%.5f" % used).rstrip("0").rstrip("."), limit, "edition of 1986" if own.edition else "our edition"),
        display, part, "Film density is not read off the rendered picture."])


def view_saved(person, name, height):
    """Saves the view under this name; gives the PNG's rows and the caption's words, and holds the caption's dots to them."""
    person.script("drawn.length = 0")
    sheet = picture_of(person.saved_file(name + ".png", "save-png"))
    lines = person.script("return drawn")
    same("size of the PNG", [len(sheet[0]), len(sheet)], [lines[0]["width"], lines[0]["height"]])
    hold(max(line["right"] for line in lines) <= len(sheet[0]), "the caption is cut off on the right")
    hold(max(line["y"] for line in lines) + 13 <= len(sheet), "the caption is cut off beneath")
    # a letter's edge may come out a few shades off on another canvas; another letter is off by far more
    wanted = person.script(REDRAW, lines, height)
    seen = [dot for row in sheet[height:] for dot in row]
    same("the caption's dots", len(seen), len(wanted))
    far = max(abs(part - shade) for dot, shade in zip(seen, wanted) for part in dot)
    hold(far <= MOST_OFF, "a dot of the caption is %d shades off" % far)
    return sheet, " ".join(" ".join(line["text"] for line in lines).split())


def save_view(person, films):
    """The view as PNG: side by side, with the divider, and in turn, it is what is on the canvases, and beneath it stands what it
    is: film, number, digest, sizes, settings, display and part."""
    film, number = films.odd, person.show(films.odd)
    asked = film.usual()
    named = lambda words: expected.view_name(film, number, asked, words)
    person.script(HOOK_TEXT)
    person.click("zoom-4-1")
    person.settled()
    left, right = [person.canvas(which) for which in ("scanned", "rendered")]
    plain = "Display: level 2048, window 4096, not inverted: black 0, white 4095"
    part = "Part: columns 0 to 76, rows 0 to 62, at 4:1, pixels as squares, not smoothed; "
    end = "-4to1-columns0to76-rows0to62-level2048-window4096"
    sheet, words = view_saved(person, named("side" + end), left.height)
    same("beneath the view", words, caption(film, number, asked, plain, part + "left as scanned, right rendered"))
    gap = len(sheet[0]) - left.width - right.width
    hold(gap >= 0, "the sheet is too narrow")
    held_to(sheet, left, 0, left.width)
    held_to(sheet, right, left.width + gap, right.width)
    person.click("mode-divide")
    person.settled()
    left, right = [person.canvas(which) for which in ("scanned", "rendered")]
    half = left.width // 2
    cut = (left.width + 1) // 2  # the middle, rounded as it is shown
    sheet, words = view_saved(person, named("divide%d" % cut + end), left.height)
    hold(re.search(r"as scanned in its first %d|%d columns of dots" % (half, half + 1), words), "beneath the view:", words)
    held_to(sheet, left, 0, half - 1)
    held_to([row[half + 1:] for row in sheet], right, -half - 1, right.width - half - 1)
    person.click("mode-turn")
    person.settled()
    for shown, alone in (("rendered", "rendered alone"), ("scanned", "as scanned alone")):
        sheet, words = view_saved(person, named("turn-" + shown + end), left.height)
        hold(alone in words, "beneath the view:", words)
        held_to(sheet, person.canvas(shown), 0, len(sheet[0]))
        person.keys("b")
    return "side by side, divider, in turn both"


def save_part_of_view(person, films):
    """A part of a film under a long name, with other settings and display, in a narrow window: the caption is whole and in
    lines, and the name says what is shown."""
    film = expected.Film("n" * 150 + ".pgm", films.noisy.width, films.noisy.height, films.noisy.maxval, films.noisy.greys)
    film.kept = films.noisy.kept
    person.arrive(1280, 720)
    person.script(HOOK_TEXT)
    number = person.show(film)
    set_boxes(person, {"factor": "1.75", "bins": "200", "edition": "1986", "level": "1500", "width": "1000", "invert": True})
    person.click("zoom-1-1")
    person.settled()
    asked = set_now(person)
    edge = person.sees(film, asked, table=expected.shades(1500, 1000, True))
    canvas = person.canvas("scanned")
    columns, rows = (-edge[0], -edge[0] + canvas.width - 1), (-edge[1], -edge[1] + canvas.height - 1)
    name = expected.view_name(film, number, asked, "side-1to1-columns%dto%d-rows%dto%d-level1500-window1000-inverted" % (
        *columns, *rows), film.file())
    _, words = view_saved(person, name, canvas.height)
    wanted = caption(film, number, asked, "Display: level 1500, window 1000, inverted: white 1000, black 1999",
                     "Part: columns %d to %d, rows %d to %d, at 1:1, pixel for pixel; left as scanned, right rendered" % (
                         *columns, *rows))
    same("beneath the view", words.replace(" ", ""), wanted.replace(" ", ""))
    return "columns %d to %d, rows %d to %d" % (*columns, *rows)


def save_view_of_two(person, films):
    """Two films beside each other, each with settings and display of its own: the name has both, cut to what a file system takes,
    and beneath the view stands what each of them is."""
    one, two = films.sample, expected.Film("t" * 120 + ".pgm", films.twin.width, films.twin.height, films.twin.maxval, films.twin.greys)
    first, second = person.open(*[person.file(film.name, film.file()) for film in (one, two)])
    person.script(HOOK_TEXT)
    person.choose(second)
    set_boxes(person, {"factor": "1.00000012", "across": "16", "edition": "1986", "level": "1777", "width": "1111", "invert": True})
    asked = set_now(person)
    person.script("document.getElementById('stage').focus()")
    person.keys("4", "0")
    for number, shown in ((second, "rendered"), (first, "rendered"), (first, "scanned")):
        person.choose(number)
        before = set(os.listdir(person.saved))
        person.script("drawn.length = 0")
        person.click("save-png")
        name = person.until("a view", lambda: next((each for each in set(os.listdir(person.saved)) - before if each.endswith(".png")), None))
        person.settled()
        words = " ".join(" ".join(line["text"] for line in person.script("return drawn")).split()).replace(" ", "")
        hold(len(name.encode()) <= 254 and ("pair-" + shown) in name, "the name is", name)
        for film, own, told in ((one, one.usual(), "level2048,window4096,notinverted"), (two, asked, "level1777,window1111,inverted")):
            hold(expected.digest_of(film) in words and told in words, "beneath it stands", words)
            hold(("L%d,%s" % (expected.footer_of(film, own)[0], ("ouredition", "editionof1986")[own.edition])) in words, "beneath it stands", words)
        person.keys(*["b"] * (number == first))
    same("views saved", len({each for each in os.listdir(person.saved) if "-view-pair-" in each}), 3)
    return "three views, three names"


def held_to(sheet, canvas, shift, width):
    """Holds a part of a sheet to a canvas; the canvas begins at `shift`, and `width` columns are looked at."""
    for y in range(canvas.high):
        for x in range(canvas.wide):
            at = canvas.left + x + shift
            if 0 <= at < len(sheet[0]) and (shift <= 0 or canvas.left + x < width) and (shift != 0 or at < width):
                same("dot %d, %d of the PNG" % (at, canvas.top + y), sheet[canvas.top + y][at],
                     (canvas.shades[y * canvas.wide + x],) * 3)


def too_deep_to_save(person, films):
    """A range above the file's maxval renders greys that the file cannot hold: refused, and the film stays."""
    film = films.shallow
    person.show(film)
    person.type("max", "4095")
    person.click("save-pgm")
    person.until("a message", lambda: expected.sentences()[26] in person.text("message"))
    hold(not person.canvas("rendered").blank(), "the picture is gone")
    return "refusal 26 in the foot"


def what_is_proved(person, films):
    """The panel says what is proved and what is not; the foot always says that density is not read off."""
    same("in the foot", person.text("density"), "Film density is not read off the rendered picture.")
    person.click("proved")
    panel = person.element("proved-panel")
    hold(panel.is_displayed(), "the panel does not open")
    for word in ("Proved", "Not proved", "WebAssembly", "browser", "page's own code", "12 bits", "density is not read off"):
        hold(word in panel.text, "the panel does not say:", word)
    person.click("proved-close")
    hold(not panel.is_displayed(), "the panel does not close")
    person.script("document.getElementById('stage').focus()")
    person.keys("?")
    hold(person.element("keys-panel").is_displayed(), "the list of keys does not open")
    return "panel, foot and keys"


WAYS = [save_film_and_record, two_films_of_one_name, save_shallow, save_plain, save_view, save_part_of_view, save_view_of_two, too_deep_to_save,
        what_is_proved]
