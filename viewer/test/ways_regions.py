"""Ways with own regions: each pixel rendered by the region around it, held to the second program (second/around.py), which counts
every region anew."""

import hashlib
import json
import os
import random

from selenium.webdriver.common.keys import Keys

import expected
from person import hold, same
from ways_load import ALONE, MOST_HOLD, SHARED, WATCH, held_by, told_no_room
from ways_marks import listed, mark
from ways_out import HOOK_TEXT, caption, rendered_by_the_station, view_saved
from ways_reach import MARKED, point_at
from ways_report import report_of, seal_of, shots_held
from ways_settings import PLOTTED, set_now


def regions_now(person):
    """The settings that the page shows, of own regions."""
    same("own regions chosen", person.element("by-region").get_attribute("aria-pressed"), "true")
    return expected.Regions(int(person.value("side")), set_now(person))


def as_regions(person, film, zoom="1-1", **changed):
    """Holds pictures, footer and what is said to the settings that are shown, and these to what was set."""
    asked = regions_now(person)
    for name, value in changed.items():
        same(name, asked.side if name == "side" else getattr(asked.settings, name), value)
    place = person.sees(film, asked, zoom)
    person.footed(film, asked)
    words = "rendered, own regions of side %d" % asked.side
    hold(words in person.text("label-rendered"), "above the picture:", person.text("label-rendered"))
    return asked, place


def at_one(person, film):
    """Opens a film, chooses own regions, and looks at it at 1:1; gives its number."""
    number = person.show(film)
    person.choose(number)
    person.click("by-region")
    person.settled()
    person.click("zoom-1-1")
    person.settled()
    return number


def own_regions(person, films):
    """Own regions by button and key, their side by box, slider and keys: small and large ones, up to more than the film has, in both
    editions, clip off and at factor 1.0; each picture is the second program's to the last dot, borders too, and the grid's comes
    back."""
    film, before = films.odd, films.odd.usual()
    at_one(person, film)
    as_regions(person, film, side=31)
    hold(not person.element("across").is_displayed() and person.element("side").is_displayed(), "the grid's boxes stay")
    person.type("side", "3")
    as_regions(person, film, side=3)
    person.slide("side-slider", Keys.END)
    as_regions(person, film, side=63)
    person.script("document.getElementById('stage').focus()")
    person.keys("<", "<")
    as_regions(person, film, side=59)
    person.keys(">", ">", ">", "e")
    as_regions(person, film, side=63, edition=1)
    person.type("bins", "64")
    person.type("factor", "1.4")
    as_regions(person, film, bins=64)
    person.check("clip", False)
    as_regions(person, film, clip=None)
    person.type("factor", "1")
    as_regions(person, film)
    hold("unchanged" in person.text("footer-note"), "factor 1.0 is not told:", person.text("footer-note"))
    person.type("factor", "3")
    person.check("bins-chosen", True)
    person.script("document.getElementById('stage').focus()")
    person.keys("e", "a")
    same("own regions behind the key", person.element("by-region").get_attribute("aria-pressed"), "false")
    hold(person.element("across").is_displayed() and not person.element("side").is_displayed(), "the side's box stays")
    person.sees(film, before)
    person.footed(film, before)
    hold("own regions" not in person.text("label-rendered"), "above the picture:", person.text("label-rendered"))
    person.keys("a")
    as_regions(person, film, side=63, edition=0)
    return "sides 3, 31, 59 and 63, in six settings, and the grid again"


def one_pixel_film(person, films):
    """Films that no grid fits: refused by the grid, and shown by own regions."""
    sentences = expected.sentences()
    for width, height, number in ((1, 1, 5), (9, 1, 6), (1, 7, 5)):
        film = expected.Film("tiny%d.pgm" % (10 * width + height), width, height, 255, [(37 * i) % 256 for i in range(width * height)])
        person.choose(person.show(film))
        person.refused(number, sentences[number])
        person.click("by-region")
        person.settled()
        person.click("zoom-8-1")
        person.settled()
        as_regions(person, film, "8-1", side=31)
    return "1 by 1, 9 by 1 and 1 by 7"


REFUSED = [(39, {"side": "32"}), (39, {"side": "0"}), (39, {"side": "1"}), (39, {"side": "65"}), (39, {"side": "4294967295"}),
           (39, {"side": "2", "max": "4096"}), (7, {"max": "4096"}), (8, {"min": "4095"}), (9, {"bins": "4097"}),
           (31, {"bins": "2000", "max": "1998"}), (10, {"factor": "0.99"}), (13, {"max": "100"}), (13, {"min": "4000"})]


def refused_regions(person, films):
    """Sides that are none, by their sentence, and the other refusals in their order; the other film stays, and a good setting brings
    the picture back."""
    sentences = expected.sentences()
    film = films.odd
    second, first = person.open(*[person.file(each.name, each.file()) for each in (films.small, film)])
    person.choose(first)
    person.click("by-region")
    person.settled()
    person.click("zoom-1-1")
    person.settled()
    for number, boxes in REFUSED:
        before = {box: person.value(box) for box in boxes}
        for box, text in boxes.items():
            person.type(box, text)
        person.refused(number, sentences[number])
        if number == 39:
            more = person.text("refusal-more")
            hold("side %s" % boxes["side"] in more and "odd sides from 3 to 63" in more, "more is:", more)
        person.choose(second)
        hold(not person.canvas("rendered").blank(), "the other film does not draw")
        person.choose(first)
        person.refused(number, sentences[number])
        for box, text in before.items():
            person.type(box, text)
        person.check("bins-chosen", True)
        hold(not person.element("refusal").is_displayed(), "%d: the refusal stays behind a good setting" % number)
    as_regions(person, film, side=31)
    return "%d settings, refusals %s" % (len(REFUSED), sorted({number for number, _ in REFUSED}))


def regions_zoomed(person, films):
    """Own regions at each fixed zoom and at others, turned and mirrored, moved by keys: means and squares of the second program's
    picture."""
    film = films.odd
    at_one(person, film)
    person.type("side", "15")
    for zoom in ("1-4", "1-2", "1-1", "2-1", "4-1", "8-1"):
        person.click("zoom-" + zoom)
        person.settled()
        asked, _ = as_regions(person, film, zoom)
    for way in ((-1, 0), (0, -1)):
        person.drag(400, 500, 400 + 150 * way[0], 500 + 150 * way[1])
        as_regions(person, film, "8-1")
    person.click("zoom-1-2")
    for _ in range(3):
        person.click("turn-right")
        person.settled()
    person.sees(film, asked, "1-2", turn=(False, 3))
    person.click("flip")
    person.settled()
    person.sees(film, asked, "1-2", turn=(True, 1))
    return "six zooms, moved, turned and mirrored"


def region_read(person, films):
    """The pixel's own region, at the film's corners, beside its border and inside: its rectangle, its outline in both pictures, and
    its pixels, counts, limit, mapping, E and looks in the plot, in both editions; at factor 1.0 nothing is mapped."""
    film = films.odd
    at_one(person, film)
    person.click("zoom-4-1")
    person.settled()
    for side in ("9", "31"):
        person.type("side", side)
        for edition in ("ours", "1986"):
            person.click("edition-" + edition)
            person.settled()
            asked, edge = as_regions(person, film, "4-1")
            for x, y in ((0, 0), (film.width - 1, film.height - 1), (3, 30), (40, 20)):
                read_region(person, film, asked, edge, x, y)
    person.type("factor", "1")
    same("at factor 1.0", person.text("tile-note"), "factor 1.0: nothing is mapped")
    same("used then", person.text("used-0"), "its own grey alone: factor 1.0")
    return "16 regions"


def read_region(person, film, asked, edge, x, y):
    """Points at a pixel, and holds what is read of it and plotted of its region to the second program."""
    point_at(person, edge, x, y)
    own, plot = film.region_plot(x, y, asked)
    seen = [person.text("at-" + name) for name in ("scanned", "rendered", "kind", "tile", "rectangle")] + [person.text("used-0")]
    same("read at %d, %d" % (x, y), seen, [
        str(film.greys[y * film.width + x]), str(film.grey_at(x, y, asked)), "region",
        "%d by %d pixels" % (own.right - own.left, own.bottom - own.top),
        "columns %d to %d, rows %d to %d" % (own.left, own.right - 1, own.top, own.bottom - 1), "its own region alone"])
    same("the plot of the region of %d, %d" % (x, y), person.script(PLOTTED), plot)
    same("beside it", person.text("tile-note"), "E %d, looks %d%s" % (
        plot["excess"], plot["looks"], " (edition of 1986: no walk)" if asked.settings.edition else ""))
    box = [edge[0] + 4 * own.left, edge[1] + 4 * own.top, 4 * (own.right - own.left), 4 * (own.bottom - own.top)]
    for wanted in ([box], [box], []):  # the region is the tile that it lies in, and all that is used
        person.keys("t")
        same("outlined at %d, %d" % (x, y), person.script(MARKED), [wanted, wanted])


def regions_reached(person, films):
    """What a region of the film can reach by own regions: half a side on each side of it, cut off at the border; at factor 1.0
    itself alone."""
    film = films.odd
    at_one(person, film)
    person.type("side", "21")
    person.click("zoom-4-1")
    person.settled()
    _, edge = as_regions(person, film, "4-1")
    left, top, _, _ = person.box("canvas-scanned")
    for x, y, right, bottom in ((5, 30, 20, 40), (40, 2, 41, 3), (70, 55, 76, 62)):
        person.click("tool-region")
        person.drag(left + edge[0] + 4 * x + 1, top + edge[1] + 4 * y + 1, left + edge[0] + 4 * right + 1, top + edge[1] + 4 * bottom + 1)
        far = [at for at in range(film.width) if any(abs(at - each) <= 10 for each in range(x, right + 1))]
        low = [at for at in range(film.height) if any(abs(at - each) <= 10 for each in range(y, bottom + 1))]
        same("reached by %d, %d to %d, %d" % (x, y, right, bottom), person.text("region-reach-told"),
             "columns %d to %d, rows %d to %d" % (far[0], far[-1], low[0], low[-1]))
    person.type("factor", "1")
    same("reached at factor 1.0", person.text("region-reach-told"), "itself: factor 1.0")
    return "three regions, at factor 1.0 too"


def regions_undone(person, films):
    """To and fro between grid and own regions are steps of their own, and so are sides: undo and redo bring back picture, boxes and
    what is chosen. Copied settings carry them, and each of two films keeps its own."""
    film, other = films.odd, expected.noisy("other.pgm", 60, 50)
    first, second = person.open(*[person.file(each.name, each.file()) for each in (film, other)])
    person.choose(first)
    person.click("zoom-1-1")
    person.settled()
    person.script("document.getElementById('stage').focus()")
    person.keys("a", "a", "a")
    person.type("side", "7")
    as_regions(person, film, side=7)
    for key, around, side in (("z", 1, 31), ("z", 0, None), ("z", 1, 31), ("z", 0, None), ("y", 1, 31), ("y", 0, None), ("y", 1, 31), ("y", 1, 7)):
        person.control(key)
        if around:
            as_regions(person, film, side=side)
        else:
            person.sees(film, film.usual())
    person.click("copy")
    hold("own regions of side 7" in person.text("copy-from"), "what is copied:", person.text("copy-from"))
    person.click("copy-%d" % second)
    person.click("copy-do")
    person.choose(second)
    person.click("zoom-1-1")
    person.settled()
    as_regions(person, other, side=7)
    person.control("z")
    person.sees(other, other.usual())
    person.choose(first)
    as_regions(person, film, side=7)
    return "eight steps, and settings copied"


COMMAND = (os.path.join(expected.TOP, "target/station/tzofnadir"), "around")


def regions_saved(person, films):
    """Film and record of own regions: the command line's bytes, with names that have the side, the second program's picture, the
    record's side and no grid; the view's name and the words beneath it; settings that differ in the side alone have two names."""
    film = films.odd
    number = at_one(person, film)
    names = set()
    for side, boxes, words in (("31", {}, []), ("5", {"bins": "16", "factor": "2.5"}, ["--bins", "16", "--clip", "2.5"]),
                               ("7", {}, ["--bins", "16", "--clip", "2.5"])):
        person.type("side", side)
        for box, text in boxes.items():
            person.type(box, text)
        names.add(saved_regions(person, film, number, ["--side", side, *words]))
    same("names", len(names), 3)
    person.script(HOOK_TEXT)
    asked, high = regions_now(person), person.canvas("scanned").height
    name = expected.view_name(film, number, asked, "side-1to1-columns0to76-rows0to62-level2048-window4096")
    _, told = view_saved(person, name, high)
    same("beneath the view", told, caption(film, number, asked, "Display: level 2048, window 4096, not inverted: black 0, white 4095",
         "Part: columns 0 to 76, rows 0 to 62, at 1:1, pixel for pixel; left as scanned, right rendered"))
    return "3 films and records, such as " + sorted(names)[0]


def saved_regions(person, film, number, words):
    """Saves film and record of what is seen now, and holds them to the command line and to the second program; gives their name."""
    asked, _ = as_regions(person, film)
    base = expected.saved_name(film, number, asked)
    text = person.saved_file(base + ".json", "save-record")
    record, pgm = json.loads(text), person.saved_file(base + ".pgm", "save-pgm")
    by_station = rendered_by_the_station(person, film.name, words, base, COMMAND)
    hold(pgm == by_station[0], "not the command line's film:", words)
    same("the record with %s" % words, text.decode(), by_station[1].decode())
    same("the saved film's greys", expected.film_of("saved", pgm).greys, film.rendered(asked))
    limit, factor, used = expected.footer_of(film, asked)
    own, settings = record["settings"], asked.settings
    same("command", record["command"], "around")
    same("settings", own, {"side": asked.side, "bins": settings.bins or 128, "min": settings.min, "max": settings.max, "clip": True,
                           "factor": own["factor"], "edition": "ours", "by_bytes": False})
    same("limit and factors", [record["limit"], record["factor_asked"], record["factor_used"]], [limit, factor, used])
    same("the file that the record names", record["output"]["file"], base + ".pgm")
    same("its digest", record["output"]["sha256"], hashlib.sha256(pgm).hexdigest())
    hold("tiles" not in record, "the record lists tiles")
    return base


def regions_reported(person, films):
    """A report of own regions: the record's side, the mark's pictures by the second program; opened again with its film, with the
    grid chosen, it brings settings and picture back, and the report made then is the same file."""
    film = films.odd
    at_one(person, film)
    person.type("side", "9")
    mark(person, 6, 5, "2011", "a pore")
    marks, (name, data) = listed(person), report_of(person)
    asked, value = regions_now(person), json.loads(data)
    same("the seal", *seal_of(data))
    same("the record's side", [value["command"], value["settings"]["side"], "across" in value["settings"]], ["around", 9, False])
    dots = shots_held(film, asked, value["report"]["marks"][0], expected.shades(2048, 4096))
    person.arrive()
    person.show(film)
    person.type("across", "5")
    person.element("open-input").send_keys(person.file("again.json", data))
    person.until("the marks", lambda: listed(person) == marks)
    person.settled()
    person.click("zoom-1-1")
    person.settled()
    as_regions(person, film, side=9)
    hold(report_of(person) == (name, data), "the report made again is another one")
    person.script("document.getElementById('stage').focus()")
    person.keys("a")
    same("the grid behind it", (person.value("across"), person.value("down")), ("5", "8"))
    return "%d bytes, %d dots" % (len(data), dots)


def regions_beside(person, films):
    """Two films beside each other, one by a grid and one by own regions, and then each by the other: the same pixel on the same dot,
    each with its own settings; the one that is pointed at is read."""
    film, other = films.odd, expected.noisy("other.pgm", 60, 50)
    first, second = person.open(*[person.file(each.name, each.file()) for each in (film, other)])
    person.choose(second)
    person.click("by-region")
    person.settled()
    person.type("side", "11")
    beside = regions_now(person)
    person.choose(first)
    person.click("mode-pair")
    person.click("zoom-4-1")
    person.settled()
    own = set_now(person)
    table = expected.shades(2048, 4096)
    for asked, kinds in ((own, ("tile", "region")), (None, ("region", "region"))):
        if not asked:
            person.click("by-region")
            person.settled()
            asked = regions_now(person)
        edge = person.sees_on("scanned", film, film.rendered(asked), "4-1", table)
        same("the same pixel", person.sees_on("rendered", other, other.rendered(beside), "4-1", table), edge)
        for which, each, wanted, kind in (("scanned", film, asked, kinds[0]), ("rendered", other, beside, kinds[1])):
            left, top, _, _ = person.box("canvas-" + which)
            person.mouse("mouseMoved", left + edge[0] + 4 * 20 + 1, top + edge[1] + 4 * 30 + 1)
            person.until("a reading", lambda each=each: person.text("at-scanned") == str(each.greys[30 * each.width + 20]))
            person.settled()
            same("read there", (person.text("at-kind"), person.text("at-rendered")), (kind, str(each.grey_at(20, 30, wanted))))
    return "a grid beside own regions of side 11, and own regions beside them"


# ---- large films ----

SIGNS = """window.signs = new Set();
new MutationObserver(() => { const text = document.getElementById('progress-text').textContent; if (text) signs.add(text); })
  .observe(document.getElementById('progress-text'), {childList: true});"""


def sampled(person, film, asked, edge, count=60, seed=13):
    """Holds some dots of the rendered picture at 1:1 to the second program: all of it would take the second program hours."""
    canvas, of = person.canvas("rendered"), random.Random(seed)
    table = expected.shades((film.maxval + 1) // 2, film.maxval + 1)
    same("dots that are not drawn", canvas.wide * canvas.high - canvas.covered, 0)
    for _ in range(count):
        x, y = of.randrange(canvas.wide), of.randrange(canvas.high)
        column, row = canvas.left + x - edge[0], canvas.top + y - edge[1]
        same("the dot of column %d, row %d" % (column, row), canvas.row(y)[x], table[film.grey_at(column, row, asked)])


def large_regions(person, films):
    """A film of 1280 by 1024 by own regions, at 1:1 and at 1:4: how much of it is drawn is told, the page's own thread is never held,
    of 31 sides set at once the last one is what is seen, and moving on takes what is drawn along."""
    film = films.noisy
    person.show(film)
    person.type("bins", "64")
    person.script(WATCH)
    person.script(SIGNS)

    def turn(name):
        person.click(name)
        person.settled()
    held = [held_by(person, lambda: turn("by-region"))]
    person.script("""window.sent = [];
        const post = Worker.prototype.postMessage;
        Worker.prototype.postMessage = function (message, ...rest) { sent.push(message); return post.call(this, message, ...rest); };
        const slider = document.getElementById('side-slider');
        for (let i = 0; i <= 30; i++) { slider.value = 30 - i; slider.dispatchEvent(new Event('input', {bubbles: true})); }""")
    person.settled()
    sides = person.script("return [...new Set(sent.filter(each => each.kind === 'show').map(each => each.settings.side))]")
    hold(len(sides) <= 3 and sides[-1] == 3, "31 sides set at once: the worker was asked for", sides)
    person.type("side", "21")
    held.append(held_by(person, lambda: turn("zoom-1-4")))
    held.append(held_by(person, lambda: turn("zoom-1-1")))
    asked = regions_now(person)
    for way in ("", Keys.ARROW_RIGHT, Keys.ARROW_DOWN):
        if way:
            person.script("document.getElementById('stage').focus()")
            held.append(held_by(person, lambda way=way: person.keys(way)))
        place = person.sees_on("scanned", film, film.greys, "1-1", expected.shades(2048, 4096))
        sampled(person, film, asked, place)
    shares = sorted({int(sign.rsplit(":", 1)[1].split()[0]) for sign in person.script("return [...signs]") if "%" in sign})
    hold(len(shares) > 3 and shares[0] >= 0 and shares[-1] < 100, "what was told of progress:", shares)
    worst = max(held, key=max)
    hold(max(worst) <= MOST_HOLD, "the page's thread was held for %.0f ms" % max(worst))
    return "sides %s asked for, shares %d to %d %%, longest hold %.0f ms" % (sides, shares[0], shares[-1], max(worst))


# The first worker tells how many blocks the second one drew.
SHARED_BLOCKS = SHARED.replace("const rest = await other;", "const {cells} = await other;").replace("rest.cells", "cells")


def shared_regions(person, films):
    """Own regions of a large film by two workers, and by one: the same pictures at 1:2, and some dots at 1:1 by the second
    program."""
    film, seen = films.noisy, []
    for before in (SHARED_BLOCKS, SHARED_BLOCKS + ALONE):
        person.arrive(before=before)
        person.show(film)
        person.type("bins", "32")
        person.type("factor", "2")
        person.click("by-region")
        person.settled()
        person.type("side", "13")
        person.click("zoom-1-2")
        person.settled()
        half = person.canvas("rendered")
        person.click("zoom-1-1")
        person.settled()
        place = person.sees_on("scanned", film, film.greys, "1-1", expected.shades(2048, 4096))
        sampled(person, film, regions_now(person), place, 30)
        seen.append((person.script("return window.shared"), half.shades))
    hold(seen[0][0] > 0 and seen[1][0] == 0, "blocks that the second worker drew:", [each[0] for each in seen])
    same("the picture by one worker", hashlib.sha256(seen[1][1]).hexdigest(), hashlib.sha256(seen[0][1]).hexdigest())
    return "%d blocks by the second worker, the same picture without it" % seen[0][0]


def regions_without_room(person, films):
    """With the least memory with which a film is opened and drawn by a grid, own regions, which want as much again as its pixels, are
    told to lack it; the grid brings the picture back."""
    film = films.noisy
    path = person.file(film.name, film.file())
    for memory in range(8, 40):
        person.arrive(mark="#memory=%d" % memory)
        person.open(path)
        if not person.element("refusal").is_displayed() and not person.canvas("rendered").blank():
            break
    before = person.canvas("rendered").shades
    person.click("by-region")
    person.settled()
    told_no_room(person)
    person.click("by-grid")
    person.settled()
    same("the grid's picture", person.canvas("rendered").shades == before, True)
    return "%d MiB" % memory


WAYS = [own_regions, one_pixel_film, refused_regions, regions_zoomed, region_read, regions_reached, regions_undone, regions_saved,
        regions_reported, regions_beside, large_regions, shared_regions,
        regions_without_room]
