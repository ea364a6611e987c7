"""Ways with settings: each control, the footer, the display, refusals that the controls can reach, what is under the pointer."""

import expected
from person import hold, same

from selenium.webdriver.common.keys import Keys

PLOTTED = """
const {probe} = tzofnadir.state;
return probe && {pixels: probe.tile.pixels, counts: [...probe.counts], limit: probe.limit,
  mapping: probe.mapping && [...probe.mapping],
  excess: probe.excess, looks: probe.looks};
"""


def set_now(person):
    """The settings that the page shows."""
    across, down, bins, low, high = [int(person.value(box)) for box in ("across", "down", "bins", "min", "max")]
    factor = float(person.value("factor")) if person.element("clip").is_selected() else None
    return expected.settings(across, down, bins, low, high, factor, edition_now(person))


def edition_now(person):
    """The edition of the clip rule that the page shows as chosen."""
    pressed = [number for number, name in expected.EDITIONS.items()
               if person.element("edition-" + name).get_attribute("aria-pressed") == "true"]
    same("editions that are chosen", len(pressed), 1)
    return pressed[0]


def as_set(person, film, **changed):
    """Holds pictures and footer to the settings that are shown, and these to what was set."""
    asked = set_now(person)
    for name, value in changed.items():
        same(name, expected.factor_of(asked) if name == "factor" else getattr(asked, name), value)
    person.sees(film, asked)
    person.footed(film, asked)
    return asked


def grid(person, films):
    """Tiles across and down, by box and slider."""
    film = films.sample
    person.show(film)
    person.type("across", "16")
    as_set(person, film, across=16, down=8)
    person.type("down", "3")
    as_set(person, film, across=16, down=3)
    person.type("across", "7")
    person.type("down", "5")
    as_set(person, film, across=7, down=5)
    person.type("down", "3")
    person.slide("across-slider", Keys.HOME)
    as_set(person, film, across=2, down=3)
    person.slide("down-slider", Keys.END)
    as_set(person, film, across=2, down=16)
    return "16 by 8, 16 by 3, 7 by 5, 2 by 3, 2 by 16"


def bins(person, films):
    """Bins by box and slider, 0 as 128, and chosen by the range again."""
    film = films.sample
    person.show(film)
    person.type("bins", "37")
    as_set(person, film, bins=37)
    hold(not person.element("bins-chosen").is_selected(), "bins set by hand still count as chosen")
    person.type("bins", "0")
    as_set(person, film, bins=0)
    person.type("bins", "4096")
    as_set(person, film, bins=4096)
    person.slide("bins-slider", Keys.HOME)
    as_set(person, film, bins=2)
    person.slide("bins-slider", Keys.PAGE_UP)
    as_set(person, film)
    person.check("bins-chosen", True)
    as_set(person, film, bins=1024)
    return "37, 0, 4096, 2, by the slider, chosen"


def grey_range(person, films):
    """Min and Max by box, by the ends in the histogram and by the buttons; the bins follow where they are chosen."""
    film = films.sample
    least, greatest = min(film.greys), max(film.greys)
    person.show(film)
    person.type("min", str(least))
    as_set(person, film, min=least)
    person.type("max", str(greatest))
    as_set(person, film, max=greatest, bins=min(1024, greatest - least + 1))
    person.click("range-all")
    person.settled()
    as_set(person, film, min=0, max=4095)
    person.click("range-film")
    person.settled()
    as_set(person, film, min=least, max=greatest)
    person.click("range-all")
    left, top = person.middle("range-low")
    person.drag(left, top, left + 12, top)
    asked = as_set(person, film)
    hold(asked.min > 0, "the lower end did not move")
    person.slide("range-high", Keys.ARROW_LEFT, Keys.ARROW_LEFT)
    as_set(person, film, max=4093)
    return "the film's own greys are %d to %d" % (least, greatest)


def factor(person, films):
    """The factor by box, slider and keys; 1.0 is the film unchanged; clip off and on."""
    film = films.sample
    person.show(film)
    for text, value in (("1.01", 1.01), ("2.5", 2.5), ("1024", 1024.0), ("1.0000001", 1.0000001)):
        person.type("factor", text)
        as_set(person, film)
        asked = expected.settings(8, 8, 1024, 0, 4095, value)
        same("factor as a float", set_now(person).clip, asked.clip)
    person.type("factor", "1")
    as_set(person, film, factor=1.0)
    hold("unchanged" in person.text("footer-note"), "factor 1.0 is not told:", person.text("footer-note"))
    person.slide("factor-slider", Keys.END)
    as_set(person, film, factor=64.0)
    person.keys(Keys.ARROW_LEFT)
    far = 64 - expected.factor_of(as_set(person, film))
    person.slide("factor-slider", Keys.HOME, *[Keys.ARROW_RIGHT] * 10)
    near = expected.factor_of(as_set(person, film))
    hold(1 < near <= 1.1001 and far > near - 1, "ten steps from the left end the slider is at", near, "one from the right moves", far)
    person.click("stage")
    person.keys(".", ".", ",", ".")
    as_set(person, film)
    person.keys("c")
    as_set(person, film, factor=None)
    hold("off" in person.text("footer-note"), "clip off is not told:", person.text("footer-note"))
    person.check("clip", True)
    as_set(person, film)
    return "slider from 1 to 64: ten steps from 1 to %g, one of %g at 64" % (near, far)


# How often the library counts: the worker's text is given a tally before the page makes a worker of it.
TALLY = """
window.counted = null;
window.Blob = class extends Blob {
  constructor(texts, words) {
    super(texts.map(text => typeof text !== 'string' ? text : text
      .replace('return exports.tz_count(', 'self.counted = (self.counted || 0) + 1; return exports.tz_count(')
      .replace('answer.id = message.id;', 'answer.id = message.id; answer.counted = self.counted || 0;')), words);
  }
};
window.Worker = class extends Worker {
  constructor(...words) {
    super(...words);
    this.addEventListener('message', event => { window.counted = event.data.counted; });
  }
};
"""


def edition(person, films):
    """The edition of the clip rule by button and key: ours and 1986 in turn, at several settings, from one counting; undo and
    redo; above the picture stands which one it is."""
    film = films.sample
    person.arrive(before=TALLY)
    person.show(film)
    same("counted at first", counted(person), 1)
    same("the edition at first", edition_now(person), 0)
    for boxes in ({}, {"factor": "1.3", "across": "5"}, {"factor": "40"}, {"bins": "64"}):
        for box, text in boxes.items():
            person.type(box, text)
        before = counted(person)
        person.click("edition-1986")
        person.settled()
        as_set(person, film, edition=1)
        hold("edition of 1986" in person.text("label-rendered"), "above the picture:", person.text("label-rendered"))
        person.keys("e")
        as_set(person, film, edition=0)
        hold("1986" not in person.text("label-rendered"), "above the picture:", person.text("label-rendered"))
        person.keys("e")
        as_set(person, film, edition=1)
        same("counted while the edition was turned", counted(person) - before, 0)
        person.click("edition-ours")
        person.settled()
    for factor, note in (("1", "unchanged"), (None, "clip off")):
        if factor:
            person.type("factor", factor)
        else:
            person.check("clip", False)
        person.click("edition-1986")
        person.settled()
        as_set(person, film, edition=1)
        hold(note in person.text("footer-note"), "the note is:", person.text("footer-note"))
        person.click("edition-ours")
        person.settled()
        as_set(person, film, edition=0)
    person.script("document.getElementById('stage').focus()")
    person.keys("e", "e")  # at once: two steps all the same
    for key, number in (("z", 1), ("z", 0), ("z", 1), ("y", 0), ("y", 1)):
        person.control(key)
        as_set(person, film, edition=number)
    return "ours and 1986 at six settings, counted %d times in all" % counted(person)


def counted(person):
    """How often the library counted since the page was opened."""
    return person.script("return window.counted")


def newest_wins(person, films):
    """Many factors at once: nothing queues up at the worker, and the last one is what is seen."""
    film = films.noisy
    person.show(film)
    person.script("""window.sent = 0;
        const post = Worker.prototype.postMessage;
        Worker.prototype.postMessage = function (...words) { window.sent++; return post.apply(this, words); };
        const slider = document.getElementById('factor-slider');
        for (let i = 0; i <= 200; i++) { slider.value = 50 + i; slider.dispatchEvent(new Event('input', {bubbles: true})); }""")
    person.settled()
    sent = person.script("return window.sent")
    hold(1 <= sent <= 4, "201 factors set at once were", sent, "requests")
    asked = set_now(person)
    person.sees(film, asked, now_at(person))
    person.footed(film, asked)
    return "201 factors, %d requests, the last of factor %g" % (sent, expected.factor_of(asked))


def now_at(person):
    """The zoom that the page says it shows."""
    return person.text("how").split(":", 2)[0] + "-" + person.text("how").split(":", 2)[1]


def display(person, films):
    """Level, window and invert change what is shown and nothing else."""
    film, asked = films.sample, films.sample.usual()
    name = expected.saved_name(film, person.show(film), asked) + ".pgm"
    wanted = person.saved_file(name, "save-pgm")
    person.type("level", "1700")
    person.sees(film, asked, table=expected.shades(1700, 4096))
    person.type("width", "900")
    person.sees(film, asked, table=expected.shades(1700, 900))
    person.check("invert", True)
    person.sees(film, asked, table=expected.shades(1700, 900, True))
    person.slide("width-slider", Keys.HOME)
    person.sees(film, asked, table=expected.shades(1700, 1, True))
    person.slide("level-slider", Keys.END)
    person.sees(film, asked, table=expected.shades(4095, 1, True))
    person.footed(film, asked)
    hold(person.saved_file(name, "save-pgm") == wanted, "the saved film changed with the display")
    person.click("display-reset")
    person.settled()
    person.sees(film, asked)
    hold("Display only" in person.text("display-part"), "that it is the display alone is not said")
    return "level 1700, window 900, inverted; the saved film stays"


def refused_settings(person, films):
    """Each refusal that the controls can reach; the other film stays, and a good setting brings the picture back."""
    small, second, first = person.open(*[person.file(each.name, each.file())
                                         for each in (films.small, films.twin, films.sample)])
    person.choose(small)
    refuse_each(person, small, second, [(5, {"across": "13"}), (6, {"down": "11"}), (5, {"across": "16", "down": "16"})])
    person.choose(first)
    refuse_each(person, first, second, REFUSED)
    person.sees(films.sample, films.sample.usual())
    person.choose(second)
    person.sees(films.twin, films.twin.usual())
    return "%d settings, refusals 5, 6 and %s" % (3 + len(REFUSED), sorted({number for number, _ in REFUSED}))


REFUSED = [(3, {"across": "1"}), (3, {"across": "17"}), (4, {"down": "0"}), (4, {"down": "4294967295"}), (7, {"max": "4096"}),
           (8, {"min": "4095"}), (8, {"min": "5000"}), (9, {"bins": "1"}), (9, {"bins": "4097"}),
           (31, {"bins": "2000", "max": "1998"}), (10, {"factor": "0.99"}), (10, {"factor": "1025"}), (10, {"factor": "nan"}),
           (10, {"factor": "inf"}), (10, {"factor": "-3"}), (13, {"max": "100"}), (13, {"min": "4000"})]


def refuse_each(person, first, second, trials):
    """Sets each on the first film, which is looked at; the second stays as it is."""
    sentences = expected.sentences()
    for number, boxes in trials:
        before = {box: person.value(box) for box in boxes}
        chosen = person.element("bins-chosen").is_selected()
        for box, text in boxes.items():
            person.type(box, text)
        person.refused(number, sentences[number])
        person.choose(second)
        hold(not person.element("refusal").is_displayed(), "the other film shows the refusal")
        hold(not person.canvas("rendered").blank(), "the other film does not draw")
        person.choose(first)
        person.refused(number, sentences[number])
        for box, text in before.items():
            person.type(box, text)
        person.check("bins-chosen", chosen)
        hold(not person.element("refusal").is_displayed(), "%d: the refusal stays behind a good setting" % number)
        hold(not person.canvas("scanned").blank(), "%d: no picture comes back" % number)


def no_numbers(person, films):
    """Text that is no number is told without a refusal's number, and what was set before still counts."""
    film = films.sample
    person.show(film)
    for box, text in (("across", "eight"), ("bins", "12.5"), ("min", "-1"), ("max", "4294967296"), ("factor", "3,0"), ("level", "x")):
        person.type(box, text)
        note = person.element("typed-note")
        hold(note.is_displayed() and text in note.text, "%s %r: nothing is told" % (box, text))
        hold(not person.element("refusal").is_displayed(), "%s %r: a refusal" % (box, text))
        person.sees(film, film.usual())
        person.type(box, {"across": "8", "bins": "1024", "min": "0", "max": "4095", "factor": "3", "level": "2048"}[box])
        hold(not note.is_displayed(), "%s: the note stays" % box)
    return "six boxes"


def pointer(person, films):
    """Column, row, both greys and tile under the pointer, on both pictures, at three zooms and settings; on a film whose tiles
    differ too."""
    views = (("1-1", {}), ("4-1", {"across": "4", "down": "6", "bins": "300"}), ("1-4", {"factor": "1.5"}))
    tried = read_some(person, films.sample, views)
    tried += read_some(person, films.odd, (("4-1", {"across": "9", "down": "5"}), ("8-1", {"bins": "16"})))
    return "%d pixels" % tried


def read_some(person, film, views):
    """Opens a film, and points at eight pixels of it at each zoom and setting."""
    person.choose(person.show(film))
    for zoom, boxes in views:
        for box, text in boxes.items():
            person.type(box, text)
        person.click("zoom-" + zoom)
        person.settled()
        asked = set_now(person)
        edge = person.sees(film, asked, zoom)
        for i in range(8):
            read_one(person, film, asked, zoom, edge, i)
    return 8 * len(views)


def read_one(person, film, asked, zoom, edge, i):
    """Points at one pixel and holds what is read to the second program."""
    dots, block = expected.ZOOMS[zoom]
    which = "canvas-" + ("scanned", "rendered")[i % 2]
    left, top, width, height = person.box(which)
    right, down = min(width, edge[0] + film.width * dots // block) - 1, min(height, edge[1] + film.height * dots // block) - 1
    from_x, from_y = max(0, edge[0]), max(0, edge[1])
    x, y = int(from_x + (right - from_x) * (i * 37 % 100) // 99), int(from_y + (down - from_y) * (i * 61 % 100) // 99)
    person.mouse("mouseMoved", left + x, top + y)
    column, row = (x - edge[0]) // dots * block, (y - edge[1]) // dots * block
    number, tile = film.tile_at(column, row, asked)
    person.until("a reading of column %d" % column, lambda: person.text("at-column") == str(column))
    person.settled()
    seen = [person.text("at-" + name) for name in ("column", "row", "scanned", "rendered", "tile", "rectangle")]
    same("at dot %d, %d of %s at %s" % (x, y, which, zoom), seen, [
        str(column), str(row), str(film.greys[row * film.width + column]), str(film.grey_at(column, row, asked)),
        "%d across, %d down" % (number % asked.across + 1, number // asked.across + 1),
        "columns %d to %d, rows %d to %d" % (tile.left, tile.right - 1, tile.top, tile.bottom - 1)])


def tile_plot(person, films):
    """What the plot is given: the pixels, the counts, the limit, the mapping, E and the looks of the tile under the pointer, each
    tile's own where they differ; and what is written beside it."""
    for film, changes in ((films.sample, ({}, {"across": "4", "bins": "64", "factor": "1.2"})), (films.odd, ({}, {"bins": "16"}))):
        person.choose(person.show(film))
        for boxes in changes:
            for box, text in boxes.items():
                person.type(box, text)
            for _ in expected.EDITIONS:
                plot_three(person, film)
                person.keys("e")
    return "twelve tiles, each in both editions"


def plot_three(person, film):
    """Points at three pixels, and holds what is plotted to the second program."""
    person.click("zoom-1-1")
    person.settled()
    asked = set_now(person)
    edge = person.sees(film, asked)
    left, top, _, _ = person.box("canvas-scanned")
    for x, y in ((3, 5), (film.width * 3 // 5, film.height // 4), (film.width - 1, film.height - 1)):
        person.mouse("mouseMoved", left + edge[0] + x, top + edge[1] + y)
        person.until("a reading", lambda: (person.text("at-column"), person.text("at-row")) == (str(x), str(y)))
        person.settled()
        plot = film.plot(x, y, asked)
        same("the plot of the tile at %d, %d" % (x, y), person.script(PLOTTED), plot)
        same("beside it", person.text("tile-note"), "E %d, looks %d%s" % (
            plot["excess"], plot["looks"], " (edition of 1986: no walk)" if asked.edition else ""))
        hold(asked.edition == 0 or plot["looks"] == 0, "looks in the edition of 1986:", plot["looks"])


WAYS = [grid, bins, grey_range, factor, edition, newest_wins, display, refused_settings, no_numbers, pointer, tile_plot]
