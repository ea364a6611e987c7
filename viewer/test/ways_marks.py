"""Ways of marking: marks placed, moved, edited, removed and listed, drawn over both pictures and never into them."""

from selenium.webdriver.common.action_chains import ActionChains
from selenium.webdriver.common.keys import Keys

import measure
from person import hold, same
from ways_hand import SMALL
from ways_measure import box_words, go, greys_words, place, taken, um

KINDS = {"100": "100 crack", "401": "401 lack of fusion", "402": "402 lack of penetration", "2011": "2011 gas pore",
         "2015": "2015 elongated cavity", "301": "301 slag inclusion", "501": "501 undercut", "other": "other"}


def typed(person, text):
    """Types where the focus is."""
    ActionChains(person.driver).send_keys(text).perform()
    person.settled()


def mark(person, right, down, kind, text):
    """Marks an indication by keys alone, names its kind and types a sentence; gives its rectangle."""
    place(person, "k", right, down)
    same("the focus behind placing", person.script("return document.activeElement.id"), "mark-kind")
    kinds = person.script("return [...document.getElementById('mark-kind').options].map(each => each.value)")
    down = kinds.index(kind) - kinds.index(person.value("mark-kind"))
    person.keys(*[Keys.ARROW_DOWN if down > 0 else Keys.ARROW_UP] * abs(down))
    same("the kind chosen by arrows", person.value("mark-kind"), kind)
    person.keys(Keys.ENTER)
    same("the focus behind the kind", person.script("return document.activeElement.id"), "mark-text")
    typed(person, text)
    person.keys(Keys.ENTER)
    same("the focus behind the sentence", person.script("return document.activeElement.id"), "stage")
    return rectangle(person)


def rectangle(person):
    """The chosen mark's rectangle, as its boxes have it."""
    return tuple(int(person.value("mark-" + side)) for side in ("left", "top", "width", "height"))


def listed(person):
    """The texts of the list."""
    return person.script("return [...document.querySelectorAll('#marks-list button')].map(each => each.textContent)")


def entry(number, box, kind, text, pitch=None):
    """What the list has to say of a mark."""
    size = "%d × %d pixels" % box[2:] if pitch is None else "%s × %s mm" % tuple(measure.rectangle_mm(box, um(pitch))[2:])
    return "%d  %s, %s%s" % (number, KINDS[kind], size, ": " + text if text else "")


def marks_by_keys(person, films):
    """Marks placed by arrow keys, with kind and sentence; place, size and greys by the second program."""
    film = films.sample
    person.show(film)
    first = mark(person, 24, 13, "2011", "a pore, \"round\" & <b>dark</b>")
    same("its size", first[2:], (25, 14))
    same("place", person.text("mark-mm"), box_words(first))
    same("greys", person.text("mark-greys"), greys_words(film, first))
    second = mark(person, -60, 3, "401", "")
    same("its size", second[2:], (61, 4))
    taken(person, "pitch", "50")
    texts = "a pore, \"round\" & <b>dark</b>", ""
    same("the list", listed(person), [entry(1, first, "2011", texts[0], "50"), entry(2, second, "401", "", "50")])
    same("place in mm", person.text("mark-mm"), box_words(second, "50"))
    same("greys", person.text("mark-greys"), greys_words(film, second))
    person.keys(Keys.ESCAPE, "n")
    same("the next mark, round the list", rectangle(person), first)
    same("its greys", person.text("mark-greys"), greys_words(film, first))
    person.sees(film, film.usual())
    return "; ".join(listed(person))


def marks_changed(person, films):
    """Moved and sized by keys and by boxes as far as the film goes, given up, removed; numbers are not given again."""
    film = films.sample
    person.show(film)
    left, top, width, height = mark(person, 20, 20, "301", "slag")
    go(person, -20, -20)
    person.keys("v", Keys.ENTER)
    go(person, 23, 0)
    same("not moved before Enter", rectangle(person), (left, top, width, height))
    person.keys(Keys.ENTER)
    same("moved", rectangle(person), (left + 23, top, width, height))
    go(person, 20, 20)
    person.keys(Keys.ENTER)
    go(person, 0, -11)
    person.keys(Keys.ENTER)
    same("sized by its corner", rectangle(person), (left + 23, top, width, height - 11))
    person.keys(Keys.ENTER)
    go(person, 3, 3)
    person.keys(Keys.ESCAPE)
    same("given up", rectangle(person), (left + 23, top, width, height - 11))
    ActionChains(person.driver).key_down(Keys.CONTROL).send_keys(Keys.ARROW_LEFT * 3, Keys.ARROW_UP).key_up(Keys.CONTROL).perform()
    person.settled()
    same("by Ctrl and arrows", rectangle(person), (left + 20, top - 1, width, height - 11))
    taken(person, "mark-left", str(film.width - width))
    same("by its box", rectangle(person), (film.width - width, top - 1, width, height - 11))
    for side, text in (("left", str(film.width - width + 1)), ("width", "0"), ("top", "-1"), ("height", "x"), ("top", "384")):
        taken(person, "mark-" + side, text)
        hold("“%s” would put mark 1 outside the film" % text in person.text("mark-note"), "told:", person.text("mark-note"))
        person.keys(Keys.ESCAPE)
    same("still there", rectangle(person), (film.width - width, top - 1, width, height - 11))
    mark(person, 5, 5, "other", "")
    person.keys(Keys.DELETE)
    same("removed", listed(person), [entry(1, (0, 0, width, height - 11), "301", "slag")])
    mark(person, 6, 6, "other", "")
    hold(listed(person)[1].startswith("3  "), "a number given again:", listed(person))
    return "moved, sized, removed"


def undone(person, keys):
    """Presses Ctrl and keys on the film."""
    person.script("document.getElementById('stage').focus()")
    for key in keys:
        ActionChains(person.driver).key_down(Keys.CONTROL).send_keys(key).key_up(Keys.CONTROL).perform()
        person.settled()


def marks_undone(person, films):
    """Undo and redo over marks, pitch, line and settings in one row; what was removed comes back as it was."""
    film = films.sample
    person.show(film)
    box = mark(person, 12, 7, "100", "a crack")
    taken(person, "pitch", "50")
    place(person, "l", 30, 0)
    person.type("factor", "5")
    person.script("document.getElementById('stage').focus()")
    person.keys(Keys.DELETE)
    same("removed", listed(person), [])
    undone(person, "z")
    same("back again", listed(person), [entry(1, box, "100", "a crack", "50")])
    undone(person, "z")
    same("the factor before", person.value("factor"), "3")
    hold(person.element("line-told").is_displayed(), "the line is gone too early")
    undone(person, "zz")
    same("without line and pitch", (person.value("pitch"), person.element("line-told").is_displayed()), ("", False))
    same("the mark without a pitch", listed(person), [entry(1, box, "100", "a crack")])
    person.sees(film, film.usual())
    undone(person, "yyyy")
    same("all made again", (listed(person), person.value("pitch"), person.value("factor")), ([], "50", "5"))
    return "four steps back and forth"


# Of each pane's overlay: whether each dot of a box's outline has the ink, and how many dots inside it are not clear.
OUTLINED = """const [left, top, width, height] = arguments[0];
return [...document.querySelectorAll('.overlay')].map(canvas => {
  const pen = canvas.getContext('2d');
  const dot = (x, y) => x < 0 || y < 0 || x >= canvas.width || y >= canvas.height ? null : [...pen.getImageData(x, y, 1, 1).data];
  let missing = 0, seen = 0;
  const ink = (x, y) => { const found = dot(x, y); if (!found) return; seen++; if (found.join() !== '255,210,122,255') missing++; };
  for (let x = left; x < left + width; x++) { ink(x, top - 1); ink(x, top + height); }
  for (let y = top; y < top + height; y++) { ink(left - 1, y); ink(left + width, y); }
  let inside = 0;
  for (let y = top + 1; y < top + height - 1; y++) for (let x = left + 1; x < left + width - 1; x++) {
    const found = dot(x, y);
    if (found && found[3] !== 0) inside++;
  }
  return {missing, seen, inside};
});"""


def outlines(person, films):
    """A mark is outlined over both pictures, dot by dot around its pixels, at every zoom and when the film is moved; the canvases
    stay the film's."""
    film = films.sample
    person.show(film)
    box = mark(person, 15, 9, "100", "")
    seen = 0
    for zoom, size in (("1-1", 1), ("2-1", 2), ("8-1", 8)):
        person.click("fit")
        person.click("zoom-" + zoom)
        person.settled()
        for move in (None, Keys.ARROW_LEFT):
            if move:
                person.script("document.getElementById('stage').focus()")
                person.keys(move)
            edge = person.sees(film, film.usual(), zoom)
            for each in person.script(OUTLINED, [edge[0] + size * box[0], edge[1] + size * box[1], size * box[2], size * box[3]]):
                hold(each["missing"] == 0 and each["seen"] > 40 and each["inside"] == 0, "outline at", zoom, each)
                seen += each["seen"]
    return "%d dots of outlines" % seen


INKED = """return [...document.querySelectorAll('.overlay')].map(canvas => canvas.width === 0 ? 0 :
  canvas.getContext('2d').getImageData(0, 0, canvas.width, canvas.height).data.filter((value, i) => i % 4 === 3 && value > 0).length)"""


def marks_of_each_film(person, films):
    """Marks are their film's own: another film of the same size has none, and going back they are there."""
    first, other = person.open(*[person.file(each.name, each.file()) for each in (films.sample, films.twin)])
    box = mark(person, 10, 10, "402", "root")
    taken(person, "pitch", "80")
    person.choose(other)
    same("marks of the other film", listed(person), [])
    same("pitch of the other film", person.value("pitch"), "")
    same("outlines", person.script(INKED), [0, 0])
    person.choose(first)
    same("marks", listed(person), [entry(1, box, "402", "root", "80")])
    same("pitch", person.value("pitch"), "80")
    return "two films of one size"


def marks_by_pointer(person, films):
    """A mark dragged on the rendered picture, and moved by dragging."""
    film = films.odd
    person.show(film)
    person.click("zoom-4-1")
    person.settled()
    edge = person.sees(film, film.usual(), "4-1")
    left, top = person.box("canvas-rendered")[:2]
    dot = lambda x, y: (round(left + edge[0] + 4 * x + 2), round(top + edge[1] + 4 * y + 2))
    person.click("tool-mark")
    person.drag(*dot(10, 12), *dot(29, 21))
    same("the mark", rectangle(person), (10, 12, 20, 10))
    person.click("tool-shift")
    person.drag(*dot(12, 14), *dot(22, 34))
    same("moved", rectangle(person), (20, 32, 20, 10))
    person.drag(*dot(39, 41), *dot(34, 45))
    same("sized", rectangle(person), (20, 32, 15, 14))
    same("greys", person.text("mark-greys"), greys_words(film, (20, 32, 15, 14)))
    return "placed, moved and sized"


def marks_by_finger(person, films):
    """A mark and a line by one finger at 2:1; two fingers zoom meanwhile; every control of both sections is large enough."""
    film = films.sample
    person.arrive(1200, 800, fingers=True)
    person.show(film)
    person.click("zoom-2-1")
    person.settled()
    edge = person.sees(film, film.usual(), "2-1")
    left, top, width, height = person.box("canvas-scanned")
    column, row = (round(width / 2) - edge[0]) // 2, (round(height / 2) - edge[1]) // 2
    dot = lambda x, y: (round(left + edge[0] + 2 * x + 1), round(top + edge[1] + 2 * y + 1))
    for tool, right, down in (("mark", 30, 17), ("line", -20, 9)):
        person.click("tool-" + tool)
        person.touch("touchStart", dot(column, row))
        for i in range(1, 6):
            person.touch("touchMove", dot(column + right * i // 5, row + down * i // 5))
        person.touch("touchEnd")
        person.settled()
    same("the mark", rectangle(person), (column, row, 31, 18))
    same("the line", person.text("line-place"), "Line %d, %d to %d, %d" % (column, row, column - 20, row + 9))
    same("controls that are too small", person.script(SMALL), [])
    return "a mark and a line"


WAYS = [marks_by_keys, marks_changed, marks_undone, outlines, marks_of_each_film, marks_by_pointer, marks_by_finger]
