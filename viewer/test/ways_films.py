"""Ways with films: opening, several at once, dropping, closing, and files that are refused."""

import os
import re

import expected
from person import hold, same

FILES = {  # what is refused, with which number
    "empty": 20, "text": 20, "png": 20, "plain_header": 20, "cut_header": 20, "comment": 21, "size_0": 22, "size_4097": 22,
    "maxval_0": 22 + 1, "maxval_65535": 23, "short": 24, "long": 25, "above": 26,
    "plain_comment": 21, "plain_size": 22, "plain_short": 24, "plain_six": 24, "plain_remark": 24, "plain_long": 25, "plain_above": 26,
}


def bad_files(film):
    """The files' bytes, made from a good film."""
    good = film.file()
    head = len(good) - 2 * film.width * film.height
    sides, raster = b"%d %d\n" % (film.width, film.height), good[head:]
    with open(os.path.join(expected.TOP, "docs/weld-before.png"), "rb") as png:
        picture = png.read()
    return {
        "empty": b"", "text": b"hello\n", "png": picture, "plain_header": b"P2\n2 x", "cut_header": b"P5\n512 38",
        "comment": b"P5\n# scan\n" + sides + b"4095\n" + raster, "size_0": b"P5\n0 9\n4095\n",
        "size_4097": b"P5\n4097 2\n255\n" + bytes(2 * 4097), "maxval_0": b"P5\n" + sides + b"0\n" + raster,
        "maxval_65535": b"P5\n" + sides + b"65535\n" + raster, "short": good[:-1], "long": good + b"x",
        "above": b"P5\n" + sides + b"1000\n" + raster,
        "plain_comment": b"P2\n# scan\n2 2\n15\n0 1 2 3\n", "plain_size": b"P2\n4097 2\n15\n0\n",
        "plain_short": b"P2\n2 2\n15\n0 1 2\n", "plain_six": b"P2\n2 2\n15\n0 1 000002 3\n",
        "plain_remark": b"P2\n2 2\n15\n0 1 #2 3\n", "plain_long": b"P2\n2 2\n15\n0 1 2 3\n4",
        "plain_above": b"P2\n2 2\n15\n0 1 16 3\n",
    }


def opens_from_the_disk(person, films):
    """No error in the console, nothing asked from any other address, and nothing in the file that would be."""
    person.click("welcome-sample")
    person.opened(set(), 1)
    person.sees(films.sample, films.sample.usual())
    same("complaints", person.complaints(), [])
    with open(person.page, encoding="utf-8") as page:
        text = page.read()
    same("addresses in the page", re.findall(r"""(?:src|href|url|fetch|import)\s*[=(]\s*["']?(?:https?:)?//[^"')\s]+""", text), [])
    return "the sample film, by its button"


def two_films_of_one_size(person, films):
    """Each gets a number of its own, its own settings and its own picture, whatever is set on the other."""
    one, two = films.sample, films.twin
    first, second = person.open(*[person.file(film.name, film.file()) for film in (one, two)])
    hold(first != second, "both films have the number", first)
    person.sees(one, one.usual())
    same("number shown", person.text("film-number"), "film %d" % first)
    person.choose(second)
    same("number shown", person.text("film-number"), "film %d" % second)
    person.sees(two, two.usual())
    person.type("factor", "6")
    person.type("across", "4")
    changed = expected.settings(4, 8, 1024, 0, 4095, 6.0)
    for _ in range(2):
        person.choose(second)
        person.sees(two, changed)
        person.footed(two, changed)
        same("settings of the second", [person.value(box) for box in ("across", "down", "factor")], ["4", "8", "6"])
        person.choose(first)
        person.sees(one, one.usual())
        person.footed(one, one.usual())
        same("settings of the first", [person.value(box) for box in ("across", "down", "factor")], ["8", "8", "3"])
    return "numbers %d and %d, settings changed on the second" % (first, second)


SWITCH = """
const [numbers, done] = [arguments[0], arguments[1]], seen = new Set();
const canvas = document.getElementById('canvas-scanned'), row = canvas.height >> 1;
let on = true, turn = 0;
const look = () => { // what stands on the canvas in each frame, beside the name of the film that is looked at
  const line = canvas.getContext('2d').getImageData(0, row, canvas.width, 1).data;
  const shades = []; for (let i = 0; i < line.length; i += 4) if (line[i + 3]) shades.push(line[i]);
  seen.add(document.getElementById('film-name').textContent + ' ' + shades.join());
  if (on) requestAnimationFrame(look);
};
requestAnimationFrame(look);
const step = () => {
  document.getElementById('film-' + numbers[turn % 2]).click();
  const slider = document.getElementById('factor-slider');
  slider.value = 20 + 4 * turn; slider.dispatchEvent(new Event('input', {bubbles: true}));
  if (++turn < 61) setTimeout(step, turn * 7 % 23); else setTimeout(() => { on = false; done([...seen]); }, 300);
};
step();
"""


def fast_switching(person, films):
    """To and fro without waiting, with a factor moved each time: no frame ever shows a film under another's name, and what is
    left up is each film's own picture."""
    one, two = films.sample, films.twin
    numbers = person.open(*[person.file(film.name, film.file()) for film in (one, two)])
    left = person.canvas("scanned")
    middle = ((left.height >> 1) - left.top) * one.width
    own = {film.name: ",".join(str(grey // 16) for grey in film.greys[middle:middle + film.width]) for film in (one, two)}
    seen = person.driver.execute_async_script(SWITCH, numbers)
    for frame in seen:
        name, _, shades = frame.partition(" ")
        hold(shades in ("", own[name]), "a frame shows another picture under the name", name)
    person.settled()
    for film, number in ((one, numbers[0]), (two, numbers[1])):
        person.choose(number)
        asked = film.usual()._replace(clip=expected.settings(8, 8, 2, 0, 1, float(person.value("factor"))).clip)
        person.sees(film, asked)
        person.footed(film, asked)
    return "61 changes, %d sorts of frames" % len(seen)


def drop(person, films):
    """A film dropped on the page, by the browser's own drag."""
    path = person.file(films.twin.name, films.twin.file())
    words = {"x": 700, "y": 500, "data": {"items": [], "files": [path], "dragOperationsMask": 1}}
    for kind in ("dragEnter", "dragOver"):
        person.tell("Input.dispatchDragEvent", type=kind, **words)
    hold(person.element("drop-sign").is_displayed(), "no sign that films may be dropped")
    person.tell("Input.dispatchDragEvent", type="drop", **words)
    person.opened(set(), 1)
    person.sees(films.twin, films.twin.usual())
    hold(not person.element("drop-sign").is_displayed(), "the sign stays up")
    return films.twin.name


def close(person, films):
    """A closed film is gone, the other stays, and its number is given to no other."""
    paths = [person.file(film.name, film.file()) for film in (films.sample, films.twin)]
    first, second = person.open(*paths)
    person.click("close-%d" % first)
    person.settled()
    same("films left", [entry["number"] for entry in person.entries()], [second])
    person.sees(films.twin, films.twin.usual())
    third, = person.open(paths[0])
    hold(third not in (first, second), "the number %d is given again" % third)
    person.click("close-%d" % second)
    person.click("close-%d" % third)
    person.settled()
    same("films left", person.entries(), [])
    person.blank()
    hold(person.element("welcome").is_displayed(), "no way to open a film is offered")
    return "numbers %d, %d, then %d" % (first, second, third)


def refused_files(person, films):
    """Each refusal of a file, with the header's sentence; the open film stays and draws."""
    sentences = expected.sentences()
    first = person.show(films.twin)
    for name, data in bad_files(films.sample).items():
        number, = person.open(person.file(name + ".bad", data))
        person.choose(number)
        person.refused(FILES[name], sentences[FILES[name]])
        person.choose(first)
        person.sees(films.twin, films.twin.usual())
        person.click("close-%d" % number)
    return "%d files" % len(FILES)


def refused_among_good(person, films):
    """A refused file between two good ones that are opened at once."""
    bad = bad_files(films.sample)["short"]
    paths = [person.file(films.sample.name, films.sample.file()), person.file("short.bad", bad),
             person.file(films.twin.name, films.twin.file())]
    numbers = person.open(*paths)
    for number, film in ((numbers[2], films.twin), (numbers[0], films.sample)):
        person.choose(number)
        person.sees(film, film.usual())
    person.choose(numbers[1])
    person.refused(24, expected.sentences()[24])
    return "films %s" % numbers


# Whether all of an element is seen: each of its lines, at both ends and in the middle.
SEEN = """
const element = document.querySelector(arguments[0]);
return element.scrollWidth <= element.clientWidth + 1 && [...element.getClientRects()].every(({left, top, width, height, right}) =>
  width > 0 && [left + 1, left + width / 2, right - 1].every(x => { const found = document.elementFromPoint(x, top + height / 2);
    return found && (element === found || element.contains(found)); }));
"""

# The least contrast of what is written in an element, by the definition of WCAG 2.
CONTRAST = """
const light = ([r, g, b]) => [r, g, b].map(part => part / 255).map(part => part <= 0.03928 ? part / 12.92 : ((part + 0.055) / 1.055) ** 2.4)
  .reduce((sum, part, i) => sum + part * [0.2126, 0.7152, 0.0722][i], 0);
const parts = colour => colour.match(/[\\d.]+/g).map(Number);
const ground = element => { for (; element; element = element.parentElement) {
  const own = parts(getComputedStyle(element).backgroundColor); if (own.length < 4 || own[3] > 0) return own; } return [0, 0, 0]; };
const element = document.querySelector(arguments[0]);
return Math.min(...[element, ...element.querySelectorAll('*')].filter(each => [...each.childNodes].some(node => node.nodeType === 3))
  .map(each => { const [a, b] = [light(parts(getComputedStyle(each).color)), light(ground(each))].sort((x, y) => y - x);
    return (a + 0.05) / (b + 0.05); }));
"""


def told_apart(person, films):
    """Films of 200 letters that differ in the last one: number and size stay in tab and captions, the panel has the whole name,
    and the chosen tab can be read, also where its film is refused or being read."""
    names = ["n" * 196 + end + ".pgm" for end in "ab"]
    long = [expected.Film(name, films.odd.width, films.odd.height, films.odd.maxval, films.odd.greys) for name in names]
    numbers = [person.open(person.file(film.name, film.file()))[0] for film in long]
    for width, height in ((1600, 1000), (1280, 720)):
        person.size(width, height)
        for mode in ("side", "divide", "turn", "pair"):
            person.click("mode-" + mode)
            for number, name in zip(numbers, names):
                person.choose(number)
                told(person, number, name, mode, sum(numbers) - number)
    least = 99
    for state in ("", "refused", "reading"):
        person.script("document.querySelector('#film-2').parentElement.className = 'film ' + arguments[0]", state)
        least = min(least, person.script(CONTRAST, "#film-2"))
    hold(least >= 4.5, "the contrast of the chosen tab is", least)
    return "200 letters, four ways of looking; contrast %.1f at the least" % least


def told(person, number, name, mode, other):
    """Holds tab, captions and panel to a film; beside it is another one where two are looked at."""
    size = "77 × 63"
    hold(person.script(SEEN, "#film-%d small" % number), "size and number are cut off in the tab")
    same("in the tab", person.text("film-%d" % number), "%s%s · %d" % (name, size, number))
    for side in ("scanned", "rendered"):
        if mode != "turn" or person.element("label-" + side).is_displayed():
            hold(person.script(SEEN, "#label-%s .what" % side), "size and number are cut off above the picture")
        own = other if mode == "pair" and side == "rendered" else number
        hold(person.text("label-" + side).startswith("film %d · %s · " % (own, size)), "the caption:", person.text("label-" + side))
    same("in the panel", person.text("film-name"), name)
    hold(person.script(SEEN, "#film-name"), "the name is cut off in the panel")


def zeros(person, films):
    """100 MB of zeros: a message in red, and the open film stays."""
    first = person.show(films.twin)
    path = os.path.join(person.room, "zeros.pgm")
    with open(path, "wb") as file:
        file.truncate(100_000_000)
    number, = person.open(path)
    person.choose(number)
    person.refused(20, expected.sentences()[20])
    person.choose(first)
    person.sees(films.twin, films.twin.usual())
    return "100,000,000 bytes"


def other_films(person, films):
    """A film of 8 bits, one whose sides are no multiple of the grid, and one that is narrower than the grid: the grid that is
    taken is told, and so is whose limit it is where tiles differ."""
    for film in (films.shallow, films.odd, films.narrow):
        person.choose(person.show(film))
        person.click("zoom-1-1")
        person.settled()
        person.sees(film, film.usual())
        person.footed(film, film.usual())
        hold(("tiles differ" in person.text("footer-note")) == (film is films.odd), "the note is:", person.text("footer-note"))
        hold((": 5 taken" in person.text("film-note")) == (film is films.narrow), "the note is:", person.text("film-note"))
    return "maxval 255 with 256 bins; 77 by 63 with grid 8 by 8; 5 by 40 with grid 5 by 8"


WAYS = [opens_from_the_disk, two_films_of_one_size, fast_switching, drop, close, refused_files, refused_among_good, zeros,
        other_films, told_apart]
