"""Ways by hand: keys wherever the focus is, undo and redo, leaving, folders, fingers, upright screens, the page's policy, settings
copied by name."""

import os
import re

from selenium.webdriver.common.by import By
from selenium.webdriver.common.keys import Keys

import expected
from person import hold, same
from ways_settings import set_now


def focus(person, name):
    """Gives an element the focus."""
    person.script("document.getElementById(arguments[0]).focus()", name)


def chosen(person):
    """The number of the film that is looked at."""
    return int(person.text("film-number").split()[1])


def seen_side(person):
    """Which picture is shown in turn."""
    return person.script("return tzofnadir.look.turn")


def at_rest(person):
    """What a button or a switch would change."""
    return person.element("clip").is_selected(), person.text("how"), sorted(os.listdir(person.saved))


def keys_everywhere(person, films):
    """The keys do what their list says wherever the focus is: PageDown on a slider and on an end of the range, Space on a button and
    on a switch, which Enter presses; arrows stay a slider's own, digits and letters a box's."""
    first, second = person.open(*[person.file(film.name, film.file()) for film in (films.odd, films.shallow)])
    person.click("mode-turn")
    for name in ("factor-slider", "level-slider", "range-low", "range-high", "divider", "factor", "fit", "clip", "stage",
                 "film-%d" % first):
        for key, number in ((Keys.PAGE_DOWN, second), (Keys.PAGE_UP, first)):
            before = person.value("factor"), person.value("min")
            focus(person, name)
            person.keys(key)
            same("film behind a page key on " + name, chosen(person), number)
        same("what was set on " + name, (person.value("factor"), person.value("min")), before)
    for name in ("fit", "clip", "zoom-1-1", "factor-slider", "invert", "stage", "save-record"):
        before = seen_side(person), *at_rest(person)
        focus(person, name)
        person.keys(" ")
        hold(seen_side(person) != before[0], "Space on %s does not blink" % name)
        same("behind Space on " + name, at_rest(person), before[1:])
    focus(person, "clip")
    person.keys(Keys.ENTER)
    hold(not person.element("clip").is_selected(), "Enter does not turn a switch")
    focus(person, "zoom-8-1")
    person.keys(Keys.ENTER)
    hold(person.text("how").startswith("8:1"), "Enter does not press a button")
    listed(person)
    return "page keys on ten controls, Space on seven"


def listed(person):
    """The list of keys has each key that the page acts on."""
    focus(person, "stage")
    person.keys("?")
    words = person.element("keys-list").text
    for word in ("PageUp", "PageDown", "Space", "Ctrl Z", "Ctrl Y", "magnifier", "turn the film", "mirror", "two films", "arrows"):
        hold(word in words, "the list of keys does not have", word)
    person.keys(Keys.ESCAPE)


def whole_numbers(person, films):
    """A pointer that moves by parts of a dot: level and window stay whole numbers, and so do the ends of the range."""
    person.show(films.sample)
    x, y = person.middle("canvas-scanned")
    person.mouse("mouseMoved", x, y)
    person.mouse("mousePressed", x, y, button="right", buttons=2, clickCount=1)
    for i in range(1, 12):
        person.mouse("mouseMoved", x + 0.37 * i, y + 0.73 * i, button="right", buttons=2)
    person.mouse("mouseReleased", x + 4, y + 8, button="right", clickCount=1)
    person.settled()
    level, width = person.value("level"), person.value("width")
    hold(re.fullmatch(r"\d+", level) and re.fullmatch(r"\d+", width), "level and window are", level, width)
    hold(level != "2048", "the level did not move")
    person.sees(films.sample, films.sample.usual(), table=expected.shades(int(level), int(width)))
    left, top = person.middle("range-low")
    person.drag(left + 0.4, top + 0.3, left + 9.7, top, 3)
    hold(re.fullmatch(r"\d+", person.value("min")), "Min is", person.value("min"))
    return "level %s, window %s, Min %s" % (level, width, person.value("min"))


def one_pixel(person, films):
    """Below 1:1 the reading says that it is one pixel, and what the dot shows; at 1:1 it does not."""
    film = films.sample
    person.show(film)
    person.click("zoom-1-4")
    person.settled()
    edge = person.sees(film, film.usual(), "1-4")
    left, top, _, _ = person.box("canvas-scanned")
    person.mouse("mouseMoved", left + edge[0] + 70, top + edge[1] + 41)
    person.until("a reading", lambda: (person.text("at-column"), person.text("at-row")) == ("280", "164"))
    person.settled()
    means = [expected.cells(film, greys, "1-4")[2][41 * 128 + 70] for greys in (film.greys, film.rendered(film.usual()))]
    same("beneath the reading", person.text("at-dot"),
         "one pixel; the dot shows the mean of 4 by 4: scanned %d, rendered %d" % tuple(means))
    person.click("zoom-1-1")
    person.settled()
    person.mouse("mouseMoved", left + 200, top + 300)
    person.settled()
    same("at 1:1", person.text("at-dot"), "")
    return "means %d and %d" % tuple(means)


def undo_and_redo(person, films):
    """One row of steps over settings and display, each film's own: back and ahead again, picture and boxes."""
    film, other = films.sample, films.twin
    first, second = person.open(*[person.file(each.name, each.file()) for each in (film, other)])
    hold(not person.element("undo").is_enabled() and not person.element("redo").is_enabled(), "there is something to undo at first")
    person.type("factor", "6")
    person.type("level", "1500")
    person.type("across", "4")
    last = expected.settings(4, 8, 1024, 0, 4095, 6.0)
    person.sees(film, last, table=expected.shades(1500, 4096))
    person.choose(second)
    person.type("bins", "64")
    person.choose(first)
    steps = [(last, 1500), (last._replace(across=8), 1500), (last._replace(across=8), 2048), (film.usual(), 2048)]
    for asked, level in steps[1:]:
        person.control("z")
        person.sees(film, asked, table=expected.shades(level, 4096))
        same("settings", set_now(person), asked)
    hold(not person.element("undo").is_enabled(), "there is more to undo")
    person.control("z")
    for asked, level in steps[-2::-1]:
        person.control("y")
        person.sees(film, asked, table=expected.shades(level, 4096))
    person.click("undo")
    person.settled()
    person.sees(film, steps[1][0], table=expected.shades(1500, 4096))
    person.type("factor", "2")
    hold(not person.element("redo").is_enabled(), "a new step leaves something to redo")
    person.choose(second)
    same("the other film's bins", person.value("bins"), "64")
    person.control("z")
    same("the other film's bins", person.value("bins"), "1024")
    return "three steps back and ahead, by keys and buttons"


ASKS = "return !window.dispatchEvent(new Event('beforeunload', {cancelable: true}))"


def leaving(person, films):
    """The page asks before it is left where settings were changed and neither film nor record was saved, and only then."""
    film = films.odd
    number = person.show(film)
    hold(not person.script(ASKS), "it asks though nothing was done")
    person.type("level", "1500")
    hold(not person.script(ASKS), "it asks for the display, which is not saved")
    person.type("factor", "2")
    hold(person.script(ASKS), "it does not ask though a setting is not saved")
    person.saved_file(expected.saved_name(film, number, set_now(person)) + ".json", "save-record")
    hold(not person.script(ASKS), "it asks though the record is saved")
    person.type("factor", "4")
    hold(person.script(ASKS), "it does not ask behind a later setting")
    person.click("close-%d" % number)
    hold(not person.script(ASKS), "it asks for a film that is closed")
    return "asked for settings, not for the display"


def folder(person, films):
    """A folder dropped on the page: its PGM files are opened, those of its folders too, by name; other files are left."""
    top = person.folder("scans")
    person.folder("scans/b")
    for name, film in (("c.pgm", films.odd), ("b/d.PGM", films.shallow), ("a.pgm", films.small)):
        person.file(os.path.join("scans", name), film.file())
    person.file("scans/notes.txt", b"no film\n")
    words = {"x": 700, "y": 500, "data": {"items": [], "files": [top], "dragOperationsMask": 1}}
    for kind in ("dragEnter", "dragOver", "drop"):
        person.tell("Input.dispatchDragEvent", type=kind, **words)
    person.opened(set(), 3)
    names = person.script("return tzofnadir.state.films.map(film => film.name)")
    same("films of the folder", names, ["a.pgm", "d.PGM", "c.pgm"])
    empty = person.folder("empty")
    words["data"]["files"] = [empty]
    for kind in ("dragEnter", "dragOver", "drop"):
        person.tell("Input.dispatchDragEvent", type=kind, **words)
    person.until("a message", lambda: "no film" in person.text("message"))
    return ", ".join(names)


def fingers(person, films):
    """A tap reads, a finger drags, two apart zoom about their middle, two side by side change level and window."""
    film = films.sample
    person.arrive(1200, 800, fingers=True)
    person.show(film)
    person.click("zoom-1-1")
    person.settled()
    edge = person.sees(film, film.usual())
    left, top, width, height = person.box("canvas-scanned")
    x, y = round(left + width / 2), round(top + height / 2)
    person.tap(x, y)
    same("tapped", (person.text("at-column"), person.text("at-row")), (str(int(x - left) - edge[0]), str(int(y - top) - edge[1])))
    person.two([(x - 60, y), (x + 60, y)], [(x - 120, y), (x + 120, y)])
    after = person.sees(film, film.usual(), "2-1")
    known = [(x - left - edge[0], y - top - edge[1]), ((x - left - after[0]) / 2, (y - top - after[1]) / 2)]
    hold(all(abs(a - b) <= 2 for a, b in zip(*known)), "under the middle of the fingers:", known)
    person.touch("touchStart", (x, y))
    for i in range(1, 6):
        person.touch("touchMove", (x + 12 * i, y + 6 * i))
    person.touch("touchEnd")
    person.settled()
    dragged = person.sees(film, film.usual(), "2-1")
    hold(abs(dragged[0] - after[0] - 60) <= 10 and abs(dragged[1] - after[1] - 30) <= 10, "dragged by", dragged, after)
    person.two([(x - 40, y), (x + 40, y)], [(x - 40 + 50, y - 90), (x + 40 + 50, y - 90)])
    level, window = int(person.value("level")), int(person.value("width"))
    hold(level > 2048 and window == 4096, "level and window are", level, window)
    person.two([(x - 40, y), (x + 40, y)], [(x - 40 - 80, y), (x + 40 - 80, y)])
    hold(int(person.value("width")) < 4096, "the window is", person.value("width"))
    person.sees(film, film.usual(), "2-1", table=expected.shades(int(person.value("level")), int(person.value("width"))))
    return "level %d, then window %s" % (level, person.value("width"))


SMALL = """
return [...document.querySelectorAll('button, select, input, [role="slider"], summary')]
  .filter(each => each.checkVisibility() && each.id !== 'open-input')
  .map(each => { const target = each.type === 'checkbox' ? each.closest('label') : each, box = target.getBoundingClientRect();
    return [each.id, Math.round(box.width), Math.round(box.height)]; }).filter(([, width, height]) => width < 44 || height < 44);
"""


def finger_room(person, films):
    """With fingers every control is at least 44 wide and high, in three sizes of screen, and nothing lies beyond the screen's
    sides; upright the film list is a row of its own, and each film can be chosen and closed by a tap."""
    for width, height in ((1200, 800), (820, 1180), (412, 915)):
        person.arrive(width, height, fingers=True)
        numbers = person.open(*[person.file(film.name, film.file()) for film in (films.odd, films.shallow, films.small)])
        person.script("for (const part of document.querySelectorAll('details.part')) part.open = true")
        same("controls that are too small at %d by %d" % (width, height), person.script(SMALL), [])
        beyond = person.script("""return [...document.querySelectorAll('#view-bar button, #panel input, #panel button, #top button')]
            .filter(each => each.offsetParent && !each.closest('#films')).filter(each => { const box = each.getBoundingClientRect();
            return box.right > innerWidth + 1 || box.left < -1; }).map(each => each.id)""")
        same("beyond the sides at %d by %d" % (width, height), beyond, [])
        for number in numbers:
            tap_on(person, "film-%d" % number)
            same("chosen by a tap", chosen(person), number)
        tap_on(person, "close-%d" % numbers[2])
        same("films left", len(person.entries()), 2)
        hold(person.box("canvas-scanned")[3] > 150, "the picture is", person.box("canvas-scanned"))
    return "1200 by 800, 820 by 1180, 412 by 915"


def tap_on(person, name):
    """Taps on a control, which is brought into view first."""
    person.script("document.getElementById(arguments[0]).scrollIntoView({block: 'nearest', inline: 'center'})", name)
    left, top, width, height = person.box(name)
    person.tap(left + width / 2, top + height / 2)


# Behind a pause, since what a driver runs at once is free of the policy.
TRIES = """
const done = arguments[0], seen = [];
addEventListener('securitypolicyviolation', event => seen.push(event.effectiveDirective));
const add = (kind, words, to) => to.append(Object.assign(document.createElement(kind), words));
setTimeout(() => {
  add('script', {textContent: 'window.ran = 1'}, document.body);
  try { (0, eval)('window.ran = 2'); } catch { seen.push('eval'); }
  add('img', {src: 'https://example.org/a.png'}, document.body);
  add('style', {textContent: 'h1 { color: red }'}, document.head);
  add('iframe', {src: 'data:text/html,x'}, document.body);
  new FontFace('x', 'url(https://example.org/a.woff)').load().catch(() => {});
  for (const address of ['https://example.org/', 'file:///etc/hostname']) fetch(address).catch(() => {});
  document.querySelector('#top').setAttribute('style', 'color: red');
  setTimeout(() => done([window.ran || 0, [...new Set(seen)].sort()]), 400);
}, 50);
"""


def policy(person, films):
    """The page's own policy: nothing but what it needs. Scripts, styles, pictures, frames, fonts and requests that are put into the
    page are held off, and the page itself works."""
    rules = person.driver.find_element(By.CSS_SELECTOR, "meta[http-equiv]").get_attribute("content")
    parts = dict(rule.strip().split(" ", 1) for rule in rules.split(";"))
    same("default-src", parts["default-src"], "'none'")
    same("what is allowed", " ".join(sorted(parts)), "base-uri default-src form-action img-src script-src style-src worker-src")
    hold("unsafe-inline" not in rules and "'unsafe-eval'" not in rules and "http" not in rules, "the policy is", rules)
    ran, seen = person.driver.execute_async_script(TRIES)
    same("scripts that ran", ran, 0)
    same("what was held off", seen, ["connect-src", "eval", "font-src", "frame-src", "img-src", "script-src", "script-src-elem",
                                     "style-src-attr", "style-src-elem"])
    person.complaints()
    person.show(films.odd)
    person.click("zoom-1-1")
    person.settled()
    person.sees(films.odd, films.odd.usual())
    return rules.split("; ")[0] + ", and what it needs"


def copied(person, films):
    """Settings go from one film to others by a word that names them, and to no other; undo takes them back on each."""
    numbers = person.open(*[person.file(film.name, film.file()) for film in (films.sample, films.twin, films.odd)])
    person.type("factor", "5")
    person.type("across", "6")
    person.keys(Keys.ESCAPE, "e")
    person.click("copy")
    same("the word at first", person.text("copy-do"), "Copy to no film")
    hold(not person.element("copy-do").is_enabled(), "it can be pressed without a film")
    hold("film 1 weld.pgm: grid 6 by 8, 1024 bins, range 0 to 4095, factor 5, edition of 1986" in person.text("copy-from"),
         "it says", person.text("copy-from"))
    person.click("copy-%d" % numbers[1])
    same("the word", person.text("copy-do"), "Copy to film 2 twin.pgm")
    person.click("copy-do")
    person.settled()
    asked = expected.settings(6, 8, 1024, 0, 4095, 5.0, 1)
    person.choose(numbers[1])
    same("settings of the second", set_now(person), asked)
    person.sees(films.twin, asked)
    person.control("z")
    person.sees(films.twin, films.twin.usual())
    person.choose(numbers[2])
    same("settings of the third", set_now(person), films.odd.usual())
    return "to the second of three"


WAYS = [keys_everywhere, whole_numbers, one_pixel, undo_and_redo, leaving, folder, fingers, finger_room, policy, copied]
