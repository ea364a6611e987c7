"""Ways of looking: dragging, keys, wheel, zooms, the divider, blink. Both pictures have to move together, dot for dot."""

import expected
from person import hold, same
from ways_films import SEEN

from selenium.webdriver.common.keys import Keys


def start(person, films, zoom="1-1"):
    """Looks at a film that is larger than its room; gives where its first dot lies."""
    person.show(films.noisy)
    person.click("zoom-" + zoom)
    person.settled()
    return look(person, films, zoom)


def look(person, films, zoom="1-1"):
    """Where the film's first dot lies now, on both canvases."""
    return person.sees(films.noisy, films.noisy.usual(), zoom)


def drag_to_pan(person, films):
    """The film follows the hand, dot for dot, at three zooms, and stops at its edge."""
    start(person, films)
    x, y = person.middle("canvas-rendered")
    for zoom in ("1-1", "4-1", "1-2"):
        person.click("zoom-" + zoom)
        person.settled()
        before = look(person, films, zoom)
        person.drag(x, y, x + 70, y - 45)
        after = look(person, films, zoom)
        held = [0, 1] if zoom != "1-2" else []
        for axis, way in ((0, 70), (1, -45)):
            if axis in held:
                same("moved at %s" % zoom, after[axis] - before[axis], way)
    person.click("zoom-1-1")
    for _ in range(6):
        person.drag(x - 250, y - 250, x + 250, y + 250, 4)
    same("the edge", look(person, films), (0, 0))
    return "1:1, 4:1 and 1:2, and to the upper left edge"


def dragged_far_at_once(person, films):
    """A jump farther than what was drawn around the window: the picture is whole when the page is at rest."""
    start(person, films)
    x, y = person.middle("canvas-scanned")
    before = look(person, films)
    person.drag(x, y, x - 260, y - 60, 1)
    after = look(person, films)
    same("moved", (after[0] - before[0], after[1] - before[1]), (-260, -60))
    return "260 dots at once"


def arrow_keys(person, films):
    """Each arrow moves the film its way."""
    before = start(person, films)
    person.click("label-scanned")
    person.script("document.getElementById('stage').focus()")
    moves = {Keys.ARROW_RIGHT: (-1, 0), Keys.ARROW_DOWN: (0, -1), Keys.ARROW_LEFT: (1, 0), Keys.ARROW_UP: (0, 1)}
    for key, (right, down) in moves.items():
        person.keys(key)
        after = look(person, films)
        step = after[0] - before[0], after[1] - before[1]
        hold(step[0] * right >= 0 and step[1] * down >= 0 and step != (0, 0), "a key moved it by", step)
        before = after
    return "right, down, left, up"


def wheel_at_the_pointer(person, films):
    """The pixel under the pointer stays under it from 1:4 up to 8:1 and back, at the fixed zooms by Shift and the wheel."""
    film = films.noisy
    start(person, films)
    left, top, width, height = person.box("canvas-scanned")
    x, y = round(width * 0.4), round(height * 0.55)
    known = {}
    for zoom, turn in [("2-1", -120), ("4-1", -120), ("8-1", -120), ("4-1", 120), ("2-1", 120), ("1-1", 120)]:
        person.wheel(left + x, top + y, turn, shift=True)
        edge, dots = look(person, films, zoom), expected.ZOOMS[zoom][0]
        known[zoom] = (x - edge[0]) // dots, (y - edge[1]) // dots
        hold(all(abs(a - b) <= 1 for a, b in zip(known[zoom], known["2-1"])), "under the pointer:", known)
    for zoom in ("1-2", "1-4", "1-4"):
        person.wheel(left + x, top + y, 120, shift=True)
        look(person, films, zoom)
    return "column and row %d, %d of %d by %d stay" % (*known["8-1"], film.width, film.height)


def zooms(person, films):
    """Each zoom by its button, by plus and minus, fit and 0: the picture is the one expected."""
    start(person, films)
    for zoom in expected.ZOOMS:
        person.click("zoom-" + zoom)
        person.settled()
        look(person, films, zoom)
        hold(person.text("how").startswith(zoom.replace("-", ":")), "the page says", person.text("how"))
    person.script("document.getElementById('stage').focus()")
    person.keys("-", "-")
    look(person, films, "2-1")
    person.keys("+")
    look(person, films, "4-1")
    person.keys("0")
    look(person, films, "1-1")
    person.keys("f")
    look(person, films, "1-4" if person.text("how").startswith("1:4") else "1-2")
    return "1:4 to 8:1"


def squares_and_means(person, films):
    """A film whose sides are no multiple of four, at each zoom: cut blocks at its edges too."""
    film = films.odd
    person.show(film)
    for zoom in expected.ZOOMS:
        person.click("zoom-" + zoom)
        person.settled()
        person.sees(film, film.usual(), zoom)
    return "77 by 63"


def strip(person, at):
    """The shades of a row of the screen over the frame, from its left edge on."""
    left, top, width, _ = person.box("canvas-scanned")
    row = person.screen(left, top + at, width, 1)[0]
    hold(all(red == green == blue for red, green, blue in row), "a tint on the film")
    return [red for red, _, _ in row]


def divider(person, films):
    """The scanned film on the left of the line, the rendered one on its right, wherever the line is dragged to."""
    start(person, films)
    person.script("document.getElementById('stage').focus()")
    person.keys("2")
    look(person, films)
    left, top, width, height = person.box("canvas-scanned")
    for share in (0.3, 0.8, 0.5):
        x, y = person.middle("divider")
        person.drag(x, y, round(left + share * width), y)
        person.mouse("mouseMoved", 5, 5)
        line, _ = person.middle("divider")
        hold(abs(line - left - share * width) <= 2, "the line is at", line - left)
        seen, at = strip(person, 100), round(line - left)
        halves = [list(person.canvas(which).row(100)) for which in ("scanned", "rendered")]
        same("left of the line", seen[:at - 8], halves[0][:at - 8])
        same("right of the line", seen[at + 9:], halves[1][at + 9:])
    return "at 30, 80 and 50 of 100"


def blink(person, films):
    """In turn: by the key and by the button the other picture is seen, in the same place."""
    start(person, films)
    person.script("document.getElementById('stage').focus()")
    person.keys("3")
    look(person, films)
    person.mouse("mouseMoved", 5, 5)
    halves = [list(person.canvas(which).row(200)) for which in ("scanned", "rendered")]
    seen = [strip(person, 200)]
    person.keys("b")
    seen.append(strip(person, 200))
    person.click("blink")
    person.settled()
    person.mouse("mouseMoved", 5, 5)
    seen.append(strip(person, 200))
    hold(seen[0] in halves, "neither picture is seen")
    other = halves[1 - halves.index(seen[0])]
    same("behind the key b", seen[1], other)
    same("behind the button", seen[2], seen[0])
    return "key and button"


def own_view(person, films):
    """Each film keeps its own place and zoom."""
    first, second = person.open(*[person.file(each.name, each.file()) for each in (films.noisy, films.sample)])
    person.click("zoom-4-1")
    person.settled()
    x, y = person.middle("canvas-scanned")
    person.drag(x, y, x + 100, y + 60)
    before = look(person, films, "4-1")
    person.choose(second)
    person.sees(films.sample, films.sample.usual())
    person.choose(first)
    same("the first film's place", look(person, films, "4-1"), before)
    return "4:1 and 1:1"


def screens(person, films):
    """Nothing lies beyond the screen at 1280 by 720, 1440 by 900 and 1920 by 1080, and every control has a name."""
    for width, height in ((1280, 720), (1440, 900), (1920, 1080)):
        person.arrive(width, height)
        person.show(films.sample)
        beyond = person.script("""return [...document.querySelectorAll('button, input, canvas, dd')].filter(each => {
            if (each.closest('.part')) return false;
            const box = each.getBoundingClientRect();
            return box.width > 1 && (box.right > innerWidth + 1 || box.bottom > innerHeight + 1); }).map(each => each.id)""")
        same("beyond the screen of %d by %d" % (width, height), beyond, [])
        scrolls = person.script("""const end = id => document.getElementById(id).getBoundingClientRect().bottom;
            return end('tile-plot') - end('panel')""")
        hold(scrolls <= 0, "at %d by %d the panel has to be scrolled by %d for the tile's plot" % (width, height, scrolls))
        person.sees(films.sample, films.sample.usual(), "1-1")
        person.click("sample")
        person.opened({1}, 1)
        hold(person.script(SEEN, "#density") and person.script(SEEN, "#how"), "the foot is cut off at %d by %d" % (width, height))
    nameless = person.script("""return [...document.querySelectorAll('button, input')].filter(each =>
        !(each.labels && each.labels.length) && !each.getAttribute('aria-label') && !each.textContent.trim()).map(each => each.id)""")
    same("controls without a name", nameless, [])
    return "1280 by 720, 1440 by 900, 1920 by 1080"


WAYS = [drag_to_pan, dragged_far_at_once, arrow_keys, wheel_at_the_pointer, zooms, squares_and_means, divider, blink, own_view,
        screens]
