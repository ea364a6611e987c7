"""Ways of seeing how far a scratch reaches: the tiles that a pixel uses, listed and outlined, and what a rectangle can reach,
shaded; all held to the second program (second/reach.py)."""

import base64
import random

from selenium.webdriver.common.keys import Keys

import expected
import reach
from person import hold, same
from ways_measure import place
from ways_settings import set_now

# Sizes and grids: sides that no grid divides, one tile a column, a centre on every second column, and random ones.
FILMS = [(77, 63, 9, 5), (23, 40, 16, 3), (64, 48, 4, 3)]


def some_films(seed, count):
    """Films of the sizes above and random ones, each with the words for its grid."""
    of = random.Random(seed)
    sizes = FILMS + [(of.randrange(9, 90), of.randrange(9, 90), of.randrange(2, 10), of.randrange(2, 10)) for _ in range(count)]
    for i, (width, height, across, down) in enumerate(sizes):
        yield of, expected.noisy("reach%d.pgm" % i, width, height), (("across", str(across)), ("down", str(down)))


def laid(person, film, words, zoom="4-1"):
    """Opens a film, sets what the words say and looks at it at a zoom; gives the settings and where the film lies."""
    person.choose(person.show(film))
    for box, text in words:
        person.type(box, text)
    person.click("zoom-" + zoom)
    person.settled()
    asked = set_now(person)
    return asked, person.sees(film, asked, zoom)


def point_at(person, edge, x, y, size=4):
    """Points at a pixel of the scanned picture."""
    left, top, width, height = person.box("canvas-scanned")
    dot = edge[0] + size * x + 1, edge[1] + size * y + 1
    hold(0 <= dot[0] < width and 0 <= dot[1] < height, "the pixel %d, %d is not on the pane" % (x, y))
    person.mouse("mouseMoved", left + dot[0], top + dot[1])
    person.until("a reading of %d, %d" % (x, y), lambda: (person.text("at-column"), person.text("at-row")) == (str(x), str(y)))
    person.settled()


# ---- the list ----

def words_of(asked, used):
    """What stands in the four places of the list, and beneath 'uses'."""
    tiles = [(tile // asked.across, tile % asked.across, weight) for tile, weight in used]
    first = min(tile[0] for tile in tiles), min(tile[1] for tile in tiles)
    cells = ["", "", "", ""]
    for down, across, weight in tiles:
        cells[2 * (down - first[0]) + across - first[1]] = "%d, %d: %d" % (across + 1, down + 1, weight)
    return [*cells, "of %d" % sum(weight for _, weight in used)]


def listed(person):
    """What the list says."""
    return [person.text("used-" + name) for name in ("0", "1", "2", "3", "sum")]


def used_tiles(person, films):
    """The tiles that a pixel's rule uses, with their weights, on films of odd sizes and grids: on centres, beside them, at corners
    and elsewhere; clip off; at factor 1.0 none."""
    seen = [0] * 5
    for of, film, words in some_films(10, 2):
        asked, edge = laid(person, film, words)
        columns = [reach.clahe.centre_of(film.width, asked.across, i) for i in range(asked.across)]
        rows = [reach.clahe.centre_of(film.height, asked.down, j) for j in range(asked.down)]
        pixels = [(0, 0), (film.width - 1, film.height - 1), (columns[1], rows[0]), (columns[1] - 1, rows[-1])]
        for x, y in pixels + [(of.randrange(film.width), of.randrange(film.height)) for _ in range(4)]:
            point_at(person, edge, x, y)
            used = reach.used_tiles(film.width, film.height, asked, x, y)
            same("used by %d, %d of %s" % (x, y, film.name), listed(person), words_of(asked, used))
            seen[len(used)] += 1
    x, y = film.width // 2, film.height // 2
    point_at(person, edge, x, y)
    before = listed(person)
    person.type("factor", "1")
    same("at factor 1.0", listed(person), ["its own grey alone: factor 1.0", "", "", "", ""])
    person.check("clip", False)
    same("clip off", listed(person), before)
    hold(seen[1] and seen[2] and seen[4], "pixels with one, two and four tiles:", seen)
    return "%d pixels use one tile, %d two, %d four" % (seen[1], seen[2], seen[4])


# ---- the outlines ----

# Of each pane the outlines that are seen, in its dots.
MARKED = """return [...document.querySelectorAll('.glass')].map(glass => { const from = glass.getBoundingClientRect();
  return [...glass.querySelectorAll('.tile-mark')].filter(mark => mark.style.display === 'block').map(mark => {
    const box = mark.getBoundingClientRect();
    return [box.left - from.left, box.top - from.top, box.width, box.height].map(Math.round); }); });"""


def outlined_tiles(person, films):
    """The key outlines the tile that the pixel lies in, then the tiles that it uses, then none, in both pictures; the buttons do so
    too."""
    tried = 0
    for of, film, words in some_films(11, 1):
        asked, edge = laid(person, film, words)
        tiles = reach.clahe.tiles_of(film.width, film.height, asked)
        boxes = [[edge[0] + 4 * tile.left, edge[1] + 4 * tile.top, 4 * (tile.right - tile.left), 4 * (tile.bottom - tile.top)]
                 for tile in tiles]
        for _ in range(2):
            x, y = of.randrange(film.width), of.randrange(film.height)
            point_at(person, edge, x, y)
            own = [boxes[film.tile_at(x, y, asked)[0]]]
            used = [boxes[tile] for tile, _ in reach.used_tiles(film.width, film.height, asked, x, y)]
            for wanted in (own, used, []):
                person.keys("t")
                same("outlined at %d, %d of %s" % (x, y, film.name), person.script(MARKED), [wanted, wanted])
                tried += len(wanted)
    person.click("outline-used")
    same("by its button", len(person.script(MARKED)[0]), len(used))
    person.click("outline-tile")
    same("by the other button", person.script(MARKED), [own, own])
    person.click("outline-tile")
    same("by the same button", person.script(MARKED), [[], []])
    return "%d outlines in each picture" % tried


# ---- the shading ----

# Of each pane's overlay its size, and which of its dots are shaded: by the shading's own strength, which no outline has.
SHADED = """return [...document.querySelectorAll('.overlay')].map(canvas => {
  const {width, height} = canvas, data = canvas.getContext('2d').getImageData(0, 0, width, height).data;
  const found = new Uint8Array(width * height);
  for (let i = 0; i < found.length; i++) found[i] = data[4 * i + 3] === 64 ? 1 : 0;
  let text = '';
  for (let i = 0; i < found.length; i += 32768) text += String.fromCharCode(...found.subarray(i, i + 32768));
  return {width, height, found: btoa(text)};
});"""


def dots_of(film, pixels, zoom, turn):
    """The film's dots at a zoom, turned: rows of bytes, 1 where a dot shows one of the pixels."""
    greys = [4095 if (x, y) in pixels else 0 for y in range(film.height) for x in range(film.width)]
    columns, rows, means = expected.turned(*expected.cells(film, greys, zoom), *turn)
    size = 1 if isinstance(zoom, int) else expected.ZOOMS[zoom][0]
    lines = [bytes(1 if mean else 0 for mean in means[y * columns:(y + 1) * columns] for _ in range(size)) for y in range(rows)]
    return [line for line in lines for _ in range(size)]


def on_pane(lines, edge, width, height):
    """These rows of dots where the film lies on a pane."""
    rows = []
    for y in range(height):
        line = lines[y - edge[1]] if 0 <= y - edge[1] < len(lines) else b""
        line = bytes(max(0, edge[0])) + line[max(0, -edge[0]):]
        rows.append((line + bytes(width))[:width])
    return rows


def beside(lines, edge):
    """Whether a dot may be covered by the outline of these dots or by the word at its upper or lower left corner."""
    rows = [y for y, line in enumerate(lines) if any(line)]
    columns = [x for x in range(len(lines[0])) if any(line[x] for line in lines)]
    left, right = edge[0] + columns[0], edge[0] + columns[-1]
    top, bottom = edge[1] + rows[0], edge[1] + rows[-1]

    def covered(x, y):
        near = left - 4 <= x <= right + 4 and top - 4 <= y <= bottom + 4
        inside = left + 3 <= x <= right - 3 and top + 3 <= y <= bottom - 3
        word = left - 4 <= x <= left + 60 and (top - 20 <= y <= top or bottom <= y <= bottom + 20)
        return near and not inside or word
    return covered


def shaded(person, film, edge, zoom, box, reached, turn=(False, 0)):
    """Holds the shading over both pictures to the pixels that a rectangle reaches, dot by dot; gives how many dots are shaded."""
    own = {(x, y) for y in range(box[1], box[3] + 1) for x in range(box[0], box[2] + 1)}
    covered, count = beside(dots_of(film, own, zoom, turn), edge), 0
    lines = dots_of(film, reached, zoom, turn)
    for canvas in person.script(SHADED):
        width, height = canvas["width"], canvas["height"]
        seen = base64.b64decode(canvas["found"])
        for y, wanted in enumerate(on_pane(lines, edge, width, height)):
            line = seen[y * width:(y + 1) * width]
            count += sum(line)
            if line != wanted:
                other = [x for x in range(width) if line[x] != wanted[x] and not covered(x, y)]
                hold(not other, "%s at %s: dots %s of row %d are not as expected, film at %s" % (film.name, zoom, other[:5], y, edge))
    return count


def reach_words(reached):
    """The columns and rows of a rectangle of pixels."""
    columns, rows = [sorted({pixel[i] for pixel in reached}) for i in (0, 1)]
    same("pixels that are reached", len(reached), len(columns) * len(rows))
    return "columns %d to %d, rows %d to %d" % (columns[0], columns[-1], rows[0], rows[-1])


def dragged_region(person, edge, of, film):
    """Drags a region at 4:1; gives its first and last column and row."""
    left, top = person.box("canvas-scanned")[:2]
    columns, rows = (sorted(of.sample(range(side), 2)) for side in (film.width, film.height))
    dot = lambda x, y: (round(left + edge[0] + 4 * x + 2), round(top + edge[1] + 4 * y + 2))
    person.click("tool-region")
    person.drag(*dot(columns[0], rows[0]), *dot(columns[1], rows[1]))
    return columns[0], rows[0], columns[1], rows[1]


def reached_pixels(person, films):
    """What a region can reach is told and shaded, every dot over both pictures, on films of odd sizes and grids; with clip off the
    same, at factor 1.0 its own pixels alone; the canvases stay the film's."""
    dots = 0
    for of, film, words in some_films(12, 2):
        asked, edge = laid(person, film, words)
        for _ in range(2):
            box = dragged_region(person, edge, of, film)
            far = reach.reach_of(film.width, film.height, asked, *box)
            same("told of %s, %s" % (film.name, box), person.text("region-reach-told"), reach_words(far))
            person.check("region-reach", True)
            dots += shaded(person, film, edge, "4-1", box, far)
        person.sees(film, asked, "4-1")
    person.type("factor", "1")
    same("at factor 1.0", person.text("region-reach-told"), "itself: factor 1.0")
    own = reach.reach_of(film.width, film.height, set_now(person), *box)
    same("pixels at factor 1.0", len(own), (box[2] - box[0] + 1) * (box[3] - box[1] + 1))
    shaded(person, film, edge, "4-1", box, own)
    person.check("clip", False)
    same("clip off", person.text("region-reach-told"), reach_words(far))
    shaded(person, film, edge, "4-1", box, far)
    person.check("region-reach", False)
    same("not shaded", shaded(person, film, edge, "4-1", box, set()), 0)
    return "%d dots" % dots


def marked(person):
    """The chosen mark's first and last column and row."""
    left, top, width, height = [int(person.value("mark-" + side)) for side in ("left", "top", "width", "height")]
    return left, top, left + width - 1, top + height - 1


def reached_by_mark(person, films):
    """What the chosen mark can reach, by the key, at other zooms and turned, with other grids and where it is moved; another film has
    none."""
    film, tried = films.odd, 0
    other = person.show(films.shallow)
    person.choose(person.show(film))
    place(person, "k", 11, 7)
    person.keys(Keys.ENTER, Keys.ENTER, "s")  # the kind, the sentence
    box = marked(person)
    for zoom, keys, turn, across in (("1-1", "", (False, 0), "8"), ("1-2", "", (False, 0), "3"), ("2-1", "q", (False, 1), "3"),
                                     ("1-4", "h", (True, 3), "13"), ("4-1", "", (True, 3), "2")):
        person.type("across", across)
        person.click("zoom-" + zoom)
        person.script("document.getElementById('stage').focus()")
        person.keys(*keys)
        person.settled()
        asked = set_now(person)
        edge = person.sees(film, asked, zoom, turn=turn)
        far = reach.reach_of(film.width, film.height, asked, *box)
        same("told at grid %s" % across, person.text("mark-reach-told"), reach_words(far))
        tried += shaded(person, film, edge, zoom, box, far, turn)
    person.control(*[Keys.ARROW_LEFT] * 3)
    box = box[0] - 3, box[1], box[2] - 3, box[3]
    same("the mark moved", marked(person), box)
    far = reach.reach_of(film.width, film.height, asked, *box)
    same("told of the moved mark", person.text("mark-reach-told"), reach_words(far))
    tried += shaded(person, film, edge, zoom, box, far, turn)
    person.choose(other)
    same("over the other film", [sum(base64.b64decode(each["found"])) for each in person.script(SHADED)], [0, 0])
    return "%d dots" % tried


WAYS = [used_tiles, outlined_tiles, reached_pixels, reached_by_mark]
