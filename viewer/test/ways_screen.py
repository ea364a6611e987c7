"""Ways on the screen: whole dots at every scale, fit, the overview, any zoom, turned and mirrored, the magnifier, the scan's own
window, two films."""

import expected
from person import hold, same

SCALES = (1, 1.1, 1.25, 1.5, 1.75, 2)

# Holds what is on the screen to the canvases, dot by dot: the screenshot's dots from where each canvas lies. Gives what differs.
ON_SCREEN = """
const [png, mode, done] = arguments, image = new Image();
const dots = (source, x, y, width, height) => { const canvas = document.createElement('canvas');
  canvas.width = width; canvas.height = height;
  const pen = canvas.getContext('2d', {willReadFrequently: true}); pen.drawImage(source, -x, -y);
  return pen.getImageData(0, 0, width, height).data; };
const compare = (id, from, to, seen) => {
  const canvas = document.getElementById(id), box = canvas.getBoundingClientRect();
  const place = [box.left, box.top, box.width, box.height].map(length => length * devicePixelRatio);
  const whole = place.map(Math.round), off = Math.max(...place.map((length, i) => Math.abs(length - whole[i])));
  if (off > 0.02 || whole[2] !== canvas.width || whole[3] !== canvas.height)
    return `${id} lies at ${place}, its dots are ${canvas.width} by ${canvas.height}`;
  const left = Math.round(from * canvas.width), right = Math.round(to * canvas.width), width = right - left;
  const shot = dots(image, whole[0] + left, whole[1], width, canvas.height), own = dots(canvas, left, 0, width, canvas.height);
  let other = 0;
  for (let i = 0; i < own.length; i += 4)
    if (own[i + 3] && (own[i] !== shot[i] || own[i] !== shot[i + 1] || own[i] !== shot[i + 2])) other++;
  seen.push(width * canvas.height);
  return other ? `${id}: ${other} of ${width * canvas.height} dots are others` : '';
};
image.onload = () => { const seen = [], parts = {side: [['canvas-scanned', 0, 1], ['canvas-rendered', 0, 1]],
  divide: [['canvas-scanned', 0, 0.46], ['canvas-rendered', 0.54, 1]], turn: [['canvas-rendered', 0, 1]]}[mode];
  done([parts.map(([id, from, to]) => compare(id, from, to, seen)).filter(Boolean), seen.reduce((a, b) => a + b)]); };
image.src = 'data:image/png;base64,' + png;
"""


def whole_dots(person, films):
    """1:1 at the screen's scales 1 to 2, in three ways of looking: the screen has the canvases' dots, none spread over two; and the
    canvases have the film's pixels."""
    dots = 0
    for scale in SCALES:
        person.arrive(1000, 620, scale=scale)
        person.show(films.sample)
        person.click("zoom-1-1")
        person.mouse("mouseMoved", 2, 2)
        person.settled()
        for mode in ("side", "divide", "turn"):
            person.click("mode-" + mode)
            person.settled()
            hold(person.text("how").startswith("1:1: pixel for pixel"), "the page says", person.text("how"))
            shot = person.tell("Page.captureScreenshot", format="png")["data"]
            other, count = person.driver.execute_async_script(ON_SCREEN, shot, mode)
            same("at scale %g, %s" % (scale, mode), other, [])
            dots += count
        person.sees(films.sample, films.sample.usual())
    person.arrive(1000, 620, scale=1.07)
    person.show(films.sample)
    person.click("zoom-1-1")
    person.settled()
    hold("pixel for pixel" not in person.text("how") and "107 %" in person.text("how"), "at a scale without whole dots it says",
         person.text("how"))
    return "scales %s, %d dots; at 1.07 it is not said" % (", ".join("%g" % scale for scale in SCALES), dots)


def pressed(person, name):
    """Whether a button is lit."""
    return person.element(name).get_attribute("aria-pressed") == "true"


def zoom_now(person):
    """The zoom in 1024ths."""
    return person.script("return tzofnadir.look.painted.zoom.p")


def fit_fits(person, films):
    """Fit shows the whole film, in windows and of films of many shapes, below 1:4 too, and is lit where it does and nowhere else."""
    seen = []
    for film, width, height in ((films.long, 1000, 620), (films.long, 1600, 1000), (films.sample, 1000, 620), (films.odd, 1280, 720)):
        person.arrive(width, height)
        person.show(film)
        person.script("document.getElementById('stage').focus()")
        person.keys("f")
        p = zoom_now(person)
        zoom = {256: "1-4", 512: "1-2", 1024: "1-1", 2048: "2-1", 4096: "4-1", 8192: "8-1"}.get(p, p)
        edge = person.sees(film, film.usual(), zoom)
        canvas = person.canvas("scanned")
        hold(edge[0] >= 0 and edge[1] >= 0 and canvas.wide >= film.width * p // 1024, "not all of it is seen at", zoom)
        hold(pressed(person, "fit"), "Fit is not lit at", zoom)
        person.keys("+", "+", "+", "+")
        hold(not pressed(person, "fit"), "Fit is lit though a part is seen")
        seen.append(person.text("how").split(":")[0] and "%g" % (p / 1024))
    return "zooms " + ", ".join(seen)


def overview(person, films):
    """The overview outlines the part that is seen, and a hand on it moves that part."""
    film = films.sample
    person.show(film)
    person.click("zoom-4-1")
    person.settled()
    x, y = person.middle("canvas-scanned")
    for _ in range(4):
        person.drag(x - 150, y - 150, x + 150, y + 150, 2)
    part = person.until("an overview", lambda: person.script("return document.getElementById('overview').dataset.part"))
    left, top, width, height = [int(word) for word in part.split()]
    edge = person.sees(film, film.usual(), "4-1")
    same("the edge", edge, (0, 0))
    canvas = person.canvas("scanned")
    scale = min(92 / film.width, 64 / film.height)
    hold(abs(width - canvas.width / 4 * scale) <= 2 and abs(height - canvas.height / 4 * scale) <= 2, "the outline is", part)
    box = person.box("overview")
    person.drag(round(box[0] + left + width / 2), round(box[1] + top + height / 2), round(box[0] + 80), round(box[1] + 55), 3)
    edge = person.sees(film, film.usual(), "4-1")
    same("the lower right corner", edge, (canvas.width - 4 * film.width, canvas.height - 4 * film.height))
    person.click("fit")
    person.settled()
    same("with the whole film seen", person.script("return document.getElementById('overview').dataset.part"), "")
    return "an outline of %d by %d dots, dragged to the far corner" % (width, height)


def any_zoom(person, films):
    """The wheel goes through any zoom, about the pointer, and stops at the fixed ones on its way: each picture is the mean of the
    pixels that a dot has, or the pixel that it lies in."""
    film = films.odd
    person.show(film)
    person.click("zoom-1-1")
    person.settled()
    left, top, width, height = person.box("canvas-scanned")
    x, y = left + round(width / 2) + 9, top + round(height / 2) - 7
    seen, words = [], set()
    for turn in (-120, -120, -120, -120, -77, 77, 120, 120, 120, 120, 120, 120, 31, 200, 9):
        person.wheel(x, y, turn)
        p = zoom_now(person)
        name = {256: "1-4", 512: "1-2", 1024: "1-1", 2048: "2-1", 4096: "4-1"}.get(p, p)
        person.sees(film, film.usual(), name)
        seen.append(p)
        words.add(person.text("how").split(": ", 1)[1].split(";")[0])
    hold(2048 in seen and 1024 in seen and len(set(seen)) > 9, "the zooms were", seen)
    hold({"means of unequal blocks of pixels", "pixels as unequal squares, not smoothed"} <= words, "the page said", words)
    return "in 1024ths: " + " ".join(str(p) for p in seen)


def turned(person, films):
    """Turned and mirrored, for display alone: all eight ways, at a zoom with cut blocks and as squares, the pixel that is read, and
    the saved film."""
    film = films.odd
    number = person.show(film)
    name = expected.saved_name(film, number, film.usual()) + ".pgm"
    saved = person.saved_file(name, "save-pgm")
    person.script("document.getElementById('stage').focus()")
    for zoom in ("1-4", "2-1"):
        person.click("zoom-" + zoom)
        person.settled()
        for mirrored in (False, True):
            for quarters in range(4):
                edge = person.sees(film, film.usual(), zoom, turn=(mirrored, quarters))
                if zoom == "2-1":
                    read_turned(person, film, edge, mirrored, quarters)
                person.keys("q")
            person.keys("h")
    person.keys("q", "h")
    person.sees(film, film.usual(), "2-1", turn=(True, 3))
    hold(person.saved_file(name, "save-pgm") == saved, "the saved film changed with the turn")
    return "eight ways at 1:4 and 2:1"


def read_turned(person, film, edge, mirrored, quarters):
    """Points at a dot, and holds the reading to the pixel that is seen there."""
    columns, _, greys = expected.turned(film.width, film.height, list(range(film.width * film.height)), mirrored, quarters)
    left, top, _, _ = person.box("canvas-rendered")
    x, y = 21, 17
    person.mouse("mouseMoved", left + edge[0] + 2 * x, top + edge[1] + 2 * y)
    at = greys[y * columns + x]
    wanted = (str(at % film.width), str(at // film.width), str(film.greys[at]))
    person.until("the reading %s" % (wanted,),
                 lambda: tuple(person.text("at-" + name) for name in ("column", "row", "scanned")) == wanted)
    person.settled()


READ_LENS = """
return [...document.querySelectorAll('.lens')].map(lens => { const {width, height} = lens, box = lens.getBoundingClientRect();
  return {shown: getComputedStyle(lens).display !== 'none', width, height, left: box.left, top: box.top,
    dots: width ? [...lens.getContext('2d').getImageData(0, 0, width, height).data].filter((_, i) => i % 4 === 0) : []}; });
"""


def magnifier(person, films):
    """Around the pixel that is read, in both pictures, pixels as squares of four dots; at the film's corner too."""
    film = films.sample
    person.show(film)
    person.click("zoom-1-1")
    person.click("lens")
    person.settled()
    edge = person.sees(film, film.usual())
    left, top, _, _ = person.box("canvas-scanned")
    for x, y in ((211, 190), (2, 3)):
        person.mouse("mouseMoved", left + edge[0] + x, top + edge[1] + y)
        person.until("a reading", lambda: (person.text("at-column"), person.text("at-row")) == (str(x), str(y)))
        person.settled()
        held_lens(person, film, x, y)
    person.click("lens")
    hold(not any(lens["shown"] for lens in person.script(READ_LENS)), "the magnifier stays")
    return "58 by 58 pixels at 4:1, about two of them"


def held_lens(person, film, x, y):
    """Holds both magnifiers to the pixels around one."""
    for lens, greys in zip(person.script(READ_LENS), (film.greys, film.rendered(film.usual()))):
        lens_held(lens, film, greys, x, y)


def lens_held(lens, film, greys, x, y):
    """Holds one magnifier to a film's greys around a pixel."""
    count, table = 58, expected.shades(2048, 4096)
    from_x, from_y = max(0, min(film.width - count, x - count // 2)), max(0, min(film.height - count, y - count // 2))
    same("size of the magnifier", [lens["shown"], lens["width"], lens["height"]], [True, 4 * count, 4 * count])
    wanted = [table[greys[(from_y + dy // 4) * film.width + from_x + dx // 4]] for dy in range(4 * count) for dx in range(4 * count)]
    hold(lens["dots"] == wanted, "the magnifier shows other pixels than those of", film.name, "about", x, y)


def own_window(person, films):
    """The scanned picture by its own greys: the window that one pixel of 200 lies beyond at each end; the rendered one stays."""
    film, asked = films.sample, films.sample.usual()
    person.show(film)
    person.check("auto", True)
    table = expected.shades(*expected.own_window(film))
    person.sees(film, asked, scan_table=table)
    hold("by its own greys" in person.text("label-scanned"), "the caption does not tell:", person.text("label-scanned"))
    hold("own" not in person.text("label-rendered"), "the caption of the rendered picture:", person.text("label-rendered"))
    person.type("level", "1500")
    person.sees(film, asked, table=expected.shades(1500, 4096), scan_table=table)
    person.check("auto", False)
    person.sees(film, asked, table=expected.shades(1500, 4096))
    return "level %d, window %d" % expected.own_window(film)


def two_films(person, films):
    """Two films linked: the same pixel on the same dot of both panes while they are moved and zoomed, each rendered with its own
    settings, and by a key as scanned; the second may be another size."""
    one, two = films.sample, films.odd
    first, second, third = person.open(*[person.file(film.name, film.file()) for film in (one, two, films.twin)])
    person.choose(second)
    person.type("factor", "6")
    person.choose(first)
    person.script("document.getElementById('stage').focus()")
    person.keys("4")
    asked = two.usual(6.0)
    for key in ("0", "+", "h", "q"):
        person.keys(key)
        zoom, turn = ("2-1" if key != "0" else "1-1"), {"h": (True, 0), "q": (True, 1)}.get(key, (False, 0))
        linked(person, (one, one.rendered(one.usual())), (two, two.rendered(asked)), zoom, turn)
    person.keys("b")
    linked(person, (one, one.greys), (two, two.greys), "2-1", (True, 1))
    hold(person.text("label-rendered").startswith("film %d · 77 × 63 · as scanned" % second),
         "caption:", person.text("label-rendered"))
    person.script("""const list = document.getElementById('pair-with'); list.value = arguments[0];
        list.dispatchEvent(new Event('change', {bubbles: true}))""", str(third))
    person.settled()
    linked(person, (one, one.greys), (films.twin, films.twin.greys), "2-1", (True, 1))
    return "films of 512 by 384 and 77 by 63, then two of one size"


def read_of_two(person, films):
    """Of two films the one that is pointed at is read, and it is said which; the magnifier has each pane's own film, and the tile
    is outlined on its film alone. A film that is closed leaves its pane at once, though the next one is at hand."""
    one, two, three = films.sample, films.twin, expected.Film("third.pgm", 512, 384, 4095, [4095 - grey for grey in films.sample.greys])
    first, second, third = person.open(*[person.file(film.name, film.file()) for film in (one, two, three)])
    person.choose(second)
    person.type("factor", "6")
    person.choose(first)
    person.script("document.getElementById('stage').focus()")
    person.keys("4", "0", "t")
    for number in (third, second):
        person.script("""const list = document.getElementById('pair-with'); list.value = arguments[0];
            list.dispatchEvent(new Event('change', {bubbles: true}))""", str(number))
        person.settled()
    person.click("lens")
    sides = [(one, one.usual()), (two, two.usual(6.0))]
    for pane, number, (film, asked) in zip(("scanned", "rendered"), (first, second), sides):
        edge = person.sees_on(pane, film, film.rendered(asked), "1-1", expected.shades(2048, 4096))
        left, top, _, _ = person.box("canvas-" + pane)
        person.mouse("mouseMoved", left + edge[0] + 211, top + edge[1] + 190)
        wanted = ("film %d" % number, "211", "190", str(film.greys[190 * 512 + 211]), str(film.grey_at(211, 190, asked)))
        person.until("the reading %s" % (wanted,), lambda: tuple(person.text(name) for name in (
            "pointer-film", "at-column", "at-row", "at-scanned", "at-rendered")) == wanted)
        person.settled()
        outlined = person.script("return [...document.querySelectorAll('.glass')].map(glass => "
                                 "[...glass.querySelectorAll('.tile-mark')].filter(each => each.style.display === 'block').length)")
        same("tiles that are outlined", outlined, [int(number == first), int(number == second)])
        for lens, (own, own_asked) in zip(person.script(READ_LENS), sides):
            lens_held(lens, own, own.rendered(own_asked), 211, 190)
    person.keys("m")
    person.click("close-%d" % second)
    person.settled()
    hold(person.text("label-rendered").startswith("film %d " % third), "the caption:", person.text("label-rendered"))
    person.sees_on("rendered", three, three.rendered(three.usual()), "1-1", expected.shades(2048, 4096))
    hold(person.text("at-column") in ("–", "211") and "film %d" % second not in person.text("pointer-part"), "it still reads the closed film")
    person.click("close-%d" % third)
    person.settled()
    hold(person.canvas("rendered").blank() and "no second film" in person.text("label-rendered"), "the last one's picture stays up")
    person.sees_on("scanned", one, one.rendered(one.usual()), "1-1", expected.shades(2048, 4096))
    return "films %d and %d, then %d" % (first, second, third)


def linked(person, left, right, zoom, turn):
    """Holds both panes to their films, and the second's place to the first's."""
    person.drag(500, 500, 560, 540, 2)
    table = expected.shades(2048, 4096)
    size = expected.ZOOMS[zoom][0]
    places = []
    for which, (film, greys) in (("scanned", left), ("rendered", right)):
        if person.canvas(which).blank():
            return
        x, y = person.sees_on(which, film, greys, zoom, table, turn)
        # where pixel 0, 0 of the film lies: at the far end where it is mirrored or turned
        width, height = (film.height, film.width) if turn[1] % 2 else (film.width, film.height)
        far_x, far_y = {(False, 0): (0, 0), (True, 0): (1, 0), (True, 1): (1, 1)}[turn]
        places.append((x + far_x * size * width, y + far_y * size * height))
    same("pixel 0, 0 of both", places[1], places[0])


WAYS = [whole_dots, fit_fits, overview, any_zoom, turned, magnifier, own_window, two_films, read_of_two]
