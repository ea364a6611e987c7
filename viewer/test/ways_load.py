"""Ways with much to carry: the largest film, memory that runs out, very many films."""

import re
import time

import expected
from person import hold, same
from ways_settings import set_now

MOST_HOLD = 200  # ms

WATCH = """
window.held = {most: 0, long: 0, last: performance.now()};
setInterval(() => { const now = performance.now(); held.most = Math.max(held.most, now - held.last); held.last = now; }, 1);
new PerformanceObserver(list => { for (const each of list.getEntries()) held.long = Math.max(held.long, each.duration); })
  .observe({type: 'longtask', buffered: false});
"""

# Put before the worker's own text: memory that grows beyond so many pages, all instances together, is not to be had.
TIGHT = """
const Plain = window.Blob;
window.Blob = function (parts, words) {
  const isWorker = words && words.type === 'text/javascript';
  return new Plain(isWorker ? [`const grow = WebAssembly.Memory.prototype.grow; let taken = 0;
    WebAssembly.Memory.prototype.grow = function (pages) {
      if (taken + pages > PAGES) throw new RangeError('WebAssembly.Memory.grow(): Maximum memory size exceeded');
      taken += pages; return grow.call(this, pages); };`, ...parts] : parts, words);
};
window.Blob.prototype = Plain.prototype;
"""


def held_by(person, act):
    """The longest hold of the page's own thread while something is done, in ms, by a timer and by the browser's count of long
    tasks: the least of up to three turns, since a machine with other work beside it holds everything now and then."""
    turns = []
    while len(turns) < 3 and not (turns and max(turns[-1]) <= MOST_HOLD):
        person.script("held.most = held.long = 0; held.last = performance.now()")
        act()
        time.sleep(0.1)
        turns.append(person.script("return [held.most, held.long]"))
    return min(turns, key=max)


def largest_film(person, films):
    """4096 by 4096: opening it, moving the factor, panning, zooming and saving never hold the page's own thread for 200 ms."""
    person.script(WATCH)

    def factor(i):
        person.script("""const slider = document.getElementById('factor-slider');
            slider.value = 100 + 10 * arguments[0]; slider.dispatchEvent(new Event('input', {bubbles: true}))""", i)
        person.settled()

    def click(name):
        person.click(name)
        person.settled()
    acts = [("opening", lambda: person.show(films.largest))]
    acts += [("a factor", lambda i=i: factor(i)) for i in range(20)]
    acts += [("bins", lambda: person.type("bins", "4096")), ("panning", lambda: person.drag(400, 400, 200, 300))]
    acts += [("zoom " + zoom, lambda zoom=zoom: click("zoom-" + zoom)) for zoom in ("1-4", "1-2", "1-1")]

    def saved(end, button):
        number = int(person.text("film-number").split()[1])  # a turn more opens it once more
        name = expected.saved_name(films.largest, number, films.largest.usual()._replace(bins=4096))
        name = re.sub("clip[^-]*", "clip" + person.value("factor"), name)
        person.saved_file(name + end, button)
    acts += [("saving", lambda: saved(".pgm", "save-pgm")), ("the record", lambda: saved(".json", "save-record"))]
    worst = max(((name, held_by(person, act)) for name, act in acts), key=lambda each: max(each[1]))
    hold(max(worst[1]) <= MOST_HOLD, "%s held the page's thread for %.0f ms" % (worst[0], max(worst[1])))
    return "longest hold: %s, %.0f ms by a timer, %.0f ms by the browser's own count" % (worst[0], *worst[1])


# The first worker tells how many windows it has shared with the second.
SHARED = """
window.Blob = class extends Blob {
  constructor(texts, words) {
    super(texts.map(text => typeof text !== 'string' ? text : text
      .replace('const rest = await other;', 'const rest = await other; self.shared = (self.shared || 0) + (rest.cells ? 1 : 0);')
      .replace('answer.id = message.id;', 'answer.id = message.id; answer.shared = self.shared || 0;')), words);
  }
};
window.Worker = class extends Worker {
  constructor(...words) {
    super(...words);
    this.addEventListener('message', event => { window.shared = event.data.shared; });
  }
};
"""
ALONE = "Object.defineProperty(navigator, 'hardwareConcurrency', {value: 1});"


def two_workers(person, films):
    """Large windows are drawn by two workers, each its part: every picture is the whole one, in both editions, at factor 1.0 and
    while two films are changed; and so it is where there is one processor."""
    other = expected.Film("other.pgm", 1280, 1024, 4095, [4095 - grey for grey in films.noisy.greys])
    seen = []
    for before in (SHARED, SHARED + ALONE):
        person.arrive(before=before)
        first, second = person.open(*[person.file(film.name, film.file()) for film in (films.noisy, other)])
        for zoom in ("1-2", "1-4"):
            person.click("zoom-" + zoom)
            person.script("document.getElementById('stage').focus()")
            for _ in range(4):
                person.keys("e")
                person.sees(films.noisy, set_now(person), zoom)
            person.type("factor", "1")
            person.sees(films.noisy, set_now(person), zoom)
            person.type("factor", "3")
        person.choose(second)
        person.type("factor", "1")  # the film itself, so that no second rendering has to be worked out
        for number, film in ((first, films.noisy), (second, other)) * 2:
            person.choose(number)
            for zoom in ("1-4", "1-2"):
                person.click("zoom-" + zoom)
                person.settled()
                person.sees(film, set_now(person), zoom)
        seen.append(person.script("return window.shared"))
    hold(seen[0] > 8 and seen[1] == 0, "windows that were shared:", seen)
    return "%d windows shared, %d with one processor" % tuple(seen)


def no_memory(person, films):
    """Memory of the module that cannot grow: a message for that film, and the others stay and draw."""
    person.arrive(before=TIGHT.replace("PAGES", "700"))
    first, second = person.open(*[person.file(each.name, each.file()) for each in (films.sample, films.twin)])
    third, = person.open(person.file(films.largest.name, films.largest.file()))
    person.choose(third)
    told_no_room(person)
    for number, film in ((second, films.twin), (first, films.sample)):
        person.choose(number)
        person.sees(film, film.usual())
        person.type("factor", "2")
        person.sees(film, expected.settings(8, 8, 1024, 0, 4095, 2.0))
    return "growth that throws"


def told_no_room(person):
    """Holds the page to a message without a refusal's number, and no picture."""
    hold(person.element("refusal").is_displayed(), "no message")
    hold("memory" in person.text("refusal-sentence"), "the message is", person.text("refusal-sentence"))
    same("number", person.text("refusal-number"), "")
    person.blank()


def room_given_back(person, films):
    """With a bound on the memory of all films: one too many is told, and there is room again when another is closed."""
    person.arrive(mark="#memory=20")
    paths = [person.file(each.name, each.file()) for each in (films.sample, films.twin)]
    first, = person.open(paths[0])
    rest = [person.open(paths[1])[0] for _ in range(2)]
    refused = [entry["number"] for entry in person.entries() if entry["refused"]]
    hold(refused, "three films in 20 MiB: nothing is told")
    person.choose(refused[0])
    told_no_room(person)
    person.choose(first)
    person.sees(films.sample, films.sample.usual())
    for number in [first] + rest:
        person.click("close-%d" % number)
    again, = person.open(paths[0])
    person.choose(again)
    person.sees(films.sample, films.sample.usual())
    return "%d of 3 told, and one opened after closing" % len(refused)


def many_films(person, films):
    """150 films at once: each opens or is told, and the first and the last that opened draw."""
    path = person.file(films.odd.name, films.odd.file())
    numbers = person.open(*[path] * 150)
    entries = {entry["number"]: entry["refused"] for entry in person.entries()}
    good = [number for number in numbers if not entries[number]]
    hold(len(set(numbers)) == 150, "numbers are given twice")
    for number in (good[0], good[-1]):
        person.script("document.getElementById('film-' + arguments[0]).click()", number)
        person.settled()
        person.click("zoom-1-1")
        person.settled()
        person.sees(films.odd, films.odd.usual())
    for number in [each for each in numbers if entries[each]][:1]:
        person.script("document.getElementById('film-' + arguments[0]).click()", number)
        person.settled()
        told_no_room(person)
    return "%d opened, %d told that there is no room" % (len(good), 150 - len(good))


WAYS = [largest_film, two_workers, no_memory, room_given_back, many_films]
