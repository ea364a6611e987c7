"""A person before the page: opens films, turns controls, drags and looks, in headless Chromium. What is done goes through
the browser's own input; what is seen is read off the canvases and the texts."""

import base64
import json
import os
import shutil
import time

from selenium import webdriver
from selenium.webdriver.chrome.options import Options
from selenium.webdriver.chrome.service import Service
from selenium.webdriver.common.action_chains import ActionChains
from selenium.webdriver.common.by import By
from selenium.webdriver.common.keys import Keys

import expected

PATIENCE = 180  # seconds; a machine with other work beside takes its time

READ_CANVAS = """
const canvas = document.getElementById(arguments[0]), {width, height} = canvas;
const data = canvas.getContext('2d').getImageData(0, 0, width, height).data;
let left = width, top = height, right = 0, bottom = 0, covered = 0, tinted = 0;
for (let y = 0, i = 0; y < height; y++) for (let x = 0; x < width; x++, i += 4) {
  if (data[i + 3] === 0) continue;
  covered++;
  if (x < left) left = x;
  if (y < top) top = y;
  if (x >= right) right = x + 1;
  if (y >= bottom) bottom = y + 1;
  if (data[i] !== data[i + 1] || data[i] !== data[i + 2] || data[i + 3] !== 255) tinted++;
}
const wide = Math.max(0, right - left), high = Math.max(0, bottom - top), shades = new Uint8Array(wide * high);
for (let y = 0, to = 0; y < high; y++) for (let x = 0; x < wide; x++) shades[to++] = data[4 * ((top + y) * width + left + x)];
let text = '';
for (let i = 0; i < shades.length; i += 32768) text += String.fromCharCode(...shades.subarray(i, i + 32768));
return {width, height, left, top, wide, high, covered, tinted, shades: btoa(text)};
"""


class Unexpected(Exception):
    """What is seen is not what is expected."""


def hold(is_so, *what):
    """Ends the way where something is not as expected."""
    if not is_so:
        raise Unexpected(" ".join(str(part) for part in what))


def same(what, seen, wanted):
    """Ends the way where two are not the same."""
    hold(seen == wanted, "%s: seen %r, expected %r" % (what, seen, wanted))


def browser(room, log=True):
    """Headless Chromium with a profile and a download folder of its own."""
    options = Options()
    options.binary_location = shutil.which("chromium")
    for flag in ("headless=new", "no-sandbox", "disable-gpu", "window-size=1600,1000", "disable-background-networking",
                 "disable-component-update", "no-first-run", "user-data-dir=" + os.path.join(room, "profile")):
        options.add_argument("--" + flag)
    if log:
        options.set_capability("goog:loggingPrefs", {"browser": "ALL", "performance": "ALL"})
    driver = webdriver.Chrome(service=Service(shutil.which("chromedriver")), options=options)
    driver.set_script_timeout(PATIENCE)
    return driver


class Person:
    """One person before one page."""

    def __init__(self, driver, page, room, logged=True):
        self.driver, self.page, self.room, self.logged = driver, page, room, logged
        self.saved = os.path.join(room, "saved")
        os.makedirs(self.saved, exist_ok=True)
        self.tell("Browser.setDownloadBehavior", behavior="allow", downloadPath=self.saved)

    def tell(self, command, **words):
        """Tells the browser something by its own protocol."""
        return self.driver.execute_cdp_cmd(command, words)

    def script(self, text, *words):
        """Runs a script in the page."""
        return self.driver.execute_script(text, *words)

    def size(self, width, height, scale=1, fingers=False):
        """Makes the page's room on the screen this large, with so many dots to each length, and fingers for a mouse."""
        self.tell("Emulation.setDeviceMetricsOverride", width=width, height=height, deviceScaleFactor=scale, mobile=fingers)
        self.tell("Emulation.setTouchEmulationEnabled", enabled=fingers, maxTouchPoints=2 if fingers else 1)

    def arrive(self, width=1600, height=1000, mark="", scale=1, fingers=False, before=""):
        """Opens the page anew, with no film. before: a script that is run before the page's own."""
        self.driver.get("about:blank")
        self.complaints()
        self.size(width, height, scale, fingers)
        first = self.tell("Page.addScriptToEvaluateOnNewDocument", source=before)["identifier"]
        self.driver.get("file://" + self.page + mark)
        self.tell("Page.removeScriptToEvaluateOnNewDocument", identifier=first)
        self.settled()

    # ---- waiting ----

    def until(self, what, is_so, patience=PATIENCE):
        """Waits until something is so."""
        end = time.monotonic() + patience
        while time.monotonic() < end:
            found = is_so()
            if found:
                return found
            time.sleep(0.01)
        raise Unexpected("waited %d s in vain: %s" % (patience, what))

    def settled(self):
        """Waits until nothing is under way."""
        self.until("the page at rest", lambda: self.script("return document.documentElement.dataset.busy") == "0")

    # ---- files ----

    def file(self, name, data):
        """A file in this person's folder."""
        path = os.path.join(self.room, name)
        if not (os.path.exists(path) and os.path.getsize(path) == len(data)):
            with open(path, "wb") as file:
                file.write(data)
        return path

    def entries(self):
        """The films in the list: their numbers, names and whether they are refused."""
        return self.script("""return [...document.querySelectorAll('#films .film')].map(entry => ({
            number: Number(entry.querySelector('button').id.slice(5)), text: entry.querySelector('button').textContent,
            refused: entry.classList.contains('refused'), reading: entry.classList.contains('reading')}))""")

    def open(self, *paths):
        """Opens files by the dialog, and gives the numbers that they got."""
        before = {entry["number"] for entry in self.entries()}
        self.element("open-input").send_keys("\n".join(paths))
        return self.opened(before, len(paths))

    def open_by_key(self, key, *paths):
        """Presses a key that opens the browser's own dialog, and chooses files in it; gives the numbers that they got."""
        before = {entry["number"] for entry in self.entries()}
        self.tell("Page.setInterceptFileChooserDialog", enabled=True)
        self.keys(key)
        node = self.until("the browser's dialog for files", self.dialog)
        self.tell("DOM.setFileInputFiles", files=list(paths), backendNodeId=node)
        self.tell("Page.setInterceptFileChooserDialog", enabled=False)
        return self.opened(before, len(paths))

    def dialog(self):
        """The input for which a dialog was opened, by the browser's own word, or None."""
        for entry in self.driver.get_log("performance"):
            word = json.loads(entry["message"])["message"]
            if word["method"] == "Page.fileChooserOpened":
                return word["params"]["backendNodeId"]
        return None

    def opened(self, before, count):
        """Waits for new films, and gives their numbers."""
        def there():
            new = [entry for entry in self.entries() if entry["number"] not in before]
            return new if len(new) == count and not any(entry["reading"] for entry in new) else None
        new = self.until("%d films opened" % count, there)
        self.settled()
        return [entry["number"] for entry in new]

    def show(self, film, *more):
        """Opens films and looks at the first; gives its number."""
        return self.open(*[self.file(each.name, each.file()) for each in (film, *more)])[0]

    def choose(self, number):
        """Looks at another film."""
        self.click("film-%d" % number)
        self.settled()

    def saved_file(self, name, button):
        """Saves by a button, and gives the file's bytes; no other file may come of it."""
        path = os.path.join(self.saved, name)
        if os.path.exists(path):
            os.remove(path)
        before = set(os.listdir(self.saved))
        self.click(button)
        self.until("saved " + name, lambda: os.path.exists(path) or self.until_saved(before, name))
        self.settled()
        with open(path, "rb") as file:
            return file.read()

    def until_saved(self, before, name):
        """Ends the way where a file under another name comes."""
        new = [each for each in set(os.listdir(self.saved)) - before if not each.endswith(".crdownload") and each[0] != "."]
        hold(not new or name in new, "saved as %s, expected %s" % (new, name))

    def folder(self, name):
        """A folder of its own inside this person's."""
        path = os.path.join(self.room, name)
        os.makedirs(path, exist_ok=True)
        return path

    # ---- fingers ----

    def touch(self, kind, *points):
        """What fingers do: where they are, each by its number."""
        self.tell("Input.dispatchTouchEvent", type=kind,
                  touchPoints=[{"x": x, "y": y, "id": i} for i, (x, y) in enumerate(points)])

    def tap(self, x, y):
        """A finger down and up."""
        self.touch("touchStart", (x, y))
        self.touch("touchEnd")
        time.sleep(0.05)
        self.settled()

    def two(self, starts, ends, steps=8):
        """Two fingers from where they begin to where they end."""
        self.touch("touchStart", starts[0])
        self.touch("touchStart", *starts)
        for i in range(1, steps + 1):
            self.touch("touchMove", *[tuple(a + (b - a) * i / steps for a, b in zip(start, end))
                                      for start, end in zip(starts, ends)])
        self.touch("touchEnd")
        time.sleep(0.05)
        self.settled()

    # ---- controls ----

    def element(self, name):
        """An element by its id."""
        return self.driver.find_element(By.ID, name)

    def text(self, name):
        """What an element says."""
        return self.script("return document.getElementById(arguments[0]).textContent", name)

    def value(self, name):
        """What a box holds."""
        return self.script("return document.getElementById(arguments[0]).value", name)

    def click(self, name):
        """A click on a control."""
        self.element(name).click()

    def type(self, name, text):
        """Types a number into a box, over what it held, and takes it by Enter."""
        self.click(name)
        ActionChains(self.driver).key_down(Keys.CONTROL).send_keys("a").key_up(Keys.CONTROL).send_keys(text, Keys.ENTER).perform()
        self.settled()

    def check(self, name, on):
        """Sets a switch."""
        if self.element(name).is_selected() != on:
            self.click(name)
            self.settled()

    def slide(self, name, *keys):
        """Moves a slider by keys."""
        self.script("document.getElementById(arguments[0]).focus()", name)
        self.keys(*keys)

    def keys(self, *keys):
        """Presses keys, one after the other."""
        for key in keys:
            ActionChains(self.driver).send_keys(key).perform()
            self.settled()

    def control(self, *keys):
        """Presses keys with Control held."""
        chain = ActionChains(self.driver).key_down(Keys.CONTROL)
        for key in keys:
            chain.send_keys(key)
        chain.key_up(Keys.CONTROL).perform()
        self.settled()

    # ---- the pointer ----

    def mouse(self, kind, x, y, **words):
        """What a mouse does at a place of the page."""
        self.tell("Input.dispatchMouseEvent", type=kind, x=x, y=y, **words)

    def drag(self, x, y, to_x, to_y, steps=8):
        """Drags with the left button held."""
        self.mouse("mouseMoved", x, y)
        self.mouse("mousePressed", x, y, button="left", buttons=1, clickCount=1)
        for i in range(1, steps + 1):
            self.mouse("mouseMoved", x + (to_x - x) * i // steps, y + (to_y - y) * i // steps, button="left", buttons=1)
        self.mouse("mouseReleased", to_x, to_y, button="left", clickCount=1)
        self.settled()

    def wheel(self, x, y, down, shift=False):
        """Turns the wheel at a place."""
        self.mouse("mouseMoved", x, y)
        self.mouse("mouseWheel", x, y, deltaX=0, deltaY=down, modifiers=8 if shift else 0)
        time.sleep(0.05)
        self.settled()

    def box(self, name):
        """Where an element lies on the page."""
        return self.script("""const box = document.getElementById(arguments[0]).getBoundingClientRect();
            return [box.left, box.top, box.width, box.height]""", name)

    def middle(self, name):
        """The middle of an element."""
        left, top, width, height = self.box(name)
        return round(left + width / 2), round(top + height / 2)

    # ---- looking ----

    def canvas(self, which):
        """What is on the canvas 'scanned' or 'rendered'."""
        return expected.Canvas(self.script(READ_CANVAS, "canvas-" + which))

    def screen(self, left, top, width, height):
        """The dots of a part of the screen, as it is seen: rows of (red, green, blue)."""
        shot = self.tell("Page.captureScreenshot", format="png",
                         clip={"x": left, "y": top, "width": width, "height": height, "scale": 1})
        return picture_of(base64.b64decode(shot["data"]))

    def sees(self, film, asked, zoom="1-1", table=None, turn=(False, 0), scan_table=None):
        """Holds both canvases to the film and its rendering; gives where the film's first dot lies on them. turn: whether it is
        mirrored, and by how many quarters it is turned; scan_table: the shades of the scan, where they are others."""
        table = table or expected.shades((film.maxval + 1) // 2, film.maxval + 1)
        places = []
        for which, greys in (("scanned", film.greys), ("rendered", film.rendered(asked))):
            own = scan_table if scan_table and which == "scanned" else table
            places.append(self.sees_on(which, film, greys, zoom, own, turn))
        same("places of the two pictures", places[1], places[0])
        return places[0]

    def sees_on(self, which, film, greys, zoom, table, turn=(False, 0)):
        """Holds one canvas to greys of a film; gives where its first dot lies."""
        canvas = self.canvas(which)
        same("dots that are no grey on the %s canvas" % which, canvas.tinted, 0)
        place = expected.Shown(film, greys, zoom, table, turn).edge(canvas)
        hold(place, "%s, %s canvas at %s: not the picture that is expected" % (film.name, which, zoom))
        return place

    def footed(self, film, asked):
        """Holds the footer to the second program."""
        limit, factor, used = expected.footer_of(film, asked)
        same("L", self.text("footer-limit"), str(limit))
        for name, value, digits in (("footer-asked", factor, "%.9g"), ("footer-used", used, "%.17g")):
            same(name, self.element(name).get_attribute("title"), digits % value)
            hold(abs(float(self.text(name)) - value) <= 5.1e-6, name, "shows", self.text(name), "for", value)

    def blank(self):
        """Holds both canvases to be empty."""
        for which in ("scanned", "rendered"):
            hold(self.canvas(which).blank(), "a picture stays up on the %s canvas" % which)

    def refused(self, number, sentence):
        """Holds the page to a refusal: number and sentence in red, in the film's place, and no picture."""
        refusal = self.element("refusal")
        hold(refusal.is_displayed(), "no refusal is shown, expected", number)
        same("the refusal", self.text("refusal-number") + " " + self.text("refusal-sentence"),
             "Refused, %d: %s" % (number, sentence))
        red, green, blue = [int(n) for n in refusal.value_of_css_property("color").strip("rgba()").split(",")[:3]]
        hold(red > 200 and green < 150 and blue < 150, "the refusal is not red:", red, green, blue)
        self.blank()
        hold(not self.element("save-pgm").is_enabled(), "a refused film can be saved")

    def complaints(self):
        """What the console has that is worse than a note, and the addresses that were asked for elsewhere. That canvases are
        read is the test's own doing."""
        if not self.logged:
            return []
        worse = [entry["message"] for entry in self.driver.get_log("browser") if entry["level"] in ("SEVERE", "WARNING")
                 and "willReadFrequently" not in entry["message"]]
        asked = [word for entry in self.driver.get_log("performance") if "Network.requestWillBeSent\"" in entry["message"]
                 for word in [entry["message"].split('"url":"', 1)[1].split('"', 1)[0]]
                 if not word.startswith(("file:", "blob:", "data:", "about:"))]
        return worse + asked


# ---- PNG files ----

def picture_of(data):
    """The rows of a PNG of 8 bits, each a list of (red, green, blue)."""
    import struct
    import zlib
    at, packed, head = 8, b"", None
    while at < len(data):
        length, kind = struct.unpack(">I4s", data[at:at + 8])
        body = data[at + 8:at + 8 + length]
        if kind == b"IHDR":
            head = struct.unpack(">IIBBBBB", body)
        elif kind == b"IDAT":
            packed += body
        at += 12 + length
    width, height, bits, colour = head[:4]
    parts = {0: 1, 2: 3, 4: 2, 6: 4}[colour]
    hold(bits == 8 and head[6] == 0, "a PNG of another kind")
    raw, rows, above = zlib.decompress(packed), [], bytes(width * parts)
    for y in range(height):
        line = raw[y * (width * parts + 1):(y + 1) * (width * parts + 1)]
        above = unfiltered(line[0], line[1:], above, parts)
        rows.append([(above[i], above[i + 1], above[i + 2]) if parts > 2 else (above[i],) * 3
                     for i in range(0, width * parts, parts)])
    return rows


def unfiltered(way, line, above, step):
    """A row of a PNG without its filter."""
    if way == 0:
        return line
    made = bytearray(line)
    for i, byte in enumerate(line):
        left = made[i - step] if i >= step else 0
        corner = above[i - step] if i >= step else 0
        if way == 1:
            guess = left
        elif way == 2:
            guess = above[i]
        elif way == 3:
            guess = (left + above[i]) // 2
        else:
            guess = nearest(left, above[i], corner)
        made[i] = (byte + guess) & 255
    return bytes(made)


def nearest(left, up, corner):
    """Paeth's choice among three neighbours."""
    sum_of = left + up - corner
    away = abs(sum_of - left), abs(sum_of - up), abs(sum_of - corner)
    return left if away[0] <= away[1] and away[0] <= away[2] else up if away[1] <= away[2] else corner
