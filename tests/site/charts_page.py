"""Tests of the page of a watch as a browser draws it."""

import json
import re

from bacsite.page import Line, Sample, charts_page_of
from bacsite.points import Point
from bacsite.standard import PropertyRef

FIRST = 1795965000000  # 2026-11-29 15:10:00 UTC
TEXTS = ("Stopped", "Running")
ODD = "</script><script>alert(1)</script>"
FAULTS = ("Runtime.exceptionThrown", "Log.entryAdded", "Runtime.consoleAPICalled")


def line_of(name, what, samples, label="", unit=""):
    line = Line(Point(name, ref=PropertyRef(*what, 85)))
    line.label, line.unit = label, unit
    for at, (text, *more) in enumerate(samples):
        line.add(Sample(FIRST + at * 1000, text, *more))
    return line


def room(at):
    """Degrees, from 20.0 on, 0.01 more each second; no answer from second 300 to 339."""
    if 300 <= at < 340:
        return "", "timeout"
    return "%.2f" % (20 + at / 100), "", "in-alarm, fault" if at >= 500 else "normal"


def lines():
    """Ten minutes of points: numbers, states, texts, a large counter, and one without any value."""
    seconds = range(600)
    made = [
        line_of("room", (0, 1), map(room, seconds), "Room temperature", "degrees-celsius"),
        line_of("valve", (1, 1), (("65" if at >= 120 else "20",) for at in seconds), "", "percent"),
        line_of("supply", (0, 2), (("40",) for at in seconds), "", "degrees-celsius"),
        line_of("pump", (4, 1), ((str(at // 300), TEXTS[at // 300]) for at in seconds)),
        line_of("text", (40, 1), ((ODD if at >= 300 else "Day",) for at in seconds)),
        line_of("big", (48, 1), ((str(9007199254740993 + at),) for at in seconds), "", "kilowatt-hours"),
        line_of("none", (0, 3), ()),
    ]
    return {it.name: it for it in made}


def charts():
    """The lines of each chart."""
    found = lines()
    return [[found[name] for name in chart] for chart in CHARTS]


CHARTS = [["room", "valve", "supply"], ["pump"], ["text"], ["big"], ["none"]]
SECTION = "document.querySelectorAll('section')[%d]"
ALL = "[...%s.querySelectorAll('%s')].map(it => it.%s)"
POINT = """(() => { const svg = %s.querySelector('svg'), frame = svg.querySelector('.frame').getBoundingClientRect();
  svg.dispatchEvent(new PointerEvent('pointermove', {clientX: frame.left + frame.width * %f, bubbles: true})); })()"""
CHOOSE = """(() => { const box = document.getElementById('span'); box.value = '%s';
  box.dispatchEvent(new Event('change')); })()"""
WIDER = "document.documentElement.scrollWidth > document.documentElement.clientWidth"
LUMINANCE = """(() => { const it = document.createElement('canvas').getContext('2d', {willReadFrequently: true});
  const of = (color) => { it.fillStyle = color; it.fillRect(0, 0, 1, 1);
    const [r, g, b] = [...it.getImageData(0, 0, 1, 1).data].map(v => v / 255)
      .map(v => v <= .04045 ? v / 12.92 : ((v + .055) / 1.055) ** 2.4);
    return .2126 * r + .7152 * g + .0722 * b; };
  const room = document.body.appendChild(document.createElement('div'));
  room.style.backgroundColor = 'Canvas';
  const lines = [...document.querySelectorAll('path')].map(it => getComputedStyle(it).stroke);
  return [getComputedStyle(room).backgroundColor, ...lines].map(of); })()"""


class Page:
    """The page in the browser."""

    def __init__(self, browser):
        self.browser = browser

    def texts(self, at, which, what="textContent"):
        """The texts of parts of a chart."""
        return self.browser.value(ALL % (SECTION % at, which, what))

    def heads(self, at):
        return [it.strip() for it in self.texts(at, "h2")]

    def path(self, at, which):
        """The coordinates of a line, as numbers after each letter."""
        line = self.texts(at, "path", "getAttribute('d')")[which]
        return re.findall("([MLHVh])([-.0-9]+)(?: ([-.0-9]+))?", line)

    def point(self, at, part):
        """Moves the pointer to this fraction of the width of a chart."""
        self.browser.value(POINT % (SECTION % at, part))

    def styled(self, which, name):
        """A style of a part of the page."""
        return self.browser.value("getComputedStyle(document.querySelector('%s')).%s" % (which, name))

    def contrast(self, scheme):
        """The least contrast of a line with the page."""
        features = [{"name": "prefers-color-scheme", "value": scheme}]
        self.browser.call("Emulation.setEmulatedMedia", features=features)
        page, *found = self.browser.value(LUMINANCE)
        return min((max(it, page) + 0.05) / (min(it, page) + 0.05) for it in found)


def several(page):
    """Tests of three points in one chart."""
    heads = page.heads(0)
    yield "a chart for each group", page.browser.value("document.querySelectorAll('svg').length") == 5
    room_head = "room Room temperature %s degrees-celsius, "
    latest = room_head % "25.99" + "in-alarm, fault, 2026-11-29 "
    yield "name, value, unit, flags: %s" % heads, heads[0].startswith(latest)
    yield "a value without a name", heads[1].startswith("valve 65 percent, 2026-11-29 ")
    yield "units on the axes", page.texts(0, ".unit") == ["degrees-celsius", "percent"]
    marks = page.texts(0, ".mark")
    yield "marks of two axes: %s" % marks, marks == "20 25 30 35 40 20 40 60 80".split()
    yield "a gap with its reason", page.texts(0, ".gap title") == ["room: timeout"]
    yield "flags", page.texts(0, "text.flags") == ["in-alarm", "fault"]
    yield "when they were set", [it.startswith("room: ") for it in page.texts(0, ".flag title")] == [True] * 2
    yield "no line through the gap", [it[0] for it in page.path(0, 0)].count("M") == 2
    yield "three lines, two of one axis", len(page.texts(0, "path")) == 3
    supply, room_at = float(page.path(0, 2)[0][2]), float(page.path(0, 0)[0][2])
    yield "40 degrees stand above 20", supply < room_at
    page.point(0, 0.1)
    heads = page.heads(0)
    yield "what the pointer shows: %s" % heads, heads[0].startswith(room_head % "20.59" + "2026-11-29 ")
    page.point(0, 0.52)
    yield "the reason under the pointer", "no value: timeout, " in page.heads(0)[0]


def alone(page):
    """Tests of states, texts and numbers above 2^53, each in its own chart."""
    yield "states by their texts", page.texts(1, ".mark") == ["0 Stopped", "1 Running"]
    yield "states in steps", {it[0] for it in page.path(1, 0)} == {"M", "h", "H", "V"}
    yield "a text is a text", page.texts(2, ".mark") == ["Day", ODD[:18]]
    page.point(3, 0.5)
    yield "all digits: %s" % page.heads(3), page.heads(3)[0].startswith("big 9007199254741292 kilowatt-hours, ")
    yield "nothing yet", page.heads(4) == ["none nothing yet"]
    times = page.texts(1, ".time")
    yield "whole minutes: %s" % times, len(times) > 4 and all(re.fullmatch(r"\d\d:\d\d", it) for it in times)


def chosen(page):
    """Tests of a part of the time."""
    page.browser.value(CHOOSE % 60)
    yield "a minute alone", all(re.fullmatch(r"\d\d:\d\d:\d\d", it) for it in page.texts(1, ".time"))
    yield "no gap in it", not page.texts(0, ".gap")
    yield "its flags", page.texts(0, "text.flags") == ["in-alarm", "fault"]
    page.browser.value(CHOOSE % 0)
    yield "all again", page.texts(0, ".gap title") == ["room: timeout"]


def looks(page, folder):
    """Tests of widths, both color schemes, and paper."""
    for width in 1280, 390, 320:
        page.browser.size(width, 1100)
        yield "nothing past the edge at %d" % width, not page.browser.value(WIDER)
        boxes = page.browser.value("[...document.querySelectorAll('svg')].map(it => it.viewBox.baseVal.width)")
        yield "letters as large as on a wide page at %d" % width, min(boxes) >= 320
    for scheme in "light", "dark":
        page.browser.size(1280, 1100)
        yield "lines are seen in the %s scheme" % scheme, page.contrast(scheme) >= 4.5
        if folder:
            page.browser.keep("Page.captureScreenshot", "%s/charts-%s.png" % (folder, scheme))
    features = [{"name": "prefers-color-scheme", "value": "dark"}]
    page.browser.call("Emulation.setEmulatedMedia", media="print", features=features)
    yield "dark lines on paper", page.styled("path.c0", "stroke") == "rgb(11, 87, 208)"
    yield "lines differ without colors", page.styled("path.c1", "strokeDasharray") != "none"
    yield "no choice on paper", page.styled("#span", "display") == "none"
    if folder:
        page.browser.keep("Page.printToPDF", folder + "/charts.pdf", preferCSSPageSize=True)
    page.browser.call("Emulation.setEmulatedMedia", media="", features=[])


def quiet(browser, url):
    """Tests of requests and errors during all tests."""
    scripts = browser.value("document.querySelectorAll('script').length")
    yield "no script ran from a value", scripts == 2
    sent = [it["params"] for it in browser.events if it.get("method") == "Network.requestWillBeSent"]
    asked = {it["request"]["url"].partition("#")[0] for it in sent}
    yield "only itself is asked for: %s" % asked, asked == {url}
    faults = [it for it in browser.events if it.get("method") in FAULTS]
    yield "no errors: %s" % faults, not faults
    browser.call("Emulation.setScriptExecutionDisabled", value=True)
    browser.open(url)
    told = browser.value("document.getElementById('told').textContent")
    yield "says what is missing without the script", told == "The charts are drawn by a script."
    browser.call("Emulation.setScriptExecutionDisabled", value=False)


def old(browser, room_of):
    """Tests of a page that is no longer updated, and of one that was ended."""
    for is_over, wanted in (True, "Ended at "), (False, "As of "):
        text = "".join(charts_page_of(charts(), 1.0, is_over))
        made = json.dumps({"made": FIRST})[1:-1].replace(" ", "")
        path = "%s/old-%d.html" % (room_of, is_over)
        with open(path, "w", encoding="utf-8") as file:
            file.write(re.sub('"made":[0-9]+', made, text))
        browser.open("file://" + path)
        told = browser.value("document.getElementById('told').textContent")
        yield "how old it is: %s" % told, told.startswith(wanted) and told.endswith("since") != is_over


def tried(browser, room_of, folder):
    """All tests: what must be true, and whether it is."""
    path = room_of + "/charts.html"
    with open(path, "w", encoding="utf-8") as file:
        file.writelines(charts_page_of(charts(), 1.0, True))
    browser.size(1100, 1500)
    browser.call("Emulation.setTimezoneOverride", timezoneId="UTC")
    browser.open("file://" + path)
    page = Page(browser)
    for part in several(page), alone(page), chosen(page), looks(page, folder):
        yield from part
    yield from quiet(browser, "file://" + path)
    yield from old(browser, room_of)
