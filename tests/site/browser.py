#!/usr/bin/env python3
"""Tries the pages of a survey and of a watch in headless Chromium, if that is installed.

Usage: browser.py [FOLDER for pictures]

For a survey: filter, sort, the page without a script, no error, nothing loaded from outside; with a page of 10 devices
and 600 objects, some of them hostile, and 3 silent ones. The page of a watch is tested by charts_page.py.
"""

import base64
import json
import os
import random
import shutil
import signal
import subprocess
import sys
import tempfile

import harness  # noqa: F401  this sets the path to bacsite
import charts_page
from bacsite.device import Device, SiteObject
from bacsite.page import page_of
from bacsite.values import NOTHING, Kind, Value

KINDS = (0, 1, 2, 4, 13, 20, 300)
PLACES = "Supply Return Outdoor Zone Mixed Chilled Hot Exhaust".split()
THINGS = "air temperature,valve command,fan status,pressure,humidity,flow,damper position,setpoint"
FLAGS = [(), ("in-alarm",), ("fault",), ("overridden",), ("out-of-service",), ("in-alarm", "fault"), None]
ODD = [
    "<script>alert(1)</script>",
    "\u202eesrever",
    "bell\x07 and \x1b[2J",
    "\u05d7\u05d3\u05e8 \u05e9\u05e8\u05ea\u05d9\u05dd",
    "A" * 120,
    "\"quoted\" & 'more'",
    "Zürich Büro 5",
    "\ud800",
]


def objects_of(dice, count):
    for at in range(count):
        kind = dice.choice(KINDS)
        number = round(dice.uniform(-40, 120), 1)
        if kind >= 3:
            number = dice.randrange(2) if kind == 4 else dice.randrange(1, 5)
        name = "AHU-%d %s %s" % (at // 12 + 1, dice.choice(PLACES), dice.choice(THINGS.split(",")))
        yield SiteObject(
            kind,
            at + 1,
            dice.choice(ODD) if dice.random() < 0.02 else name,
            NOTHING if kind in (20, 300) else Value(Kind.NUMBER, "%g" % number),
            {4: ("inactive", "active")[number == 1], 13: "Occupied"}.get(kind, ""),
            dice.choice(["degrees-celsius", "percent", "pascals"]) if kind < 3 else "",
            dice.choices(FLAGS, [60, 4, 3, 3, 3, 1, 2])[0],
            priorities=(8,) if kind == 1 and dice.random() < 0.1 else (),
            description=dice.choice(ODD) if dice.random() < 0.05 else "",
            reasons=["present-value: error 2 31"] if dice.random() < 0.03 else [],
        )


def devices_of(dice):
    for at in range(10):
        address, asked = "192.0.2.%d:47808" % (at * 3 + 7), "2026-11-27T08:%02d:03Z" % at
        name = "AHU controller %d, floor %d" % (at + 1, at // 2)
        found = list(objects_of(dice, 60))
        yield Device(address, 1000 + at, name, "Property tools", "bacdev", objects=found, asked=asked)
        if at in (2, 5, 8):
            silent = "192.0.2.%d:47808" % (at * 3 + 8)
            yield Device(silent, reasons=["timeout"], asked=asked)


class Browser:
    """One page in Chromium, controlled through two pipes."""

    def __init__(self, program, folder):
        down, self.out = os.pipe()
        self.into, up = os.pipe()

        def pipes():
            os.dup2(down, 30), os.dup2(up, 31)
            os.dup2(30, 3), os.dup2(31, 4)

        options = "headless=new no-sandbox disable-gpu hide-scrollbars remote-debugging-pipe no-first-run"
        words = ["--" + it for it in [*options.split(), "user-data-dir=" + folder]]
        self.process = subprocess.Popen(
            [program, *words, "about:blank"],
            preexec_fn=pipes,
            close_fds=False,
            stderr=subprocess.DEVNULL,
            start_new_session=True,
        )
        os.close(down), os.close(up)
        self.count, self.rest, self.events, self.session = 0, b"", [], None
        pages = [it for it in self.call("Target.getTargets")["targetInfos"] if it["type"] == "page"]
        target = {"targetId": pages[0]["targetId"], "flatten": True}
        self.session = self.call("Target.attachToTarget", **target)["sessionId"]
        for domain in "Page", "Runtime", "Log", "Network":
            self.call(domain + ".enable")

    def message(self):
        while b"\0" not in self.rest:
            octets = os.read(self.into, 1 << 20)
            if not octets:
                raise EOFError
            self.rest += octets
        line, self.rest = self.rest.split(b"\0", 1)
        return json.loads(line)

    def call(self, method, **params):
        self.count += 1
        told = {"id": self.count, "method": method, "params": params}
        if self.session:
            told["sessionId"] = self.session
        os.write(self.out, json.dumps(told).encode() + b"\0")
        while True:
            got = self.message()
            if got.get("id") == told["id"]:
                if "error" in got:
                    raise RuntimeError(got["error"])
                return got["result"]
            self.events.append(got)

    def open(self, url):
        self.call("Page.navigate", url=url)
        while not any(it.get("method") == "Page.loadEventFired" for it in self.events):
            self.events.append(self.message())
        self.events = [it for it in self.events if it.get("method") != "Page.loadEventFired"]

    def value(self, script):
        got = self.call("Runtime.evaluate", expression=script, returnByValue=True)
        if "exceptionDetails" in got:
            raise RuntimeError(got["exceptionDetails"])
        return got["result"].get("value")

    def size(self, width, height=844):
        more = {"deviceScaleFactor": 1, "mobile": False}
        self.call("Emulation.setDeviceMetricsOverride", width=width, height=height, **more)

    def keep(self, method, path, **params):
        """Saves the result of a method in a file."""
        with open(path, "wb") as file:
            file.write(base64.b64decode(self.call(method, **params)["data"]))

    def close(self):
        """Ends the browser and its processes at once: each of them writes into the profile."""
        os.killpg(self.process.pid, signal.SIGKILL)
        self.process.wait()


VISIBLE = "filter(it => it.getClientRects().length)"
SHOWN = "[...document.querySelectorAll('section.device tbody tr')].%s.length" % VISIBLE
SILENT = "[...document.querySelectorAll('section.device')].%s.every(it => it.textContent.includes('timeout'))"
COLUMN = "[...document.querySelectorAll('#d0 tbody tr')].map(it => it.cells[%d].textContent)"
TYPE = """(() => { const box = document.getElementById('filter'); box.value = %s;
  box.dispatchEvent(new Event('input')); })()"""
TOLD = "document.getElementById('told').textContent"
ONLY_ODD = "document.getElementById('only').click()"
CLICK = "document.querySelectorAll('#d0 th button')[%d].click()"
WIDER = "document.documentElement.scrollWidth > document.documentElement.clientWidth"
FAULTS = ("Runtime.exceptionThrown", "Log.entryAdded", "Runtime.consoleAPICalled")


def number(text):
    try:
        return float(text.split(" ")[0].split("(")[0])
    except ValueError:
        return None


def filtered(browser, total):
    """Tests of the filter: what must be true, and whether it is."""
    shown = lambda words: browser.value(TYPE % json.dumps(words)) or browser.value(SHOWN)
    yield "all rows shown", browser.value(SHOWN) == total
    yield "bar shown", browser.value("!document.querySelector('.bar').hidden")
    some = shown("fault")
    yield "filter", 0 < some < total
    yield "told", browser.value(TOLD).startswith("%d of %d " % (some, total))
    yield "a silent device alone", shown("timeout") == 0 and browser.value(SILENT % VISIBLE)
    yield "words of device and row", 0 < shown("controller 1, AHU-1") <= 60
    shown("")
    browser.value(ONLY_ODD)
    yield "only odd", 0 < browser.value(SHOWN) < total
    browser.value(ONLY_ODD)
    yield "all rows again", browser.value(SHOWN) == total


def numbers(browser):
    return [it for it in map(number, browser.value(COLUMN % 3)) if it is not None]


def sorted_by_a_click(browser):
    """Tests of the order of the rows."""
    browser.value(CLICK % 3)
    values = numbers(browser)
    yield "sorted by value", values == sorted(values) and len(set(values)) > 5
    lacks = [number(it) is None for it in browser.value(COLUMN % 3)]
    yield "without a value behind", lacks == sorted(lacks) and len(set(lacks)) == 2
    browser.value(CLICK % 3)
    yield "sorted down", numbers(browser) == sorted(values, reverse=True)
    browser.value(CLICK % 0)
    objects = [tuple(map(int, it.split(":"))) for it in browser.value(COLUMN % 0)]
    yield "sorted by object", objects == sorted(objects)
    sorts = "document.querySelectorAll('#d0 th[aria-sort]').length"
    yield "one sorted column", browser.value(sorts) == 1
    browser.value("document.querySelectorAll('.devices th button')[0].click()")


def looks(browser):
    """Tests of the parts of the page, and of its width."""
    scripts = browser.value("document.querySelectorAll('script').length")
    yield "no script ran from a name", scripts == 1
    for width in 1280, 390, 320:
        browser.size(width)
        yield "nothing past the edge at %d" % width, not browser.value(WIDER)


def alone(browser, url, total):
    """Tests of the page without the script; and of requests and errors during all tests."""
    browser.call("Emulation.setScriptExecutionDisabled", value=True)
    browser.open(url)
    yield "readable without the script", browser.value(SHOWN) == total
    yield "no bar without the script", browser.value("document.querySelector('.bar').hidden")
    sent = [it["params"] for it in browser.events if it.get("method") == "Network.requestWillBeSent"]
    asked = {it["request"]["url"] for it in sent}
    yield "only itself is asked for: %s" % asked, asked == {url}
    faults = [it for it in browser.events if it.get("method") in FAULTS]
    yield "no errors: %s" % faults, not faults


def pictures(browser, folder):
    """Pictures of the page, for people."""
    for name, width, height in ("desktop", 1280, 900), ("phone", 390, 844):
        browser.size(width, height)
        for scheme in "light", "dark":
            features = [{"name": "prefers-color-scheme", "value": scheme}]
            browser.call("Emulation.setEmulatedMedia", features=features)
            browser.value("window.scrollTo(0, 0)")
            browser.keep("Page.captureScreenshot", "%s/%s-%s-top.png" % (folder, name, scheme))
            browser.value("document.getElementById('d2').scrollIntoView()")
            browser.keep("Page.captureScreenshot", "%s/%s-%s-device.png" % (folder, name, scheme))
    browser.call("Emulation.setEmulatedMedia", media="", features=[])
    browser.keep("Page.printToPDF", folder + "/print.pdf", preferCSSPageSize=True)


def tried(browser, url, folder):
    """All tests: what must be true, and whether it is."""
    browser.open(url)
    total = browser.value("Number(document.getElementById('told').dataset.all)")
    yield from filtered(browser, total)
    yield from sorted_by_a_click(browser)
    yield from looks(browser)
    if folder:
        pictures(browser, folder)
    yield from alone(browser, url, total)


def survey(browser, room, folder):
    """Tests of the page of a survey."""
    with open(room + "/page.html", "w", encoding="utf-8") as file:
        file.writelines(page_of(list(devices_of(random.Random(5))), "2026-11-27T08:11:00Z"))
    yield from tried(browser, "file://%s/page.html" % room, folder)


def main(folder=None):
    program = shutil.which("chromium") or shutil.which("chromium-browser")
    if not program:
        print("tests/site/browser.py: chromium is not installed, left out")
        return 0
    found = []
    for page in survey, charts_page.tried:
        with tempfile.TemporaryDirectory() as room:
            browser = Browser(program, room + "/profile")
            try:
                found += page(browser, room, folder)
            finally:
                browser.close()
    wrong = [name for name, holds in found if not holds]
    print("tests/site/browser.py: %d of %d hold in Chromium" % (len(found) - len(wrong), len(found)))
    for name in wrong:
        print("wrong:", name)
    return bool(wrong) or not found


if __name__ == "__main__":
    sys.exit(main(*sys.argv[1:]))
