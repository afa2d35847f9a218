"""Tests of the page of a survey; browser.py tests it in a browser."""
import os
import re
import unittest
from html.parser import HTMLParser

import harness  # noqa: F401  this sets the path to bacsite
from bacsite.device import Device, SiteObject
from bacsite.page import CHARTS_SCRIPT, CHARTS_STYLE, SCRIPT, STYLE, charts_page_of, hash_of, page_of, safe
from bacsite.values import Kind, Value

HERE = "192.0.2.7:47808"
HOSTILE = [
    "<script>alert(1)</script>",
    '"><img src=x onerror=alert(1)>',
    "' onmouseover='x",
    "\u202eesrever",
    "\x07\x1b[2J",
    "\0",
    "\ud800",
    "]]>",
    "&lt;",
    "</style>",
    "</table>",
    "\u2028",
    "\u200b",
    "--><!--",
]


HOST = 192 << 24 | 2 << 8  # of 192.0.2.0
SOFT = '<span class="soft">'
WHOLE = f"""\
<table class="devices"><thead><tr><th scope="col" class="id">Address</th><th scope="col" class="id">Instance</th>\
<th scope="col" class="name">Name</th><th scope="col" class="words">Vendor</th><th scope="col" class="words">Model</th>\
<th scope="col" class="count">Objects</th><th scope="col" class="flags">Flags</th>\
<th scope="col" class="reason">Missing</th></tr></thead><tbody>
<tr class="heard"><td class="id" data-n="{HOST + 7 << 16 | 47808}"><a href="#d0">192.0.2.7:47808</a></td>\
<td class="id" data-n="1234">1234</td><td class="name"><bdi>Small</bdi></td><td class="words"><bdi>V</bdi></td>\
<td class="words"><bdi>M</bdi></td><td class="count" data-n="3">3</td>\
<td class="flags"><span class="badge in-alarm">1 in-alarm</span></td>\
<td class="reason">object-list: busy; deadline; something of 1 of its objects</td></tr>
<tr class="silent"><td class="id" data-n="{HOST + 8 << 16 | 1}"><a href="#d1">192.0.2.8:1</a></td><td class="id"></td>\
<td class="name"></td><td class="words"></td><td class="words"></td><td class="count" data-n="0"></td>\
<td class="flags"></td><td class="reason">timeout</td></tr>
<tr class="heard"><td class="id" data-n="{HOST + 9 << 16 | 1}"><a href="#d2">192.0.2.9:1</a></td>\
<td class="id" data-n="0">0</td><td class="name"></td><td class="words"></td><td class="words"></td>\
<td class="count" data-n="0">0</td><td class="flags"></td><td class="reason"></td></tr>
</tbody></table>
<section class="device" id="d0" data-head="192.0.2.7:47808 1234 Small V M object-list: busy; deadline" data-odd="1">
<h2><bdi>Small</bdi></h2>
<dl><div><dt>address</dt><dd>192.0.2.7:47808</dd></div><div><dt>instance</dt><dd>1234</dd></div>\
<div><dt>vendor</dt><dd><bdi>V</bdi></dd></div><div><dt>model</dt><dd><bdi>M</bdi></dd></div>\
<div><dt>firmware</dt><dd><bdi>2</bdi></dd></div><div><dt>asked</dt><dd>noon</dd></div>\
<div><dt>objects</dt><dd>3, 2 of them with all that was asked for</dd></div></dl>
<p class="reason">object-list: busy; deadline</p>
<p class="soft">since: new; gone: 0:1</p>
<table class="objects"><thead><tr><th scope="col" class="id">Object</th><th scope="col" class="type">Type</th>\
<th scope="col" class="name">Name</th><th scope="col" class="value">Value</th><th scope="col" class="flags">Flags</th>\
<th scope="col" class="reason">Missing</th></tr></thead><tbody>
<tr data-odd="1"><td class="id" data-n="5">0:5</td><td class="type">analog-input</td>\
<td class="name"><bdi>T</bdi> {SOFT}<bdi>Roof</bdi></span> {SOFT}<bdi>high-limit 30</bdi></span></td>\
<td class="value" data-n="-72.3"><bdi>-72.3</bdi> <span class="unit">degrees-celsius</span> \
{SOFT}priority 8 (manual-operator)</span></td>\
<td class="flags"><span class="badge in-alarm">in-alarm</span></td><td class="reason"></td></tr>
<tr data-odd="1"><td class="id" data-n="16777221">4:5</td><td class="type">binary-output</td><td class="name"></td>\
<td class="value" data-n="1.0"><bdi>1</bdi> <span class="meaning">(<bdi>On</bdi>)</span></td>\
<td class="flags">{SOFT}normal</span></td><td class="reason">object-name: timeout; units: busy</td></tr>
<tr><td class="id" data-n="1258291201">300:1</td><td class="type"></td><td class="name"><bdi>X</bdi></td>\
<td class="value"><bdi>a&lt;b</bdi></td><td class="flags">{SOFT}</span></td><td class="reason"></td></tr>
</tbody></table>
</section>
<section class="device silent" id="d1" data-head="192.0.2.8:1     timeout" data-odd="1">
<h2><bdi>192.0.2.8:1</bdi></h2>
<dl><div><dt>address</dt><dd>192.0.2.8:1</dd></div><div><dt>asked</dt><dd>one o&#x27;clock</dd></div></dl>
<p class="reason">timeout</p>
</section>
<section class="device" id="d2" data-head="192.0.2.9:1 0    ">
<h2><bdi>device 0</bdi></h2>
<dl><div><dt>address</dt><dd>192.0.2.9:1</dd></div><div><dt>instance</dt><dd>0</dd></div>\
<div><dt>objects</dt><dd>0, 0 of them with all that was asked for</dd></div></dl>
</section>
"""


class Reader(HTMLParser):
    """Notes the tags, attributes and texts of a page."""

    def __init__(self):
        super().__init__()
        self.tags, self.names, self.texts, self.open = {}, set(), [], []

    def handle_starttag(self, tag, attrs):
        self.tags[tag] = self.tags.get(tag, 0) + 1
        self.names.update(name for name, _ in attrs)
        if tag not in ("meta", "input"):
            self.open.append(tag)

    def handle_endtag(self, tag):
        assert self.open.pop() == tag, tag

    def handle_data(self, data):
        self.texts.append(data)


def read(devices):
    page = "".join(page_of(devices, "now"))
    reader = Reader()
    reader.feed(page)
    reader.close()
    assert not reader.open, reader.open
    return page, reader


def an_object(kind=0, text="1", **more):
    """An object with a number."""
    return SiteObject(kind, 5, value=Value(Kind.NUMBER, text), **more)


class Pages(unittest.TestCase):
    def test_hostile(self):
        """Text from a device never becomes markup, and stays legible."""
        found = SiteObject(300, 1, "b", Value(Kind.TEXT, "c"), "d", "e", ("f", "g"), reasons=["h"])
        _, wanted = read([Device(HERE, 1, "b", "c", "d", objects=[found], reasons=["e"], asked="f")])
        for text in HOSTILE:
            with self.subTest(text=ascii(text)):
                found = SiteObject(
                    300, 1, text, Value(Kind.TEXT, text), text, text, ("f", text), reasons=[text]
                )
                page, reader = read(
                    [Device(HERE, 1, text, text, text, objects=[found], reasons=[text], asked=text)]
                )
                self.assertEqual((reader.tags, reader.names), (wanted.tags, wanted.names))
                self.assertEqual(page.encode("utf-8").decode(), page)
                self.assertFalse([it for it in page if not it.isprintable() and it != "\n"])

    def test_policy(self):
        """Only the one style and the one script of each page may be loaded or run."""
        for page, style, script in (
            (read([])[0], STYLE, SCRIPT),
            ("".join(charts_page_of([], 1.0, True)), CHARTS_STYLE, CHARTS_SCRIPT),
        ):
            policy = re.search('Content-Security-Policy" content="([^"]*)"', page)[1]
            hashes = "style-src %s; script-src %s" % (hash_of(style), hash_of(script))
            self.assertEqual(
                policy, "default-src 'none'; %s; base-uri 'none'; form-action 'none'" % hashes
            )
            self.assertIn("<style>%s</style>" % style, page)
            self.assertIn("<script>%s</script>" % script, page)
            self.assertIsNone(re.search(r'(src|href)="(?!#)|url\((?!#)|style="| on[a-z]+="', page))

    def test_cells(self):
        found = an_object(name="T", text="-72.3", unit="degrees-celsius", flags=("in-alarm", "strange"))
        page, _ = read(
            [
                Device(
                    "192.0.2.7:47808", 1234, "Small", objects=[found, an_object(flags=())]
                ),
                Device("192.0.2.8:47808", reasons=["timeout"]),
            ]
        )
        for part in (
            '<td class="id" data-n="5">0:5</td>',
            'data-n="-72.3"><bdi>-72.3</bdi>',
            '<span class="badge in-alarm">in-alarm</span>',
            '<span class="badge">strange</span>',
            '<span class="badge in-alarm">1 in-alarm</span> <span class="badge">1 strange</span>',
            '<span class="soft">normal</span>',
            '<section class="device silent" id="d1"',
            '<p class="reason">timeout</p>',
            'href="#d0">192.0.2.7:47808</a>',
            "2 devices, 1 of them silent; 2 objects, 1 of them with a flag ",
        ):
            self.assertIn(part, page)
        self.assertIn('<td class="count" data-n="2">2</td>', page)
        self.assertIn('<td class="count" data-n="0"></td>', page)
        self.assertEqual(safe("a<b\u202e"), "a&lt;b\\u202e")

    def test_the_whole_page(self):
        """Each line of the body, from the count of the devices to the end of the last section."""
        objects = [an_object(0, "-72.3", name="T", unit="degrees-celsius", flags=("in-alarm",), description="Roof")]
        objects += [an_object(4, "1", meaning="On", flags=(), reasons=["object-name: timeout", "units: busy"])]
        objects += [SiteObject(300, 1, "X", Value(Kind.TEXT, "a<b"))]
        objects[0].priorities, objects[0].settings = (8, 9), {"high-limit": "30"}
        devices = [Device(HERE, 1234, "Small", "V", "M", objects=objects, asked="noon", changes=["new", "gone: 0:1"])]
        devices[0].facts, devices[0].reasons = {"firmware": "2"}, ["object-list: busy", "deadline"]
        devices += [Device("192.0.2.8:1", reasons=["timeout"], asked="one o'clock"), Device("192.0.2.9:1", 0)]
        page, _ = read(devices)
        rows = page[page.index("<h1>") : page.index("<script>")].split("\n")
        counts = "3 devices, 1 of them silent; 3 objects, 2 of them with a flag set or something missing"
        head = ["<h1>Survey of BACnet/IP devices</h1>", f'<p class="soft">Made at now. {counts}.</p>']
        self.assertEqual(rows[:2], head)
        self.assertEqual(rows[6:8], ['<span id="told" class="soft" role="status" data-all="3"></span>', "</div>"])
        self.assertEqual(rows[8:], WHOLE.split("\n"))

    def test_what_was_asked_for_beside_that(self):
        """Text of a device is not markup here either."""
        found = an_object(name="T", text="1", unit="", flags=None)
        found.priorities, found.description = (8,), "On <the> roof"
        found.settings = {"high-limit": "<30>"}
        changes, facts = ["name was <i>", "gone: 0:6"], {"firmware": "<2>"}
        page, _ = read([Device(HERE, 9, objects=[found], changes=changes, facts=facts)])
        for part in (
            '<bdi>T</bdi> <span class="soft"><bdi>On &lt;the&gt; roof</bdi></span>',
            '<span class="soft"><bdi>high-limit &lt;30&gt;</bdi></span>',
            "<dt>firmware</dt><dd><bdi>&lt;2&gt;</bdi></dd>",
            '<span class="soft">priority 8 (manual-operator)</span>',
            '<p class="soft">since: name was &lt;i&gt;; gone: 0:6</p>',
        ):
            self.assertIn(part, page)

    def test_flags_of_a_device_stand_by_what_they_say(self):
        """The worst states come first; states that are not in the standard come last."""
        told = ("overridden", "out-of-service", "strange", "fault", "in-alarm", "beside")
        page, _ = read([Device(HERE, 9, objects=[an_object(flags=(it,)) for it in told])])
        row = page[page.index("<tbody>") : page.index("</tbody>")]
        wanted = ["in-alarm", "fault", "overridden", "out-of-service", "beside", "strange"]
        self.assertEqual(re.findall(r">1 ([a-z-]+)</span>", row), wanted)

    def test_addresses_are_sorted_as_numbers(self):
        page, _ = read([Device("10.0.0.9:47808"), Device("10.0.0.10:1")])
        numbers = re.findall(r'<td class="id"( data-n="([0-9]+)")?><a', page)
        self.assertLess(int(numbers[0][1]), int(numbers[1][1]))
        page, _ = read([Device("10.0.0.9:47808/5/07"), Device("10.0.0.9:47808")])
        numbers = re.findall(r'<td class="id"( data-n="([0-9]+)")?><a', page)
        self.assertEqual(numbers[0], numbers[1])


class Survey(harness.SiteTest):
    def test_a_survey_writes_a_page(self):
        """The page of a device and of a silent address replaces a file, and nothing is printed."""
        path = self.path("page.html", "before")
        self.assertEqual(self.run_site("survey", "DEV", "DEAD", "--html", path), (1, "", ""))
        with open(path, encoding="utf-8") as file:
            page = file.read()
        for part in ("<bdi>72.3</bdi>", '<p class="reason">timeout</p>', "<dt>asked</dt><dd>20"):
            self.assertIn(part, page)
        self.assertEqual(self.run_site("survey", "DEV", "--html", "IN")[:2], (2, ""))
        status, out, err = self.run_site("survey", "DEV", "--html", "IN/none/page")
        self.assertEqual((status, out, err[:24]), (3, "", "bacsite: writing failed:"))

    def test_who_may_read_the_page(self):
        """A new page gets the permissions of the umask; a replaced one keeps its own."""
        path = self.world.folder + "/own.html"
        for mask, before, after in ((0o077, None, 0o600), (0o022, 0o604, 0o604), (0, 0o640, 0o640)):
            if before:
                os.chmod(path, before)
            words = ["survey", "DEV", "--html", path]
            self.run_site(*words, before=lambda mask=mask: os.umask(mask))
            self.assertEqual(os.stat(path).st_mode & 0o777, after)


if __name__ == "__main__":
    unittest.main()
