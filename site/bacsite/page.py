"""Pages of HTML that need no other file: a survey, readable without its script, and charts."""

from __future__ import annotations

import base64
import hashlib
import html
import ipaddress
import json
import time
from collections import Counter
from typing import Any, Callable, Iterator, NamedTuple, Sequence

from .decimals import DECIMAL
from .device import TEXTS, Device, SiteObject
from .points import Point
from .standard import INTEGERS, form_of
from .streams import clean, content_of, times

FLAGS = ("in-alarm", "fault", "overridden", "out-of-service")
ODD = ' data-odd="1"'
TITLE = "Survey of BACnet/IP devices"
CHARTS_TITLE = "Course of BACnet points"
MOST = 4000  # samples of a point in the page
HEAD, BAR, STYLE, SCRIPT = map(content_of, ("page.html", "survey.html", "page.css", "page.js"))
CHARTS, CHARTS_STYLE, CHARTS_SCRIPT = map(content_of, ("charts.html", "charts.css", "charts.js"))


def safe(text: str) -> str:
    """Returns a text for the page: no markup, and no control characters."""
    return html.escape(clean(text))


def _own(text: str) -> str:
    """Returns a text whose writing direction does not affect the text around it."""
    return f"<bdi>{safe(text)}</bdi>" if text else ""


def _span(name: str, inner: str) -> str:
    return f' <span class="{name}">{inner}</span>' if inner else ""


class Column(NamedTuple):
    """A column of a table of devices or objects."""

    name: str  # the class of its cells
    head: str
    inner: Callable[[int, Any], str]  # the contents of a cell: of the n-th device, of an object
    number: Callable[[Any], Any] = lambda _: None  # by which the column is sorted

    def cell(self, at: int, it: object) -> str:
        """Returns the cell of the device or object `it`, which is the `at`-th one."""
        number = self.number(it)
        sorts = "" if number is None else f' data-n="{number!r}"'
        return f'<td class="{self.name}"{sorts}>{self.inner(at, it)}</td>'


def _head(columns: Sequence[Column]) -> str:
    cells = [f'<th scope="col" class="{it.name}">{it.head}</th>' for it in columns]
    return f"<thead><tr>{''.join(cells)}</tr></thead>"


def _is_odd(site_object: SiteObject) -> bool:
    return bool(site_object.reasons or site_object.flags)


def _badge(flag: str, words: str) -> str:
    return _span(f"badge {flag}" if flag in FLAGS else "badge", safe(words))[1:]


def _value(it: SiteObject) -> str:
    meaning = f"({_own(it.meaning)})" if it.meaning else ""
    held = f"priority {safe(it.held)}" if it.held else ""
    spans = _span("meaning", meaning) + _span("unit", safe(it.unit)) + _span("soft", held)
    return _own(it.value.text) + spans


def _object_flags(it: SiteObject) -> str:
    flags = " ".join(_badge(flag, flag) for flag in it.flags or ())
    return flags or f'<span class="soft">{safe(it.told_flags)}</span>'


def _name(it: SiteObject) -> str:
    more = [_span("soft", _own(text)) for text in (it.description, it.told_settings)]
    return _own(it.told_name) + "".join(more)


def _number(object_type: int, instance: int) -> int:
    return object_type << 22 | instance


OF_OBJECT = (
    Column("id", "Object", lambda _, it: str(it.object_id), lambda it: _number(*it.object_id)),
    Column("type", "Type", lambda _, it: safe(it.type_name)),
    Column("name", "Name", lambda _, it: _name(it)),
    Column("value", "Value", lambda _, it: _value(it), lambda it: it.value.number),
    Column("flags", "Flags", lambda _, it: _object_flags(it)),
    Column("reason", "Missing", lambda _, it: safe("; ".join(it.reasons))),
)


def _instance(device: Device) -> str:
    return "" if device.instance is None else str(device.instance)


def _section(at: int, device: Device) -> Iterator[str]:
    """Yields the part of a device."""
    instance, reason = _instance(device), "; ".join(device.reasons)
    head = [device.address, instance, *device.texts.values(), reason]
    name = "device" if instance else "device silent"
    odd = ODD * bool(reason or any(map(_is_odd, device.objects)))
    title = device.name or (f"device {instance}" if instance else device.address)
    yield f'<section class="{name}" id="d{at}" data-head="{safe(" ".join(head))}"{odd}>\n'
    yield f"<h2>{_own(title)}</h2>\n<dl>{''.join(_facts(device))}</dl>\n"
    if reason:
        yield f'<p class="reason">{safe(reason)}</p>\n'
    if device.changes:
        yield f'<p class="soft">since: {safe("; ".join(device.changes))}</p>\n'
    if device.objects:
        yield f'<table class="objects">{_head(OF_OBJECT)}<tbody>\n'
        for it in device.objects:
            cells = "".join(column.cell(0, it) for column in OF_OBJECT)
            yield f"<tr{ODD * _is_odd(it)}>{cells}</tr>\n"
        yield "</tbody></table>\n"
    yield "</section>\n"


def _facts(device: Device) -> Iterator[str]:
    whole = sum(not it.reasons for it in device.objects)
    facts = {"address": safe(device.address), "instance": _instance(device)}
    for name, text in {**device.texts, **device.facts}.items():
        if name != "name":
            facts[name] = _own(text)
    facts["asked"] = safe(device.asked)
    if device.instance is not None:
        facts["objects"] = f"{len(device.objects)}, {whole} of them with all that was asked for"
    for name, inner in facts.items():
        if inner:
            yield f"<div><dt>{name}</dt><dd>{inner}</dd></div>"


def _reasons(device: Device) -> str:
    lacking = sum(bool(it.reasons) for it in device.objects)
    reasons = device.reasons + [f"something of {lacking} of its objects"] * (lacking > 0)
    return safe("; ".join(reasons))


def _of_text(text: str) -> Column:
    name = "name" if text == "name" else "words"
    return Column(name, text.replace("_", " ").capitalize(), lambda _, it: _own(it.texts[text]))


def _flags(device: Device) -> str:
    """Returns how many objects of a device have each flag set, the standard's flags first."""
    counts = Counter(flag for it in device.objects for flag in it.flags or ())
    known = sorted(counts, key=lambda it: (FLAGS.index(it) if it in FLAGS else len(FLAGS), it))
    return " ".join(_badge(flag, f"{counts[flag]} {flag}") for flag in known)


def _address_number(address: str) -> int:
    """Returns a number by which addresses are sorted; a station has that of its router."""
    host, _, port = address.partition("/")[0].partition(":")
    return int(ipaddress.IPv4Address(host)) << 16 | int(port)


def _object_count(device: Device) -> str:
    return "" if device.instance is None else str(len(device.objects))


def _link(at: int, device: Device) -> str:
    return f'<a href="#d{at}">{safe(device.address)}</a>'


OF_DEVICE = (
    Column("id", "Address", _link, lambda it: _address_number(it.address)),
    Column("id", "Instance", lambda _, it: _instance(it), lambda it: it.instance),
    *map(_of_text, TEXTS),
    Column("count", "Objects", lambda _, it: _object_count(it), lambda it: len(it.objects)),
    Column("flags", "Flags", lambda _, it: _flags(it)),
    Column("reason", "Missing", lambda _, it: _reasons(it)),
)


def hash_of(text: str) -> str:
    """Returns the name of a text in a Content-Security-Policy."""
    return f"'sha256-{base64.b64encode(hashlib.sha256(text.encode()).digest()).decode()}'"


def page_begins(title: str, style: str, script: str) -> str:
    """Returns the beginning of a page that loads nothing, and runs no other script."""
    policy = f"default-src 'none'; style-src {hash_of(style)}; script-src {hash_of(script)}; "
    policy += "base-uri 'none'; form-action 'none'"
    return HEAD.format(title=title, style=style, policy=policy)


def page_of(devices: Sequence[Device], made: str) -> Iterator[str]:
    """Yields the page, part by part. `made` is when the survey was made."""
    objects = [it for device in devices for it in device.objects]
    silent = sum(device.instance is None for device in devices)
    counts = f"{times(len(devices), 'device')}, {silent} of them silent; "
    counts += f"{times(len(objects), 'object')}, {sum(map(_is_odd, objects))} of them with a flag "
    counts += "set or something missing"
    yield page_begins(TITLE, STYLE, SCRIPT)
    yield BAR.format(made=safe(made), counts=counts, objects=len(objects))
    yield f'<table class="devices">{_head(OF_DEVICE)}<tbody>\n'
    for at, device in enumerate(devices):
        cells = "".join(it.cell(at, device) for it in OF_DEVICE)
        yield f"<tr class=\"{'silent' if device.instance is None else 'heard'}\">{cells}</tr>\n"
    yield "</tbody></table>\n"
    for at, device in enumerate(devices):
        yield from _section(at, device)
    yield f"<script>{SCRIPT}</script>\n</body>\n</html>\n"


class Sample(NamedTuple):
    """The value of a point at a time."""

    at: int  # milliseconds since 1970
    text: str
    note: str = ""  # the text of its state; without a value why there is none
    flags: str = ""

    @property
    def set_flags(self) -> str:
        """The flags that are set."""
        return "" if self.flags == "normal" else self.flags


class Line:
    """The samples of a point: all of them, or the ends of runs of equal ones. If these are too
    many, every four are reduced to the least, the greatest, missing values, and each flag."""

    def __init__(self, point: Point) -> None:
        self.name, tags = point.name, form_of(point.ref).tags
        self.is_step = not tags or any(it in INTEGERS for it in tags)
        self.label = self.unit = ""  # the name of the object, and the unit of its values
        self.samples: list[Sample] = []

    def add(self, sample: Sample) -> None:
        """Adds a sample."""
        kept = self.samples
        if len(kept) > 1 and kept[-1][1:] == kept[-2][1:] == sample[1:]:
            kept[-1] = sample
        else:
            kept.append(sample)
        if len(kept) > MOST:
            fewer = [it for at in range(0, len(kept), 4) for it in _ends(kept[at : at + 4])]
            self.samples = fewer[-MOST * 3 // 4 :]


def _ends(samples: Sequence[Sample]) -> list[Sample]:
    """The least and the greatest sample, missing values, and one for each other flag, in order."""
    size = {it: float(it.text) if DECIMAL.fullmatch(it.text) else 0.0 for it in samples}
    there = sorted((it for it in samples if it.text), key=size.__getitem__)
    ends = [*there[:1], *there[1:][-1:]]
    for it in samples:
        if not it.text or it.flags not in [other.flags for other in ends]:
            ends.append(it)
    return [it for it in samples if it in ends]


def charts_page_of(charts: Sequence[Sequence[Line]], every: float, is_over: bool) -> Iterator[str]:
    """The page, part by part. Each chart has several lines."""
    yield page_begins(CHARTS_TITLE, CHARTS_STYLE, CHARTS_SCRIPT) + CHARTS
    drawn = [[_told(line) for line in chart] for chart in charts]
    made = time.time_ns() // 10**6
    data = {"every": every * 1000, "made": made, "over": is_over, "charts": drawn}
    told = json.dumps(data, separators=(",", ":")).replace("<", "\\u003c")
    yield f'<script type="application/json" id="data">{told}</script>\n'
    yield f"<script>{CHARTS_SCRIPT}</script>\n</body>\n</html>\n"


def _told(line: Line) -> dict[str, object]:
    """A line for the script. Empty texts at the end of a sample are omitted."""
    samples = [list(it[: 4 if it.set_flags else 3 if it.note else 2]) for it in line.samples]
    told = {"name": line.name, "label": line.label, "unit": line.unit, "step": line.is_step}
    return {**told, "samples": samples}
