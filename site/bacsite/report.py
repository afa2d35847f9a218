"""A survey as lines for people, as CSV for a spreadsheet, as JSON, or as a file for other tools."""

from __future__ import annotations

import argparse
from operator import attrgetter
from typing import Iterator, Mapping, NamedTuple, Sequence

from . import points
from .device import FACTS, TEXTS, Bounds, Device, SiteObject
from .page import page_of
from .standard import UNIT_NAMES, may_be_commanded
from .streams import MISSING, content_of, csv_lines, is_replaceable, json_line, put, replace_file
from .streams import show, stamp, table, times, wrong
from .survey import Earlier, Survey, earlier_of
from .tools import Tools
from .values import NOTHING, TIMEOUT

OWN = 6  # the priority that no one else may write
MISSES = "present-value: "  # the beginning of a reason for a missing value
ASKED_FOR = ("devices", "held", "details", "objects", "deadline", "not_normal")
UNIT_NUMBERS = {name: str(number) for number, name in UNIT_NAMES.items()}

# The members of a device and of an object, by the names of the columns.
OF_DEVICE = {"address": "address", "device": "instance"}
OF_DEVICE.update({"device_name" if it == "name" else it: it for it in TEXTS})
OF_OBJECT = {"type": "object_type", "instance": "instance", "type_name": "type_name"}
OF_OBJECT.update(name="name", value="value.text", meaning="meaning", unit="unit")
OF_OBJECT.update(flags="told_flags")
OFTEN = tuple(OF_OBJECT)  # the others are there if they were asked for
OF_OBJECT.update(held="held", description="description", event_state="event_state")
OF_OBJECT.update(settings="told_settings", name_read="name_read")


def _told(it: object, names: Mapping[str, str]) -> dict[str, object]:
    """Returns the cells of a device or an object."""
    return {name: attrgetter(attribute)(it) for name, attribute in names.items()}


class Columns(NamedTuple):
    """The columns besides those of every survey."""

    objects: tuple[str, ...] = ()
    changes: bool = False
    facts: tuple[str, ...] = ()
    bounds: Bounds = Bounds()

    @property
    def names(self) -> list[str]:
        """All columns, in the order of CSV."""
        more = [*self.facts, *OFTEN, *self.objects, *["change"] * self.changes]
        return [*OF_DEVICE, *more, "reason"]


def as_lines(device: Device, columns: Columns) -> str:
    """Returns a line for the device, one for each object, in columns, and the changes."""
    instance = "-" if device.instance is None else str(device.instance)
    head = [device.address, "device " + instance, *device.texts.values()]
    lines = ["  ".join(filter(None, [*head, "; ".join(device.reasons)]))]
    if device.facts:
        lines.append("  " + ", ".join(f"{it} {text}" for it, text in device.facts.items()))
    lines += ["  " + line for line in table([_cells(it, columns) for it in device.objects])]
    lines += ["  since: " + change for change in device.changes]
    return "".join(line + "\n" for line in lines)


def _cells(it: SiteObject, columns: Columns) -> list[str]:
    shown = f"{it.value.text} ({it.meaning})" if it.meaning else it.value.text
    value = f"{shown} {it.unit}".rstrip() if shown else ""
    told = [str(it.object_id), it.type_name, it.told_name, value]
    more = [str(attrgetter(OF_OBJECT[name])(it)) for name in columns.objects if name != "name_read"]
    return [*told, it.told_flags, *more, "; ".join(it.reasons)]


def as_csv(device: Device, columns: Columns) -> str:
    """Returns a row for each object, and one for the device if it has a reason, or no object."""
    told = {**_told(device, OF_DEVICE), **device.facts}
    rows: list[dict[str, object]] = []
    for it in device.objects:
        rows.append({**told, **_told(it, OF_OBJECT), "reason": "; ".join(it.reasons)})
    if device.reasons or device.changes or not rows:
        own = {"reason": "; ".join(device.reasons), "change": "; ".join(device.changes)}
        rows.append({**told, **own})
    cells = [[row.get(name) for name in columns.names] for row in rows]
    return csv_lines([["" if it is None else str(it) for it in row] for row in cells])


def as_json(device: Device, columns: Columns) -> str:
    """Returns the device as one line of JSON, its objects in it."""
    names = {it: OF_OBJECT[it] for it in (*OFTEN, *columns.objects)}
    names.update({"settings": "settings"} if "settings" in names else {})
    names.update(kind="value.kind.value", reasons="reasons")
    told: dict[str, object] = {"address": device.address, "device": device.instance, **device.texts}
    told.update(revision=device.revision, asked=device.asked, reasons=device.reasons)
    asked_for = {it: getattr(columns.bounds, it) for it in ASKED_FOR}
    told.update(device.facts, asked_for={**asked_for, "name_only": device.is_named})
    told.update({"changes": device.changes} if columns.changes else {})
    return json_line({**told, "objects": [_told(it, names) for it in device.objects]})


def as_release(device: Device, _: Columns) -> str:
    """Returns a line for write-list that releases each priority above the program, and in comments
    why objects may be missing. Priority 6 is the device's own."""
    lines = [f"# {device.address}: {it}" for it in device.reasons]
    for it in device.objects:
        what = f"{it.type_name or it.object_type} {it.instance}"
        where = f"{device.instance}@{device.address} {what} null --priority"
        comment = f"# {it.told_name}".rstrip()
        lines += [f"{where} {at}  {comment}" for at in it.priorities if at != OWN]
        lines += [f"# {what}: priority {OWN} is the device's own"] * (OWN in it.priorities)
        lines += [f"# {what}: {why}" for why in it.reasons]
    return "".join(line + "\n" for line in lines)


def ede_of(devices: Sequence[Device], made: str) -> Iterator[str]:
    """Yields an EDE file, layout 2.1, by which engineering tools exchange points (B.I.G.-EU), part
    by part. Texts of states would be a second file, and are omitted."""
    yield content_of("ede.txt").format(made=made)
    for device in devices:
        yield csv_lines([_ede_row(device, it) for it in device.objects], ";")


def _ede_row(device: Device, it: SiteObject) -> list[str]:
    names = ("relinquish-default", "min-pres-value", "max-pres-value", "high-limit", "low-limit")
    default, least, most, high, low = (it.settings.get(name, "") for name in names)
    key = f"{device.instance}_{it.object_type}_{it.instance}"
    own = [key, str(device.instance), it.name, str(it.object_type), str(it.instance)]
    own += [it.description, default, least, most]
    settable = "Y" if may_be_commanded(it.object_type) else "N"
    return [*own, settable, "", high, low, "", UNIT_NUMBERS.get(it.unit, it.unit), "", ""]


class PollList:
    """The points of a survey as a list that `poll` reads, each with a name of its own."""

    def __init__(self) -> None:
        self._names: set[str] = set()

    def of(self, device: Device, _: Columns) -> str:
        """Returns a line for the present value of each object that has one."""
        told = [device.address, "" if device.instance is None else f"device {device.instance}"]
        lines = ["# " + "  ".join(filter(None, [*told, device.name, *device.reasons]))]
        old = sum(not it.name_read for it in device.objects)
        lines += [f"# {times(old, 'name')} not read, but taken from an earlier survey"] * bool(old)
        for it in device.objects:
            if it.value is not NOTHING or any(why.startswith(MISSES) for why in it.reasons):
                which = f"{it.type_name or it.object_type} {it.instance} present-value"
                lines.append(f"{self._name(device, it)} {device.instance}@{device.address} {which}")
        return "".join(line + "\n" for line in lines)

    def _name(self, device: Device, it: SiteObject) -> str:
        base = f"{device.instance}.{'_'.join(it.name.split()) or it.type_name}"
        name = base if base not in self._names else f"{base}.{it.object_type}.{it.instance}"
        while name in self._names:
            name += "'"
        self._names.add(name)
        return name


class Counts:
    """How many addresses were asked, and the results."""

    def __init__(self, asked: int) -> None:
        self.asked, self.devices, self.silent, self.others = asked, 0, 0, 0
        self.stations: set[str] = set()
        self.missing = False

    def add(self, device: Device) -> None:
        """Counts a device, or an address without one; the line of a network is neither."""
        is_network = device.address.endswith("*")
        self.devices += device.instance is not None
        is_silent = device.instance is None and device.reasons == [TIMEOUT]
        self.silent += is_silent
        self.others += device.instance is None and not (is_silent or is_network)
        self.missing = self.missing or not (device.is_whole or device.is_nobody)
        if points.is_routed(device.address) and device.has_answered:
            self.stations.add(device.address)

    def line(self) -> str:
        """Returns the counts in words."""
        told = [f"{self.asked} asked", times(self.devices, "device"), f"{self.silent} silent"]
        if self.others:
            told.append(f"{self.others} for another reason without a device")
        networks = {it.rpartition("/")[0] for it in self.stations}
        if self.stations:
            at = f"answered on {times(len(networks), 'network')}"
            told.append(f"{times(len(self.stations), 'station')} {at}")
        return ", ".join(told) + "\n"


def survey(words: argparse.Namespace) -> int:
    """Prints what is at the addresses."""
    targets = points.targets(words.address)
    if words.stations and not any(it.reach for it in targets):
        raise wrong("--stations needs the address of a router, not of a station")
    file = words.html or words.ede
    if file and not is_replaceable(file):
        raise wrong("no plain file: " + file)
    for name, other in (("release", "held"), ("reuse_names", "since")):
        if vars(words)[name] and not vars(words)[other]:
            raise wrong(f"--{name.replace('_', '-')} needs --{other}")
    earlier = earlier_of(words.since, words.reuse_names) if words.since else Earlier()
    words.details = words.details or bool(words.ede)
    bounds = Bounds(*(vars(words)[it] for it in Bounds._fields))
    form = PollList().of if words.list else as_csv if words.csv else as_lines
    form = as_json if words.json else as_release if words.release else form
    more = ["held"] * words.held + ["description", "event_state", "settings"] * words.details
    more += ["name_read"] * words.reuse_names
    facts = (*FACTS, "clock") if words.devices else ()
    columns = Columns(tuple(more), bool(words.since), facts, bounds)
    if words.csv:
        put(csv_lines([columns.names]))
    counts, devices = Counts(sum(not it.is_network for it in targets)), []
    in_order = words.sorted or bool(file)
    for device in Survey(Tools.of(words), bounds, earlier).devices(targets, in_order):
        counts.add(device)
        if device.is_nobody and not words.silent:
            continue
        if bounds.not_normal:
            device.objects = [it for it in device.objects if it.flags or it.reasons]
        devices.append(device)
        if not file:
            put(form(device, columns))
    if file:
        replace_file(file, (page_of if words.html else ede_of)(devices, stamp()))
    if any(it.in_range or it.is_network for it in targets) or words.stations:
        show(counts.line())
    return MISSING if counts.missing or not devices else 0
