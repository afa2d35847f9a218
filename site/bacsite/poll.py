"""Reads points: one, all properties of an object, or a list of them; and what values mean."""

from __future__ import annotations

import argparse
from functools import partial
from typing import Iterator, NamedTuple, Sequence

from . import standard
from .bodies import elements_of
from .controller import Controller
from .points import MOST_INSTANCE, Point, by_address, distinct, point_of, points_of
from .standard import OBJECT_NAME, PRESENT_VALUE, ObjectId, PropertyRef
from .streams import MISSING, is_replaceable, put, replace_file, stamp, wrong
from .tools import Tools, alone, side_by_side
from .values import NOTHING, Kind, Value, Why, fault, flags_of, state_of

NOT_UP = ("fault", "out-of-service")


class Reading(NamedTuple):
    """The value of a point, and when it was read."""

    point: Point
    value: Value
    at: str
    flags: Value = NOTHING  # if they were read
    text: str = ""  # the device's own text of a state, if it was read

    @property
    def missing(self) -> str:
        """Why there is no good value: it is missing, or the object reports a fault."""
        if not self.value.fault and "fault" in self.flags.bits:
            return "fault: " + self.shown
        return self.value.fault

    @property
    def shown(self) -> str:
        """The value; a state with the device's own text, if there is one."""
        return self.value.shown() if not self.text else f"{self.value.text} ({self.text})"

    @property
    def told_flags(self) -> str:
        """The set flags, or why they are not known."""
        if self.flags.fault:
            return "status-flags: " + self.flags.fault
        return self.flags.text if self.flags.bits else ""

    @property
    def is_up(self) -> bool:
        """Whether the point has a good value."""
        missing = self.value.fault or self.flags.fault
        return not (missing or any(flag in NOT_UP for flag in self.flags.bits))


def polled(
    tools: Tools, points: Sequence[Point], with_flags: bool, with_texts: bool = False
) -> Iterator[list[Reading]]:
    """Reads the points of each controller; yields them as the controllers are ready."""

    def readings(group: Sequence[Point]) -> list[Reading]:
        with Controller(tools, group[0].address) as controller:
            parts = controller.parts(group)
            found = [readings_of(controller, part, with_flags, with_texts) for part in parts]
            return [reading for part in found for reading in part]

    return side_by_side(tools, [partial(readings, it) for it in by_address(points).values()])


def in_order(points: Sequence[Point], groups: Iterator[list[Reading]]) -> list[Reading]:
    """Returns all readings, in the order of the list."""
    places = {id(point): at for at, point in enumerate(points)}
    readings = [reading for group in groups for reading in group]
    return sorted(readings, key=lambda reading: places[id(reading.point)])


def readings_of(
    controller: Controller, points: Sequence[Point], with_flags: bool, with_texts: bool = False
) -> list[Reading]:
    """Reads points; of present values also flags, and texts of states, if these are wanted."""
    reasons = [it.fault or controller.other_than(it.device) for it in points]
    asked = [point for point, reason in zip(points, reasons) if not reason]
    at = stamp()
    found = iter(controller.values([it.ref for it in asked], [it.form for it in asked]))
    values = [fault(reason) if reason else next(found) for reason in reasons]
    good = [(point.ref, value) for point, value in zip(points, values) if not value.fault]
    present = {ref: value for ref, value in good if ref == ref.other(PRESENT_VALUE)}
    flags = _flags_of(controller, list(present)) if with_flags else {}
    states = {ref: it for ref, value in present.items() for it in state_of(ref.object_id, value)}
    told = controller.values(list(states.values()) if with_texts else [])
    texts = {ref: it.text for ref, it in zip(states, told) if it.kind is Kind.TEXT}
    return [
        Reading(point, value, at, flags.get(point.ref, NOTHING), texts.get(point.ref, ""))
        if not value.fault
        else Reading(point, value, at)
        for point, value in zip(points, values)
    ]


def _flags_of(controller: Controller, refs: Sequence[PropertyRef]) -> dict[PropertyRef, Value]:
    """Returns the flags of the objects of present values; nothing of one that has none."""
    found = map(flags_of, controller.values([it.other(standard.STATUS_FLAGS) for it in refs]))
    return {ref: NOTHING if it.why is Why.NO_PROPERTY else it for ref, it in zip(refs, found)}


def row_of(reading: Reading) -> str:
    """Returns time, point, value, why there is no good one, flags, and the text of a state."""
    value = "" if reading.missing else reading.value.text
    cells = [value, reading.missing, reading.told_flags, reading.text]
    return "\t".join([reading.at, reading.point.name, *(it or "-" for it in cells)]) + "\n"


def read(words: argparse.Namespace) -> int:
    """Prints the value of a point, or why there is none."""
    point, tools = point_of("", words.words), Tools.of(words)
    with Controller(tools, point.address) as controller:
        job = partial(readings_of, controller, [point], not words.no_flags, with_texts=True)
        (found,) = alone(tools, job)
    put((found.missing or ", ".join(filter(None, [found.shown, found.told_flags]))) + "\n")
    return MISSING if found.missing else 0


def properties(words: argparse.Namespace) -> int:
    """Prints the properties that an object has."""
    point, tools = point_of("", [*words.words, "present-value"]), Tools.of(words)
    with Controller(tools, point.address) as controller:
        values = alone(tools, lambda: _values(controller, point, words.last))
    left = sum(value.why is Why.NOT_ASKED for value in values.values())
    none = (Why.NO_PROPERTY, Why.NOT_ASKED)
    shown = {at: value for at, value in values.items() if value.why not in none}
    for at, value in shown.items():
        put(f'{at} {standard.PROPERTIES.get(at, "-")} {value.shown()}\n')
    if left:
        put(f"{left} of {len(values)} properties not asked\n")
    return MISSING if left or not shown or any(it.fault for it in shown.values()) else 0


def _values(controller: Controller, point: Point, last: int) -> dict[int, Value]:
    """Returns the values by their properties; only the name if that is not the object."""
    object_id = point.ref.object_id
    reason = controller.other_than(point.device)
    name = fault(reason) if reason else controller.value(object_id.ref(OBJECT_NAME))
    values = {OBJECT_NAME: name}
    if name.why not in (Why.NONE, Why.NO_PROPERTY):
        return values
    listed, refusal = _numbers(controller, object_id), ""
    if listed is None:  # how does the device refuse an unknown number?
        refusal = controller.value(object_id.ref(MOST_INSTANCE)).fault
    numbers = listed if listed is not None else range(last + 1)
    for part in controller.parts([it for it in numbers if it != OBJECT_NAME]):
        values.update(zip(part, controller.values([object_id.ref(it) for it in part])))
    found = {at: it for at, it in values.items() if not refusal or it.fault != refusal}
    return dict(sorted(found.items()))


def _numbers(controller: Controller, object_id: ObjectId) -> list[int] | None:
    """Returns the numbers of the property-list; None if there is no such list."""
    (answer,) = controller.read_all([object_id.ref(standard.PROPERTY_LIST)])
    listed = None if answer.reason else elements_of(answer.region)
    if listed is None or not all(it.number in standard.INTEGERS for it in listed):
        return None
    numbers = {it.value for it in listed if 0 <= it.value <= MOST_INSTANCE}
    return sorted({standard.OBJECT_ID, OBJECT_NAME, standard.OBJECT_TYPE, *numbers})


def poll(words: argparse.Namespace) -> int:
    """Prints the points of a list."""
    points, missing = points_of(words.list), False
    groups = polled(Tools.of(words), points, not words.no_flags, with_texts=True)
    for group in [in_order(points, groups)] if words.sorted else groups:
        missing = missing or any(reading.missing for reading in group)
        put("".join(map(row_of, group)))
    return MISSING if missing else 0


def metrics_of(readings: Sequence[Reading]) -> str:
    """Returns the text file for the textfile collector of node_exporter."""
    up_help = "Whether the point has a value, and neither a fault nor is out of service."
    ups = [_sample("bacnet_up", it, str(int(it.is_up))) for it in readings]
    numbers = [it for it in readings if it.value.kind is Kind.NUMBER and not it.missing]
    values = [_sample("bacnet_value", it, it.value.text) for it in numbers]
    flags = [_sample("bacnet_flag", it, "1", flag) for it in readings for flag in it.flags.bits]
    text = _gauge("bacnet_up", up_help, ups)
    text += _gauge("bacnet_value", "The value of the point.", values)
    flag_help = "1 for each status flag of the point that is set."
    return text + (_gauge("bacnet_flag", flag_help, flags) if flags else "")


def _gauge(name: str, told: str, samples: Sequence[str]) -> str:
    return f"# HELP {name} {told}\n# TYPE {name} gauge\n" + "".join(samples)


def _sample(name: str, reading: Reading, value: str, flag: str = "") -> str:
    point = reading.point
    device = "" if point.device is None else str(point.device)
    labels = {"point": point.name, "address": point.address, "device": device, "flag": flag}
    quoted = {it: text.replace("\\", "\\\\").replace('"', '\\"') for it, text in labels.items()}
    told = ",".join(f'{it}="{text}"' for it, text in quoted.items() if text)
    return f"{name}{{{told}}} {value}\n"


def prometheus(words: argparse.Namespace) -> int:
    """Writes what a poll finds."""
    points = points_of(words.list)
    if not words.file.endswith(".prom") or not is_replaceable(words.file):
        raise wrong("no plain file whose name ends in .prom: " + words.file)
    distinct(points)
    groups = polled(Tools.of(words), points, not words.no_flags)
    readings = in_order(points, groups)
    replace_file(words.file, [metrics_of(readings)], for_all=True)
    return 0 if all(it.is_up for it in readings) else MISSING


class Meaning(NamedTuple):
    """A device's texts for a value; each is empty if the device has none."""

    name: str = ""  # of the object
    unit: str = ""
    state: str = ""


class Meanings:
    """Names, units and texts of states of one controller, each read once."""

    def __init__(self, controller: Controller) -> None:
        self.controller = controller
        self.known: dict[PropertyRef, str] = {}

    def of(self, values: Sequence[tuple[PropertyRef, Value]]) -> list[Meaning]:
        """Returns the meaning of each value. A text that did not come is read next time."""
        wanted = [it for ref, value in values if not value.fault for it in _texts_of(ref, value)]
        refs = [it for it in dict.fromkeys(wanted) if it not in self.known]
        for ref, found in zip(refs, self.controller.values(refs)):
            if not found.fault:
                self.known[ref] = found.named
            elif not (found.why.is_gone or found.why.is_for_now):
                self.known[ref] = ""  # it has none
        return [self._meaning(*it) for it in values]

    def _meaning(self, ref: PropertyRef, value: Value) -> Meaning:
        name, *more = [self.known.get(it, "") for it in _texts_of(ref, value)]
        unit = more.pop(0) if _has_unit(ref) else ""
        return Meaning(name, unit, "".join(more) or value.meaning)


def _texts_of(ref: PropertyRef, value: Value) -> list[PropertyRef]:
    """Returns the properties that explain this value: name, unit, and text of a state."""
    units = [ref.other(standard.UNITS)] if _has_unit(ref) else []
    states = state_of(ref.object_id, value) if _is_value(ref) else []
    return [ref.other(OBJECT_NAME), *units, *states]


def _is_value(ref: PropertyRef) -> bool:
    return ref.number in (PRESENT_VALUE, standard.RELINQUISH_DEFAULT) and ref.element is None


def _has_unit(ref: PropertyRef) -> bool:
    return _is_value(ref) and standard.may_have_unit(ref.object_type)
