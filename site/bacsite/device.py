"""The properties of a device, and those of each of its objects."""

from __future__ import annotations

from dataclasses import dataclass, field
from typing import Mapping, NamedTuple, Optional, Sequence, Tuple

from . import standard
from .bodies import elements_of, items_of
from .controller import Controller, Elements
from .messages import ReadResult
from .standard import DEVICE, OBJECT, OBJECT_NAME, OBJECT_TYPES, PRESENT_VALUE, PROPERTIES
from .standard import STATUS_FLAGS, ObjectId, PropertyRef, form_of
from .streams import clock_drift
from .values import NOTHING, TIMEOUT, Kind, Value, Why, flags_of, shown, state_of, told
from .values import value_of, why_of

# The texts of a device: members of Device, each with its property. CSV, JSON, the page and the
# comparison with an earlier survey have these names, in this order. A device must have each of
# them.
TEXTS = {"name": OBJECT_NAME, "vendor": standard.VENDOR_NAME, "model": standard.MODEL_NAME}
# Other texts of a device, read if only devices are surveyed; any of them may be missing.
FACTS = {"firmware": standard.FIRMWARE, "software": standard.SOFTWARE}
FACTS.update(status=standard.SYSTEM_STATUS, protocol_revision=standard.PROTOCOL_REVISION)
CLOCK = (standard.LOCAL_DATE, standard.LOCAL_TIME)
# The settings of an object that are read with --details: those of states by the object's type.
SETTINGS = [standard.LOW_LIMIT, standard.HIGH_LIMIT, standard.MIN_VALUE, standard.MAX_VALUE]
OF_STATES = dict.fromkeys(standard.MULTI_STATE, [standard.STATE_TEXT])
OF_STATES.update(dict.fromkeys(standard.BINARY, [standard.INACTIVE_TEXT, standard.ACTIVE_TEXT]))


@dataclass
class SiteObject:
    """An object of a device, and why parts of it are missing."""

    object_type: int
    instance: int
    name: str = ""
    value: Value = NOTHING
    meaning: str = ""  # of a state
    unit: str = ""
    flags: tuple[str, ...] | None = None  # the set flags; None if the object has no flags
    name_read: bool = True  # otherwise the name is from an earlier survey
    priorities: tuple[int, ...] = ()  # above the program, if they were read
    description: str = ""
    event_state: str = ""
    settings: dict[str, str] = field(default_factory=dict)  # limits and texts, by their properties
    reasons: list[str] = field(default_factory=list)

    @property
    def object_id(self) -> ObjectId:
        """The type and the instance of the object."""
        return ObjectId(self.object_type, self.instance)

    @property
    def type_name(self) -> str:
        """The name of the object's type; empty for a vendor's own type."""
        return OBJECT_TYPES.get(self.object_type, "")

    @property
    def told_flags(self) -> str:
        """The flags in words."""
        return "" if self.flags is None else ", ".join(self.flags) or "normal"

    @property
    def told_name(self) -> str:
        """The name, with a note if it was not read now."""
        return self.name if self.name_read else f"{self.name} (not read)"

    @property
    def held(self) -> str:
        """The most urgent priority above the program that commands it, with its name."""
        return standard.priority_text(self.priorities[0]) if self.priorities else ""

    @property
    def has_lost(self) -> bool:
        """Whether a value is missing because nobody answered."""
        return any(why_of(it.partition(": ")[2]).is_gone for it in self.reasons)

    @property
    def told_settings(self) -> str:
        """The settings in words."""
        return ", ".join(f"{name} {text}" for name, text in self.settings.items())


@dataclass
class Device:
    """A device, and why parts of it are missing. Without an instance it is unknown."""

    address: str
    instance: int | None = None
    name: str = ""
    vendor: str = ""
    model: str = ""
    revision: str = ""  # of the database: it changes if objects or names change
    objects: list[SiteObject] = field(default_factory=list)
    listed: list[ObjectId] | None = None  # the object list, if it is known to be whole
    reasons: list[str] = field(default_factory=list)
    changes: list[str] = field(default_factory=list)  # since an earlier survey
    gone: int | None = None  # the device that an earlier survey has at this address instead
    facts: dict[str, str] = field(default_factory=dict)  # those of FACTS, and its clock
    hidden: bool = False  # nobody is there, and no earlier survey or Who-Is has a device there
    asked: str = ""  # when it was asked
    is_named: bool = False  # only address and instance are known, and nothing else was asked

    @property
    def has_answered(self) -> bool:
        """Whether somebody answered a read or a Who-Is there."""
        return self.instance is not None or any("answers a Who-Is" in it for it in self.reasons)

    @property
    def is_nobody(self) -> bool:
        """Whether nobody is there, and nobody was before."""
        return self.hidden and not self.changes

    @property
    def is_silent(self) -> bool:
        """Whether no read was answered, and so nobody said which device it is."""
        return self.instance is None and any(why_of(it) is Why.SILENT for it in self.reasons[:1])

    @property
    def texts(self) -> dict[str, str]:
        """The texts of TEXTS, in their order."""
        return {name: getattr(self, name) for name in TEXTS}

    @property
    def is_whole(self) -> bool:
        """Whether no part of the device is missing."""
        return not self.reasons and not any(it.reasons for it in self.objects)


class Bounds(NamedTuple):
    """How far a survey goes, by the names of its options."""

    objects: int = 5000
    deadline: int = 600  # seconds for one controller
    devices: bool = False  # devices without their objects
    details: bool = False  # descriptions and event states too
    held: bool = False  # only objects that are commanded above the program
    stations: bool = False  # stations behind a router too
    listen: int = 10  # seconds, after each question to all stations of a network
    listen_port: int = 47808  # the port for the answers of stations
    not_normal: bool = False  # of the objects only those with a flag or something missing


Names = Mapping[Tuple[Optional[int], str], Mapping[ObjectId, str]]  # by instance and revision
Held = Tuple[Tuple[int, ...], str]  # priorities above the program, or why they are not known


def device_of(controller: Controller, bounds: Bounds, names: Names) -> Device:
    """Reads a controller's device and objects, except the names of objects that are known."""
    device = _Reader(controller, bounds).device(names)
    is_early = device.listed is None and not device.objects
    if controller.silent and is_early and controller.comes_back():
        device = _Reader(controller, bounds).device(names)
    if controller.is_over:
        device.reasons.append("deadline" if controller.late else TIMEOUT)
    device.reasons += filter(None, [controller.has_changed()])
    return device


class _Reader:
    """Reads a device; has the values that were read, and the names that need no reading."""

    def __init__(self, controller: Controller, bounds: Bounds) -> None:
        self.controller, self.bounds, self.own = controller, bounds, controller.own
        self.values: dict[PropertyRef, Value] = {}
        self.names: Mapping[ObjectId, str] = {}

    def ask(self, refs: Sequence[PropertyRef]) -> None:
        """Asks for more values."""
        self.values.update(zip(refs, self.controller.values(refs)))

    def value(self, reasons: list[str], ref: PropertyRef, optional: bool = True) -> Value:
        """Returns a value, or nothing. An optional property may be missing without a reason."""
        value = self.values.get(ref, NOTHING)
        if ref.number == STATUS_FLAGS and value is not NOTHING:
            value = flags_of(value)
        if not value.fault:
            return value
        if not (optional and value.why is Why.NO_PROPERTY):
            reasons.append(f"{PROPERTIES[ref.number]}: {value.fault}")
        return NOTHING

    def device(self, names: Names) -> Device:
        """Reads the device."""
        device = Device(self.controller.address, self.own.instance)
        is_alone = self.bounds.devices
        more = [*FACTS.values(), *CLOCK] if is_alone else [standard.DATABASE_REVISION]
        self.ask([self.own.ref(it) for it in [*TEXTS.values(), *more]])
        for name, number in TEXTS.items():
            value = self.value(device.reasons, self.own.ref(number), optional=False)
            setattr(device, name, value.text)
        if is_alone:
            device.facts = self.facts()
        else:
            device.revision = _revision_of(self.values[self.own.ref(standard.DATABASE_REVISION)])
            self.names = names.get((device.instance, device.revision), {})
            self.add_objects(device)
        return device

    def facts(self) -> dict[str, str]:
        """Returns the device's software, state and clock, as far as it reports them."""
        values = {name: self.values[self.own.ref(number)] for name, number in FACTS.items()}
        facts = {name: it.named for name, it in values.items() if not it.fault}
        drift = clock_drift("T".join(self.values[self.own.ref(it)].text for it in CLOCK))
        return {**facts, "clock": drift} if drift else facts

    def add_objects(self, device: Device) -> None:
        """Reads the objects, and whether they are still those of the list."""
        controller, bounds = self.controller, self.bounds
        listed, reasons = self.object_list()
        device.reasons += ["object-list: " + reason for reason in shortened(reasons)]
        objects = [it for it in dict.fromkeys(listed) if it.object_type != DEVICE]
        if not reasons:
            device.listed = objects
        wanted, left = objects[: bounds.objects], len(objects)
        held: dict[ObjectId, Held] = {}
        if bounds.held:
            held, asked = _held(controller, wanted)
            left -= asked - len(held)
            wanted = list(held)
        device.objects = self.objects(wanted)
        if wanted and controller.silent and controller.comes_back():
            whole = {it.object_id: it for it in device.objects if not it.has_lost}
            again = self.objects([it for it in wanted if it not in whole])
            whole.update({it.object_id: it for it in again})
            device.objects = [whole[it] for it in wanted if it in whole]
        for it in device.objects:
            it.priorities, reason = held.get(it.object_id, ((), ""))
            it.reasons += [reason] if reason and reason not in it.reasons else []
        left -= len(device.objects)
        if left > 0:
            device.reasons.append(f"{left} of {len(objects)} objects not asked")
        if not controller.is_over:
            device.reasons += self.changed(device.revision, -1 if reasons else len(listed))

    def object_list(self) -> tuple[list[ObjectId], list[str]]:
        """Returns the object list, and why some objects are lost."""
        ref = self.own.ref(standard.OBJECT_LIST)
        answer = self.controller.ask(ref)
        listed = Elements(answer.region)
        if answer.reason:  # whatever it is, the elements may be answered
            listed = self.controller.elements(self.bounds.objects + 1, ref)  # one is the device
            if not listed.count and answer.why is not Why.TOO_LONG:
                listed.reasons = [answer.reason]
        found: list[ObjectId] = []
        strange: list[str] = []
        for region in listed.found:
            elements = elements_of(region)
            strange += [shown(region)] if elements is None else []
            for it in elements or []:
                if it.number == OBJECT:
                    found.append(it.of_object)
                else:
                    strange.append(told(it))
        others = [it for it in found if it.object_type == DEVICE and it != self.own]
        reasons = listed.reasons + ["no object: " + it for it in strange]
        return found, reasons + [f"another device: {it}" for it in others]

    def changed(self, before: str, count: int) -> list[str]:
        """Returns signs that the objects have changed since they were listed."""
        now, why = self.controller.count(self.own.ref(standard.OBJECT_LIST))
        found = []
        if count >= 0 and not why and now != count:
            found.append(f"object-list: {count} listed, {now} at the end")
        ref = self.own.ref(standard.DATABASE_REVISION)
        revision = _revision_of(self.controller.value(ref)) if before else ""
        if revision and revision != before:
            found.append(f"database-revision: {before}, {revision} at the end")
        return found

    def objects(self, wanted: Sequence[ObjectId]) -> list[SiteObject]:
        """Reads objects, as far as the device answers."""
        found: list[SiteObject] = []
        for part in self.controller.parts(wanted):
            if self.controller.is_over:
                break
            found += self.some_objects(part)
        return found

    def some_objects(self, part: Sequence[ObjectId]) -> list[SiteObject]:
        """Reads objects; those whose names could no longer be read are omitted."""
        self.ask([it.ref(OBJECT_NAME) for it in part if it not in self.names])
        known = {it: Value(Kind.TEXT, self.names[it]) for it in part if it in self.names}
        self.values.update({it.ref(OBJECT_NAME): name for it, name in known.items()})
        why = {it: self.values[it.ref(OBJECT_NAME)].why for it in part}
        there = [it for it in part if why[it] is not Why.NO_OBJECT]
        self.ask([it.ref(number) for it in there for number in self.numbers(it.object_type)])
        values = {it: self.values.get(it.ref(PRESENT_VALUE), NOTHING) for it in there}
        self.ask([state for it in there for state in state_of(it, values[it])])
        return [self.an_object(it) for it in part if why[it] is not Why.NOT_ASKED]

    def numbers(self, object_type: int) -> list[int]:
        """Returns the properties that an object of a type is asked for, beside its name."""
        found = [PRESENT_VALUE, STATUS_FLAGS] * standard.has_value(object_type)
        found += [standard.UNITS] * standard.may_have_unit(object_type)
        details = [standard.DESCRIPTION, standard.EVENT_STATE, *_settings(object_type)]
        return found + details * self.bounds.details

    def an_object(self, object_id: ObjectId) -> SiteObject:
        """Returns the object, made from the values that were read."""
        made = SiteObject(*object_id)

        def value(number: int, optional: bool = True) -> Value:
            return self.value(made.reasons, object_id.ref(number), optional)

        made.name = value(OBJECT_NAME, optional=False).text
        made.name_read = object_id not in self.names
        known = object_id.object_type in OBJECT_TYPES  # then a present value has to be there
        made.value = value(PRESENT_VALUE, optional=not known)
        flags = value(STATUS_FLAGS)
        made.flags = None if flags is NOTHING else flags.bits
        made.unit = value(standard.UNITS).named
        for state in state_of(object_id, made.value):
            made.meaning = self.value(made.reasons, state).text
        made.meaning = made.meaning or made.value.meaning
        made.description = value(standard.DESCRIPTION).text
        made.event_state = value(standard.EVENT_STATE).named
        for number in _settings(object_id.object_type) if self.bounds.details else []:
            setting = value(number)
            if setting is not NOTHING:
                made.settings[PROPERTIES[number]] = setting.shown()
        return made


def shortened(reasons: Sequence[str]) -> list[str]:
    """Returns the first reasons, the number of omitted ones, and the last one, which decides."""
    if len(reasons) <= 4:
        return list(reasons)
    return [*reasons[:3], f"{len(reasons) - 4} more such", reasons[-1]]


def _revision_of(value: Value) -> str:
    """Returns the revision of a database; an empty text if there is none."""
    return value.text if value.kind is Kind.NUMBER else ""


def _settings(object_type: int) -> list[int]:
    """Returns the settings that an object of a type may have."""
    found = OF_STATES.get(object_type, SETTINGS) * standard.has_value(object_type)
    return found + [standard.RELINQUISH_DEFAULT] * standard.may_be_commanded(object_type)


def _held(controller: Controller, objects: Sequence[ObjectId]) -> tuple[dict[ObjectId, Held], int]:
    """Returns the objects without the value of their program: a priority above it commands them,
    they are overridden, or out of service. Also returns how many objects were read."""
    found: dict[ObjectId, Held] = {}
    count = 0
    for part in controller.parts(objects):
        commanded = [it for it in part if standard.may_be_commanded(it.object_type)]
        refs = [it.ref(standard.PRIORITY_ARRAY) for it in commanded]
        refs += [it.ref(STATUS_FLAGS) for it in part if standard.has_value(it.object_type)]
        for ref, answer in zip(refs, controller.read_all(refs)):
            if answer.why is Why.NOT_ASKED:
                return found, count
            held = _held_by(ref, answer)
            if held:
                found.setdefault(ref.object_id, held)
        count += len(part)
    return found, count


def _held_by(ref: PropertyRef, answer: ReadResult) -> Held | None:
    """Returns which entries of a priority array above the program are not null, whatever they
    contain; or the status flags that show an object as overridden or out of service."""
    name = PROPERTIES[ref.number]
    if answer.reason:
        missing = answer.why in (Why.NO_PROPERTY, Why.NO_OBJECT)
        return None if missing else ((), f"{name}: {answer.reason}")
    if ref.number == STATUS_FLAGS:
        flags = flags_of(value_of(answer.region, form_of(ref))).bits
        return ((), "") if {"overridden", "out-of-service"} & set(flags) else None
    items = items_of(answer.region)
    if items is None:
        return (), f"{name}: cannot be read: {shown(answer.region)}"
    above = enumerate(items[: standard.BY_HAND], 1)
    found = tuple(at for at, it in above if it.context or it.number != standard.NULL)
    return (found, "") if found else None
