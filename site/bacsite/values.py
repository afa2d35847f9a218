"""Values in readable form, from the octets of an answer and their tags; and why there is none."""

from __future__ import annotations

import enum
import re
from functools import lru_cache
from typing import NamedTuple, Sequence

from . import standard
from .bodies import Item, bits_of, element_text, elements_of, items_of
from .decimals import NO_NUMBERS, shortest
from .standard import Form, ObjectId, PropertyRef
from .streams import escaped

TIMEOUT, NOT_ASKED, TOO_LATE = "timeout", "not asked", "not done in time"
STRANGE, NO_INDEX = "an answer about another point", "an answer without its index"


class Why(enum.Enum):
    """The kind of a reason, whatever its words are."""

    NONE = enum.auto()  # nothing is missing
    SILENT = enum.auto()
    NOT_ASKED = enum.auto()
    TOO_LATE = enum.auto()
    BUSY = enum.auto()  # for now
    STRANGE = enum.auto()  # the answer is about something else
    TOO_LONG = enum.auto()  # for one datagram
    NO_OBJECT = enum.auto()
    NO_PROPERTY = enum.auto()
    NO_NUMBER = enum.auto()  # a Real that is NaN or infinite
    OTHER = enum.auto()

    @property
    def is_gone(self) -> bool:
        """Whether nobody answered, in time or at all: the controller or its network is down."""
        return self in (Why.SILENT, Why.NOT_ASKED, Why.TOO_LATE)

    @property
    def is_for_now(self) -> bool:
        """Whether the answer may differ if the value is asked for again."""
        return self in (Why.BUSY, Why.STRANGE)


# The kinds of reasons by their words; those of bactool have numbers of the standard in them.
WORDS = {"": Why.NONE, TIMEOUT: Why.SILENT, NOT_ASKED: Why.NOT_ASKED, TOO_LATE: Why.TOO_LATE}
WORDS.update(dict.fromkeys(["error 0 3", "abort 3", "abort 8", "abort 9"], Why.BUSY))
WORDS.update(dict.fromkeys([STRANGE, NO_INDEX], Why.STRANGE))
WORDS.update(dict.fromkeys(["abort 1", "abort 4", "abort 11", "segmented"], Why.TOO_LONG))


@lru_cache(maxsize=1024)
def why_of(reason: str) -> Why:
    """Returns the kind of a reason."""
    if reason.startswith("no number: "):
        return Why.NO_NUMBER
    if reason.startswith(TIMEOUT + " ("):  # and an explanation
        return Why.SILENT
    code = re.fullmatch("error [0-9]+ (31|32)", reason)
    if code:
        return Why.NO_OBJECT if code[1] == "31" else Why.NO_PROPERTY
    return WORDS.get(reason, Why.OTHER)


class Kind(enum.Enum):
    """The kind of a value."""

    NUMBER = "number"
    TEXT = "text"
    OTHER = "other"  # bits, a date, a list, null, ..
    FAULT = "fault"  # the value is missing, or does not fit the property


class Value(NamedTuple):
    """A value. The text of a fault says why there is none."""

    kind: Kind
    text: str
    meaning: str = ""  # the name of a number, or of the bits that are set
    bits: tuple[str, ...] = ()  # the names of the set bits

    @property
    def fault(self) -> str:
        """Why there is no value; empty if there is one."""
        return self.text if self.kind is Kind.FAULT else ""

    @property
    def why(self) -> Why:
        """The kind of the reason in the fault."""
        return why_of(self.fault)

    @property
    def number(self) -> float | None:
        """The number, if the value is one."""
        return float(self.text) if self.kind is Kind.NUMBER else None

    @property
    def named(self) -> str:
        """The name of the number; the value itself if it has none."""
        return self.meaning or self.text

    def shown(self) -> str:
        """Returns the value with its meaning."""
        return f"{self.text} ({self.meaning})" if self.meaning else self.text

    def told(self) -> str:
        """Returns the same as `shown`, but a text in quotation marks."""
        return f'"{self.text}"' if self.kind is Kind.TEXT else self.shown()


def fault(text: str) -> Value:
    """Returns a missing value, with the reason."""
    return Value(Kind.FAULT, text)


NOTHING = Value(Kind.OTHER, "")
CHARACTER_SETS = {0: "utf-8", 3: "utf-32-be", 4: "utf-16-be", 5: "latin-1"}
CODE_PAGE = 1  # the set of a text whose first two octets name a code page
ANY = 255  # of a part of a date or a time
MONTHS, DAYS_OF_MONTH = {13: "odd", 14: "even"}, {32: "last", 33: "odd", 34: "even"}
WEEKS = {1: "1-7", 2: "8-14", 3: "15-21", 4: "22-28", 5: "29-31", 6: "last 7"}


def value_of(region: bytes, form: Form) -> Value:
    """Returns the value of a property, or of an element, whose values must have this form."""
    elements = elements_of(region)
    if elements is None:
        items = items_of(region)
        text = "hex " + region.hex() if items is None else _constructed(items, form)
        is_free = not form.tags or (form.is_choice and items is not None)
        return Value(Kind.OTHER, text) if is_free else _none(form, text)
    if form.is_row and len(elements) == len(form.tags):
        found = [_value(it, Form((tag,))) for it, tag in zip(elements, form.tags)]
    elif len(elements) == 1 and not form.is_row:
        return _value(elements[0], form)
    elif form.is_list or not form.tags:
        found = [_value(it, form) for it in elements]
    else:
        return _none(form, _listed([_plain(it) for it in elements]))
    wrong = [it for it in found if it.kind is Kind.FAULT]
    return wrong[0] if wrong else Value(Kind.OTHER, _listed(found))


def values_of(region: bytes, form: Form) -> list[Value]:
    """Returns each value of a list or an array, whose elements must have this form."""
    return [_value(it, form) for it in elements_of(region) or []]


def told(element: Item) -> str:
    """A value of any type, a text in quotation marks."""
    return _plain(element).told()


def shown(region: bytes) -> str:
    """Returns the text of a value without a known form."""
    return value_of(region, Form()).told()


def _listed(found: Sequence[Value]) -> str:
    """Returns the text of a list; of one element, only the element's."""
    texts = [it.told() for it in found]
    return texts[0] if len(texts) == 1 else "{" + ", ".join(texts) + "}"


def _none(form: Form, found: str) -> Value:
    """Returns the fault that a value has the wrong type."""
    tags = form.tags if form.is_row else form.tags[:1]
    called = ["integer" if it in standard.INTEGERS else standard.TAGS[it] for it in tags]
    return fault(f'no {" and ".join(called)}: {found}')


def _value(element: Item, form: Form) -> Value:
    """Returns a value of this form. Whole numbers of all types fit, unless the sign is wrong."""
    value, kind, tags = _plain(element, form.names), element.number, form.tags
    whole = kind in standard.INTEGERS and any(it in standard.INTEGERS for it in tags)
    is_below = whole and element.value < 0 and standard.SIGNED not in tags
    if tags and (is_below or not (whole or kind in tags)):
        type_ = f"{standard.TAGS[kind]} " if kind in standard.LOOK_ALIKE else ""
        return _none(form, type_ + value.told())
    if value.text in NO_NUMBERS and value.kind is Kind.NUMBER:  # as of a sensor that has failed
        return fault("no number: " + value.text)
    if form.states and whole and not form.states[0] <= int(value.text) <= form.states[1]:
        return fault("no state: " + value.text)
    return value


def _plain(element: Item, meanings: dict[int, str] | None = None) -> Value:
    """Returns a value of any type, with the meaning of its number or its bits."""
    kind, octets, known = element.number, element.octets, meanings or {}
    if kind == standard.STRING:
        return Value(Kind.TEXT, _decoded(element))
    text, meaning = element_text(element), ""
    if kind in (standard.REAL, standard.DOUBLE):
        return Value(Kind.NUMBER, shortest(text))
    if kind in standard.INTEGERS:
        return Value(Kind.NUMBER, text, known.get(element.value, ""))
    if kind == standard.BITS:
        places = [at for at, bit in enumerate(bits_of(octets)) if bit == "1"] if known else []
        bits = tuple(known.get(at, f"bit {at}") for at in places)
        return Value(Kind.OTHER, text, ", ".join(bits), bits)
    if kind in (standard.DATE, standard.TIME):
        text = _moment_of(kind, octets) or text
    elif kind == standard.OBJECT:
        meaning = standard.OBJECT_TYPES.get(element.of_object.object_type, "")
    return Value(Kind.OTHER, text, meaning)


def _decoded(element: Item) -> str:
    """Returns a text in its character set; as bacrp prints it if that can't be read."""
    octets = element.octets
    try:
        if octets[0] == CODE_PAGE:
            return escaped(octets[3:].decode(f"cp{int.from_bytes(octets[1:3], 'big')}"))
        return escaped(octets[1:].decode(CHARACTER_SETS[octets[0]]))
    except (LookupError, UnicodeDecodeError):
        return element_text(element)


def _moment_of(kind: int, octets: bytes) -> str:
    """A Date or a Time as 2024-10-31 or 12:30:00.00, with * for any; empty if it is neither."""
    first, second, third, last = octets
    if kind == standard.DATE:
        year = "*" if first == ANY else str(1900 + first)
        month = _part(second, 1, 12, MONTHS)
        day, week_day = _part(third, 1, 31, DAYS_OF_MONTH), _day(last)
        has_any = ANY in octets[:3] or second > 12 or third > 31
        date = f"{year}-{month}-{day}" if month and day else ""
        return f"{date} {week_day}" if date and has_any and week_day not in ("", "*") else date
    parts = [_part(it, 0, most, {}) for it, most in zip(octets, (23, 59, 59, 99))]
    return ":".join(parts[:3]) + "." + parts[3] if all(parts) else ""


def _part(octet: int, least: int, most: int, names: dict[int, str]) -> str:
    """A part of a date or a time; empty if it has no such number."""
    if octet == ANY:
        return "*"
    return f"{octet:02d}" if least <= octet <= most else names.get(octet, "")


def _day(octet: int) -> str:
    """A day of the week, from 1, or any; empty if it is neither."""
    return "*" if octet == ANY else dict(enumerate(standard.DAYS, 1)).get(octet, "")


def _entry(item: Item) -> str:
    """An entry of a calendar in a context tag: a date, or days of weeks; empty if it is neither."""
    if item.number == 0 and len(item.octets) == 4:
        return _moment_of(standard.DATE, item.octets)
    if item.number == 2 and len(item.octets) == 3:
        month, week, day = item.octets
        days, of_month = "*" if week == ANY else WEEKS.get(week, ""), _part(month, 1, 12, MONTHS)
        is_known = days and of_month and _day(day)
        return f"month {of_month}, days {days}, {_day(day)}" if is_known else ""
    return ""


def _constructed(items: Sequence[Item], form: Form = Form()) -> str:
    """Items with context tags, which show no types: [1]X'05' is a value, [0]{..} has others."""
    texts = []
    labels = form.labels if len(form.labels) == len(items) else ()
    for at, it in enumerate(items):
        mark = f"[{it.number}]" if it.context else f"{it.number}:"
        entry = _entry(it) if form.has_entries and it.context and it.inner is None else ""
        mark = f"{labels[at]} " if labels else mark
        if it.is_element or entry:
            texts.append(entry or _plain(it).told())
        elif it.inner is None:
            texts.append(f"{mark}X'{it.octets.hex()}'")
        else:
            inner = _constructed(it.inner, form._replace(labels=()))
            texts.append(f"{mark}{{{inner}}}")
    return ", ".join(texts)


def state_of(object_id: ObjectId, value: Value) -> list[PropertyRef]:
    """Returns the property in which the device names this state, if the value is a state."""
    if value.kind is not Kind.NUMBER:
        return []
    state = int(value.number or 0)
    if object_id.object_type in standard.MULTI_STATE:
        return [object_id.ref(standard.STATE_TEXT, state)]
    if object_id.object_type in standard.BINARY:
        return [object_id.ref(standard.ACTIVE_TEXT if state else standard.INACTIVE_TEXT)]
    return []


def flags_of(value: Value) -> Value:
    """Status flags, which are four bits, by their names, or `normal`; else a fault."""
    if value.fault:
        return value
    if len(value.text) != len("B'0000'"):
        return fault("no four bits: " + value.text)
    return Value(Kind.OTHER, value.meaning or "normal", bits=value.bits)
