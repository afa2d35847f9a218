"""The place of a write: its present value, and the values that can be written to it; and a value as
a user writes it, turned into the tag and the word that bacwp accepts."""

from __future__ import annotations

import datetime
import re
from decimal import Decimal
from typing import NamedTuple

from . import standard
from .bodies import elements_of
from .controller import Controller
from .decimals import encoded, shortest
from .points import instance, object_type
from .standard import BINARY, MULTI_STATE, PROPERTIES, PropertyRef, form_of
from .streams import MISSING, Failure, escaped, wrong
from .values import NOTHING, Kind, Value, Why, values_of

ANSWERED = ("error", "reject", "abort", "no text", "no list")  # reasons that an answer gives
LIMITS = {
    standard.UNSIGNED: (0, 2**64 - 1),
    standard.SIGNED: (-(2**63), 2**63 - 1),
    standard.ENUMERATED: (0, 2**32 - 1),
}
WORDS = {  # the pattern of a word, the reason if it does not match, and how the value is read back
    standard.NULL: ("null", "not null: ", "{}"),
    standard.BOOLEAN: ("true|false", "neither true nor false: ", "{}"),
    standard.BITS: ("[01]+", "no bits, as 0101: ", "B'{}'"),
    standard.OCTETS: ("([0-9a-f]{2})+", "no octets in hexadecimal digits, as 01ff: ", "X'{}'"),
}
WHOLE = re.compile("-?[0-9]+")
LAST_YEAR = 2154  # the octet of the next year means any year
TIME = re.compile(r"([0-9]{1,2}):([0-9]{2})(?::([0-9]{2})(?:\.([0-9]{2}))?)?")


class Encoded(NamedTuple):
    """A value for bacwp: its tag and its word; and its text when it is read back."""

    tag: int
    word: str
    text: str

    def shown(self) -> str:
        """Returns the value as readable text, a text in quotation marks."""
        return f'"{self.text}"' if self.tag == standard.STRING else self.text


NULL = Encoded(standard.NULL, "null", "null")


def encode(word: str, tag: int) -> Encoded:
    """Returns the value of a word with this tag; fails if the word is not one."""
    if tag in standard.INTEGERS:
        return _integer(word, tag)
    if tag in (standard.REAL, standard.DOUBLE):
        octets = encoded(word, tag == standard.DOUBLE)
        return Encoded(tag, octets, shortest(octets))
    if tag == standard.STRING:
        return Encoded(tag, word, escaped(word))
    if tag not in WORDS:
        return OTHERS[tag](word)
    pattern, told, form = WORDS[tag]
    if not re.fullmatch(pattern, word):
        raise wrong(told + word)
    return Encoded(tag, word, form.format(word))


def _integer(word: str, tag: int) -> Encoded:
    if not WHOLE.fullmatch(word):
        raise wrong("no number: " + word)
    least, most = LIMITS[tag]
    if not least <= int(word) <= most:
        raise wrong("past the range: " + word)
    return Encoded(tag, str(int(word)), str(int(word)))


def _date(word: str) -> Encoded:
    try:
        date = datetime.datetime.strptime(word, "%Y-%m-%d")
    except ValueError:
        raise wrong("no date, as 2024-10-31: " + word) from None
    if not 1900 <= date.year <= LAST_YEAR:
        raise wrong(f"no date of 1900 to {LAST_YEAR}: {word}")
    octets = bytes([date.year - 1900, date.month, date.day, date.isoweekday()])
    return Encoded(standard.DATE, octets.hex(), date.strftime("%Y-%m-%d"))


def _time(word: str) -> Encoded:
    found = TIME.fullmatch(word)
    parts = [int(part or 0) for part in found.groups()] if found else [24, 0, 0, 0]
    if parts[0] > 23 or parts[1] > 59 or parts[2] > 59:
        raise wrong("no time, as 12:30 or 12:30:05.00: " + word)
    hours, minutes, seconds, rest = (f"{it:02}" for it in parts)
    return Encoded(standard.TIME, bytes(parts).hex(), f"{hours}:{minutes}:{seconds}.{rest}")


def _object(word: str) -> Encoded:
    kind, colon, number = word.partition(":")
    if not colon:
        raise wrong("no object, as 0:5 or analog-input:5: " + word)
    text = f"{object_type(kind)}:{instance(number)}"
    return Encoded(standard.OBJECT, text, text)


OTHERS = {standard.DATE: _date, standard.TIME: _time, standard.OBJECT: _object}


class Priorities(NamedTuple):
    """The priority array by its numbers, from 1, if there is one; or why it cannot be read."""

    values: dict[int, Value] = {}
    fault: str = ""


class Place(NamedTuple):
    """A property of an object, and its value."""

    address: str
    ref: PropertyRef
    is_present_value: bool
    name: str = ""  # of the object
    value: Value = NOTHING
    texts: dict[int, str] = {}  # the object's names for its states
    priorities: Priorities = Priorities()

    def words(self) -> str:
        """Returns the object in words, and its property, except for a present value."""
        told = f'{self.ref.object_id} {standard.OBJECT_TYPES.get(self.ref.object_type, "")}'
        return told.rstrip() + ("" if self.is_present_value else " " + _name_of(self.ref))

    def shown(self, value: Value) -> str:
        """Returns the text of the present value; for a state, the object's name for it."""
        is_state = self.texts and value.kind is Kind.NUMBER
        own = self.texts.get(int(value.text)) if is_state else None
        return value._replace(meaning=own or value.meaning).shown()

    def named(self, number: int) -> str:
        """Returns a number that it may have, with its name."""
        meaning = form_of(self.ref).names.get(number, "")
        return self.shown(Value(Kind.NUMBER, str(number), meaning))

    def told(self, value: Encoded) -> str:
        """Returns the text of the value that is to be written."""
        return self.named(int(value.text)) if value.tag in standard.INTEGERS else value.shown()

    def numbers(self) -> dict[str, set[int]]:
        """Returns the numbers for each name, in small letters: the standard's and the object's."""
        found: dict[str, set[int]] = {}
        for table in (form_of(self.ref).names, self.texts):
            for number, name in table.items():
                found.setdefault(name.lower(), set()).add(number)
        return found


def _name_of(ref: PropertyRef) -> str:
    return PROPERTIES.get(ref.number, f"property {ref.number}")


def looked_at(controller: Controller, place: Place) -> Place:
    """Returns the place with its present value; fails if the object is missing or another one."""
    name = _needed(controller, place.ref.other(standard.OBJECT_NAME))
    found = _needed(controller, place.ref.other(standard.OBJECT_TYPE))
    if found.text not in ("", str(place.ref.object_type)):
        raise Failure("it is of another object type: " + found.shown(), MISSING)
    value = _needed(controller, place.ref)
    if value is NOTHING:
        raise Failure(f"{_name_of(place.ref)}: error 2 32", MISSING)
    texts = _texts(controller, place) if form_of(place.ref).states else {}
    array = priorities(controller, place) if place.is_present_value else Priorities()
    _refuse_unanswered("priority-array", array.fault)
    return place._replace(name=name.text, value=value, texts=texts, priorities=array)


def _needed(controller: Controller, ref: PropertyRef) -> Value:
    """Returns a value, or nothing if there is no such property; fails for any other reason."""
    value = controller.value(ref)
    if value.why is Why.NO_PROPERTY:
        return NOTHING
    if value.fault and value.why is not Why.NO_NUMBER:  # NaN can be written over
        raise Failure(f"{_name_of(ref)}: {value.fault}", MISSING)
    return value


def _refuse_unanswered(name: str, reason: str) -> None:
    """Fails if a value is missing for a reason that is not an answer."""
    if reason and not reason.startswith(ANSWERED):
        raise Failure(f"{name}: {reason}", MISSING)


def _texts(controller: Controller, place: Place) -> dict[int, str]:
    """Returns the object's names for its states, as far as it has them."""
    if place.ref.object_type in MULTI_STATE:
        ref = place.ref.other(standard.STATE_TEXT)
        (answer,) = controller.read_all([ref])
        _refuse_unanswered("state-text", answer.reason)
        texts = dict(enumerate(values_of(answer.region, form_of(ref.at(1))), 1))
    else:
        own = (standard.INACTIVE_TEXT, standard.ACTIVE_TEXT)
        texts = {at: controller.value(place.ref.other(it)) for at, it in enumerate(own)}
    for at, text in texts.items():
        _refuse_unanswered(f"the text of state {at}", text.fault)
    return {at: it.text for at, it in texts.items() if it.kind is Kind.TEXT and it.text}


def priorities(controller: Controller, place: Place) -> Priorities:
    """Reads the priority array."""
    ref = place.ref.other(standard.PRIORITY_ARRAY)
    (answer,) = controller.read_all([ref])
    if answer.why is Why.NO_PROPERTY:
        return Priorities()
    if answer.reason or elements_of(answer.region) is None:
        return Priorities(fault=answer.reason or "no list")
    return Priorities(dict(enumerate(values_of(answer.region, form_of(ref.at(1))), 1)))


def encoded_for(controller: Controller, place: Place, word: str, type_: str | None) -> Encoded:
    """Returns the value of a word here; fails if its type is wrong, or it is out of range."""
    form = form_of(place.ref)
    if word == "null" and place.is_present_value and not type_:
        return NULL
    if form.is_list or form.is_row:
        raise wrong(f"{_name_of(place.ref)} has several values: choose one with --index")
    tag = standard.TAGS.index(type_) if type_ else (form.tags[0] if form.tags else -1)
    if form.tags and tag not in form.tags:
        raise wrong(f"{place.words()} is no {type_}, but {standard.TAGS[form.tags[0]]}")
    if tag < 0:
        raise wrong(f"the type of {place.words()} is not known: give it with --type")
    if tag in standard.INTEGERS and not (type_ and WHOLE.fullmatch(word)):
        word = _number(place, word, standard.TAGS[tag])
    value = encode(word, tag)
    if tag in standard.LOOK_ALIKE and place.is_present_value:
        _refuse_past_the_range(controller, place, value)
    return value


def _number(place: Place, word: str, type_: str) -> str:
    """Returns the number in a word, or of the name in it; fails if there are two such numbers."""
    known, is_number = place.numbers(), WHOLE.fullmatch(word)
    found = known.get(word.lower(), set()) | ({int(word)} if is_number else set())
    if len(found) > 1:
        which = " or ".join(map(place.named, sorted(found)))
        cure = f"by --type {type_} it is the number" if is_number else "give its number"
        raise wrong(f"{word} may be {which}: {cure}")
    if not found:
        alone = [name for name, numbers in known.items() if len(numbers) == 1]
        told = "; it has " + ", ".join(alone) if 0 < len(alone) <= 20 else ""
        raise wrong(f"no number and no state: {word}{told}")
    return str(found.pop())


def _refuse_past_the_range(controller: Controller, place: Place, value: Encoded) -> None:
    """Fails if the number is outside the object's own limits."""

    def limit(number: int) -> Decimal | None:
        limit = _needed(controller, place.ref.other(number))
        return Decimal(limit.text) if limit.kind is Kind.NUMBER else None

    number, least, most = Decimal(value.text), None, None
    if place.ref.object_type in BINARY + MULTI_STATE:
        states = form_of(place.ref).states or (0, 1)
        count = limit(standard.NUMBER_OF_STATES) if states[0] else None
        least, most = Decimal(states[0]), count or Decimal(states[1])
    else:
        found = [limit(standard.MIN_VALUE), limit(standard.MAX_VALUE)]
        if found != [0, 0]:  # [0, 0] is the answer of an object without limits
            least, most = found
    if (least is None or least <= number) and (most is None or number <= most):
        return
    ends = f"{least:f} and more" if most is None else f"up to {most:f}"
    if least is not None and most is not None:
        ends = f"{least:f} to {most:f}"
    raise wrong(f"{place.words()} takes {ends}, not {value.text}")
