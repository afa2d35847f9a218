"""The numbers of BACnet and their names, and which values a property has, from numbers.txt."""

from __future__ import annotations

import re
from functools import lru_cache
from typing import Iterator, NamedTuple

from .streams import content_of

NULL, BOOLEAN, UNSIGNED, SIGNED, REAL, DOUBLE, OCTETS, STRING, BITS, ENUMERATED = range(10)
DATE, TIME, OBJECT = 10, 11, 12
INTEGERS = (UNSIGNED, SIGNED, ENUMERATED)
LOOK_ALIKE = (*INTEGERS, REAL, DOUBLE)  # the tags whose values bacrp prints only in digits
LONG = 1 << 32
# The types of values by their tags: their names, and the least and the most octets of a value.
TAGS = "null boolean unsigned signed real double octets text bits enumerated".split()
TAGS += ["date", "time", "object"]
LEAST = (0, 1, 1, 1, 4, 8, 0, 1, 1, 1, 4, 4, 4)
MOST = (0, 1, 8, 8, 4, 8, LONG, LONG, LONG, 4, 4, 4, 4)

BINARY, MULTI_STATE = (3, 4, 5), (13, 14, 19)
COMMAND_OBJECT, DEVICE = 7, 8
THIS_DEVICE = 4194303  # the instance that every device accepts as its own

ACTION, ACTIVE_TEXT, ALARM_VALUE, ALARM_VALUES, INACTIVE_TEXT = 2, 4, 6, 7, 46
DATABASE_REVISION, DESCRIPTION, EVENT_STATE = 155, 28, 36
COV_INCREMENT, DEADBAND, HIGH_LIMIT, LOW_LIMIT = 22, 25, 45, 59
FIRMWARE, SOFTWARE, LOCAL_DATE, LOCAL_TIME = 44, 12, 56, 57
SYSTEM_STATUS, PROTOCOL_REVISION = 112, 139
MAX_VALUE, MIN_VALUE, MODEL_NAME, NUMBER_OF_STATES = 65, 69, 70, 74
OBJECT_ID, OBJECT_LIST, OBJECT_NAME, OBJECT_TYPE = 75, 76, 77, 79
PRESENT_VALUE, PRIORITY_ARRAY, RELIABILITY, RELINQUISH_DEFAULT = 85, 87, 103, 104
STATE_TEXT, STATUS_FLAGS, UNITS, VENDOR_NAME, PROPERTY_LIST = 110, 111, 117, 121, 371

# The standard's names of reserved priorities; the others are free.
PRIORITY_NAMES = {
    1: "manual-life-safety",
    2: "automatic-life-safety",
    5: "critical-equipment-control",
    6: "minimum-on-off",
    8: "manual-operator",
}
DATE_LIST, EXCEPTIONS, WEEK = 23, 38, 123  # properties of calendars and schedules
DAYS = ("Mon", "Tue", "Wed", "Thu", "Fri", "Sat", "Sun")
BY_HAND = 8  # entries of the priority array up to this place are above the program
NOT_COMMANDED = (0, 3, 6, 7, 12, 13, 17, 21, 22, 23, 24, 28)  # types without a priority array


class ObjectId(NamedTuple):
    """An object."""

    object_type: int
    instance: int

    def ref(self, number: int, element: int | None = None) -> PropertyRef:
        """Returns a property of the object, or an element of that property."""
        return PropertyRef(self.object_type, self.instance, number, element)

    def __str__(self) -> str:
        return f"{self.object_type}:{self.instance}"


class PropertyRef(NamedTuple):
    """A property of an object, or an element of it."""

    object_type: int
    instance: int
    number: int  # of the property
    element: int | None = None

    @property
    def object_id(self) -> ObjectId:
        """The object."""
        return ObjectId(self.object_type, self.instance)

    def other(self, number: int) -> PropertyRef:
        """Another property of the same object."""
        return self.object_id.ref(number)

    def at(self, element: int) -> PropertyRef:
        """Returns an element of the property."""
        return PropertyRef(self.object_type, self.instance, self.number, element)

    def numbers(self) -> list[int]:
        """Returns all numbers of the property."""
        found = [self.object_type, self.instance, self.number]
        return found if self.element is None else [*found, self.element]

    def words(self) -> str:
        """Returns the words of a script's line that reads the property."""
        return " ".join(map(str, self.numbers()))

    def words_at(self, priority: int | None) -> str:
        """Returns the words of a script's line that writes it: 0 means no priority, -1 no index."""
        element = -1 if self.element is None else self.element
        return f"{self.object_type} {self.instance} {self.number} {priority or 0} {element}"


class Form(NamedTuple):
    """The values that a property may have. Without tags any: it is a vendor's own, or has parts."""

    tags: tuple[int, ...] = ()  # the tags that a value may have, or, in a row, those of its parts
    is_list: bool = False  # a list or an array of such values
    is_row: bool = False  # a part for each tag, such as a date and a time
    states: tuple[int, int] | None = None  # the least and the greatest of a state
    names: dict[int, str] = {}  # names of numbers, or of set bits
    is_choice: bool = False  # values may also have parts, like those in a priority array
    labels: tuple[str, ...] = ()  # of the parts at the top, like the days of a week
    has_entries: bool = False  # parts may be entries of a calendar


TEXT = content_of("numbers.txt")


def rows(title: str) -> list[list[str]]:
    """Returns the rows of a section of numbers.txt, without their heading."""
    section = TEXT.split(f"\n= {title} | ", 1)[1].split("\n= ", 1)[0]
    lines = [line for line in section.splitlines()[1:] if line and line[0] not in ":#"]
    return [line.split(" | ") for line in lines[1:]]


def numbered(title: str) -> tuple[dict[int, str], dict[int, str]]:
    """Returns the first and the last text of each row by its number: the name, and the type."""
    table = rows(title)
    return {int(it[0]): it[1] for it in table}, {int(it[0]): it[-1] for it in table}


def meanings() -> Iterator[tuple[str, dict[int, str]]]:
    """Yields properties with the meanings of their numbers, or of their bits in their order."""
    for properties, told in rows("What numbers of a value mean"):
        words = [word.split(" ") for word in told.split(", ")]
        found = {
            int(word[0]) if word[0].isdigit() else at: "-".join(word[word[0].isdigit() :])
            for at, word in enumerate(words)
        }
        for name in properties.split(", "):
            yield name, found


OBJECT_TYPES, TYPE_TELLS = numbered("Object types")
PROPERTIES, PROPERTY_TELLS = numbered("Properties")
UNIT_NAMES = numbered("Units")[0]
STATES = {0: "inactive", 1: "active"}
MEANINGS = dict(meanings())
MEANINGS.update({"object-type": OBJECT_TYPES, "property-list": PROPERTIES, "units": UNIT_NAMES})
MEANINGS.update({name: UNIT_NAMES for name in PROPERTIES.values() if name.endswith("-units")})


def tags_of(told: str) -> tuple[int, ...]:
    """The tags that a row names, as 10 and 11 for `10 Date, 11 Time`."""
    return tuple(int(it) for it in re.findall(r"(?:^|, )([0-9]+) [A-Z]", told))


def priority_text(priority: int) -> str:
    """Returns a priority, with its name if it has one."""
    name = PRIORITY_NAMES.get(priority, "")
    return f"{priority} ({name})" if name else str(priority)


def has_value(object_type: int) -> bool:
    """Whether an object of this type has a present value, as far as is known."""
    return TYPE_TELLS.get(object_type, "") != "-"


def may_have_unit(object_type: int) -> bool:
    """Whether the present value of such an object may have a unit."""
    tags = present_form(object_type).tags
    has_states = object_type in BINARY + MULTI_STATE
    return has_value(object_type) and not has_states and (not tags or tags[0] in LOOK_ALIKE)


def may_be_commanded(object_type: int) -> bool:
    """Whether an object of this type may have a priority array."""
    return has_value(object_type) and object_type not in NOT_COMMANDED


@lru_cache(maxsize=1024)
def present_form(object_type: int) -> Form:
    """Returns the form of the present value of an object."""
    tags = tags_of(TYPE_TELLS.get(object_type, ""))
    if object_type in BINARY:
        return Form(tags, states=(0, 1), names=STATES)
    if object_type in MULTI_STATE:
        return Form(tags, states=(1, 65535))
    return Form(tags, is_row=len(tags) > 1)


def form_of(ref: PropertyRef) -> Form:
    """Returns the form of a property of an object, or of an element of it."""
    if ref.element == 0:
        return Form((UNSIGNED,))
    return _form(ref.object_type, ref.number, ref.element is not None)


@lru_cache(maxsize=4096)
def _form(object_type: int, number: int, is_element: bool) -> Form:
    told, present = PROPERTY_TELLS.get(number, ""), present_form(object_type)
    tags, is_list = tags_of(told), "each of" in told and not is_element
    if number == PRIORITY_ARRAY:
        tags = present.tags and (*present.tags, NULL)
        found = present._replace(tags=tags, is_list=not is_element)
        return found._replace(is_row=False, is_choice=True)
    if re.search("present value|by the object type", told):
        return present
    if (object_type, number) == (COMMAND_OBJECT, ACTION):
        return Form()  # a list of what it writes
    if number in (ALARM_VALUE, ALARM_VALUES):
        return present._replace(is_list=is_list)
    if tags == (REAL,) and (not present.tags or present.tags[0] in LOOK_ALIKE):
        tags = present.tags  # limits of an accumulator are integers
    if tags == (SIGNED,) and number in (COV_INCREMENT, DEADBAND):
        tags = (UNSIGNED,)  # no step is below 0
    if number in (DATE_LIST, EXCEPTIONS, WEEK):
        return Form(labels=DAYS if number == WEEK else (), has_entries=number != WEEK)
    names = MEANINGS.get(PROPERTIES.get(number, ""), {})
    return Form(tags, is_list, len(tags) > 1, names=names)
