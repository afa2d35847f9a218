"""Tags, values and service bodies as bactool reads them; a part of a body is not read."""

from __future__ import annotations

from functools import lru_cache, partial
from typing import Iterator, NamedTuple, Sequence

from . import standard
from .standard import ObjectId, PropertyRef

MOST_OPEN = 32  # open at the same time
OPENING, CLOSING = -1, -2  # in place of the length of a tag
QUOTES = {standard.OCTETS: "X", standard.DATE: "D", standard.TIME: "T"}
# Each octet of a text between quotes, in printable ASCII.
QUOTED = {it: chr(it) if 0x20 <= it < 0x7F else f"\\x{it:02x}" for it in range(256)}
QUOTED.update({ord(it): "\\" + it for it in '"\\'})
# The tags of a body: object, property, perhaps an index, a value, and perhaps a priority.
OF_READ = ([0, 1], [0, 1, 2])
OF_ACK = ([0, 1, 3], [0, 1, 2, 3])
OF_WRITE = (*OF_ACK, [0, 1, 3, 4], [0, 1, 2, 3, 4])


class Tag(NamedTuple):
    """A tag: its number, whether its class is context, its length, and where it ends."""

    number: int
    context: bool
    length: int
    end: int


class Body(NamedTuple):
    """The property that a read or a write names, and its value."""

    ref: PropertyRef
    value: bytes | None = None
    priority: int | None = None


def object_id_of(number: int) -> ObjectId:
    """The object in this number."""
    return ObjectId(number >> 22, number & standard.THIS_DEVICE)


def tag_at(octets: bytes, at: int) -> Tag | None:
    """The tag that begins at a place, if there is one."""
    try:
        first, at = octets[at], at + 1
        number, context, length = first >> 4, bool(first & 8), first & 7
        if number == 15:
            number, at = octets[at], at + 1
        if number == 255 or length > 5 and not context:
            return None
        if length > 5:
            return Tag(number, context, OPENING if length == 6 else CLOSING, at)
        if length == 5:
            size = {254: 2, 255: 4}.get(octets[at], 0)
            long = octets[at + 1 : at + 1 + size] if size else octets[at : at + 1]
            if len(long) < size:
                return None
            length, at = int.from_bytes(long, "big"), at + 1 + size
        return Tag(number, context, length, at)
    except IndexError:
        return None


class Item(NamedTuple):
    """A tag and its contents; for an opening tag the items up to its closing tag too."""

    number: int  # of the tag
    context: bool
    octets: bytes  # one for a Boolean
    inner: list[Item] | None = None

    @property
    def value(self) -> int:
        """The contents as a number."""
        is_signed = self.number == standard.SIGNED and not self.context
        return int.from_bytes(self.octets, "big", signed=is_signed)

    @property
    def of_object(self) -> ObjectId:
        """The object that the contents name."""
        return object_id_of(self.value)

    @property
    def is_element(self) -> bool:
        """Whether this is a value, whose tag shows its type."""
        if self.context or self.number > standard.OBJECT:
            return False
        if not standard.LEAST[self.number] <= len(self.octets) <= standard.MOST[self.number]:
            return False
        return self.number != standard.BITS or self.octets[0] <= (7 if self.octets[1:] else 0)


def _items(octets: bytes, at: int, opened: int = 0) -> tuple[list[Item], int]:
    """The whole items from a place on, and where they end; -1 if an item is not whole."""
    found: list[Item] = []
    while at < len(octets):
        first, end = octets[at], at + 1 + (octets[at] & 7)
        if first & 7 < 5 and first < 0xF0 and first & 0xF8 != standard.BOOLEAN << 4:  # a short one
            if end > len(octets):
                return found, -1
            found.append(Item(first >> 4, bool(first & 8), octets[at + 1 : end]))
            at = end
            continue
        tag, inner = tag_at(octets, at), None
        if tag and tag.length == CLOSING:
            return found, at
        if not tag or (tag.length == OPENING and opened == MOST_OPEN):
            return found, -1
        number, context, length, start = tag
        at = start + max(length, 0)
        contents = octets[start:at]
        if number == standard.BOOLEAN and not context:
            at, contents = start, bytes([length]) if length < 2 else b""
        elif length == OPENING:
            inner, end = _items(octets, start, opened + 1)
            closing = tag_at(octets, end) if end >= 0 else None
            if not closing or closing.number != number:
                return found, -1
            at, contents = closing.end, octets[start:end]
        if at > len(octets):
            return found, -1
        found.append(Item(number, context, contents, inner))
    return found, at


def items_of(octets: bytes) -> list[Item] | None:
    """The items of a body, or None if it has anything else."""
    found, end = _items(octets, 0)
    return found if end == len(octets) else None


@lru_cache(maxsize=1024)  # many objects have the same flags and units
def elements_of(region: bytes) -> Sequence[Item] | None:
    """Returns the values of a region; None if it has anything else."""
    items = items_of(region)
    return None if items is None or not all(it.is_element for it in items) else items


def device_in(region: bytes) -> int | None:
    """Returns the instance of the device that an only value names; None if it names no device."""
    found = elements_of(region) or []
    return device_of(found[0]) if len(found) == 1 else None


def device_of(element: Item) -> int | None:
    """Returns the instance of the device that a value names; None if it names no device."""
    kind, instance = element.of_object
    is_device = (element.number, kind) == (standard.OBJECT, standard.DEVICE)
    return instance if is_device else None


def bits_of(octets: bytes) -> str:
    """The bits of a BitString."""
    return "".join(f"{it:08b}" for it in octets[1:])[: 8 * (len(octets) - 1) - octets[0]]


def element_text(element: Item) -> str:
    """A value as bacrp prints it."""
    kind, octets = element.number, element.octets
    if kind in (standard.NULL, standard.BOOLEAN):
        return "null" if kind == standard.NULL else ("false", "true")[octets[0]]
    if kind == standard.STRING:
        text = octets[1:].decode("latin-1").translate(QUOTED)
        return f'{octets[0]}:"{text}"' if octets[0] else f'"{text}"'
    if kind == standard.BITS:
        return f"B'{bits_of(octets)}'"
    if kind in QUOTES:
        return f"{QUOTES[kind]}'{octets.hex()}'"
    if kind in (standard.REAL, standard.DOUBLE):
        return octets.hex()
    return str(element.of_object if kind == standard.OBJECT else element.value)


@lru_cache(maxsize=1024)
def region_text(region: bytes) -> str:
    """A property's value as bacrp prints it."""
    elements = elements_of(region)
    if elements is None:
        return "hex " + region.hex()
    texts = [element_text(it) for it in elements]
    return texts[0] if len(texts) == 1 else "{" + ",".join(texts) + "}"


def parameters(octets: bytes) -> Iterator[tuple[int, bytes]]:
    """Each context tag with its contents, or -1 if it can't be read. Only 3 may be opening."""
    items, end = _items(octets, 0, opened=-1)  # the value is what the tag 3 encloses
    for it in items:
        if not it.context or (it.inner is None) == (it.number == 3):
            yield -1, b""
            return
        yield it.number, it.octets
    if end != len(octets):
        yield -1, b""


def body_of(octets: bytes, forms: Sequence[list[int]]) -> Body | None:
    """A body whose tags are those of one of these forms."""
    found = list(parameters(octets))
    if [tag for tag, _ in found] not in forms:
        return None
    by_tag = dict(found)
    value = by_tag.pop(3, None)
    if len(by_tag[0]) != 4 or any(not 1 <= len(it) <= 4 for it in by_tag.values()):
        return None
    number = {tag: int.from_bytes(contents, "big") for tag, contents in by_tag.items()}
    if not 1 <= number.get(4, 1) <= 16:
        return None
    ref = object_id_of(number[0]).ref(number[1], number.get(2))
    return Body(ref, value, number.get(4))


read_body, write_body = partial(body_of, forms=OF_READ), partial(body_of, forms=OF_WRITE)
# An acknowledgement is read twice: for the end of a request, and for its object.
read_ack = lru_cache(maxsize=64)(partial(body_of, forms=OF_ACK))


def error_body(octets: bytes) -> tuple[int, int] | None:
    """Class and code of an Error, whatever follows them."""
    found = [it for it in _items(octets, 0)[0][:2] if it.is_element]
    numbers = [it.value for it in found if it.number == standard.ENUMERATED]
    return (numbers[0], numbers[1]) if len(numbers) == 2 else None
