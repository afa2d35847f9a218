"""The controllers and points of a command: addresses in numbers, names of hosts, and lists."""

from __future__ import annotations

import difflib
import ipaddress
import re
import socket
from collections import Counter
from functools import lru_cache, partial
from typing import Iterable, NamedTuple, Sequence

from .parsing import POINT
from .standard import DOUBLE, INTEGERS, OBJECT_TYPES, PROPERTIES, REAL, Form, PropertyRef
from .streams import Failure, clean, octets_of, wrong

PORT = 47808
MOST_ADDRESSES = 65536
MOST_DEVICE, MOST_NETWORK = 4194302, 65534
INSTANCE_AT = re.compile(r"(?:([0-9]{1,7})@)?(.*)", re.S)
ADDRESS = re.compile(r"([0-9]{1,3}(?:\.[0-9]{1,3}){3})(?::([0-9]{1,5}))?")
# A host's name ends in no number: a resolver would take 0x7f.2.31 for an address.
HOST = re.compile(
    r"(?!(?:.*\.)?(?:0[xX][0-9A-Fa-f]*|[0-9]+)\.?(?::|\Z))([A-Za-z0-9._-]{1,253})(?::([0-9]{1,5}))?"
)
NETWORK = re.compile(r"([^/]*)/(?:([0-9]{1,5})/)?\*")
ROUTE = re.compile(r"([^/]*)/([0-9]{1,5})/((?:[0-9A-Fa-f]{2}){1,7})")
ADDRESS_RANGE = re.compile(r"([0-9.]+)(?:/([0-9]{1,2})|-([0-9.]+))(?::([0-9]{1,5}))?")
MOST_TYPE, MOST_INSTANCE, MOST_INDEX = 1023, 4194303, 4294967295
WORD = re.compile(rb"[!-\xff]+")  # octets that can be a word of a line of a script
# The types that a list may name; then a value of another type is a reason.
FORMS = {"integer": Form(INTEGERS), "real": Form((REAL,)), "double": Form((DOUBLE,))}


class Target(NamedTuple):
    """An address, and the devices that are looked for there. None means any device."""

    address: str
    wanted: tuple[int | None, ...]
    in_range: bool = False  # only a range has the address, so perhaps nobody is there

    @property
    def is_network(self) -> bool:
        """Whether these are all stations of a network behind a router, or of all networks there."""
        return self.address.endswith("*")

    @property
    def may_be_router(self) -> bool:
        """Whether stations are looked for there: the address was named itself, without a device."""
        return None in self.wanted and not self.in_range and not is_routed(self.address)

    @property
    def reach(self) -> str:
        """The word for all stations of the address; empty for the address of a station."""
        if self.is_network:
            return self.address
        return "" if is_routed(self.address) else self.address + "/*"


def address_of(word: str) -> tuple[int | None, str]:
    """The instance, if there is one, and the address with its port, in [INSTANCE@]ADDRESS. Station
    01 of network 5 behind the router 192.0.2.7 is 192.0.2.7/5/01."""
    match = INSTANCE_AT.fullmatch(word)
    assert match, "the pattern takes any word"
    device, rest = int(match[1]) if match[1] else None, match[2]
    if device is not None and device > MOST_DEVICE:
        raise wrong("no device instance: " + word)
    route, behind = ROUTE.fullmatch(rest), ""
    if route and 1 <= int(route[2]) <= MOST_NETWORK:
        rest, behind = route[1], f"/{int(route[2])}/{route[3].lower()}"
    numbers, name = ADDRESS.fullmatch(rest), HOST.fullmatch(rest)
    if numbers:
        return device, _checked(numbers[1], numbers[2], word) + behind
    host = _looked_up(name[1]) if name else ""
    if not name or not host:
        raise wrong("no address: " + word)
    return device, _checked(host, name[2], word) + behind


def network_at(word: str) -> str:
    """The address of all stations in 192.0.2.7/5/* or 192.0.2.7/*; empty for any other word."""
    match = NETWORK.fullmatch(word)
    if not match:
        return ""
    device, router = address_of(match[1])
    if device is not None or (match[2] and not 1 <= int(match[2]) <= MOST_NETWORK):
        raise wrong("no address: " + word)
    return f"{router}/{int(match[2])}/*" if match[2] else router + "/*"


def is_routed(address: str) -> bool:
    """Whether the address is that of a station behind a router."""
    return "/" in address


@lru_cache(maxsize=None)
def _looked_up(name: str) -> str:
    """The address of a host; empty if it has none. Each name is looked up once."""
    try:
        hosts = socket.getaddrinfo(name, None, socket.AF_INET, socket.SOCK_DGRAM)
    except (OSError, UnicodeError):
        return ""
    return str(hosts[0][4][0])


def targets(words: Sequence[str]) -> list[Target]:
    """Returns what the words name: addresses, ranges and networks, each address once."""
    found: dict[str, Target] = {}  # by address
    for word in words:
        network, many = network_at(word), ADDRESS_RANGE.fullmatch(word)
        if network:
            found.setdefault(network, Target(network, (None,)))
        elif many:
            for address in _addresses(many, word):
                found.setdefault(address, Target(address, (None,), in_range=True))
        else:
            device, address = address_of(word)
            earlier = found.get(address)
            wanted = earlier.wanted if earlier and not earlier.in_range else ()
            found[address] = Target(address, tuple(dict.fromkeys((*wanted, device))))
    return list(found.values())


def _checked(host: str, port: str | None, word: str) -> str:
    """The address as it is compared and shown."""
    parts, at = [int(part) for part in host.split(".")], int(port or PORT)
    if len(parts) != 4 or not 0 < max(parts) < 256 or at > 65535:
        raise wrong("no address: " + word)
    return ".".join(map(str, parts)) + f":{at}"


def _addresses(match: re.Match[str], word: str) -> list[str]:
    """The addresses of 192.0.2.0/24, 192.0.2.1-254 or 192.0.2.1-192.0.2.9, perhaps with a port."""
    first, size, last, port = match.groups()
    try:
        if size:
            network = ipaddress.IPv4Network((first, int(size)), strict=False)
            count = network.num_addresses
            hosts = list(network.hosts()) if count <= MOST_ADDRESSES else []
        else:
            last = last if "." in last else first.rpartition(".")[0] + "." + last
            low, high = int(ipaddress.IPv4Address(first)), int(ipaddress.IPv4Address(last))
            count = high - low + 1
            numbers = range(low, high + 1) if count <= MOST_ADDRESSES else ()
            hosts = [ipaddress.IPv4Address(it) for it in numbers]
    except ValueError:
        raise wrong("no range of addresses: " + word) from None
    if not hosts:
        raise wrong(f"no range of 1 to {MOST_ADDRESSES:d} addresses: {word}")
    return [_checked(str(host), port, word) for host in hosts]


class Point(NamedTuple):
    """A point to read. `fault` says why it can't be read."""

    name: str
    address: str = ""
    device: int | None = None
    ref: PropertyRef = PropertyRef(-1, -1, -1)
    form: Form | None = None
    fault: str = ""


def number(word: str, what: str, most: int, names: dict[int, str] | None = None) -> int:
    """A number, also by its name, in capital letters or small ones."""
    spelled = word.lower()
    for found, name in (names or {}).items():
        if name == spelled:
            return found
    if spelled.isascii() and spelled.isdigit() and len(spelled) <= 10 and int(spelled) <= most:
        return int(spelled)
    raise wrong(f"no {what}: {word}{_hint(spelled, (names or {}).values())}")


def _hint(word: str, names: Iterable[str]) -> str:
    """The names that may be meant: those with these initials, or otherwise similar ones."""
    known = list(names)
    near = [name for name in known if "".join(it[:1] for it in name.split("-")) == word]
    near = near or difflib.get_close_matches(word.replace("_", "-"), known, n=3)
    return "; perhaps " + " or ".join(near[:3]) if near else ""


object_type = partial(number, what="object type", most=MOST_TYPE, names=OBJECT_TYPES)
instance = partial(number, what="instance", most=MOST_INSTANCE)
property_number = partial(number, what="property", most=MOST_INSTANCE, names=PROPERTIES)
index = partial(number, what="index", most=MOST_INDEX)


def point_of(name: str, words: Sequence[str]) -> Point:
    """The point of the words of POINT. The form `plain`, of early lists, says nothing."""
    has_form = len(words) > 1 and words[1] in (*FORMS, "plain")
    rest = words[2:] if has_form else words[1:]
    if len(rest) not in (3, 4):
        raise wrong("wanted: " + POINT)
    device, where = address_of(words[0])
    readers = (object_type, instance, property_number, index)
    ref = PropertyRef(*(reader(word) for reader, word in zip(readers, rest)))
    return Point(name, where, device, ref, FORMS.get(words[1]) if has_form else None)


def points_of(path: str) -> list[Point]:
    """The points of a list; a wrong line gives a point with a fault. `-` is standard input."""
    points = []
    for line in text_of(path).split("\n"):
        words = line.split()
        if words and not words[0].startswith("#"):
            name = clean(words[0])
            try:
                points.append(point_of(name, words[1:]))
            except Failure as failure:
                points.append(Point(name, fault=str(failure)))
    if not points:
        raise wrong("no point in " + path)
    return points


def by_address(points: Iterable[Point]) -> dict[str, list[Point]]:
    """The points of each controller."""
    groups: dict[str, list[Point]] = {}
    for point in points:
        groups.setdefault(point.address, []).append(point)
    return groups


def distinct(points: list[Point]) -> list[Point]:
    """The points; fails if two have the same name."""
    for name, count in Counter(it.name for it in points).items():
        if count > 1:
            raise wrong("two points have the name " + name)
    return points


def text_of(path: str) -> str:
    """Returns the text of a file, or of standard input for `-`."""
    try:
        return octets_of(path).decode("utf-8-sig")
    except UnicodeDecodeError as error:
        raise wrong("not UTF-8: " + path) from error
