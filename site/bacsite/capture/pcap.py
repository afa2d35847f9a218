"""The packets of a capture file, pcap or pcapng, in both byte orders and any unit of time; and the
BACnet/IP datagrams in them, whatever their ports. Other packets are skipped and counted."""

from __future__ import annotations

import struct
from collections import Counter
from dataclasses import dataclass, field
from typing import BinaryIO, Iterable, Iterator, NamedTuple, Sequence

from ..messages import Datagram, Message, message_of

# The byte order of a pcap file, and the nanoseconds of its unit of time, by its first four octets.
PCAP = {
    b"\xa1\xb2\xc3\xd4": (">", 1000),
    b"\xd4\xc3\xb2\xa1": ("<", 1000),
    b"\xa1\xb2\x3c\x4d": (">", 1),
    b"\x4d\x3c\xb2\xa1": ("<", 1),
}
SECTION, INTERFACE, SIMPLE, PACKET = 0x0A0D0D0A, 1, 3, 6  # the blocks of pcapng that are read
ORDERS = {b"\x1a\x2b\x3c\x4d": ">", b"\x4d\x3c\x2b\x1a": "<"}
TIME_UNIT, TIME_OFFSET = 9, 14  # options of an interface
SECOND = 10**9  # in nanoseconds
MOST = 1 << 24  # octets of a packet or a block: more means damage
IPV4, UDP, BVLL = 0x0800, 17, 0x81
VLAN = (0x8100, 0x88A8, 0x9100)
FUNCTIONS = 13  # of the link layer: 0 to 12
RAW, FAMILY = (12, 14, 101, 228), (0, 108)  # link types that begin with IP, or with its family
COOKED_2 = 276
PLACES = {1: (12, 14), 113: (14, 16), COOKED_2: (0, 20)}  # of the protocol and of what follows
MOST_SEEN = 4096


class Damage(Exception):
    """Why the rest of a file can't be read, and where."""


class Packet(NamedTuple):
    """A packet: nanoseconds since 1970, link type, number of its interface, and its octets."""

    nanos: int
    link: int
    interface: int
    octets: bytes


@dataclass
class Source:
    """A file or a pipe that is read once: the position, and the octets."""

    file: BinaryIO
    at: int = 0
    what: str = "its first word"

    def take(self, count: int, may_end: bool = False) -> bytes:
        """The next octets, this many; or none if the file may end here and does."""
        octets = self.file.read(count)
        self.at += len(octets)
        if len(octets) < count and (octets or not may_end):
            raise Damage(f"the file is cut at octet {self.at}, within {self.what}")
        return octets

    def fields(self, form: str, octets: bytes) -> tuple[int, ...]:
        """The numbers at the beginning of the octets."""
        size = struct.calcsize(form)
        if len(octets) < size:
            raise self.damage("is too short")
        return struct.unpack(form, octets[:size])

    def damage(self, why: str) -> Damage:
        """The damage at this place of the file."""
        return Damage(f"{self.what} {why}")


def packets_of(file: BinaryIO) -> Iterator[Packet]:
    """The packets of a file. All packets before a damage come before it is raised."""
    source = Source(file)
    magic = source.take(4, may_end=True)
    if magic in PCAP:
        yield from _pcap(source, *PCAP[magic])
    elif magic == struct.pack(">I", SECTION):
        yield from _pcapng(source)
    else:
        raise Damage(f"neither pcap nor pcapng: it begins with {magic.hex() or 'nothing'}")


def _pcap(source: Source, order: str, unit: int) -> Iterator[Packet]:
    source.what = "the header of the file"
    kept, link = struct.unpack(order + "12xII", source.take(20))
    most, number = min(max(kept, 1 << 18), MOST), 0
    while True:
        number += 1
        source.what = f"packet {number} at octet {source.at}"
        head = source.take(16, may_end=True)
        if not head:
            return
        seconds, fraction, length = struct.unpack(order + "III4x", head)
        if length > most or fraction * unit >= SECOND:
            raise source.damage("has no header: " + head.hex())
        nanos = seconds * SECOND + fraction * unit
        yield Packet(nanos, link & 0xFFFF, 0, source.take(length))


class _Interface(NamedTuple):
    """An interface: its link type, and how it keeps packets and their times."""

    link: int
    kept: int  # octets of a packet; 0 means all
    units: int  # of time in a second
    offset: int  # seconds to add


def _pcapng(source: Source) -> Iterator[Packet]:
    """The packets of all sections. A section has only its own interfaces. A packet without a time
    has that of the packet before it."""
    interfaces: list[_Interface] = []
    nanos = 0
    for kind, order, body in _blocks(source):
        if kind == SECTION:
            interfaces = []
        elif kind == INTERFACE:
            interfaces.append(_interface(source, order, body))
        elif kind == PACKET:
            packet = _packet(source, order, body, interfaces)
            nanos = packet.nanos
            yield packet
        elif kind == SIMPLE:
            yield _simple(source, order, body, interfaces)._replace(nanos=nanos)


def _blocks(source: Source) -> Iterator[tuple[int, str, bytes]]:
    """Number, byte order and contents of each block after the first four octets."""
    kind, order, number, start = SECTION, ">", 1, 0
    while True:
        source.what = f"block {number} at octet {start}"
        length, read = source.take(4), 12
        if kind == SECTION:
            magic, read = source.take(4), 16
            if magic not in ORDERS:
                raise source.damage("has no byte order: " + magic.hex())
            order = ORDERS[magic]
        (count,) = struct.unpack(order + "I", length)
        if count % 4 or not read <= count <= MOST:
            raise source.damage(f"has a length of {count} octets")
        body = source.take(count - read)
        if source.take(4) != length:
            raise source.damage("has two lengths")
        yield kind, order, body
        number, start = number + 1, source.at
        head = source.take(4, may_end=True)
        if not head:
            return
        (kind,) = struct.unpack(order + "I", head)


def _interface(source: Source, order: str, body: bytes) -> _Interface:
    (link, kept), options = source.fields(order + "HxxI", body), {}
    rest = body[8:]
    while len(rest) >= 4:
        number, length = struct.unpack(order + "HH", rest[:4])
        options[number] = rest[4 : 4 + length]
        rest = rest[4 + (length + 3) // 4 * 4 :]
    unit = (options.get(TIME_UNIT) or b"\6")[0]  # a power of ten, or with the high bit of two
    offset = options.get(TIME_OFFSET, b"")
    seconds = struct.unpack(order + "q", offset)[0] if len(offset) == 8 else 0
    return _Interface(link, kept, 2 ** (unit & 127) if unit & 128 else 10**unit, seconds)


def _packet(source: Source, order: str, body: bytes, interfaces: Sequence[_Interface]) -> Packet:
    which, high, low, length = source.fields(order + "IIII4x", body)
    if length > len(body) - 20:
        raise source.damage(f"holds fewer octets than it says: {length}")
    if which >= len(interfaces):
        raise source.damage(f"names the interface {which}, which is not there")
    link, _, units, offset = interfaces[which]
    nanos = (high << 32 | low) * SECOND // units + offset * SECOND
    return Packet(nanos, link, which, body[20 : 20 + length])


def _simple(source: Source, order: str, body: bytes, interfaces: Sequence[_Interface]) -> Packet:
    """A packet of the first interface, which has no time, and says only how long it was sent."""
    (length,) = source.fields(order + "I", body)
    if not interfaces:
        raise source.damage("is of the interface 0, which is not there")
    kept = min(length, interfaces[0].kept or length)
    if kept > len(body) - 4:
        raise source.damage(f"holds fewer octets than it says: {kept}")
    return Packet(0, interfaces[0].link, 0, body[4 : 4 + kept])


class Passed(Exception):
    """Why a packet is skipped."""


def _ip_packet(link: int, octets: bytes) -> bytes:
    """The IPv4 packet in a frame."""
    if link in RAW:
        return octets
    if link in FAMILY and octets[:4] in (b"\0\0\0\2", b"\2\0\0\0"):
        return octets[4:]
    if link not in PLACES:
        raise Passed("not IPv4" if link in FAMILY else f"link type {link}")
    at, start = PLACES[link]
    kind = int.from_bytes(octets[at : at + 2], "big")
    while kind in VLAN:
        kind, start = int.from_bytes(octets[start + 2 : start + 4], "big"), start + 4
    if kind != IPV4:
        raise Passed("not IPv4")
    return octets[start:]


def _udp(packet: bytes) -> tuple[str, str, bytes, int]:
    """Sender, receiver and octets of a UDP datagram, and how many octets it was sent with."""
    if len(packet) < 20 or packet[0] >> 4 != 4:
        raise Passed("not IPv4")
    total, fragment = struct.unpack(">HxxH", packet[2:8])
    if packet[9] != UDP:
        raise Passed("not UDP")
    if fragment & 0x3FFF:
        raise Passed("fragments")
    start = (packet[0] & 15) * 4
    head = packet[start : start + 8]
    if start < 20 or len(head) < 8:
        raise Passed("cut by the capture")
    from_port, to_port, length = struct.unpack(">HHHxx", head)
    octets = packet[start + 8 : min(start + length, total or len(packet))]
    sender, receiver = (".".join(map(str, packet[at : at + 4])) for at in (12, 16))
    return f"{sender}:{from_port}", f"{receiver}:{to_port}", octets, length - 8


def datagram_of(packet: Packet) -> Datagram:
    """The BACnet/IP datagram in a packet."""
    sender, receiver, octets, length = _udp(_ip_packet(packet.link, packet.octets))
    is_link = len(octets) >= 4 and octets[0] == BVLL and octets[1] < FUNCTIONS
    if not is_link or int.from_bytes(octets[2:4], "big") != length:
        raise Passed("UDP of something else")
    return Datagram(packet.nanos, sender, receiver, octets, len(octets) < length)


@dataclass
class Passing:
    """Reads a capture once; counts skipped packets, and copies from another interface."""

    counts: Counter[str] = field(default_factory=Counter)
    packets: int = 0
    cut: int = 0  # datagrams of which the capture has only the first octets
    last: int = 0
    damage: str = ""  # why the rest of the file can't be read
    seen: dict[tuple[str, str, bytes], tuple[int, bytes]] = field(default_factory=dict)

    def messages(self, file: BinaryIO) -> Iterator[Message]:
        """The BACnet/IP messages of a file, before any damage."""
        try:
            yield from map(message_of, self.datagrams(packets_of(file)))
        except Damage as damage:
            self.damage = str(damage)

    def datagrams(self, packets: Iterable[Packet]) -> Iterator[Datagram]:
        """The BACnet/IP datagrams of packets."""
        for packet in packets:
            self.packets += 1
            self.last = max(self.last, packet.nanos)
            try:
                datagram = datagram_of(packet)
                self._check_copy(datagram, packet)
            except Passed as why:
                self.counts[str(why)] += 1
                continue
            self.cut += datagram.is_cut
            yield datagram

    def _check_copy(self, datagram: Datagram, packet: Packet) -> None:
        """Whether another interface has the same datagram, less than a second before."""
        of_frame = packet.octets[4:8] if packet.link == COOKED_2 else b""
        interface = bytes([packet.interface & 255]) + of_frame
        key = (datagram.sender, datagram.receiver, datagram.octets)
        nanos, before = self.seen.get(key, (0, interface))
        if before != interface and abs(datagram.nanos - nanos) < SECOND:
            raise Passed("copies of another interface")
        if len(self.seen) > MOST_SEEN:
            now = datagram.nanos
            self.seen = {it: at for it, at in self.seen.items() if now - at[0] < SECOND}
        self.seen[key] = (datagram.nanos, interface)
