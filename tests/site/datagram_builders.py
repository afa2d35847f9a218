"""Builds datagrams, frames and capture files for the tests."""
import socket
import struct
from typing import Dict, Iterable, List, Optional, Tuple

import harness  # noqa: F401  this sets the path to bacsite
from bacsite.messages import Datagram

DEVICE, CLIENT = "127.0.0.1:47808", "127.0.0.1:50000"
Step = Tuple[float, str, str, str]  # milliseconds, sender, receiver, octets in hexadecimal


def wrapped(apdu: str, head: str = "0100") -> str:
    """A whole Original-Unicast-NPDU."""
    return "810a%04x%s%s" % (4 + len(head + apdu) // 2, head, apdu)


def read_apdu(invoke: int, what: str = "0c000000051955") -> str:
    return "0005%02x0c%s" % (invoke, what)


def ack(invoke: int, real: str = "4290999a", what: str = "0c000000051955") -> str:
    return "30%02x0c%s3e44%s3f" % (invoke, what, real)


def udp(sender: str, receiver: str, octets: bytes, fragment: int = 0x4000) -> bytes:
    """An IPv4 packet of a datagram."""
    (here, from_port), (there, to_port) = (peer.split(":") for peer in (sender, receiver))
    inner = struct.pack(">HHHH", int(from_port), int(to_port), 8 + len(octets), 0) + octets
    head = struct.pack(">BBHHHBBH", 0x45, 0, 20 + len(inner), 0, fragment, 64, 17, 0)
    return head + socket.inet_aton(here) + socket.inet_aton(there) + inner


def ether(packet: bytes, tags: str = "", kind: str = "0800") -> bytes:
    """A frame of Ethernet, padded."""
    return (bytes(12) + bytes.fromhex(tags + kind) + packet).ljust(60, b"\0")


def pcap(
    records: Iterable[Tuple[int, bytes]], link: int = 101, order: str = "<", unit: int = 1000
) -> bytes:
    """A pcap file of packets, each with its time in nanoseconds."""
    magic = 0xA1B2C3D4 if unit == 1000 else 0xA1B23C4D
    parts = [struct.pack(order + "IHHiIII", magic, 2, 4, 0, 0, 65535, link)]
    for nanos, octets in records:
        head = struct.pack(
            order + "IIII", nanos // 10**9, nanos % 10**9 // unit, len(octets), len(octets)
        )
        parts.append(head + octets)
    return b"".join(parts)


def block(order: str, kind: int, body: bytes) -> bytes:
    """A block of pcapng."""
    body += bytes(-len(body) % 4)
    length = struct.pack(order + "I", 12 + len(body))
    return struct.pack(order + "I", kind) + length + body + length


def section(order: str) -> bytes:
    return block(order, 0x0A0D0D0A, struct.pack(order + "IHHq", 0x1A2B3C4D, 1, 0, -1))


def interface(
    order: str, link: int = 101, options: Optional[Dict[int, bytes]] = None, kept: int = 0
) -> bytes:
    more = b"".join(
        struct.pack(order + "HH", number, len(it)) + it + bytes(-len(it) % 4)
        for number, it in (options or {}).items()
    )
    return block(order, 1, struct.pack(order + "HHI", link, 0, kept) + more)


def enhanced(order: str, units: int, octets: bytes, which: int = 0) -> bytes:
    head = struct.pack(
        order + "IIIII", which, units >> 32, units & 0xFFFFFFFF, len(octets), len(octets)
    )
    return block(order, 6, head + octets)


def datagrams(steps: Iterable[Step]) -> List[Datagram]:
    """Datagrams, whose times count from 2026-01-01."""
    start = 1767225600 * 10**9
    return [
        Datagram(start + round(at * 10**6), sender, receiver, bytes.fromhex(octets))
        for at, sender, receiver, octets in steps
    ]


def exchange(
    at: float,
    answer: Optional[float],
    invoke: int = 1,
    apdu: str = "",
    to: str = DEVICE,
    of: str = CLIENT,
) -> List[Step]:
    """A read, and its answer."""
    steps = [(at, of, to, wrapped(read_apdu(invoke), "0104"))]
    return steps + ([(answer, to, of, wrapped(apdu or ack(invoke)))] if answer is not None else [])
