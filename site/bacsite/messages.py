"""The headers of BACnet/IP (ANSI/ASHRAE 135: Annex J, 6, 20.1), the messages of routers (6.4), and
how an answer ends a request."""

from __future__ import annotations

from typing import NamedTuple

from .bodies import error_body, read_ack, region_text
from .standard import DEVICE, THIS_DEVICE, PropertyRef, numbered
from .values import NO_INDEX, STRANGE, TIMEOUT, Why, why_of

FORWARDED, DISTRIBUTE, UNICAST, BROADCAST = 4, 9, 10, 11
NETWORK_AT = {FORWARDED: 10, DISTRIBUTE: 4, UNICAST: 4, BROADCAST: 4}
CONFIRMED, UNCONFIRMED, SIMPLE, COMPLEX, SEGMENT, ERROR, REJECT, ABORT = range(8)
ANSWERS = (SIMPLE, COMPLEX, ERROR, REJECT, ABORT)
READ, WRITE = 12, 15  # services
TARGET, SOURCE, NETWORK_MESSAGE = 0x20, 0x08, 0x80  # bits of the network header

I_AM_ROUTER, I_COULD_BE, REJECTED, BUSY, AVAILABLE = 1, 2, 3, 4, 5
NETWORK_NAMES = numbered("Network messages")[0]
REASONS = numbered("Reasons of a reject-message-to-network")[0]
LISTS = (0, I_AM_ROUTER, BUSY, AVAILABLE)  # messages that consist of network numbers
FIRST = (I_COULD_BE, 8, 9)  # messages that begin with one network number
FAULT = "a fault of bacsite: "


class Datagram(NamedTuple):
    """A UDP datagram: nanoseconds since 1970, sender and receiver as ADDRESS:PORT, octets."""

    nanos: int
    sender: str
    receiver: str
    octets: bytes
    is_cut: bool = False  # the capture has only its first octets


class Apdu(NamedTuple):
    """An APDU: its kind, bits of its first octet, its invoke id, and what follows."""

    kind: int
    flags: int
    invoke: int
    part: int | None  # the number of the part, if it comes in parts
    service: int  # the reason of a Reject or an Abort
    body: bytes
    is_cut: bool = False

    @property
    def is_answer(self) -> bool:
        """Whether the APDU answers a request: an Abort does only if the server sent it."""
        return self.kind in ANSWERS and (self.kind != ABORT or bool(self.flags & 1))


class NetworkMessage(NamedTuple):
    """A message of a router: its kind, the networks that it names, and the reason of a Reject."""

    kind: int
    networks: tuple[int, ...] = ()
    reason: int | None = None

    @property
    def words(self) -> str:
        """The whole message in words."""
        name = NETWORK_NAMES.get(self.kind, f"network message {self.kind}")
        text = f"{name} {', '.join(map(str, self.networks))}".rstrip()
        if self.reason is None:
            return text
        return f"{text}: {REASONS.get(self.reason, 'unknown reason')} ({self.reason})"

    @property
    def is_refusal(self) -> bool:
        """Whether the message says that these networks are not reached."""
        return self.kind in (REJECTED, BUSY)


class Message(NamedTuple):
    """A datagram that was read: the APDU and where it begins, or otherwise its meaning in words."""

    datagram: Datagram
    sender: str  # with its route, as ADDRESS:PORT/NETWORK/STATION
    receiver: str
    apdu: Apdu | None = None
    at: int = 0
    words: str = ""
    network: NetworkMessage | None = None

    @property
    def is_fault(self) -> bool:
        """Whether this is a router's refusal, or an answer, which is a fault outside a talk."""
        refuses = self.network is not None and self.network.is_refusal
        return refuses or (self.apdu is not None and self.apdu.is_answer)

    @property
    def nanos(self) -> int:
        """When the message was sent."""
        return self.datagram.nanos


def message_of(datagram: Datagram) -> Message:
    """Reads a datagram of BACnet/IP."""
    octets, plain = datagram.octets, Message(datagram, datagram.sender, datagram.receiver)
    function = octets[1] if octets[1:] else -1
    at = NETWORK_AT.get(function, 0)
    if not at or len(octets) < at:
        return plain._replace(words=f"link function {function}")
    if function == FORWARDED:
        port = int.from_bytes(octets[8:10], "big")
        plain = plain._replace(sender=".".join(map(str, octets[4:8])) + f":{port}")
    if octets[at : at + 1] != b"\1":
        return plain._replace(words=f"network version {octets[at : at + 1].hex() or 'missing'}")
    network = _network_of(octets, at + 1)
    if not network:
        return plain._replace(words="a network header that is cut")
    source, target, start = network
    ends = plain.sender + source, plain.receiver + target
    if octets[at + 1] & NETWORK_MESSAGE:
        said = network_message_of(octets[start:])
        words = said.words if said else "a network message that is cut"
        return Message(datagram, *ends, None, start, words, said)
    apdu = apdu_of(octets[start:], datagram.is_cut)
    why = "is cut" if datagram.is_cut else "can't be read"
    words = "" if apdu else f"an APDU that {why}: {octets[start:].hex() or 'none'}"
    return Message(datagram, *ends, apdu, start, words)


def _network_of(octets: bytes, at: int) -> tuple[str, str, int] | None:
    """Returns the routes of source and target, and where the header ends; None if it is cut."""
    if len(octets) <= at:
        return None
    control, end, routes = octets[at], at + 1, {SOURCE: "", TARGET: ""}
    for bit in (TARGET, SOURCE):
        if control & bit:
            length = octets[end + 2] if len(octets) > end + 2 else len(octets)
            station = octets[end + 3 : end + 3 + length]
            if len(station) < length:
                return None
            network = int.from_bytes(octets[end : end + 2], "big")
            routes[bit] = f"/{network}/{station.hex() or '*'}"
            end += 3 + length
    end += bool(control & TARGET)  # the hop count
    return (routes[SOURCE], routes[TARGET], end) if end <= len(octets) else None


def network_message_of(octets: bytes) -> NetworkMessage | None:
    """Reads what follows the network header; returns None if it is cut."""
    if not octets:
        return None
    kind, rest = octets[0], octets[1:]
    if kind == REJECTED:
        return NetworkMessage(kind, _numbers(rest[1:]), rest[0]) if len(rest) == 3 else None
    if kind in LISTS:
        return NetworkMessage(kind, _numbers(rest)) if len(rest) % 2 == 0 else None
    if kind in FIRST:
        return NetworkMessage(kind, _numbers(rest[:2])) if len(rest) >= 2 else None
    return NetworkMessage(kind)


def _numbers(octets: bytes) -> tuple[int, ...]:
    return tuple(int.from_bytes(octets[at : at + 2], "big") for at in range(0, len(octets), 2))


def apdu_of(octets: bytes, is_cut: bool = False) -> Apdu | None:
    """Returns an APDU; None if it can't be read."""
    if not octets or octets[0] >> 4 > ABORT:
        return None
    kind, flags = octets[0] >> 4, octets[0] & 15
    if kind == SEGMENT:
        return Apdu(kind, flags, octets[1] if octets[1:] else 0, None, 0, b"", is_cut)
    if kind == UNCONFIRMED:
        return Apdu(kind, flags, 0, None, octets[1], octets[2:], is_cut) if octets[1:] else None
    at = 2 if kind == CONFIRMED else 1  # of the invoke id
    in_parts = kind in (CONFIRMED, COMPLEX) and bool(flags & 8)
    service = at + 3 if in_parts else at + 1
    if len(octets) <= service:
        return None
    part = octets[at + 1] if in_parts else None
    return Apdu(kind, flags, octets[at], part, octets[service], octets[service + 1 :], is_cut)


def is_about(told: PropertyRef, asked: PropertyRef) -> bool:
    """Returns whether an answer is about the requested property. THIS_DEVICE means any device."""
    is_own = asked.object_id == (DEVICE, THIS_DEVICE)
    return told == (asked._replace(instance=told.instance) if is_own else asked)


def outcome_of(apdu: Apdu) -> str:
    """Returns how an answer ends a request, in the words of bactrace; or that it is cut."""
    if apdu.kind == SIMPLE:
        return "ok"
    if apdu.kind in (REJECT, ABORT):
        return f"{'reject' if apdu.kind == REJECT else 'abort'} {apdu.service}"
    found = error_body(apdu.body) if apdu.kind == ERROR else None
    if found:
        return f"error {found[0]} {found[1]}"
    if apdu.part is not None:
        return "segmented"
    if apdu.is_cut:
        return "cut"
    return "bad-error" if apdu.kind == ERROR else _acknowledged(apdu)


def _acknowledged(apdu: Apdu) -> str:
    if apdu.service not in (READ, WRITE):
        return "answered"
    body = read_ack(apdu.body)
    return "bad-ack" if not body or body.value is None else "value " + region_text(body.value)


class ReadResult(NamedTuple):
    """The octets of a value that was read; or why there are none."""

    region: bytes = b""
    reason: str = ""

    @property
    def why(self) -> Why:
        """The kind of the reason."""
        return why_of(self.reason)


class Ended(NamedTuple):
    """How a request ended, in the words of bacrun; the datagram, and how long it took."""

    outcome: str
    datagram: bytes = b""
    seconds: float = 0.0
    sends: int = 1
    ticket: int = 0
    hint: str = ""  # why no answer came, if another datagram explains it

    @property
    def apdu(self) -> Apdu | None:
        """The APDU of the datagram; None if there is none."""
        return message_of(Datagram(0, "", "", self.datagram)).apdu

    def read(self, apdu: Apdu | None) -> str:
        """Returns how this APDU, that of the datagram, ended the request, with the reader of
        captures. That reader is not proved, and bacrun is: if they disagree, this program has a
        fault. A missing answer gets the hint, if there is one."""
        if self.outcome == TIMEOUT:
            return f"{TIMEOUT} ({self.hint})" if self.hint else TIMEOUT
        found = outcome_of(apdu) if apdu else "no answer"
        if found == self.outcome:
            return found
        octets = self.datagram.hex() or "nothing"
        return f"{FAULT}it reads {found} and bactool {self.outcome} in {octets}"


def answer_of(ended: Ended, asked: PropertyRef) -> ReadResult:
    """Returns the answer to a read that has ended. bacrun matches answers by their number, which a
    late answer to an earlier request may have: so a value needs to name the requested property."""
    apdu = ended.apdu
    outcome = ended.read(apdu)
    body = read_ack(apdu.body) if apdu and outcome[:6] == "value " else None
    if not body or body.value is None:
        return ReadResult(reason="bad-ack" if outcome == "ok" else outcome)
    if is_about(body.ref, asked):
        return ReadResult(body.value)
    lacks_index = asked.element is not None and is_about(body.ref, asked._replace(element=None))
    return ReadResult(reason=NO_INDEX if lacks_index else STRANGE)


class Refusals:
    """The refusals of routers for networks. They are shown as reasons, and nothing else depends on
    them: anyone can send such a message."""

    def __init__(self) -> None:
        self._said: dict[int, str] = {}  # by network; 0 means all

    def heard(self, message: NetworkMessage) -> None:
        """Notes a message."""
        if message.kind in (I_AM_ROUTER, AVAILABLE):
            for network in message.networks or list(self._said):
                self._said.pop(network, None)
        elif message.is_refusal:
            self._said.update((it, message.words) for it in message.networks or (0,))

    def of(self, network: int) -> str:
        """Returns the latest refusal of a network, or of all networks; empty if there is none."""
        return self._said.get(network, self._said.get(0, ""))

    def lines(self) -> list[str]:
        """Returns all refusals."""
        return [self._said[it] for it in sorted(self._said)]
