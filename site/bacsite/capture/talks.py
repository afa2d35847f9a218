"""The confirmed requests of a capture, each paired with its resends and its answers."""

from __future__ import annotations

from collections import deque
from dataclasses import dataclass, field
from typing import Iterator, NamedTuple, Union

from ..messages import ABORT, COMPLEX, CONFIRMED, READ, REJECT, SEGMENT, SIMPLE, WRITE
from ..messages import Apdu, Message, NetworkMessage, is_about, outcome_of
from ..bodies import read_ack, read_body
from ..standard import PropertyRef

MILLI = 10**6  # in nanoseconds
MORE_FOLLOWS = 4  # a flag of an answer that comes in parts
ROUND, NUMBERS = 192, 256  # 192 or more others are between two requests with one invoke id
USUAL_WAIT = 3000 * MILLI
OF_SERVER = 1  # a flag of a part's acknowledgement: the server sent it
GRACE = 50 * MILLI  # a repetition that comes sooner is a copy
WINDOW = 60_000 * MILLI  # after this time no answer is awaited


class Answer(NamedTuple):
    """An answer: its time, its APDU, and how it ends a request, in the words of bactrace."""

    nanos: int
    apdu: Apdu
    outcome: str
    parts: list[Apdu]  # so far, if it comes in parts

    @property
    def whole(self) -> Apdu | None:
        """The answer, put together from its parts; None if some of them are missing."""
        if self.apdu.part is None:
            return self.apdu
        is_whole = self.parts and not self.parts[-1].flags & MORE_FOLLOWS
        if not is_whole or any(it.is_cut for it in self.parts):
            return None
        return self.apdu._replace(part=None, body=b"".join(it.body for it in self.parts))

    def add(self, apdu: Apdu) -> None:
        """Notes a part, unless it is repeated, or an earlier one is missing."""
        if apdu.part == len(self.parts) % 256:
            self.parts.append(apdu)


@dataclass(eq=False)
class Talk:
    """A request, when it was sent, and its answers."""

    client: str
    device: str
    apdu: Apdu
    sends: list[int]
    order: int  # how many requests the client had made before
    again: int | None = None  # when an equal request had been answered before
    answers: list[Answer] = field(default_factory=list)
    gap: int = 0  # how long the client usually waits, as far as known at the first answer
    is_over: bool = False
    refused: str = ""  # the router's refusal of the device's network
    cut_off: int | None = None  # how long the answer was awaited when the capture ended

    @property
    def nanos(self) -> int:
        """When the request was first sent."""
        return self.sends[0]

    @property
    def outcome(self) -> str:
        """How the request ended, in the words of bactrace; empty if no answer came."""
        return self.answers[0].outcome if self.answers else ""

    @property
    def took(self) -> int | None:
        """Nanoseconds from the first send to the first answer."""
        return self.answers[0].nanos - self.nanos if self.answers else None

    @property
    def resends(self) -> int:
        """How often the request was sent again."""
        return len(self.sends) - 1

    @property
    def late(self) -> int | None:
        """How long after the last send the answer came, if the client had given up by then."""
        if not self.answers or not self.gap:
            return None
        came = self.answers[0].nanos
        waited = came - max((it for it in self.sends if it <= came), default=self.nanos)
        return waited if waited > self.gap + GRACE else None

    @property
    def has_failed(self) -> bool:
        """Whether the request failed, or its answer came too late."""
        whole = self.answers[0].whole if self.answers else None
        if not self.answers or self.late or (whole and outcome_of(whole) == "bad-ack"):
            return True
        wanted = {READ: (COMPLEX,), WRITE: (SIMPLE,)}.get(self.apdu.service, (SIMPLE, COMPLEX))
        return self.answers[0].apdu.kind not in wanted or bool(self.other())

    def other(self) -> PropertyRef | None:
        """Returns the property that the answer to a read is about, if another one was asked for."""
        apdu = self.answers[0].whole if self.answers else None
        if not apdu or (apdu.kind, apdu.service) != (COMPLEX, READ) or apdu.is_cut:
            return None
        if apdu.body.startswith(self.apdu.body + b"\x3e"):
            return None
        asked, told = read_body(self.apdu.body), read_ack(apdu.body)
        return None if not asked or not told or is_about(told.ref, asked.ref) else told.ref

    def has_settled(self, now: int) -> bool:
        """Whether no more answers are awaited."""
        last = max([self.sends[-1], *(it.nanos for it in self.answers[-1:])])
        return self.is_over or now - last > WINDOW


Entry = Union[Talk, Message]  # a message that is part of no talk is an entry by itself


class Event(NamedTuple):
    """The role of a message: `request`, `resend`, `answer`, `second`, `part`, or `other`."""

    kind: str
    talk: Talk | None = None


@dataclass
class Pairing:
    """The talks so far, and the entries that are still awaited, in the order they began."""

    latest: dict[tuple[str, int], dict[str, Talk]] = field(default_factory=dict)
    gaps: dict[str, int] = field(default_factory=dict)  # the shortest wait of each client
    made: dict[str, tuple[int, int]] = field(default_factory=dict)  # requests, the last number
    entries: deque[Entry] = field(default_factory=deque)
    now: int = 0

    def take(self, message: Message) -> Event:
        """Returns the role of a message, and notes it."""
        self.now = message.nanos
        apdu = message.apdu
        event = None
        if apdu and apdu.kind == CONFIRMED:
            event = self._request(message, apdu)
        elif apdu and apdu.is_answer:
            event = self._answer(message, apdu)
        elif apdu and apdu.kind == SEGMENT and not apdu.flags & OF_SERVER:
            talk = self.latest.get((message.sender, apdu.invoke), {}).get(message.receiver)
            event = Event("part", talk) if talk and talk.outcome == "segmented" else None
        if message.network and message.network.is_refusal:
            self._refuse(message, message.network)
        if event is None:
            self.entries.append(message)
        return event or Event("other")

    def _refuse(self, message: Message, said: NetworkMessage) -> None:
        """Notes a router's refusal of networks at the open requests to stations there."""
        routes = tuple(f"/{it}/" for it in said.networks) or ("/",)
        router = message.sender.partition(":")[0] + ":"
        for (client, _), talks in self.latest.items():
            for device, talk in talks.items():
                address, slash, route = device.partition("/")
                is_there = address.startswith(router) and (slash + route).startswith(routes)
                if client == message.receiver and is_there and not talk.answers:
                    talk.refused = said.words

    def _request(self, message: Message, apdu: Apdu) -> Event:
        talks = self.latest.setdefault((message.sender, apdu.invoke), {})
        talk = talks.get(message.receiver)
        if talk and apdu.part and talk.apdu.part is not None:
            return Event("part", talk)
        again = None
        if talk and not self._is_new(message, apdu, talk):
            if not talk.answers:
                gap = message.nanos - talk.sends[-1]
                if gap >= GRACE:  # the client waits no longer than this
                    self.gaps[talk.client] = min(gap, self.gaps.get(talk.client, gap))
                talk.sends.append(message.nanos)
                return Event("resend", talk)
            again = talk.answers[-1].nanos
        if talk:
            talk.is_over = True
        made, _ = self.made.get(message.sender, (0, 0))
        self.made[message.sender] = (made + 1, apdu.invoke)
        talk = Talk(message.sender, message.receiver, apdu, [message.nanos], made, again)
        talks[message.receiver] = talk
        self.entries.append(talk)
        return Event("request", talk)

    def _is_new(self, message: Message, apdu: Apdu, talk: Talk) -> bool:
        """Whether this is another request than the latest one with its number. A request with the
        same octets is new if the client's numbers have gone round and this one is next: those
        between the last one and this one have no answer yet."""
        if talk.apdu != apdu or talk.has_settled(message.nanos):
            return True
        made, last = self.made[message.sender]
        if made - talk.order <= ROUND:
            return False
        between = range(last + 1, last + 1 + (apdu.invoke - last - 1) % NUMBERS)
        others = [self.latest.get((talk.client, at % NUMBERS), {}).values() for at in between]
        return all(any(not it.answers for it in some) for some in others)

    def _answer(self, message: Message, apdu: Apdu) -> Event | None:
        talk = self.latest.get((message.receiver, apdu.invoke), {}).get(message.sender)
        if not talk or talk.has_settled(message.nanos):
            return None
        if apdu.kind not in (REJECT, ABORT) and apdu.service != talk.apdu.service:
            return None
        if apdu.part and talk.answers:
            talk.answers[0].add(apdu)
            return Event("part", talk)
        parts = [apdu] if apdu.part == 0 else []
        talk.answers.append(Answer(message.nanos, apdu, outcome_of(apdu), parts))
        if len(talk.answers) > 1:
            return Event("second", talk)
        talk.gap = self.gaps.get(talk.client, 0)
        return Event("answer", talk)

    def settled(self) -> Iterator[Entry]:
        """The settled entries before the first one that still awaits an answer."""
        while self.entries:
            first = self.entries[0]
            if isinstance(first, Talk):
                if not first.has_settled(self.now):
                    return
                self._forget(first)
            yield self.entries.popleft()

    def _forget(self, talk: Talk) -> None:
        talk.is_over = True
        talks = self.latest.get((talk.client, talk.apdu.invoke), {})
        if talks.get(talk.device) is talk:
            del talks[talk.device]
        if not talks:
            self.latest.pop((talk.client, talk.apdu.invoke), None)

    def rest(self, end: int) -> Iterator[Entry]:
        """The entries that are left at the end of the capture."""
        for entry in self.entries:
            if isinstance(entry, Talk) and not entry.answers and not entry.is_over:
                waited = end - entry.sends[-1]
                if waited < self.gaps.get(entry.client, USUAL_WAIT):
                    entry.cut_off = waited
            yield entry
        self.entries.clear()
