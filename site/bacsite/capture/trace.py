"""A script for bactrace: the requests of one client of a capture, and all sent to it."""

from __future__ import annotations

import re
from collections import Counter
from contextlib import suppress
from dataclasses import dataclass, field
from typing import Iterator, NamedTuple, Sequence

from .. import standard
from ..bodies import Item, bits_of, element_text, elements_of, read_body, write_body
from ..points import WORD
from ..messages import CONFIRMED, READ, WRITE, Apdu, Message
from ..streams import clean, moment, times, wrong
from .lines import asked, message_words
from .talks import GRACE, MILLI, NUMBERS, Event, Pairing, Talk

MOST_LINE, MOST_WORDS = 4000, 400
MOST_BODY, MOST_PROPERTY = 476, 4194303
ROUTE = re.compile(r"[^/]+(/(?!65535/)[0-9]+/([0-9a-f]{2}){1,7})?")
PLACES = 64  # of bactrace, for open requests
USUAL_TIMEOUT, USUAL_RETRIES, MOST_RETRIES = 3000, 3, 255


def is_askable(message: Message) -> bool:
    """Returns whether the message is a whole request to read or to write."""
    apdu = message.apdu
    is_whole = apdu and apdu.kind == CONFIRMED and apdu.part is None and not apdu.is_cut
    return bool(is_whole and apdu and apdu.service in (READ, WRITE))


def request_line(apdu: Apdu, peer: str) -> tuple[str, str]:
    """Returns the line of a request, if a script can have one; and a comment on it."""
    body = read_body(apdu.body) if apdu.service == READ else write_body(apdu.body)
    if not body:
        return "", "its body can't be read"
    if body.ref.number > MOST_PROPERTY:
        return "", "bactrace takes no such property"
    if not ROUTE.fullmatch(peer):
        return "", "bactrace takes no such route"
    if body.value is None:
        return f"read {peer} {body.ref.words()}", ""
    elements = (elements_of(body.value) or []) if len(apdu.body) <= MOST_BODY else []
    words = [(str(it.number), _value(it)) for it in elements]
    is_there = bool(words) and all(word for _, word in words)
    values = " ".join(word for pair in words for word in pair) if is_there else "0 null"
    why = "" if is_there else "a script can't have this value: null stands for it"
    return f"write {peer} {body.ref.words_at(body.priority)} {values}", why


def _value(element: Item) -> str:
    """Returns a value as a word of a script; an empty text if it can't be one."""
    kind, octets = element.number, element.octets
    if kind == standard.STRING:
        with suppress(UnicodeDecodeError):
            return octets[1:].decode() if octets[0] == 0 and WORD.fullmatch(octets[1:]) else ""
        return ""
    if kind in (standard.OCTETS, standard.DATE, standard.TIME):
        return octets.hex()
    return bits_of(octets) if kind == standard.BITS else element_text(element)


class Choice(NamedTuple):
    """The clients and devices to choose, as ADDRESS or ADDRESS:PORT; None means all."""

    client: str | None = None
    device: str | None = None


class Settings(NamedTuple):
    """How many milliseconds a client waits, and how often it sends again."""

    timeout: int
    retries: int


def is_at(peer: str, wanted: str | None) -> bool:
    """Returns whether a peer is at ADDRESS, at ADDRESS:PORT, or a station named with its route."""
    address = peer.split("/")[0]
    return not wanted or wanted.lower() in (peer, address, address.split(":")[0])


def clients_of(messages: Sequence[Message], choice: Choice) -> set[str]:
    """Returns the addresses of the chosen client: those of one host."""
    asking = [it for it in messages if is_askable(it) and is_at(it.receiver, choice.device)]
    found = {it.sender for it in asking if is_at(it.sender, choice.client)}
    if not found:
        raise wrong(f"no read or write of {choice.client or 'any'} to {choice.device or 'any'}")
    hosts = Counter(it.sender.split(":")[0] for it in asking if it.sender in found)
    if len(hosts) > 1:
        usual = hosts.most_common(1)[0][0]
        raise wrong(f"{len(hosts)} clients: choose one with --client, like {usual}")
    return found


def _waits(talk: Talk) -> list[int]:
    """Returns how long the client waited before it sent again, each time."""
    gaps = [after - at for at, after in zip(talk.sends, talk.sends[1:])]
    return [gap for gap in gaps if gap >= GRACE]


def settings_of(talks: Sequence[Talk], timeout: int | None, retries: int | None) -> Settings:
    """Returns the given settings, or those that the client's resends show, or the usual ones."""
    waits = [_waits(talk) for talk in talks]
    all_waits = [wait for of_talk in waits for wait in of_talk]
    shown = Settings(USUAL_TIMEOUT, USUAL_RETRIES)
    if all_waits:
        shown = Settings(min(all_waits) // MILLI, min(MOST_RETRIES, max(map(len, waits))))
    given = {"timeout": timeout, "retries": retries}
    return shown._replace(**{name: it for name, it in given.items() if it is not None})


def turns_of(talk: Talk, settings: Settings) -> list[int]:
    """Returns when bactrace looks at its clock after the last send; at the last time it gives up.
    An answer just after a time comes first: the client may not have looked at its clock yet."""
    left = 1 + max(0, settings.retries - len(_waits(talk)))
    step = settings.timeout * MILLI
    turns = [talk.sends[-1] + count * step for count in range(1, left + 1)]
    if not talk.answers:
        return turns
    came = talk.answers[0].nanos
    if came < turns[-1] + GRACE:
        return [it for it in turns[:-1] if it < came]
    return turns


def ends_at(talk: Talk, settings: Settings) -> int:
    """Returns when bactrace ends a request: when the answer comes, or when its time is over."""
    turns = turns_of(talk, settings)
    came = talk.answers[0].nanos if talk.answers else None
    return turns[-1] if came is None or turns and turns[-1] + GRACE <= came else came


class Step(NamedTuple):
    """The next event: a message, or the end of a wait."""

    nanos: int
    message: Message | None = None
    event: Event = Event("wait")


@dataclass
class Trace:
    """The lines so far, and the open requests of bactrace by their numbers there."""

    clients: set[str]
    settings: Settings
    start: int
    lines: list[str] = field(default_factory=list)
    asked: list[Talk] = field(default_factory=list)  # by ticket
    opened: dict[int, Talk] = field(default_factory=dict)
    clock: int = 0
    last: int = 0  # the number that was given last

    def add(self, step: Step) -> None:
        """Adds the lines of a step."""
        message, (kind, talk) = step.message, step.event
        if not message:
            self._tick(step.nanos)
        elif message.sender not in self.clients:
            self._data(message, step.event)
        elif is_askable(message) and talk:
            self._tick(step.nanos)
            if kind == "request":
                self._ask(message, talk)
        elif message.apdu and message.apdu.kind == CONFIRMED:
            self._remark(message, asked(message.apdu).words)

    def _remark(self, message: Message, words: str) -> None:
        self.lines.append(f"# {moment(message.nanos // MILLI)[11:]} {clean(words)}"[:MOST_WORDS])

    def _tick(self, nanos: int) -> None:
        now = (nanos - self.start) // MILLI
        if now > self.clock:
            self.clock = now
            self.lines.append(f"tick {now}")

    def _ask(self, message: Message, talk: Talk) -> None:
        """Adds the line of a request, which gets the first free number after the last one."""
        line, why = request_line(talk.apdu, talk.device)
        self._close(talk.nanos)
        if line and len(self.opened) == PLACES:
            why = "bactrace has no place for it"
        words = f"#{talk.apdu.invoke} {asked(talk.apdu).words}"
        self._remark(message, f"{words}; {why}" if why else words)
        if line:
            self.lines.append(line)
        if line and len(self.opened) < PLACES:
            self.last = self._free(self.last + 1)
            self.opened[self.last] = talk
            self.asked.append(talk)

    def _close(self, now: int) -> None:
        """Forgets the requests that have ended before."""
        ends = {at: ends_at(talk, self.settings) for at, talk in self.opened.items()}
        self.opened = {at: talk for at, talk in self.opened.items() if ends[at] >= now}

    def _free(self, number: int) -> int:
        while number % NUMBERS in self.opened:
            number += 1
        return number % NUMBERS

    def _data(self, message: Message, event: Event) -> None:
        """Adds the line of a received datagram. An answer gets the number of its request here; if
        it answers no open request, it gets a number that no request has."""
        octets, apdu = bytearray(message.datagram.octets), message.apdu
        if apdu and apdu.is_answer:
            self._close(message.nanos)
            mine = [at for at, talk in self.opened.items() if talk is event.talk]
            octets[message.at + 1] = mine[0] if mine else self._free(apdu.invoke)
        if event.kind != "answer":
            self._remark(message, message_words(message) if not event.talk else "a second answer")
        line = f"data {message.datagram.sender} {octets.hex()}"
        if message.datagram.is_cut:
            self._remark(message, "a datagram that the capture has cut")
        elif len(line) > MOST_LINE:
            self._remark(message, f"a datagram of {len(octets)} octets")
        else:
            self.lines.append(line)

    def late(self) -> Iterator[str]:
        """Yields a line for each request that bactrace has given up when the answer comes."""
        for ticket, talk in enumerate(self.asked):
            if talk.answers and ends_at(talk, self.settings) < talk.answers[0].nanos:
                when = moment(talk.nanos // MILLI)[11:]
                yield f"# request {ticket}, at {when}: its time is up before the answer comes"


def traced(
    messages: Sequence[Message], choice: Choice, timeout: int | None, retries: int | None
) -> Iterator[str]:
    """Yields the lines of a script of the client that is chosen."""
    clients, pairing = clients_of(messages, choice), Pairing()
    steps = [Step(it.nanos, it, pairing.take(it)) for it in messages]
    steps = [
        step
        for it, step in zip(messages, steps)
        if (it.sender in clients and is_at(it.receiver, choice.device))
        or (it.receiver in clients and is_at(it.sender, choice.device))
    ]
    asking = [it for it in steps if it.event.kind == "request" and it.event.talk]
    talks = [it.event.talk for it in asking if it.event.talk and it.event.talk.client in clients]
    settings = settings_of(talks, timeout, retries)
    start = min(talk.nanos for talk in talks)
    steps += [Step(nanos) for talk in talks for nanos in turns_of(talk, settings)]
    trace = Trace(clients, settings, start)
    for step in sorted(steps, key=lambda it: it.nanos):
        if step.nanos >= start:
            trace.add(step)
    whose = choice.client or ", ".join(sorted(clients)[:4])
    yield f"# {times(len(trace.asked), 'request')} of {whose}"
    yield from trace.late()
    yield f"client {settings.timeout} {settings.retries} 0"
    yield from trace.lines
