"""The requests of one bacrun: they go in, and their ends come out; and scans of addresses."""

from __future__ import annotations

import re
import time
from concurrent.futures import ThreadPoolExecutor
from contextlib import suppress
from typing import Callable, Iterator, Sequence

from .bodies import device_in
from .messages import Datagram, Ended, Message, Refusals, answer_of, message_of
from .standard import DEVICE, OBJECT_ID, THIS_DEVICE, PropertyRef
from .tools import BIND_FAILED, MOST_TRIES, NotBegun, Outcome, Process, Tools
from .values import TIMEOUT

ENDED = re.compile("# (done|timeout) ([0-9]+) ?(.*)")
MOST_LINE, MORE = 4096, "#+"  # longer remarks go on in a line with MORE
NUMBERS, SAFE = 256, 60.0  # the numbers of requests, and the seconds before one may be used again
MOST_OPEN = 64  # requests of one bacrun
LOOK = 50  # milliseconds for datagrams that wait at a socket
REFUSED = "the system refused to send it"
ITSELF = PropertyRef(DEVICE, THIS_DEVICE, OBJECT_ID)  # which device it is


class _Open:
    """An open request: when it was first sent, to which address, how often, how many of its sends
    the system refused, its datagram, and the other address from which an answer to it came."""

    def __init__(self, address: str) -> None:
        self.since, self.address = time.monotonic(), address
        self.sends, self.refused, self.sent, self.elsewhere = 0, 0, "", ""


class Session:
    """Requests through a bacrun. Its lines are a script for bactrace, kept as a journal. bacrun
    reads its input, and not the network, while fewer requests are open than its window. So it gets
    one more request, which waits there. If there is no other request, it gets an empty line, at
    which it waits until no request is open."""

    def __init__(self, tools: Tools, process: Process, name: str = "", window: int = 1) -> None:
        self.process, self.journal = process, tools.journals.begun(name) if name else None
        self._tools, self._window = tools, window
        self._open: dict[int, _Open] = {}  # by ticket
        self._tickets = 0
        self._text = ""  # still to be handed over
        self._has_settled = False
        self._kept: str | None = None  # a line that is read next
        self._latest = Datagram(0, "", "", b"")
        self.peers: set[str] = set()  # the senders of all datagrams
        self.refused: set[str] = set()  # peers to which the system refused to send a datagram
        self.on_message: Callable[[Message], None] | None = None  # called with each one
        self._refusals: dict[str, Refusals] = {}  # by the hosts of routers
        self._begun = time.monotonic()
        # Whether an answer may still come: to a request given up or sent twice, or a second one.
        self.is_owed = False

    @property
    def has_room(self) -> bool:
        """Whether more requests may be put."""
        return len(self._open) <= self._window

    def unsent(self) -> list[int]:
        """Returns the tickets of the requests that wait in bacrun, by what it has said so far."""
        return [ticket for ticket, request in self._open.items() if not request.sends]

    @property
    def is_used_up(self) -> bool:
        """Whether the number of a request is used again within a minute, at this rate."""
        age = time.monotonic() - self._begun
        return self._tickets > NUMBERS // 2 and age * NUMBERS < SAFE * self._tickets

    def close(self) -> Outcome:
        """Ends the session; returns how bacrun ended. If it ended well, the journal is whole."""
        outcome = self._tools.processes.over(self.process)
        if self.journal:
            for line in outcome.lines if outcome.status == 0 else []:
                self.journal.add(line)
            self.journal.close()
        return outcome

    def put(self, request: str) -> int:
        """Adds a line of a script. Returns the ticket with which `ended` returns the request."""
        self._text += request + "\n"
        self._open[self._tickets] = _Open(request.split(" ", 2)[1])
        self._tickets, self._has_settled = self._tickets + 1, False
        return self._tickets - 1

    def ended(self) -> Ended | None:
        """Returns the next request that ends; None if bacrun has ended before."""
        if len(self._open) < self._window:
            self._settle()
        self._hand_over()
        while True:
            line = self._line()
            ended = None if line is None else self._take(line)
            if ended or line is None:
                return ended

    def hear(self, milliseconds: int, text: str = "") -> bool:
        """Hands over lines, reads output for this time, and returns whether bacrun still runs."""
        self._text += f"{text}wait {milliseconds}\n"
        self._hand_over()
        line = self._line()
        while line is not None and not line.startswith("# wait "):
            self._take(line)
            line = self._line()
        return line is not None

    def _settle(self) -> None:
        if not self._has_settled:
            self._text, self._has_settled = self._text + "\n", True

    def _hand_over(self) -> None:
        if self._text:
            self.process.put(self._text)
            self._text = ""

    def _line(self) -> str | None:
        """Returns the next line, put together from its continuation lines."""
        line, self._kept = self._kept or self._read(), None
        last = line
        while last is not None and line is not None and len(last) == MOST_LINE and last[0] == "#":
            self._settle()
            self._hand_over()
            last = self._read()
            if last is None or not last.startswith(MORE):
                self._kept = last
                break
            line += last[len(MORE) :]
        return line

    def _read(self) -> str | None:
        line = self.process.line()
        if self.journal and line is not None:
            self.journal.add(line)
        return line

    def _take(self, line: str) -> Ended | None:
        """Notes a line about a request; returns the request if it has ended."""
        with suppress(KeyError, ValueError):  # of a line that does not come from bacrun
            if line.startswith("data "):
                _, peer, octets = line.split(" ")
                self._latest = Datagram(0, peer, "", bytes.fromhex(octets))
                self.peers.add(peer)
                if self.on_message:
                    self.on_message(self._message())
            elif line.startswith("# send "):
                _, _, number, _, octets = line.split(" ")
                request = self._open[int(number)]
                request.since = request.since if request.sends else time.monotonic()
                request.sends, request.sent = request.sends + 1, octets
            elif line.startswith("# unsent "):
                _, _, peer, octets = line.split(" ")
                self.refused.add(peer)
                for request in self._open.values():
                    request.refused += request.sent == octets
            elif line == "# drop":
                self.is_owed = True
                self._look_at_dropped()
            elif line.startswith("# "):
                found = ENDED.fullmatch(line)
                return self._end(int(found[2]), found[1], found[3]) if found else None
        return None

    def _end(self, ticket: int, how: str, outcome: str) -> Ended:
        request = self._open.pop(ticket)
        self.is_owed = self.is_owed or how == "timeout" or request.sends > 1
        seconds = time.monotonic() - request.since
        if how == "done":
            return Ended(outcome, self._latest.octets, seconds, request.sends, ticket)
        return Ended(TIMEOUT, b"", seconds, request.sends, ticket, self._hint(request))

    def _look_at_dropped(self) -> None:
        """Notes a router's refusal of a network, or an answer that came from another address."""
        message = self._message()
        if message.network:
            host = self._latest.sender.partition(":")[0]
            self._refusals.setdefault(host, Refusals()).heard(message.network)
        elif message.apdu and message.apdu.is_answer:
            for request in self._open.values():
                sent = message_of(Datagram(0, "", "", bytes.fromhex(request.sent))).apdu
                is_its = sent is not None and sent.invoke == message.apdu.invoke
                if is_its and request.address != message.sender:
                    request.elsewhere = message.sender

    def _message(self) -> Message:
        """Returns the latest datagram, read."""
        return message_of(self._latest)

    def _hint(self, request: _Open) -> str:
        """Returns an explanation for the silence of a request; an empty text if there is none."""
        router, _, route = request.address.partition("/")
        refusals = self._refusals.get(router.partition(":")[0])
        refusal = refusals.of(int(route.partition("/")[0])) if refusals and route else ""
        elsewhere = f"answered from {request.elsewhere}" if request.elsewhere else ""
        unsent = REFUSED if request.refused == request.sends else ""
        return "; ".join(filter(None, [unsent, refusal, elsewhere]))


class Scan:
    """A read of some addresses by one bacrun, whose socket may stay open to the end. Any datagram
    from an address means that a device is there: a device that serves one request at a time may
    answer when its answer is no longer awaited."""

    def __init__(self, tools: Tools, addresses: Sequence[str]) -> None:
        self._tools, self._addresses = tools, addresses
        self._session: Session | None = None
        self._peers: set[str] = set()  # who has sent a datagram

    def run(self, then: Callable[[str, str], None]) -> None:
        """Reads; `then` gets each address as soon as it is known whether somebody is there, and the
        reason if nobody is. If bacrun can't be run, each address is asked in another way."""
        left = set(self._addresses)
        for address, ended in self.ends(self._tools.timeout, self._tools.retries):
            is_heard = ended.outcome != TIMEOUT or address in self._peers
            silence = ended.read(None) if ended.hint == REFUSED else TIMEOUT
            then(address, "" if is_heard else silence)
            left.discard(address)
        for address in left:
            then(address, "")

    def ends(self, patience: int, retries: int) -> Iterator[tuple[str, Ended]]:
        """Asks each address for its identity; yields how each of these reads ended."""
        for _ in range(MOST_TRIES):
            try:
                process = self._tools.session(self._tools.times(patience, retries), MOST_OPEN)
            except NotBegun:
                return
            self._session = session = Session(self._tools, process, "range", MOST_OPEN)
            self._peers = session.peers
            asked = {session.put(f"read {it} {ITSELF.words()}"): it for it in self._addresses}
            while asked:
                ended = session.ended()
                if ended is None:
                    break
                yield asked.pop(ended.ticket), ended
            if not asked or self.end() != BIND_FAILED:
                return

    def late(self, looks: bool) -> set[str]:
        """Ends the scan; returns the addresses that have sent a datagram by now, if `looks`."""
        if looks and self._session:
            self._session.hear(LOOK)
        self.end()
        return self._peers

    def end(self) -> str:
        """Ends bacrun; returns the first line of its standard error."""
        session, self._session = self._session, None
        return session.close().told if session else ""


def late_answers(tools: Tools, addresses: Sequence[str], patience: int) -> dict[str, str]:
    """Returns the answers of devices that answer a read late. All are awaited together."""
    count = len(addresses) if patience > 0 else 0
    scans = [Scan(tools, addresses[at : at + MOST_OPEN]) for at in range(0, count, MOST_OPEN)]
    told: dict[str, str] = {}

    def wait(scan: Scan) -> None:
        for address, ended in scan.ends(patience, retries=0):
            if ended.outcome != TIMEOUT:
                told[address] = _told(ended)
        scan.end()

    with ThreadPoolExecutor(tools.at_once) as pool:
        list(pool.map(wait, scans))
    return told


def _told(ended: Ended) -> str:
    """Returns the identity, or otherwise the answer."""
    answer = answer_of(ended, ITSELF)
    device = device_in(answer.region)
    if device is not None:
        return f"device {device} answers a read very late"
    return f"a read is answered very late: {answer.reason or 'by no device'}"
