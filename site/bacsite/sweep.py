"""Finds all stations of networks behind routers: each router broadcasts a Who-Is there."""

from __future__ import annotations

import math
import time
from collections import Counter, deque
from typing import NamedTuple, Sequence, Tuple

from .bodies import device_of, elements_of
from .device import Bounds
from .messages import UNCONFIRMED, Message, Refusals
from .streams import times
from .tools import BIND_FAILED, Tools, NotBegun, deadline_of
from .session import REFUSED, Session

EVERYONE = (0, 4194303)  # all instances
FEW = 16  # about this many of the known stations are asked at once
WAIT = 500  # milliseconds of one line of bacrun
QUIET = 3.0  # seconds without a new station, once all known ones have answered
LINES = 256  # lines of one text for bacrun: it prints their remarks before it reads on
MOST_ROUNDS = 64
MOST_STATIONS = 4096  # for one reach, since anyone can send an I-Am
I_AM = 0
Range = Tuple[int, int]  # of instances: the least and the greatest


class Station(NamedTuple):
    """A station, with its instance."""

    instance: int
    address: str  # with its route

    @property
    def router(self) -> str:
        """The router of the station."""
        return self.address.partition("/")[0]

    @property
    def place(self) -> tuple[int, str]:
        """The number of its network, and its address there."""
        _, network, station = self.address.split("/")
        return int(network), station


def station_of(message: Message) -> Station | None:
    """Returns the station of an I-Am from behind a router; None for any other datagram."""
    apdu = message.apdu
    if not apdu or (apdu.kind, apdu.service) != (UNCONFIRMED, I_AM):
        return None
    found = elements_of(apdu.body) or []
    device = device_of(found[0]) if len(found) == 4 else None
    if device is None or message.sender.count("/") != 2:
        return None
    return Station(device, message.sender)


class Reach:
    """192.0.2.7/5/*, or 192.0.2.7/* for all networks there: the stations that have answered, and
    the ranges of instances that are left to ask."""

    def __init__(self, word: str) -> None:
        self.word, self.front = word, word[: -len("*")]
        self.router = word.partition("/")[0]
        self.found: set[Station] = set()
        self.elsewhere: set[Station] = set()  # stations that answered through another router
        self.left: deque[Range] = deque([EVERYONE])
        self._before: set[Station] = set()  # stations that were known when the question was sent
        self._asked: Range | None = None
        self._silent = 0  # questions without any station so far
        self._answered: set[Station] = set()

    def question(self) -> str:
        """Begins the next question; its line, or an empty text if no range is left."""
        self._before, self._answered = set(self.found), set()
        self._asked = asked = self.left.popleft() if self.left else None
        if not asked:
            return ""
        limits = "" if asked == EVERYONE else " " + " ".join(map(str, asked))
        where = self.front[:-1] if self.front.count("/") == 2 else self.word
        return f"who {where}{limits}\n"

    def heard(self, station: Station) -> bool:
        """Notes a station; returns whether it belongs to this reach."""
        is_here = station.address.startswith(self.front)
        if is_here and (station in self.found or len(self.found) < MOST_STATIONS):
            self.found.add(station)
            self._answered.add(station)
        return is_here

    @property
    def is_complete(self) -> bool:
        """Whether all stations that were known in the range have answered, if any were known."""
        if not self._asked:
            return True
        return bool(self._before) and _within(self._asked, self._before) <= self._answered

    def end(self) -> None:
        """Ends a question. A range with a new station is asked in parts, an empty reach twice."""
        self._silent += not self.found
        if self._silent == 1:
            self.left.append(EVERYONE)
        if self._asked and self.found != self._before:
            known = sorted(it.instance for it in _within(self._asked, self.found))
            self.left.extend(parts_of(self._asked, known))


class Sweep:
    """Asks all stations of some reaches for their instances, until no question finds a new one. At
    first all stations are asked at once. A range of instances with a new station is then asked
    again in parts with few known stations each: an answer that a bus or a router lost, because all
    answered at once, comes then."""

    def __init__(self, tools: Tools, words: Sequence[str], bounds: Bounds, quiet: Sequence[str]):
        self._tools, self._bounds = tools, bounds
        self._quiet = quiet  # reaches that may have no station
        self._last = 0.0  # when the last station answered
        self._begin(words)
        self.faults: list[str] = []  # why the reaches are not whole
        self._refused: set[str] = set()  # routers to which the system did not send all questions
        self.rounds = 0

    def _begin(self, words: Sequence[str]) -> None:
        self.reaches = [Reach(it) for it in words]
        self.refusals = {it.router: Refusals() for it in self.reaches}

    def run(self) -> None:
        """Finds the stations of each reach."""
        until = deadline_of(self._bounds.deadline)
        for port in (self._bounds.listen_port, 0):
            try:
                process = self._tools.listener(port, until)
            except NotBegun as why:
                self.faults.insert(0, str(why))
                break
            session, fault = Session(self._tools, process, "stations"), ""
            session.on_message, self._refused = self._take, session.refused
            while self._ask(session):
                if self.rounds == MOST_ROUNDS:
                    fault = f"new stations still answered after {MOST_ROUNDS} questions"
                    break
            told = session.close().told
            if told != BIND_FAILED or not port:
                self.faults[:0] = filter(None, [told or fault])
                break
            self.faults = [f"port {port} is taken: answers by broadcast are not heard"]
            self._begin([it.word for it in self.reaches])

    def _ask(self, session: Session) -> bool:
        """Asks one range of each reach, and receives the answers; returns False if none is left."""
        questions = list(filter(None, [it.question() for it in self.reaches]))
        begun = self._last = time.monotonic()
        for at in range(0, len(questions), LINES):
            self._tools.counted()
            if not session.hear(1, "".join(questions[at : at + LINES])):
                return False
        latest = begun + self._bounds.listen
        while questions and time.monotonic() < latest and not self._is_quiet():
            if not session.hear(WAIT):
                return False
        for it in self.reaches:
            it.end()
        self.rounds += 1
        return bool(questions)

    def _is_quiet(self) -> bool:
        """Returns whether all known stations have answered, and no other one for some time."""
        silent = time.monotonic() - self._last
        return silent >= QUIET and all(it.is_complete for it in self.reaches)

    def _take(self, message: Message) -> None:
        peer, station = message.datagram.sender, station_of(message)
        if message.network and peer in self.refusals:
            self.refusals[peer].heard(message.network)
        if not station:
            return
        asked = [it for it in self.reaches if it.router == station.router]
        heard = [it.heard(station) for it in asked]
        if any(heard):
            self._last = time.monotonic()
        elif not asked:
            for it in nearest(self.reaches, station):
                if len(it.elsewhere) < MOST_STATIONS:
                    it.elsewhere.add(station)

    def stations(self) -> list[Station]:
        """Returns all stations, by their networks, each behind the router that found it first."""
        found: dict[tuple[object, ...], Station] = {}
        for reach in self.reaches:
            for it in sorted(reach.found, key=lambda it: (*it.place, it.instance)):
                found.setdefault((*it.place, it.instance), it)
        return list(found.values())

    def reasons_of(self, reach: Reach, stations: Sequence[Station]) -> list[str]:
        """Returns the reasons why a reach is not whole; `stations` are those of all reaches."""
        firsts = {(*it.place, it.instance): it.router for it in stations}
        others = (firsts[(*it.place, it.instance)] for it in reach.found)
        twice = Counter(it for it in others if it != reach.router)
        places = {it.place for it in stations}
        through = Counter(it.router for it in reach.elsewhere if it.place not in places)
        reasons = self.refusals[reach.router].lines()
        reasons += [f"{times(count, 'station')} also behind {it}" for it, count in twice.items()]
        for router, count in through.items():
            reasons.append(f"{times(count, 'station')} answered through {router}")
        if not reach.found and (reasons or reach.word not in self._quiet):
            is_refused = reach.router in self._refused
            reasons.append("no station answers" + f" ({REFUSED})" * is_refused)
        return reasons


def nearest(reaches: Sequence[Reach], station: Station) -> Sequence[Reach]:
    """Returns the reaches that list a station which answered through another router: those at the
    same host, otherwise those of its network, otherwise those that may have it."""
    host, network = station.router.partition(":")[0], f"/{station.place[0]}"
    there = [it for it in reaches if it.front[len(it.router) : -1] in ("", network)]
    near = [it for it in there if it.router.partition(":")[0] == host] or there
    named = [it for it in near if it.front != it.router + "/"]
    return named or (near if near != there else there[:1])


def _within(asked: Range, stations: set[Station]) -> set[Station]:
    """Returns the stations whose instances are in the range."""
    return {it for it in stations if asked[0] <= it.instance <= asked[1]}


def parts_of(asked: Range, known: Sequence[int]) -> list[Range]:
    """Returns the range in at least two parts that have few of the known instances each."""
    count = max(2, math.ceil(len(known) / FEW)) if len(known) > 1 else 1
    cuts = {known[at * len(known) // count] for at in range(1, count)} - {asked[0]}
    lows = [asked[0], *sorted(cuts)]
    return list(zip(lows, [*(it - 1 for it in lows[1:]), asked[1]]))
