"""One controller: it is asked through a bacrun, at the pace that it bears; and its identity."""

from __future__ import annotations

import time
from collections import deque
from typing import Iterator, Sequence, TypeVar

from .bodies import device_in, elements_of
from .messages import Ended, ReadResult, answer_of
from .session import ITSELF, Session
from .standard import DEVICE, INTEGERS, OBJECT_ID, Form, ObjectId, PropertyRef, form_of
from .tools import BIND_FAILED, FOREVER, MOST_TIMEOUT, MOST_TRIES
from .tools import NotBegun, Outcome, Search, Tools
from .values import NOT_ASKED, TIMEOUT, TOO_LATE, Value, Why, fault, shown, value_of

PART = 8  # times the window: how many requests are made before the answers are looked at
MOST_PATIENCE = 4  # times --apdu-timeout, for a device that answers late
CALM, MOST_CALM = 256, 8192  # answers in a row, each in time, after which the pace is raised
PAUSE, MOST_PAUSE = 8, 8.0  # times --apdu-timeout, and seconds: the time for a device to restart
LEAST_WAIT = 0.1  # seconds, for an answer that may not come
MOST_ELEMENTS = 100000  # of a list which is read element by element
UNASKED = ReadResult(reason=NOT_ASKED)

Each = TypeVar("Each")
Self = TypeVar("Self", bound="Controller")


class Pace:
    """The pace: how long an answer is awaited, in milliseconds, and how many requests are open. A
    device that answers only after a request was sent again gets more time from then on. If it had
    to be asked again, or is busy, it gets half as many requests at once. After many answers in time
    it gets the first time limit again, and twice as many requests. If the last attempt at a higher
    pace failed, this takes more answers."""

    def __init__(self, timeout: int, window: int) -> None:
        self._timeout, self._most = timeout, window
        self.patience, self.window = timeout, window
        self._calm, self._needed = 0, CALM
        self._is_attempt = False  # whether the pace was raised, and has not been kept for long

    def learn(self, ended: Ended, why: Why) -> bool:
        """Learns from the end of a request; returns whether the pace has changed."""
        before, taken = (self.patience, self.window), int(ended.seconds * 1000)
        if why is not Why.SILENT and taken > self.patience:
            most = min(MOST_TIMEOUT, MOST_PATIENCE * self._timeout)
            self.patience = max(self.patience, min(most, 2 * taken))
        if ended.sends > 1 or why is Why.BUSY:
            self.window = max(1, self.window // 2)
        if before != (self.patience, self.window) and self._is_attempt:
            self._needed, self._is_attempt = min(MOST_CALM, 2 * self._needed), False
        in_time = ended.sends == 1 and taken <= self._timeout
        self._calm = self._calm + 1 if in_time and why not in (Why.SILENT, Why.BUSY) else 0
        if self._calm >= self._needed:
            self._calm = 0
            self._is_attempt = (self.patience, self.window) != (self._timeout, self._most)
            self.patience, self.window = self._timeout, min(self._most, 2 * self.window)
            self._needed = self._needed if self._is_attempt else CALM
        return before != (self.patience, self.window)


class Elements:
    """The known part of a list: the octets of its elements, and why some are missing."""

    def __init__(self, *found: bytes, count: int = 0, reason: str = "") -> None:
        self.found, self.reasons = list(found), [reason] if reason else []
        self.count = count  # how many elements the device says that the list has
        self.lost = 0  # how many elements were asked for, and did not come


class Controller:
    """Asks a controller for values and its identity, until a deadline, or until it is silent: at
    first, or twice in a row. Up to `window` requests are open at once, as the pace allows."""

    def __init__(self, tools: Tools, address: str, deadline: float = FOREVER) -> None:
        self.tools, self.address, self.deadline = tools, address, deadline
        self.silent = self.late = False
        self._heard = False  # whether the last request was answered
        self._pace = Pace(tools.timeout, tools.window)
        self._session: Session | None = None
        self._is_stale = False  # whether the next session gets other settings
        self._failed = 0  # how many bacruns had a port that another program has
        self._line = tools.line(address)
        self.instance: int | None = None  # the controller's instance, once it is known
        self._took = 0.0  # how many seconds that answer took

    def __enter__(self: Self) -> Self:
        return self

    def __exit__(self, *_: object) -> None:
        self.rest()

    @property
    def is_over(self) -> bool:
        """Whether the controller is no longer asked."""
        return self.silent or self.late

    def again(self) -> None:
        """Asks the controller again, even if it was silent, also for its identity."""
        self.silent, self.instance = False, None
        self.renew()

    def renew(self) -> None:
        """Goes on from another port if an answer to an earlier request may still come: it would be
        mistaken for an answer to a request with the same number."""
        session = self._session
        self._is_stale = self._is_stale or bool(session and (session.is_owed or session.is_used_up))

    def rest(self) -> Outcome:
        """Ends the bacrun, and returns how it ended; the next request begins another one."""
        session, self._session, self._is_stale = self._session, None, False
        return session.close() if session else Outcome(0)

    def parts(self, items: Sequence[Each]) -> Iterator[Sequence[Each]]:
        """Yields the items in parts that are asked for together."""
        at = 0
        while at < len(items):
            size = 1 if self._pace.window == 1 else PART * self._pace.window
            yield items[at : at + size]
            at += size

    def run(self, tool: str, words: Sequence[str]) -> Outcome:
        """Runs a tool that makes one request, as long as it takes."""
        times = self.tools.times(self._pace.patience)
        return self.tools.run([tool, "--mac", self.address, *times, *words])

    def ask(self, ref: PropertyRef) -> ReadResult:
        """Returns the value of a property or an element; a busy device is asked again later."""
        return self.ask_all([ref])[0]

    def ask_all(self, refs: Sequence[PropertyRef]) -> list[ReadResult]:
        """Returns the values of properties and elements, in their order."""
        answers: dict[int, ReadResult] = {}
        tries = [0] * len(refs)
        left = deque(range(len(refs)))
        while left:
            with self._line:
                busy = self._round(refs, left, answers)
            again = [at for at in busy if tries[at] < self.tools.retries]
            if again and self.tools.processes.ended.wait(self._pace.patience / 1000):
                break
            for at in again:
                tries[at] += 1
            left.extendleft(reversed(again))
        return [answers.get(at, UNASKED) for at in range(len(refs))]

    def write(self, request: str) -> Outcome:
        """Writes, once, with a line of a script; the outcome is in the words of bacwp. The caller
        counts the write as under way meanwhile."""
        with self._line:
            while True:
                try:
                    session = self._ready()
                except NotBegun as why:
                    return Outcome(None, told=str(why))
                session.put(f"write {self.address} {request}")
                ended = session.ended()
                if ended is not None:
                    outcome = ended.read(ended.apdu)
                    return Outcome(0 if outcome == "ok" else 1, [outcome])
                over = self.rest()
                if not self._may_retry(over):
                    return over

    def _round(
        self, refs: Sequence[PropertyRef], left: deque[int], answers: dict[int, ReadResult]
    ) -> list[int]:
        """Asks for the values that are left, until one is busy; returns the busy answers."""
        busy: list[int] = []
        opened: dict[int, int] = {}  # positions by ticket
        while opened or (left and not busy):
            if self._is_done():
                self._end_open(opened, answers)
                left.clear()
                break
            try:
                ended = self._next(refs, left if not busy else deque(), opened)
            except NotBegun as error:
                answers[left.popleft()] = ReadResult(reason=str(error))
                continue
            if ended is None:
                if not self._is_done():
                    self._give_up(left, opened, answers)
                continue
            at = opened.pop(ended.ticket)
            answers[at] = answer_of(ended, refs[at])
            why = answers[at].why
            self._learn(ended, why)
            if why.is_for_now:
                busy.append(at)
        return busy

    def _is_done(self) -> bool:
        """Returns whether no more requests are made."""
        self.late = self.late or time.monotonic() >= self.deadline
        return self.is_over

    def _end_open(self, opened: dict[int, int], answers: dict[int, ReadResult]) -> None:
        """Waits no longer for what is open. What bacrun has not sent yet was not asked."""
        if opened and self._session:
            waiting = self._session.unsent()
            why = ReadResult(reason=TOO_LATE if self.late else TIMEOUT)
            answers.update({at: why for ticket, at in opened.items() if ticket not in waiting})
            self._session.process.kill()
            self.rest()

    def _next(
        self, refs: Sequence[PropertyRef], left: deque[int], opened: dict[int, int]
    ) -> Ended | None:
        """Fills the window, and returns the next request that ends. Only one request is open
        before the first answer, and after a request without an answer."""
        session = self._ready() if not opened else self._session
        assert session, "what is open is open there"
        while left and session.has_room and not (opened and (self._is_stale or not self._heard)):
            at = left.popleft()
            self.tools.counted()
            opened[session.put(f"read {self.address} {refs[at].words()}")] = at
        return session.ended()

    def _give_up(
        self, left: deque[int], opened: dict[int, int], answers: dict[int, ReadResult]
    ) -> None:
        """Ends open requests after bacrun has ended, or makes them again from another port."""
        over = self.rest()
        if self._may_retry(over):
            left.extendleft(reversed(list(opened.values())))
        else:
            told = over.told or f"no line of bacrun, status {over.status}"
            answers.update({at: ReadResult(reason=told) for at in opened.values()})
        opened.clear()

    def _ready(self) -> Session:
        """Returns the session, which is begun if there is none."""
        journal = self._session.journal if self._session else None
        if self._is_stale or (journal and journal.is_full):
            self.rest()
        if not self._session:
            window = self._pace.window
            times = self.tools.times(self._pace.patience)
            process = self.tools.session(times, window, self.deadline)
            self._session = Session(self.tools, process, self.address, window)
        return self._session

    def _may_retry(self, over: Outcome) -> bool:
        """Returns whether another bacrun is begun: another program had the port of this one."""
        self._failed += 1
        return over.told == BIND_FAILED and self._failed < MOST_TRIES

    def _learn(self, ended: Ended, why: Why) -> None:
        """Notes whether the controller is silent, and its pace from now on."""
        answered = why is not Why.SILENT
        self.silent = not answered and not self._heard
        self._heard = answered
        self._is_stale = self._pace.learn(ended, why) or self._is_stale

    @property
    def own(self) -> ObjectId:
        """The device object of the controller."""
        assert self.instance is not None, "it was identified"
        return ObjectId(DEVICE, self.instance)

    def read_all(self, refs: Sequence[PropertyRef]) -> list[ReadResult]:
        """Reads like `ask_all`; what is too long for a datagram is put together from elements."""
        return [self._whole(*it) for it in zip(refs, self.ask_all(refs))]

    def _whole(self, ref: PropertyRef, answer: ReadResult) -> ReadResult:
        if not answer.reason or ref.element is not None or answer.why is not Why.TOO_LONG:
            return answer
        elements = self.elements(MOST_ELEMENTS, ref, whole=True)
        if elements.reasons:
            return ReadResult(reason=elements.reasons[0]) if elements.lost else answer
        return ReadResult(b"".join(elements.found))

    def count(self, ref: PropertyRef) -> tuple[int, str]:
        """Returns the number of elements of an array; or -1, and why it is not known."""
        answer = self.ask(ref.at(0))
        counts = elements_of(answer.region) or []
        if answer.reason or [it.number in INTEGERS for it in counts] != [True]:
            return -1, answer.reason or shown(answer.region)
        return counts[0].value, ""

    def elements(self, most: int, ref: PropertyRef, whole: bool = False) -> Elements:
        """Reads the elements of a list, one by one, at most this many. Lost ones are skipped; if
        the whole list is needed, reading stops there."""
        count, why = self.count(ref)
        if why:
            return Elements(reason="number of elements: " + why)
        elements = Elements(count=count)
        if whole and count > most:
            return Elements(reason=f"too many elements: {count}")
        for places in self.parts(range(1, min(count, most) + 1)):
            if self.is_over or (whole and elements.lost):
                break
            answers = self.ask_all([ref.at(place) for place in places])
            for place, answer in zip(places, answers):
                if not answer.reason:
                    elements.found.append(answer.region)
                elif answer.why is not Why.NOT_ASKED:
                    elements.lost += 1
                    elements.reasons.append(f"element {place} of {count}: {answer.reason}")
        left = count - len(elements.found) - elements.lost
        if left:
            elements.reasons.append(f"{left} of {count} elements not asked")
        return elements

    def values(self, refs: Sequence[PropertyRef], forms: Sequence[Form | None] = ()) -> list[Value]:
        """Returns the values of properties, or of elements, in readable form and in their order."""
        forms = forms or [None] * len(refs)
        return [
            fault(it.reason) if it.reason else value_of(it.region, form or form_of(ref))
            for ref, form, it in zip(refs, forms, self.read_all(refs))
        ]

    def value(self, ref: PropertyRef) -> Value:
        """Returns the value of a property, or of an element of it, in readable form."""
        return self.values([ref])[0]

    def identify(self, wanted: int | None = None) -> str:
        """Returns why to ask nothing as this device, or as any; empty if asking is allowed."""
        if self.instance is None:
            begun = time.monotonic()
            found, reason = self._own_instance(wanted)
            if found is None:
                return reason
            self.instance, self._took = found, time.monotonic() - begun
        if wanted not in (None, self.instance):
            return f"another device: 8:{self.instance}"
        return ""

    def other_than(self, device: int | None) -> str:
        """Returns why the controller is not this device, if one is named; otherwise empty."""
        return "" if device is None else self.identify(device)

    def comes_back(self) -> bool:
        """Returns whether a silent device, which may have restarted, answers after a pause."""
        pause = min(MOST_PAUSE, PAUSE * self.tools.timeout / 1000)
        instance, left = self.instance, self.deadline - time.monotonic()
        if left <= 0 or self.tools.processes.ended.wait(min(pause, left)):
            return False
        self.again()
        is_back = not self.identify(instance)
        self.instance = instance
        return is_back

    def has_changed(self) -> str:
        """Returns the device that the controller now says it is; empty if it is still the same."""
        found, reason = self._own_instance(self.instance)
        if found == self.instance or reason == NOT_ASKED:
            return ""
        return f"at the end: {reason}" if found is None else f"at the end another device: 8:{found}"

    def _own_instance(self, wanted: int | None) -> tuple[int | None, str]:
        """Returns the instance of the controller; or why it is not known."""
        answer = self._own_object(wanted)
        found = device_in(answer.region)
        if found is None:
            return None, answer.reason or "no device: " + shown(answer.region)
        return found, ""

    def _own_object(self, wanted: int | None) -> ReadResult:
        """Reads the device object. An old device knows only its own instance, not 4194303: then the
        wanted instance is asked for, or the one that a Who-Is brings."""
        answer = self.ask(ITSELF)
        if not answer.reason or answer.why.is_gone:
            return answer
        if wanted is not None:
            other = self.ask(PropertyRef(DEVICE, wanted, OBJECT_ID))
            if not other.reason or other.why is Why.SILENT:
                return other
        found = [instance for instance, address in self.search().heard() if address == self.address]
        return self.ask(PropertyRef(DEVICE, found[0], OBJECT_ID)) if len(found) == 1 else answer

    def search(self) -> Search:
        """Sends a Who-Is to this address, or to the router. Nothing else is sent until it is
        answered, or for twice as long as the read of the identity took."""
        with self._line:
            search = Search(self.tools, self.address, self._pace.patience, self.deadline)
            search.wait_for(self.address, max(LEAST_WAIT, 2 * self._took))
        return search
