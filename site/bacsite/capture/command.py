"""The requests of a capture file and their answers, and a summary of them."""

from __future__ import annotations

import argparse
from collections import Counter
from dataclasses import dataclass, field
from typing import BinaryIO, Iterable, Iterator

from ..messages import COMPLEX, SIMPLE, UNCONFIRMED, Message
from ..streams import BROKEN, MISSING, Failure, json_line, opened, put, table, times, wrong
from .lines import UNCONFIRMED_SERVICES, json_of, line_of, millis
from .pcap import Passing
from .talks import MILLI, Entry, Pairing, Talk
from .trace import Choice, is_at, traced

COUNTS = ("requests", "answered", "refused", "unanswered")
MARKS = ("sent again", "slow", "late", "answered twice", "asked again", "open at the end", "failed")
ALL = COUNTS + MARKS


def is_slow(talk: Talk, slow: int) -> bool:
    """Returns whether the answer took longer than this."""
    return talk.took is not None and talk.took >= slow


def marks_of(talk: Talk, slow: int) -> Iterator[str]:
    """Yields the counts that a talk adds to."""
    is_ack = bool(talk.answers) and talk.answers[0].apdu.kind in (SIMPLE, COMPLEX)
    yield "answered" if is_ack else "refused" if talk.answers else "unanswered"
    holds = [talk.resends > 0, is_slow(talk, slow), talk.late is not None, len(talk.answers) > 1]
    holds += [talk.again is not None, talk.cut_off is not None, talk.has_failed]
    yield from (mark for mark, it in zip(MARKS, holds) if it)


@dataclass
class Group:
    """The counts of the talks with one device, or with all devices."""

    marks: Counter[str] = field(default_factory=Counter)
    took: list[int] = field(default_factory=list)

    def add(self, marks: Iterable[str], took: int | None) -> None:
        """Counts a talk."""
        self.marks.update(marks)
        self.took += [] if took is None else [took]

    def within(self, percent: int) -> int | None:
        """Returns the time within which this percentage of the answers came."""
        took = sorted(self.took)
        return took[max(0, -(-len(took) * percent // 100) - 1)] if took else None

    def figures(self) -> dict[str, float | None]:
        """Returns the counts, and times in milliseconds."""
        found: dict[str, float | None] = {it.replace(" ", "_"): self.marks[it] for it in ALL}
        for name, percent in (("median_ms", 50), ("ms_of_95", 95), ("longest_ms", 100)):
            time = self.within(percent)
            found[name] = None if time is None else time / MILLI
        return found

    def row(self, name: str) -> list[str]:
        """Returns the row of a device."""
        spans = [self.within(percent) for percent in (50, 100)]
        shown = ["-" if it is None else millis(it) for it in spans]
        return [name, *(str(self.marks[it]) for it in ALL[:6]), *shown]


@dataclass
class Tally:
    """Counts the entries of a capture."""

    slow: int
    all: Group = field(default_factory=Group)
    devices: dict[str, Group] = field(default_factory=dict)
    clients: set[str] = field(default_factory=set)
    others: Counter[str] = field(default_factory=Counter)

    def add(self, entry: Entry) -> None:
        """Counts an entry."""
        if isinstance(entry, Message):
            apdu, kind = entry.apdu, "other messages"
            if apdu and apdu.kind == UNCONFIRMED:
                told = f"unconfirmed service {apdu.service}"
                kind = UNCONFIRMED_SERVICES.get(apdu.service, told)
            elif apdu and apdu.is_answer:
                kind = "answers to nothing seen"
            self.others[kind] += 1
            return
        self.clients.add(entry.client)
        marks = ["requests", *marks_of(entry, self.slow)]
        for group in (self.all, self.devices.setdefault(entry.device, Group())):
            group.add(marks, entry.took)

    def lines(self, passing: Passing) -> Iterator[str]:
        """Yields the summary."""
        group = self.all
        whose = f"{times(len(self.clients), 'client')} to {times(len(self.devices), 'device')}"
        ends = ", ".join(f"{group.marks[it]} {it}" for it in COUNTS[1:])
        yield f"{times(group.marks['requests'], 'request')} of {whose}: {ends}"
        said = [f"{group.marks[it]} {it}" for it in MARKS if group.marks[it]]
        if said:
            yield "of these " + ", ".join(said)
        if self.devices:
            heads = ["device", *ALL[:6], "median ms", "longest ms"]
            worst = sorted(self.devices, key=lambda it: (-self.devices[it].marks["failed"], it))
            yield from table([heads, *(self.devices[it].row(it) for it in worst)])
        if passing.cut:
            cut = times(passing.cut, "datagram")
            yield f"cut by the capture: {cut}, told by their first octets"
        for words, counts in (("also seen", self.others), ("passed over", passing.counts)):
            if counts:
                yield f"{words}: " + ", ".join(f"{it} {counts[it]}" for it in sorted(counts))

    def figures(self, passing: Passing) -> dict[str, object]:
        """Returns the summary as an object of JSON."""
        return {
            "kind": "summary",
            "all": self.all.figures(),
            "clients": len(self.clients),
            "devices": {name: of.figures() for name, of in sorted(self.devices.items())},
            "others": dict(self.others),
            "packets": passing.packets,
            "cut": passing.cut,
            "passed_over": dict(passing.counts),
            "damage": passing.damage or None,
        }


def _entries(messages: Iterable[Message], passing: Passing) -> Iterator[Entry]:
    """Yields the talks and other messages, in the order in which they began."""
    pairing = Pairing()
    for message in messages:
        pairing.take(message)
        yield from pairing.settled()
    yield from pairing.rest(passing.last)


def is_between(entry: Entry, choice: Choice) -> bool:
    """Whether an entry is between the chosen client and the chosen device."""
    if isinstance(entry, Talk):
        return is_at(entry.client, choice.client) and is_at(entry.device, choice.device)
    ends = (entry.sender, entry.receiver)
    return all(any(is_at(end, wanted) for end in ends) for wanted in choice)


def is_wanted(entry: Entry, only: str | None, slow: int) -> bool:
    """Whether an entry is shown: all are, or only failed and slow ones."""
    if isinstance(entry, Talk):
        return not only or (entry.has_failed if only == "failed" else is_slow(entry, slow))
    return not only or (only == "failed" and entry.is_fault)


def refuse_what_is_no_capture(passing: Passing) -> None:
    """Ends with the damage if it comes before the first packet."""
    if passing.damage and not passing.packets:
        raise Failure(passing.damage, BROKEN)


def _put_entries(file: BinaryIO, passing: Passing, words: argparse.Namespace) -> int:
    """Prints the lines of a capture, and its summary."""
    choice = Choice(words.client, words.device)
    tally, is_any = Tally(words.slow * MILLI), choice == Choice()
    for entry in _entries(passing.messages(file), passing):
        if not is_between(entry, choice):
            continue
        is_any = True
        tally.add(entry)
        if not words.summary and is_wanted(entry, words.only, tally.slow):
            put(json_line(json_of(entry)) if words.json else line_of(entry) + "\n")
    refuse_what_is_no_capture(passing)
    if not is_any and not passing.damage:
        raise wrong(f"nothing between {choice.client or 'any'} and {choice.device or 'any'}")
    if words.json:
        put(json_line(tally.figures(passing)))
    else:
        lines = ([] if words.summary else [""]) + list(tally.lines(passing))
        put("\n".join(lines) + "\n")
    return MISSING if tally.all.marks["failed"] else 0


def print_capture(words: argparse.Namespace) -> int:
    """Prints the requests of a capture; a damaged one as far as it can be read."""
    if words.trace and (words.json or words.only):
        raise wrong("a script has no --json and no --only")
    if not words.trace and (words.timeout, words.retries) != (None, None):
        raise wrong("--timeout and --retries are for --trace")
    passing, status = Passing(), 0
    try:
        with opened(words.file) as file:
            if words.trace:
                choice, messages = Choice(words.client, words.device), list(passing.messages(file))
                refuse_what_is_no_capture(passing)
                for line in traced(messages, choice, words.timeout, words.retries):
                    put(line + "\n")
            else:
                status = _put_entries(file, passing, words)
    except OSError as error:
        raise Failure(f"cannot read {words.file}: {error.strerror}", BROKEN) from error
    if passing.damage:
        raise Failure(passing.damage, BROKEN)
    return status
