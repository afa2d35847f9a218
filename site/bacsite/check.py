"""A value against thresholds, for Nagios, Icinga and similar."""

from __future__ import annotations

import argparse
import re
import threading
import time
from concurrent.futures import Future, TimeoutError  # pylint: disable=redefined-builtin
from contextlib import suppress
from decimal import Decimal
from functools import partial
from typing import NamedTuple, Sequence

from . import standard
from .controller import Controller
from .points import Point, point_of
from .poll import Reading, readings_of
from .streams import Failure, put, wrong
from .tools import Tools, alone, deadline_of
from .values import TOO_LATE, Kind, Why

OK, WARNING, CRITICAL, UNKNOWN = range(4)
STATUSES = ("OK", "WARNING", "CRITICAL", "UNKNOWN")
EVERYTHING = "~:"
BOUND = r"-?(?:[0-9]+(?:\.[0-9]*)?|\.[0-9]+)"
RANGE = re.compile(rf"(@?)(?:(~|{BOUND})?:({BOUND})?|({BOUND}))")


class Range(NamedTuple):
    """A range of monitoring plugins: it alerts outside the range, or inside if the word has @."""

    word: str
    inside: bool
    low: Decimal
    high: Decimal

    def alerts(self, number: Decimal) -> bool:
        """Returns whether the number causes an alert."""
        return (self.low <= number <= self.high) == self.inside


class Verdict(NamedTuple):
    """A status of a plugin, and why."""

    status: int
    text: str
    numbers: str = ""  # for monitoring, which finds them after `|`


def range_of(word: str) -> Range:
    """Returns the range of a word; an empty word holds every number."""
    word = word.strip() or EVERYTHING
    found = RANGE.fullmatch(word)
    if not found:
        raise wrong("no range: " + word)
    low, high = found[2] or "0", found[3] or found[4] or "inf"
    made = Range(word, bool(found[1]), Decimal(low.replace("~", "-inf")), Decimal(high))
    if made.low > made.high:
        raise wrong("no range: " + word)
    return made


def verdict_on(reading: Reading, warning: Range, critical: Range) -> Verdict:
    """Returns the status of the value for monitoring."""
    value = reading.value
    if value.why.is_gone or value.why is Why.NO_NUMBER:
        return Verdict(CRITICAL, value.fault)
    if value.kind is not Kind.NUMBER:
        return Verdict(UNKNOWN, value.fault or "no number: " + value.shown())
    number = Decimal(value.text)
    status = WARNING if warning.alerts(number) else OK
    if critical.alerts(number):
        status = CRITICAL
    by_flags, flags = verdict_on_flags(reading)
    text = ", ".join(filter(None, [reading.shown, flags]))
    numbers = f"value={number:f};{warning.word};{critical.word}"
    order = (OK, UNKNOWN, WARNING, CRITICAL)  # UNKNOWN is less than an alert, more than OK
    return Verdict(max(status, by_flags, key=order.index), text, numbers)


def verdict_on_flags(reading: Reading) -> tuple[int, str]:
    """Returns the status for the flags. A fault is critical, since the value means nothing then. If
    the point is out of service, the value is not the plant's. The other flags are shown."""
    flags = reading.flags
    if flags.fault:
        return UNKNOWN, reading.told_flags
    if "fault" in flags.bits:
        return CRITICAL, reading.told_flags
    return WARNING if "out-of-service" in flags.bits else OK, reading.told_flags


def looked_up(words: Sequence[str], deadline: float) -> Point | None:
    """Returns the point of these words; None if its host's name isn't looked up in time."""
    found: Future[Point] = Future()

    def look() -> None:
        try:
            found.set_result(point_of("", words))
        except Failure as failure:
            found.set_exception(failure)

    threading.Thread(target=look, daemon=True).start()  # nothing else can end the lookup
    with suppress(TimeoutError):
        return found.result(min(deadline - time.monotonic(), threading.TIMEOUT_MAX))
    return None


def _asked(controller: Controller, point: Point, with_flags: bool) -> tuple[Reading, str]:
    """Returns the value of the point, and the fault that the object reports, if any."""
    (reading,) = readings_of(controller, [point], with_flags, with_texts=True)
    if "fault" not in reading.flags.bits:
        return reading, ""
    value = controller.value(point.ref.other(standard.RELIABILITY))
    return reading, "" if value.fault or value.text == "0" else value.named


def check(words: argparse.Namespace) -> int:
    """Prints a line for monitoring, and returns the status."""
    ranges = range_of(words.warning), range_of(words.critical)
    deadline, verdict = deadline_of(words.timeout), Verdict(CRITICAL, TOO_LATE)
    point = looked_up(([words.hostname] if words.hostname else []) + words.words, deadline)
    if point:
        with Controller(Tools.of(words), point.address, deadline) as controller:
            job = partial(_asked, controller, point, with_flags=not words.no_flags)
            reading, reliability = alone(controller.tools, job)
        verdict = verdict_on(reading, *ranges)
        if reliability:
            verdict = verdict._replace(text=f"{verdict.text}: {reliability}")
    text = verdict.text.replace("|", "/") + (" | " + verdict.numbers if verdict.numbers else "")
    put(f"BACNET {STATUSES[verdict.status]} - {text}\n")
    return verdict.status
