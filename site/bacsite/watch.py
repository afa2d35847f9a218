"""Asks for points again and again, and prints, keeps and draws their values."""

from __future__ import annotations

import argparse
import os
import shutil
import sys
import threading
import time
from contextlib import suppress
from datetime import datetime
from queue import Empty, SimpleQueue
from typing import Dict, List, Mapping, NamedTuple, Sequence, Union

from .controller import Controller
from .decimals import DECIMAL
from .page import Line, Sample, charts_page_of
from .points import Point, by_address, distinct, point_of, points_of
from .poll import Meaning, Meanings, Reading, readings_of
from .streams import BROKEN, MISSING, Failure, Rows, csv_lines, is_replaceable, moment, plain, put
from .streams import replace_file, show, table, width, wrong
from .tools import LOOK_EVERY, Tools
from .values import NOT_ASKED, why_of

HEAD = "time,point,value,unit,state,flags,missing\n"
LONGEST = 3  # times the pause: after a longer time a round was missed
PAGE_EVERY = 5.0  # seconds
MOST_EARLIER, LATEST = 32 << 20, 1 << 20  # octets of the file that are read: for the page, or not
BARS = "▁▂▃▄▅▆▇█"
NO_BAR = "·"
COLUMNS = 30  # of a curve
LEAST_SECONDS, LEAST_ROUNDS = 60, COLUMNS  # of the time that a curve shows


class Row(NamedTuple):
    """The value of a point when it was read, at a time in milliseconds."""

    at: int
    point: Point
    text: str = ""
    meaning: Meaning = Meaning()
    flags: str = ""
    fault: str = ""
    clock: int = 0  # the time by a clock that stops while the machine sleeps, and is never set

    def cells(self) -> list[str]:
        """The cells of the row in the file: time, point, and what a watch may find changed."""
        found = [self.text, self.meaning.unit, self.meaning.state, self.flags, self.fault]
        return [moment(self.at), self.point.name, *found]


Found = Union[List[Row], BaseException]  # rows, none of them at the end; or an error
Charts = List[List[str]]  # the names of the points of each


class Rounds:
    """Rounds of all controllers, which begin together, by a clock that does not drift."""

    def __init__(self, tools: Tools, words: argparse.Namespace, points: Sequence[Point]) -> None:
        self._tools, self._every, self._flags = tools, words.every, not words.no_flags
        self._most = words.rounds or sys.maxsize
        self._until = vars(words)["for"] or float("inf")
        self._begun = time.monotonic()
        self._slots = threading.Semaphore(tools.at_once)
        groups = by_address(points).values()
        self._keeps = len(groups) <= tools.at_once  # whether each has a bacrun all the time
        self.running = len(groups)
        self.found: SimpleQueue[Found] = SimpleQueue()
        for group in groups:
            threading.Thread(target=self._run, args=[group], daemon=True).start()

    def taken(self) -> list[Row]:
        """Returns the rows that have come, once there are some or a signal may have come."""
        found: List[Found] = []
        with suppress(Empty):
            found.append(self.found.get(timeout=LOOK_EVERY))
            while True:
                found.append(self.found.get_nowait())
        rows: List[Row] = []
        for it in found:
            if isinstance(it, BaseException):
                raise it
            self.running -= not it
            rows += it
        return rows

    def _run(self, points: Sequence[Point]) -> None:
        """Asks the points of one controller when they are due."""
        try:
            with Controller(self._tools, points[0].address) as controller:
                self._ask(controller, points)
            self.found.put([])
        except BaseException as error:  # pylint: disable=broad-except
            self.found.put(error)  # which ends the program

    def _ask(self, controller: Controller, points: Sequence[Point]) -> None:
        turn, ended, meanings = 0, self._tools.processes.ended, Meanings(controller)
        before: Dict[str, Row] = {}
        last, step = _clock(), int(self._every * 1000)
        for _ in range(self._most):
            due = turn * self._every
            if due >= self._until or ended.wait(self._begun + due - time.monotonic()):
                break
            with self._slots:
                is_late = _clock() - last > LONGEST * step
                rows = _asked(points, meanings, self._flags)
                if not self._keeps:
                    controller.rest()
            if not ended.is_set():
                self.found.put(with_gaps(rows, before, step, is_late))
            before, last = {it.point.name: it for it in rows}, _clock()
            turn = max(turn, int((time.monotonic() - self._begun) / self._every)) + 1


def with_gaps(
    rows: Sequence[Row], before: Mapping[str, Row], step: int, is_late: bool
) -> list[Row]:
    """Returns the rows, each after a row for a gap if nothing was asked before it: the round is
    late, or the machine slept since the row before, or its time was set."""
    found: List[Row] = []
    for row in rows:
        last = before.get(row.point.name)
        if last:
            jump = row.at - last.at - (row.clock - last.clock)
            found += [unasked(last, step)] * (is_late or abs(jump) > LONGEST * step)
        found.append(row)
    return found


def unasked(last: Row, step: int) -> Row:
    """Returns a row for the gap after this row."""
    return Row(last.at + step, last.point, fault=NOT_ASKED)


def _asked(points: Sequence[Point], meanings: Meanings, with_flags: bool) -> list[Row]:
    """Returns the present values; none if the device was another one before or after."""
    controller = meanings.controller
    controller.again()
    found: List[Row] = []
    for part in controller.parts(points):
        controller.renew()
        at, clock = time.time_ns() // 10**6, _clock()
        readings = readings_of(controller, part, with_flags)
        meant = meanings.of([(it.point.ref, it.value) for it in readings])
        rows = [_row(at, it, meaning) for it, meaning in zip(readings, meant)]
        found += [it._replace(clock=clock) for it in rows]
    why = "" if controller.instance is None or controller.silent else controller.has_changed()
    if why or any(why_of(it.fault).is_gone for it in found):
        meanings.known.clear()  # another device may be there next time
    other = [it for it in found if why and it.point.device is not None]
    doubted = {id(it): Row(it.at, it.point, fault=why, clock=it.clock) for it in other}
    return [doubted.get(id(it), it) for it in found]


def _row(at: int, reading: Reading, meaning: Meaning) -> Row:
    value, flags = reading.value, reading.flags
    if value.fault:
        return Row(at, reading.point, fault=value.fault)
    told = "" if flags.fault else flags.text
    if reading.missing:  # the object says that its value is not good
        fault = Reading(reading.point, value, "", flags, meaning.state).missing
        return Row(at, reading.point, "", Meaning(meaning.name, meaning.unit), told, fault)
    return Row(at, reading.point, value.text or '""', meaning, told)


def _clock() -> int:
    """Returns the milliseconds since some time, without those in which the machine slept."""
    return int(time.monotonic() * 1000)


def is_terminal() -> bool:
    """Whether standard output is a terminal on which lines can be overwritten."""
    return sys.stdout is not None and os.isatty(1) and os.environ.get("TERM", "dumb") != "dumb"


class Live:
    """The lines on the terminal."""

    def __init__(self, every: float) -> None:
        self._every = every
        self._height = 0  # lines that are shown

    def clear(self) -> None:
        """Removes the lines."""
        if self._height:
            put(f"\x1b[{self._height}A\r\x1b[J")
        self._height = 0

    def draw(self, lines: Sequence[Line]) -> None:
        """Writes the lines again, as many as there is room for."""
        columns, rows = shutil.get_terminal_size()
        shown = table([self._cells(it) for it in lines[: max(1, rows - 2)]])
        if len(shown) < len(lines):
            shown.append(f"and {len(lines) - len(shown)} more points")
        back = f"\x1b[{self._height}A\r" if self._height else ""
        put(back + "".join(f"{_cut(it, columns)}\x1b[K\n" for it in shown) + "\x1b[J")
        self._height = len(shown)

    def _cells(self, line: Line) -> list[str]:
        """Time, name, curve and value; in place of a value the reason."""
        latest = line.samples[-1] if line.samples else Sample(0, "", "nothing yet")
        note = f"({latest.note})" if latest.note else ""
        value = [latest.text, line.unit, note, latest.set_flags]
        seconds = max(LEAST_SECONDS, self._every * LEAST_ROUNDS)
        return [
            time.strftime("%H:%M:%S", time.localtime(latest.at // 1000)) if latest.at else "",
            f"{line.name} {line.label}".rstrip(),
            curve_of(line.samples, time.time_ns() // 10**6, seconds, self._every),
            " ".join(filter(None, value if latest.text else ["no value:", latest.note])),
        ]


def curve_of(samples: Sequence[Sample], until: int, seconds: float, every: float) -> str:
    """The values of the last seconds as bars: each is the latest value at the end of its part of
    the time. The last value is shown for two rounds."""
    part, first = seconds * 1000 / COLUMNS, until - seconds * 1000
    places: dict[int, Sample] = {}
    for it in reversed(samples):
        place = max(-1, int((it.at - first) // part))
        places.setdefault(min(place, COLUMNS - 1), it)
        if place < 0:
            break
    shown: list[Sample | None] = [places.get(-1)]
    for at in range(COLUMNS):
        shown.append(places.get(at, shown[-1]))
    last = (samples[-1].at + 2 * every * 1000 - first) // part if samples else -1
    size = _sizes([it.text for it in shown if it and it.text])
    found = ["" if it is None else size.get(it.text, NO_BAR) for it in shown[1:]]
    return "".join(it if it and at <= last else " " for at, it in enumerate(found))


def _sizes(texts: Sequence[str]) -> dict[str, str]:
    """The bar for each text: by its number, or by its position among the others."""
    names = sorted(set(texts))
    numbers = [float(it) for it in names if DECIMAL.fullmatch(it)]
    if len(numbers) < len(names):
        numbers = [float(at) for at in range(len(names))]
    least, most = min(numbers, default=0.0), max(numbers, default=0.0)
    scale = (len(BARS) - 1) / (most - least) if most > least else 0.0
    return {it: BARS[round((number - least) * scale)] for it, number in zip(names, numbers)}


def _cut(text: str, columns: int) -> str:
    """The text, as far as it fits into a line."""
    while width(text) >= columns:
        text = text[:-1]
    return text


class Watch:
    """All known values of the points, which are printed, kept and drawn."""

    def __init__(self, points: Sequence[Point], charts: Charts, words: argparse.Namespace) -> None:
        self.words, self.charts = words, charts
        self.latest: Dict[str, Row] = {}
        self.lines = {it.name: Line(it) for it in points}
        self.file = Rows(words.csv, HEAD) if words.csv else None
        self.live = Live(words.every) if is_terminal() and not words.all else None
        self.faults: Dict[str, str] = {}
        self.drawn = 0.0
        if self.file:
            self._take_earlier(self.file, {it.name: it for it in points})
        self.earlier = set(self.latest)  # names of points whose latest row is of an earlier watch

    def _take_earlier(self, file: Rows, known: Dict[str, Point]) -> None:
        """Notes the rows of an earlier watch: all for the page, otherwise the latest ones."""
        for cells in file.rows(MOST_EARLIER if self.words.page else LATEST):
            with suppress(ValueError, KeyError):
                when, name, text, unit, state, flags, fault = map(plain, cells)
                at = round(datetime.fromisoformat(when.replace("Z", "+00:00")).timestamp() * 1000)
                meaning = Meaning(unit=unit, state=state)
                self._noted(Row(at, known[name], text, meaning, flags, fault))

    def _noted(self, row: Row) -> Row:
        line, (label, unit, state) = self.lines[row.point.name], row.meaning
        self.latest[row.point.name] = row
        line.unit, line.label = unit or line.unit, label or line.label
        line.add(Sample(row.at, row.text, state or row.fault, row.flags))
        return row

    def take(self, rows: Sequence[Row]) -> None:
        """Notes rows, and prints them."""
        told, found = "", []
        for row in rows:
            last, step = self.latest.get(row.point.name), int(self.words.every * 1000)
            is_first = row.point.name in self.earlier
            if last and is_first and not 0 <= row.at - last.at <= LONGEST * step:
                found.append(self._noted(unasked(last, step)))
            self.earlier.discard(row.point.name)
            found.append(self._noted(row))
            if self.words.all or not last or last.cells()[2:] != row.cells()[2:]:
                told += "\t".join(it or "-" for it in row.cells()) + "\n"
        if self.file and found:
            self.file.add([csv_lines([it.cells()]) for it in found])
            self._tell("csv", self.file.fault)
        if self.live:
            self.live.draw(list(self.lines.values()))
        else:
            put(told)

    def _tell(self, file: str, fault: str) -> None:
        """Shows once what is wrong with a file, and once that it is over."""
        if fault != self.faults.get(file, ""):
            if self.live:
                self.live.clear()
            show(f"bacsite: {fault or f'the file of --{file} is written again'}\n")
        self.faults[file] = fault

    def draw(self, is_over: bool) -> None:
        """Makes the page, if it is time for that."""
        if self.words.page and (is_over or time.monotonic() >= self.drawn):
            self.drawn = time.monotonic() + max(PAGE_EVERY, self.words.every)
            charts = [[self.lines[name] for name in chart] for chart in self.charts]
            page = charts_page_of(charts, self.words.every, is_over)
            try:
                replace_file(self.words.page, page)
                self._tell("page", "")
            except Failure as failure:
                self._tell("page", str(failure))

    def end(self) -> int:
        """Makes the page for the last time; returns the status of the program."""
        self.draw(is_over=True)
        if self.file and self.file.fault:
            self.file.add([])
        if self.file and (self.file.fault or self.file.lost):
            raise Failure(self.file.fault or f"{self.file.lost} lines are lost", BROKEN)
        missing = [it for it in self.lines if it not in self.latest or self.latest[it].fault]
        return MISSING if missing else 0


def _chosen(words: Sequence[str]) -> tuple[list[Point], Charts]:
    """Returns the points, and the charts of their names; fails if a point is wrong."""
    parts: list[list[str]] = [[]]
    for word in words:
        if word == "+":
            parts.append([])
        else:
            parts[-1].append(word)
    if len(parts[0]) < 4:
        points = points_of(parts[0][0] if parts[0] else "")
        charts = _joined([parts[0][1:], *parts[1:]])
    else:
        points = [point_of("_".join(it), it) for it in parts]
        charts = [[it.name for it in points]]
    for point in points:
        if point.fault:
            raise wrong(f"{point.name}: {point.fault}")
    names, drawn = [it.name for it in distinct(points)], [it for chart in charts for it in chart]
    for name in drawn:
        if name not in names or drawn.count(name) > 1:
            raise wrong(f"{'no point' if name not in names else 'two charts'} of this name: {name}")
    return points, [*charts, *([it] for it in names if it not in drawn)]


def _joined(parts: Sequence[Sequence[str]]) -> Charts:
    """Returns names by their charts: a + joins the last name and the first one after it."""
    groups: Charts = []
    for part in parts:
        if groups:
            groups[-1] += part[:1]
        groups += [[it] for it in (part[1:] if groups else part)]
    return groups


def watch(words: argparse.Namespace) -> int:
    """Asks for the points until a signal ends the watch, or all rounds are done."""
    points, charts = _chosen(words.words)
    if not 0.1 <= words.every <= 86400:
        raise wrong(f"not 0.1 to 86400 seconds: {words.every}")
    if words.page and not is_replaceable(words.page):
        raise wrong("no plain file: " + words.page)
    kept, tools = Watch(points, charts, words), Tools.of(words)
    tools.heed(lambda *_: tools.processes.end())
    rounds = Rounds(tools, words, points)
    try:
        while rounds.running:
            kept.take(rounds.taken())
            kept.draw(is_over=False)
        return kept.end()
    finally:
        tools.processes.end()
