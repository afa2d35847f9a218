"""Runs bactool, which sends requests and reads answers, for many controllers at the same time."""

from __future__ import annotations

import argparse
import itertools
import os
import select
import shutil
import signal
import subprocess
import sys
import threading
import time
from collections import deque
from concurrent.futures import Future, ThreadPoolExecutor
from contextlib import contextmanager, suppress
from queue import Empty, SimpleQueue
from types import FrameType
from typing import Callable, Iterator, NamedTuple, Sequence, TypeVar

from .streams import BROKEN, SIGNALS, Failure, Journals, clean, on_terminal, show
from .values import TOO_LATE

FOREVER = float("inf")
LONGEST_START = 1.0  # seconds
MOST_OCTETS = 65536  # of one reading
FIRST_PORT, PORTS = 49152, 16384  # ports that no service has for long, by RFC 6335
FAR_APART = 6229  # times process numbers less than 700 apart: 8 ports or more
MOST_TIMEOUT = 60000  # milliseconds that a tool takes
MOST_TRIES = 100  # attempts with other ports, if another program has one
BIND_FAILED = "bactool: bind failed"
LOOK_EVERY = 0.2  # seconds: how soon a signal or a time that is up is noticed
Result = TypeVar("Result")


def deadline_of(seconds: int | None) -> float:
    """Returns the time by `time.monotonic` after these seconds; without an argument, never."""
    return time.monotonic() + seconds if seconds else FOREVER


class Outcome(NamedTuple):
    """How a process ended: its status, its lines, and the first line of standard error."""

    status: int | None  # None if it was not begun, or was ended early
    lines: Sequence[str] = ()
    told: str = ""


class Process:
    """A process: lines go in, and lines come out, until its time is over."""

    def __init__(self, popen: subprocess.Popen[bytes], until: float) -> None:
        self._popen, self._until = popen, until
        self._rest, self._is_late = b"", False
        self._lines: deque[str] = deque()
        self._waits = select.poll()
        if popen.stdout:
            self._waits.register(popen.stdout, select.POLLIN)

    def put(self, text: str) -> None:
        """Hands the process a text. `line` shows whether it has ended."""
        with suppress(BrokenPipeError):
            assert self._popen.stdin, "it is a pipe"
            os.write(self._popen.stdin.fileno(), os.fsencode(text))

    def line(self) -> str | None:
        """Returns the next line, once it has come; None if the process has ended. `end_if_late`
        watches the time: a look at it here would need Python's lock once more."""
        assert self._popen.stdout, "it is a pipe"
        while not self._lines:
            octets = os.read(self._popen.stdout.fileno(), MOST_OCTETS)
            if not octets:
                return None
            *lines, self._rest = (self._rest + octets).split(b"\n")
            self._lines.extend(_texts(lines))
        return self._lines.popleft()

    def is_ready(self, seconds: float) -> bool:
        """Returns whether more output, or the end of the process, comes within these seconds."""
        return bool(self._lines) or bool(self._waits.poll(seconds * 1000))

    def outcome(self) -> Outcome:
        """Waits for its end, and returns the outcome, with the lines that were not read."""
        out, err = self._popen.communicate()
        lines = [*self._lines, *_texts((self._rest + out).splitlines())]
        told = _texts(err.splitlines())
        if self._is_late:
            return Outcome(None, lines, TOO_LATE)
        return Outcome(self._popen.returncode, lines, told[0] if told else "")

    def kill(self) -> None:
        """Ends the process at once."""
        self._popen.kill()

    def end_if_late(self) -> None:
        """Ends the process if its time is up."""
        if time.monotonic() >= self._until:
            self._is_late = True
            self.kill()


class NotBegun(Exception):
    """Why a process was not begun."""


class Processes:
    """Begins processes. `end` ends running ones, and lets no other begin."""

    def __init__(self) -> None:
        self.ended = threading.Event()
        self._lock = threading.RLock()  # a signal may come while the main thread has it
        self._running: set[Process] = set()
        self._starting = 0

    def start(self, command: Sequence[str], until: float = FOREVER) -> Process:
        """Starts a process; without the lock, since the start takes longer than anything else."""
        with self._lock:
            self._starting += 1
        try:
            if self.ended.is_set():
                raise NotBegun("ended")
            pipe = subprocess.PIPE
            popen = subprocess.Popen(  # pylint: disable=consider-using-with
                command, stdin=pipe, stdout=pipe, stderr=pipe, start_new_session=True
            )
            process = Process(popen, until)
            with self._lock:
                self._running.add(process)
                if self.ended.is_set():
                    process.kill()
            return process
        except OSError as error:
            raise NotBegun(f"cannot run {command[0]}: {error.strerror}") from error
        finally:
            with self._lock:
                self._starting -= 1

    def over(self, process: Process) -> Outcome:
        """Waits for a process, and returns how it ended."""
        try:
            return process.outcome()
        finally:
            with self._lock:
                self._running.discard(process)

    def end_late(self) -> None:
        """Ends those whose time is up."""
        with self._lock:
            for process in self._running:
                process.end_if_late()

    def end(self) -> None:
        """Ends running processes. One that is just being started ends itself, which is awaited."""
        with self._lock:
            self.ended.set()
            for process in self._running:
                process.kill()
        latest = time.monotonic() + LONGEST_START
        while self._starting and time.monotonic() < latest:
            time.sleep(0.001)


def _texts(lines: Sequence[bytes]) -> list[str]:
    return [clean(it.decode("ascii", "backslashreplace")) for it in lines]


def ports() -> Iterator[int]:
    """Yields a port for each tool, and the same one only after 16,384 tools: a tool would accept a
    late answer to an earlier tool at its port. The first one depends on the number of this process,
    so that programs which run at nearly the same time begin far apart."""
    return (FIRST_PORT + at % PORTS for at in itertools.count(os.getpid() * FAR_APART + 1))


class Tools:
    """Runs the tools. `end` ends the calls that run, and lets no other begin."""

    def __init__(self, tool: str, timeout: int, retries: int, at_once: int) -> None:
        self.tool, self.timeout, self.retries, self.at_once = tool, timeout, retries, at_once
        self.window = 1  # how many requests one controller has at the same time
        self.journals = Journals()
        self.processes = Processes()
        self.count = 0  # how many requests were made
        self.writes = 0  # how many writes are under way, or were at the end
        self._lock = threading.RLock()  # a signal may come while the main thread has it
        self._lines: dict[str, threading.Lock] = {}
        self._ports = ports()

    @classmethod
    def of(cls, words: argparse.Namespace) -> Tools:
        """Makes the tools that the words ask for; from now on signals end them."""
        tools = cls(_found(words.tools), words.apdu_timeout, words.apdu_retries, words.at_once)
        tools.window, tools.journals = words.window, words.journal
        tools.heed(tools._on_signal)
        return tools

    def start(self, words: Sequence[str], until: float = FOREVER) -> Process:
        """Begins a tool, with a port that no earlier tool had."""
        with self._lock:
            port = next(self._ports)
        command = [self.tool, words[0], "--port", str(port), *words[1:]]
        return self.processes.start(command, until)

    def run(
        self, words: Sequence[str], until: float = FOREVER, first: Process | None = None
    ) -> Outcome:
        """Returns how a tool ended that makes one request; `first` is one that runs already."""
        if not first:
            self.counted()
        for _ in range(MOST_TRIES):
            try:
                outcome = self.processes.over(first or self.start(words, until))
            except NotBegun as why:
                return Outcome(None, told=str(why))
            if outcome.told != BIND_FAILED:
                break
            first = None
        return outcome

    def line(self, address: str) -> threading.Lock:
        """Returns the lock for requests there: stations behind one router share its slow line."""
        with self._lock:
            return self._lines.setdefault(address.partition("/")[0], threading.Lock())

    def counted(self) -> None:
        """Counts a request."""
        with self._lock:
            self.count += 1

    @contextmanager
    def writing(self) -> Iterator[None]:
        """Counts a write as under way meanwhile."""
        self.counted()
        with self._lock:
            self.writes += 1
        yield
        with self._lock:
            if not self.processes.ended.is_set():  # a write that was ended may have been made
                self.writes -= 1

    def times(self, patience: int, retries: int | None = None) -> list[str]:
        """Returns the options for how long a tool waits."""
        retries = self.retries if retries is None else retries
        return ["--apdu-timeout", str(patience), "--apdu-retries", str(retries)]

    def session(self, times: Sequence[str], window: int, until: float = FOREVER) -> Process:
        """Begins a bacrun."""
        return self.start(["bacrun", *times, "--window", str(window)], until)

    def listener(self, port: int, until: float) -> Process:
        """Begins a bacrun at this port, which receives the answers of stations."""
        return self.processes.start([self.tool, "bacrun", "--port", str(port)], until)

    def heed(self, then: Callable[[int, FrameType | None], None]) -> None:
        """Has INT, HUP and TERM do something, except those that are ignored."""
        for number in SIGNALS:
            if signal.getsignal(number) != signal.SIG_IGN:
                signal.signal(number, then)

    def _on_signal(self, number: int, _: FrameType | None) -> None:
        self.processes.end()
        if self.writes:
            show("bacsite: ended by a signal: the write may have been made; read it back\n")
        signal.signal(number, signal.SIG_DFL)
        os.kill(os.getpid(), number)


class Search:
    """A Who-Is to an address, or to the router there. It waits while other requests are made."""

    def __init__(self, tools: Tools, address: str, patience: int, until: float) -> None:
        where = address.partition("/")[0]
        self._words = ["bacwi", "--mac", where, "--apdu-timeout", str(patience)]
        self._tools, self._until = tools, until
        self._begun: Process | None = None
        self._lines: list[str] = []
        self._is_over = False
        tools.counted()
        with suppress(NotBegun):  # `heard` tries again
            self._begun = tools.start(self._words, until)

    def wait_for(self, address: str, seconds: float) -> None:
        """Waits until this address has answered, but no longer than this many seconds."""
        latest = time.monotonic() + seconds
        while self._begun and self._begun.is_ready(max(0.0, latest - time.monotonic())):
            line = self._begun.line()
            self._lines += [line] if line else []
            if not line or address in line.split():
                return

    def heard(self, by_now: bool = False) -> list[tuple[int, str]]:
        """Returns instances and addresses of those who have answered, at the end or by now."""
        if by_now and self._begun:
            self._begun.kill()
        if not self._is_over:
            self._lines += self._tools.run(self._words, self._until, self._begun).lines
            self._is_over = True
        words = [[*line.split(), "", ""] for line in self._lines]
        return list(dict.fromkeys((int(it[0]), it[1]) for it in words if it[0].isdigit()))


def _found(folder: str | None) -> str:
    """Returns the path of bactool: in this folder, or else beside this program, or on PATH."""
    beside = os.path.dirname(os.path.realpath(sys.argv[0]))
    path = folder or beside + os.pathsep + os.environ.get("PATH", os.defpath)
    tool = shutil.which("bactool", path=path)
    if not tool:
        hint = "" if folder else " nor beside bacsite; --tools FOLDER says where it is"
        raise Failure("no bactool in " + (folder or "PATH") + hint, BROKEN)
    return tool


def side_by_side(
    tools: Tools, jobs: Sequence[Callable[[], Result]], in_order: bool = False, quiet: bool = False
) -> Iterator[Result]:
    """Yields the results of jobs as they come, or in their order. A terminal shows how many are
    done, except for quiet jobs, which print themselves. At the end all calls are ended."""
    with ThreadPoolExecutor(tools.at_once) as pool:
        try:
            futures = [pool.submit(job) for job in jobs]
            coming = _as_come(tools, futures, on_terminal() and not quiet)
            for future in futures if in_order else coming:
                while not future.done():
                    next(coming, None)
                yield future.result()
        finally:
            tools.processes.end()


def alone(tools: Tools, job: Callable[[], Result], quiet: bool = False) -> Result:
    """Returns the result of one job, which a signal can end."""
    (result,) = side_by_side(tools, [job], quiet=quiet)
    return result


def _as_come(
    tools: Tools, futures: Sequence[Future[Result]], shows: bool
) -> Iterator[Future[Result]]:
    done: SimpleQueue[Future[Result]] = SimpleQueue()
    for future in futures:
        future.add_done_callback(done.put)
    for count in range(len(futures)):
        came = None
        while not came:
            with suppress(Empty):
                came = done.get(timeout=LOOK_EVERY)
            tools.processes.end_late()
            if shows:  # a line, which goes where something is printed
                told = f"{count} of {len(futures)} done, {tools.count} calls "
                show("\r\x1b[K" if came else "\r" + told)
        yield came
