"""What the program reads and writes: streams, files, and journals, which are scripts for bactrace;
its failures; and texts as a terminal or a table can show them."""

from __future__ import annotations

import csv
import fcntl
import io
import json
import os
import pkgutil
import re
import signal
import stat
import sys
import time
import unicodedata
from collections import deque
from contextlib import suppress
from typing import BinaryIO, Iterable, Iterator, Mapping, Sequence

MISSING, WRONG_WORDS, BROKEN = 1, 2, 3  # statuses; 0 means that all requested values came
SIGNALS = (signal.SIGINT, signal.SIGHUP, signal.SIGTERM)  # the signals that end the program
MOST_JOURNAL = 4 << 20  # octets of a journal, after which another one is begun
MOST_KEPT, BLOCK = 100_000, 65536  # lines that wait; octets searched at once


class Failure(Exception):
    """Ends the program with a line for standard error, if there is one, and a status."""

    def __init__(self, text: str, status: int) -> None:
        super().__init__(clean(text))
        self.status = status


def wrong(text: str) -> Failure:
    """Returns the failure of words that are refused."""
    return Failure(text, WRONG_WORDS)


def put(text: str) -> None:
    """Writes a text to standard output, at once. A reader may stop, like `head`."""
    octets = text.encode("utf-8", "backslashreplace")
    try:
        while octets:
            octets = octets[os.write(1, octets) :]
    except BrokenPipeError:
        raise Failure("", BROKEN) from None
    except OSError as error:
        raise Failure("writing failed", BROKEN) from error


def show(text: str) -> None:
    """Writes a text to standard error, if that is open."""
    with suppress(OSError):
        if sys.stderr is not None:
            os.write(2, text.encode("utf-8", "backslashreplace"))


def on_terminal() -> bool:
    """Whether standard error is a terminal."""
    with suppress(OSError, ValueError):
        return sys.stderr is not None and sys.stderr.isatty()
    return False


ESCAPE = re.compile(r"\\(?:[\\nrt]|x[0-9a-f]{2}|u[0-9a-f]{4}|U[0-9a-f]{8})")
FORMULA = re.compile(r"[=+\-@\t\r]")
PLAIN_NUMBER = re.compile(r"-?[0-9.]+(e[-+]?[0-9]+)?")


def clean(text: str) -> str:
    """A text with all characters escaped that would control a terminal or end a line."""
    if text.isprintable():
        return text
    return "".join(
        char if char.isprintable() else char.encode("unicode_escape").decode() for char in text
    )


def escaped(text: str) -> str:
    """Returns a foreign text, escaped as by `clean`. If a character is escaped, or the text looks
    as if one were, each backslash is doubled: so no two texts look alike."""
    if text.isprintable() and not ESCAPE.search(text):
        return text
    return clean(text.replace("\\", "\\\\"))


def stamp(seconds: float | None = None) -> str:
    """A time as 2026-11-27T08:13:42Z; without an argument, the present time."""
    return time.strftime("%Y-%m-%dT%H:%M:%SZ", time.gmtime(seconds))


def clock_drift(text: str) -> str:
    """By how much a local time like 2026-11-27T08:13:42.05 is ahead; empty if it is not a time."""
    try:
        seconds = time.mktime(time.strptime(text[:19], "%Y-%m-%dT%H:%M:%S"))
    except (ValueError, OverflowError):
        return ""
    return f"{seconds - int(time.time()):+.0f} s"


def moment(millis: int) -> str:
    """A time in milliseconds as 2026-11-27T08:13:42.123Z."""
    return f"{stamp(millis // 1000)[:-1]}.{millis % 1000:03d}Z"


def times(count: int, what: str) -> str:
    """A number with a noun: 1 device, 2 devices."""
    return f"{count} {what}{'' if count == 1 else 's'}"


def width(text: str) -> int:
    """Returns how many columns of a terminal a text needs."""
    if text.isascii():
        return len(text)
    marks = sum(unicodedata.combining(char) != 0 for char in text)
    wide = sum(unicodedata.east_asian_width(char) in "WF" for char in text)
    return len(text) + wide - marks


def table(rows: Sequence[Sequence[str]]) -> list[str]:
    """Lines of rows, each column as wide as its widest cell, and a dash where a cell is empty."""
    rows = [[cell or "-" for cell in row[:-1]] + [row[-1]] for row in rows]
    widths = [max(map(width, column)) for column in zip(*rows)]
    return [
        "  ".join(cell + " " * (wide - width(cell)) for cell, wide in zip(row, widths)).rstrip()
        for row in rows
    ]


def json_line(told: Mapping[str, object]) -> str:
    """A line of JSON."""
    return json.dumps(told, ensure_ascii=False) + "\n"


def csv_lines(rows: Sequence[Sequence[str]], mark: str = ",") -> str:
    """Rows of CSV, in which no cell is a formula to a spreadsheet."""
    text = io.StringIO()
    writer = csv.writer(text, delimiter=mark, lineterminator="\n")
    writer.writerows([[harmless(it) for it in row] for row in rows])
    return text.getvalue()


def harmless(cell: str) -> str:
    """Returns the cell, after a quotation mark if a spreadsheet would read it as a formula."""
    return "'" + cell if FORMULA.match(cell) and not PLAIN_NUMBER.fullmatch(cell) else cell


def plain(cell: str) -> str:
    """Returns the cell of which `harmless` has made this one."""
    return cell[1:] if cell[:1] == "'" and harmless(cell[1:]) == cell else cell


def content_of(name: str) -> str:
    """Returns the text of a file of this package."""
    return (pkgutil.get_data(__name__, name) or b"").decode()


def opened(path: str) -> BinaryIO:
    """The file, to be read; `-` is standard input."""
    if path != "-":
        return open(path, "rb")
    if sys.stdin is None:
        raise Failure("cannot read standard input: it is closed", BROKEN)
    return sys.stdin.buffer


def octets_of(path: str) -> bytes:
    """The octets of such a file."""
    try:
        with opened(path) as file:
            return file.read()
    except OSError as error:
        raise Failure(f"cannot read {path}: {error.strerror}", BROKEN) from error


def is_replaceable(path: str) -> bool:
    """Whether the path is a plain file, or does not exist."""
    return not os.path.lexists(path) or (os.path.isfile(path) and not os.path.islink(path))


def replace_file(path: str, parts: Iterable[str], for_all: bool = False) -> None:
    """Replaces a file as a whole, or leaves it as it was. A signal waits until that is done. An
    existing file keeps its permissions. The umask sets those of a new one, unless it is for all."""
    mask = signal.pthread_sigmask(signal.SIG_BLOCK, SIGNALS)
    try:
        _replace(path, parts, for_all)
    except OSError as error:
        raise Failure(f"writing failed: {path}: {error.strerror}", BROKEN) from error
    finally:
        signal.pthread_sigmask(signal.SIG_SETMASK, mask)


def _replace(path: str, parts: Iterable[str], for_all: bool) -> None:
    import tempfile  # pylint: disable=import-outside-toplevel

    folder, name = os.path.split(path)
    mask = os.umask(0)
    os.umask(mask)
    mode = 0o644 if for_all else 0o666 & ~mask
    if os.path.exists(path):
        mode = stat.S_IMODE(os.stat(path).st_mode)
    number, new = tempfile.mkstemp(prefix=name + ".", dir=folder or ".")
    try:
        with open(number, "w", encoding="utf-8") as file:
            file.writelines(parts)
            file.flush()
            os.fchmod(number, mode)
            os.fsync(number)
        os.rename(new, path)
    except BaseException:
        os.unlink(new)
        raise


class Journals:
    """The folder of the journals, if they are kept; and why a journal is not whole."""

    def __init__(self, folder: str = "") -> None:
        if folder and not os.path.isdir(folder):
            raise Failure("no folder: " + folder, BROKEN)
        self.folder, self.fault = folder, ""
        self._latest: dict[str, int] = {}  # numbers of journals by their paths

    def begun(self, address: str) -> Journal | None:
        """Begins a journal for a bacrun that asks this address, if journals are kept."""
        path = os.path.join(self.folder, re.sub("[:/]", "_", address))
        number = self._latest.get(path, 0) + 1
        while self.folder:
            self._latest[path] = number
            try:
                return Journal(self, open(f"{path}-{number}.trace", "xb", buffering=0))
            except FileExistsError:
                number += 1
            except OSError as error:
                self.failed(path, error)
                break
        return None

    def failed(self, path: str, error: OSError) -> None:
        """Notes the first fault; requests go on without the journal."""
        self.fault = self.fault or f"cannot write {path}: {error.strerror}"


class Journal:
    """A journal. If it can't be written it ends, and its folder notes the fault."""

    def __init__(self, journals: Journals, file: io.FileIO | None = None) -> None:
        self._journals, self._file, self._size = journals, file, 0

    @property
    def is_full(self) -> bool:
        """Whether another journal is needed."""
        return self._size >= MOST_JOURNAL

    def add(self, line: str) -> None:
        """Adds a line."""
        octets = os.fsencode(line) + b"\n"
        self._size += len(octets)
        try:
            while self._file and octets:
                octets = octets[self._file.write(octets) or 0 :]
        except OSError as error:
            self._journals.failed(str(self._file and self._file.name), error)
            self.close()

    def close(self) -> None:
        """Ends the journal."""
        if self._file:
            with suppress(OSError):
                self._file.close()
        self._file = None


class Rows:
    """A CSV file that grows by whole lines, whatever ends the program or fills the disk. No other
    program of this kind has it open. Lines that can't be written wait."""

    def __init__(self, path: str, head: str) -> None:
        self.path, self.fault, self.lost = path, "", 0
        self._waiting: deque[bytes] = deque()
        try:
            self._file = os.open(path, os.O_RDWR | os.O_CREAT | os.O_APPEND, 0o666)
            if not stat.S_ISREG(os.fstat(self._file).st_mode):
                raise wrong("no plain file: " + path)
            fcntl.flock(self._file, fcntl.LOCK_EX | fcntl.LOCK_NB)
            octets = head.encode()
            if not octets.startswith(os.pread(self._file, len(octets), 0)):
                raise wrong("a file of something else: " + path)
            self._end = self._whole(os.fstat(self._file).st_size)
            os.ftruncate(self._file, self._end)
        except BlockingIOError:
            raise Failure("another program writes to " + path, BROKEN) from None
        except OSError as error:
            raise Failure(f"cannot write {path}: {error.strerror}", BROKEN) from error
        if not self._end:
            self.add([head])

    def _whole(self, end: int) -> int:
        """Returns where the last whole line ends: a loss of power may leave a part, or zeros."""
        start = max(0, end - BLOCK)
        found = os.pread(self._file, end - start, start).rfind(b"\n") + 1
        return start + found if found or not start else self._whole(start)

    def rows(self, most: int) -> Iterator[list[str]]:
        """Yields the rows in the last `most` octets of the file."""
        with open(self.path, "rb") as file:
            file.seek(max(0, self._end - most))
            if self._end > most:
                file.readline()  # it may be a part of one
            with io.TextIOWrapper(file, "utf-8", "replace", newline="") as text:
                yield from csv.reader(text)

    def add(self, lines: list[str]) -> None:
        """Adds lines, and makes sure that they are on the disk; if not, the latest ones wait."""
        self._waiting.extend(it.encode("utf-8", "backslashreplace") for it in lines)
        while len(self._waiting) > MOST_KEPT:
            self._waiting.popleft()
            self.lost += 1
        octets = b"".join(self._waiting)
        try:
            if not os.fstat(self._file).st_nlink:
                raise OSError(0, "it was taken away")
            if self.fault:
                os.ftruncate(self._file, self._end)
            at = 0
            while at < len(octets):
                at += os.write(self._file, octets[at:])
            os.fsync(self._file)
        except OSError as error:
            self.fault = f"cannot write {self.path}: {error.strerror}"
            with suppress(OSError):
                os.ftruncate(self._file, self._end)
            return
        self.fault, self._end = "", self._end + len(octets)
        self._waiting.clear()
