"""The words of the program. Its commands, arguments and options are a table: commands.txt."""

from __future__ import annotations

import argparse
import re
from importlib import import_module
from typing import Any, Callable, Iterator, NamedTuple, NoReturn, Sequence

from . import VERSION
from .streams import WRONG_WORDS, Failure, Journals, content_of, put, wrong

POINT = "[INSTANCE@]ADDRESS [real|double|integer] TYPE INSTANCE PROPERTY [INDEX]"
SHORT = ("-h", "-V", "-H", "-w", "-c", "-t")  # the options of one letter
UNITS_OF_TIME = {"s": 1, "m": 60, "h": 3600, "d": 86400}
MOST_DURATION = 1000 * 86400  # seconds


class Command(NamedTuple):
    """A section of the table: the function, its usual --at-once, its help, and its lines."""

    function: str  # with its module; it returns the status
    at_once: str  # empty if the command asks no controllers
    summary: str
    lines: list[list[str]]  # names, value, kind and help

    def work(self, words: argparse.Namespace) -> int:
        """Runs it. Only its module is loaded: monitoring starts the program again and again."""
        module, _, name = self.function.rpartition(".")
        function = getattr(import_module("." + module, __package__), name)
        return int(function(words))


def _sections(text: str) -> Iterator[tuple[str, Command]]:
    for section in text.split("\n= ")[1:]:
        head, summary, *lines = section.rstrip("\n").split("\n")
        name, function, at_once = (it.strip() for it in head.split("|"))
        cells = [[it.strip() for it in re.split(r" \|(?= |$)", line)] for line in lines]
        yield name, Command(function, at_once, summary[2:], cells)


TEXT = content_of("commands.txt")
DESCRIPTION = re.sub("(?m)^#.*\n", "", TEXT).split("\n= ")[0].lstrip("\n")
COMMANDS = dict(_sections(TEXT))
PROGRAM, ASKING = COMMANDS.pop("program"), COMMANDS.pop("asking")


class Parser(argparse.ArgumentParser):
    """A parser that writes and fails as the rest of the program does."""

    def __init__(self, **more: Any) -> None:
        super().__init__(**more)
        self._negative_number_matcher = re.compile(r"-\.?[0-9]")  # so begins no option, as -10:5

    def take(self, command: Command) -> Parser:
        """Adds the lines of a command, and returns the parser."""
        either = None
        for names, value, kind, told in command.lines:
            taker: argparse._ActionsContainer = self
            if kind == "either":
                taker = either = either or self.add_mutually_exclusive_group()
            taker.add_argument(*names.split(), **_argument(names, value, kind, told))
        return self

    def _print_message(self, message: str, file: object = None) -> None:
        put(message)

    def error(self, message: str) -> NoReturn:
        raise wrong(f"{message}; see {self.prog} --help")

    def parsed(self, given: Sequence[str]) -> argparse.Namespace:
        """Reads words."""
        try:
            return self.parse_args(given)
        except Failure as failure:
            if failure.status != WRONG_WORDS:
                raise
            odd = [it for it in given if re.match("-[^-]", it) and it[:2] not in SHORT]
            hint = "" if "--" in given or not odd else f"; put a value like {odd[0]} after --"
            raise wrong(f"{failure}{hint}") from None


def within(least: int, most: int) -> Callable[[str], int]:
    """Returns a reader of whole numbers within limits."""

    def reader(word: str) -> int:
        if not re.fullmatch("[0-9]{1,9}", word) or not least <= int(word) <= most:
            raise argparse.ArgumentTypeError(f"not {least} to {most}: {word}")
        return int(word)

    return reader


def duration_of(word: str) -> float:
    """Returns the seconds in a word such as 90, 90s, 10m, 8h, 1d or 1h30m."""
    parts = re.findall(r"([0-9]{1,9}(?:\.[0-9]{1,9})?)([smhd]?)", word)
    seconds = sum(float(number) * UNITS_OF_TIME[unit or "s"] for number, unit in parts)
    if "".join(map("".join, parts)) != word or not 0 < seconds <= MOST_DURATION:
        raise argparse.ArgumentTypeError(f"no duration, such as 90s, 10m, 8h or 1d: {word}")
    return seconds


KINDS: dict[str, dict[str, Any]] = {  # what argparse needs to know of each
    "version": {"action": "version", "version": f"bacsite {VERSION}"},
    "decimal": {"type": float},
    "duration": {"type": duration_of},
    "journals": {"type": Journals, "default": ""},
    "text": {"default": ""},
    "+": {"nargs": "+"},
    "3": {"nargs": 3},
}


def _argument(names: str, value: str, kind: str, told: str) -> dict[str, Any]:
    """Returns the arguments of argparse for a line of the table."""
    found: dict[str, Any] = {"metavar": value} if value else {}
    name, *rest = kind.split() or [""]
    if rest and name.isdigit():
        least, most = int(name), int(rest.pop(0))
        found["type"] = within(least, most)
        told += f", {least} to {most}; {rest[0]} by default" if rest else ""
    elif name in KINDS:
        found.update(KINDS[name])
    elif "|" in name:
        found["choices"] = name.split("|")
        told = told.replace("CHOICES", ", ".join(found["choices"]))
    elif names.startswith("-") and not value:
        found["action"] = "store_true"
    found.update({"default": rest[0]} if rest else {})
    return {**found, "help": told.replace("POINT", POINT, 1) or None}


def parser_of(given: Sequence[str]) -> Parser:
    """Returns the parser of these words; that of all commands if they do not begin with one."""
    form = argparse.RawDescriptionHelpFormatter
    top = Parser(prog="bacsite", description=DESCRIPTION, formatter_class=form).take(PROGRAM)
    commands = top.add_subparsers(dest="command", required=True, metavar="COMMAND")
    for name in [given[0]] if given and given[0] in COMMANDS else COMMANDS:
        it = COMMANDS[name]
        told = f"It {it.summary}."
        made = commands.add_parser(name, help=it.summary, description=told, allow_abbrev=False)
        if it.at_once:
            made.take(ASKING)
        made.take(it).set_defaults(work=it.work)
        if it.at_once:
            made.set_defaults(at_once=int(it.at_once))
    return top
