"""Writes a property once its identity is sure, and reads it back; or the properties of a list."""

from __future__ import annotations

import argparse
import os
import shlex
from typing import NamedTuple, Sequence

from . import points, standard
from .bodies import device_in
from .controller import Controller
from .parsing import COMMANDS, Parser
from .streams import BROKEN, MISSING, WRONG_WORDS, Failure, put, times, wrong
from .tools import BIND_FAILED, Outcome, Tools, alone
from .place import Encoded, Place, Priorities, encoded_for, looked_at, priorities
from .values import Value

NOT_KNOWN = "outcome not known: the write may have been made"
NO_WRITE = "no write was sent"


class Order(NamedTuple):
    """A write: its target, its value and its priority."""

    device: int | None
    place: Place
    word: str
    type: str | None
    priority: int | None
    dry: bool


class Ending(NamedTuple):
    """How bacwp ended, in words, and the status for it."""

    told: str
    status: int
    was_sent: bool = True
    was_refused: bool = False


def ending_of(outcome: Outcome) -> Ending:
    """Returns what the outcome of bacwp says of the write."""
    line = outcome.lines[0] if len(outcome.lines) == 1 else outcome.told
    if outcome.status == 0 and outcome.lines == ["ok"]:
        return Ending("ok", 0)
    if outcome.status == 1 and line.split(" ")[0] in ("error", "reject"):
        return Ending("refused: " + line, MISSING, was_refused=True)
    if outcome.status is None or outcome.told == BIND_FAILED:
        return Ending(f"{NO_WRITE}: {line}", BROKEN, was_sent=False)
    if outcome.status == 2:
        return Ending(f"{NO_WRITE}: {line}", WRONG_WORDS, was_sent=False)
    line = line or f"status {outcome.status}"
    return Ending(f"{NOT_KNOWN} ({line})", MISSING if outcome.status == 1 else BROKEN)


def written(controller: Controller, order: Order) -> int:
    """Reads, writes, and reads again; returns the status of the program."""
    try:
        place, value = prepared(controller, order)
        put(f"device {controller.instance or 0} at {controller.address}\n")
        put(f"object {place.words()} {place.name}\n")
        put(f"before: {place.shown(place.value)}\n")
        fault = place.priorities.fault
        put(f"priority-array: {fault}\n" if fault else "")
    except Failure as failure:
        raise Failure(f"{failure}; {NO_WRITE}".lstrip("; "), failure.status) from failure
    where = "" if order.priority is None else f" at priority {order.priority}"
    head = f"write {place.told(value)}{where}: "
    if order.dry:
        put(f"{head}checked, {NO_WRITE}\n")
        return 0
    told = head + NOT_KNOWN
    try:
        with controller.tools.writing():  # until its outcome was printed
            ending = ending_of(_sent(controller, order, value))
            told = head + ending.told
            put(told + "\n")
        return _checked(controller, order, place, value, ending)
    except Exception as error:  # whatever it is
        raise Failure(f"{told}; {str(error) or 'nobody reads on'}", BROKEN) from error


def _checked(control: Controller, order: Order, place: Place, value: Encoded, end: Ending) -> int:
    """Reads again, also the identity of the device; returns the status of the program."""
    if not end.was_sent:
        return end.status
    found, status = _read_back(control, order, place), end.status
    if not end.was_refused and (found.fault or found.text != value.text):
        unread = place.priorities.fault
        why = "not sure, since no priority is read" if unread else "not as written"
        put(f"{why}: {place.shown(found)}\n")
        status = status or MISSING
    answer = control.ask(control.own.ref(standard.OBJECT_ID))
    is_same = device_in(answer.region) == control.instance
    reason = answer.reason or ("" if is_same else "it says another number")
    if reason:  # as one that took over its address
        put(f"not sure that it is device {control.instance or 0} still: {reason}\n")
    return status or (MISSING if reason else 0)


def prepared(controller: Controller, order: Order) -> tuple[Place, Encoded]:
    """Returns place and value; fails if the place is not the one to write to."""
    reason = controller.identify(order.device)
    if reason:
        raise Failure(reason, MISSING)
    place = looked_at(controller, order.place)
    value = encoded_for(controller, place, order.word, order.type)
    commandable = bool(place.priorities.values)
    if commandable and order.priority is None:
        raise wrong(f"{place.words()} is commanded by priorities: choose one with --priority")
    if points.is_routed(place.address) and not points.WORD.fullmatch(os.fsencode(value.word)):
        raise wrong("no text with a space, and no empty one, can be sent behind a router")
    may_let_go = commandable or (place.priorities.fault and order.priority)
    if value.tag == standard.NULL and not may_let_go:
        raise wrong(f"null releases a priority: {place.words()} has no priority array")
    return place, value


def _sent(controller: Controller, order: Order, value: Encoded) -> Outcome:
    where = order.place.ref.words_at(order.priority)
    if points.is_routed(order.place.address):
        return controller.write(f"{where} {value.tag} {value.word}")
    words = [str(controller.own.instance), *where.split(), "--", str(value.tag), value.word]
    return controller.run("bacwp", words)


def _read_back(controller: Controller, order: Order, place: Place) -> Value:
    """Prints the present value; returns the value at the priority that was written."""
    now = controller.value(place.ref)
    put(f"now: {place.shown(now)}\n")
    array = priorities(controller, place) if place.is_present_value else Priorities()
    put(f"priority-array: {array.fault}\n" if array.fault else "")
    standing = {at: it for at, it in array.values.items() if it.told() != "null"}
    for priority, found in standing.items():
        put(f"priority {standard.priority_text(priority)}: {place.shown(found)}\n")
    if not array.values:
        return now
    default = controller.value(place.ref.other(standard.RELINQUISH_DEFAULT))
    put(f"relinquish-default: {place.shown(default)}\n")
    least, written_at = min(standing, default=16), order.priority or 16
    if least < written_at and written_at in standing:
        told = standard.priority_text(least)
        put(f"priority {told} holds it: what is written at {written_at} waits\n")
    return array.values.get(written_at, now)


def order_of(words: argparse.Namespace) -> Order:
    """Returns the order in the words; fails if they are wrong."""
    device, address = points.address_of(words.address)
    kind, number = points.object_type(words.object_type), points.instance(words.instance)
    at = None if words.index is None else points.index(words.index)
    ref = standard.PropertyRef(kind, number, points.property_number(words.property), at)
    if words.priority == 6:
        raise wrong("priority 6 is the device's own")
    place = Place(address, ref, is_present_value=ref == ref.other(standard.PRESENT_VALUE))
    return Order(device, place, words.value, words.type, words.priority, words.dry_run)


def write(words: argparse.Namespace) -> int:
    """Writes a property, and reads it back."""
    order, tools = order_of(words), Tools.of(words)
    with Controller(tools, order.place.address) as controller:
        return alone(tools, lambda: written(controller, order), quiet=True)


def lines_of(path: str, dry: bool) -> list[tuple[int, Order]]:
    """Returns the numbers of the lines of a list, and their orders; fails if one is wrong."""
    parser = Parser(prog="bacsite write", add_help=False).take(COMMANDS["write"])
    lines = []
    for number, line in enumerate(points.text_of(path).split("\n"), 1):
        try:
            if "\0" in line:
                raise wrong("no word has the character 0")
            words = shlex.split(line, comments=True)
            if words:
                order = order_of(parser.parsed(words))
                lines.append((number, order._replace(dry=dry or order.dry)))
        except ValueError as error:
            raise wrong(f"line {number}: {str(error).lower()}; {NO_WRITE}") from error
        except Failure as failure:
            raise wrong(f"line {number}: {failure}; {NO_WRITE}") from failure
    if not lines:
        raise wrong("no write in " + path)
    return lines


def _all_written(tools: Tools, lines: Sequence[tuple[int, Order]], dry: bool) -> int:
    """Checks all lines, then writes them; returns the status of the first that is not sure, or 0.
    Once a line was written, the status is not WRONG_WORDS, which means that none was."""
    for number, order in [] if dry else lines:
        try:
            with Controller(tools, order.place.address) as controller:
                prepared(controller, order)
        except Failure as failure:
            raise Failure(f"line {number}: {failure}; {NO_WRITE}", failure.status) from failure
    for done, (number, order) in enumerate(lines):
        put("\n" if done else "")
        wrote = sum(not before.dry for _, before in lines[:done])
        before = f"{wrote} of {times(len(lines), 'line')} written before"
        if dry:
            before = f"{done} of {times(len(lines), 'line')} checked before"
        try:
            with Controller(tools, order.place.address) as controller:
                status = written(controller, order)
        except Failure as failure:
            status = MISSING if wrote and failure.status == WRONG_WORDS else failure.status
            raise Failure(f"line {number}: {failure}; {before}", status) from failure
        if status:
            put(f"stopped at line {number}: {before}\n")
            return MISSING if wrote and status == WRONG_WORDS else status
    return 0


def write_list(words: argparse.Namespace) -> int:
    """Writes the lines of a list, one after another."""
    lines, tools = lines_of(words.list, words.dry_run), Tools.of(words)
    is_dry = all(order.dry for _, order in lines)
    return alone(tools, lambda: _all_written(tools, lines, is_dry), quiet=True)
