#!/usr/bin/env python3
"""Checks edits that only examples or the language refuse. The language refuses the edits of out_of_reach.edits. The
worked examples refuse the edits of definitions.edits, which empty or weaken a definition: the example that an entry
names must not be proved, and nothing else may be refused except the answers of that example. The code does not follow
the edit, because examples are tried without the code.

Usage: tests/bodies/definition_mutants.py [TREE [PATTERN]]: tries all edits, or those whose names contain the pattern,
with the libraries of the crates below in this tree, or another, as `make demo` keeps them; many of a crate at a time.
"""
import functools
import os
import re
import sys
from concurrent.futures import ThreadPoolExecutor

sys.path.insert(0, sys.path[0] + "/..")
from tree import TOP, copy_crate, processors, status_of, text_of, write
from controls import PATTERNS
from edits import entries_in
from mutants import said_of
from stubs import put_stubs

TOGETHER = 12  # edits of a crate in a check, of which each has a copy: what they use is loaded once
BY, ERROR, PAIR = PATTERNS["definition_mutants.py"]


def pairs_of(text):
    return [[cell.replace("\\n", "\n") for cell in pair] for pair in PAIR.findall(text)]


def example_of(text):
    """The example that has to refuse the edit of an entry, or "" if the language has to."""
    how, by = BY.search(text).groups()
    return f"examples::{by}" if how == "by" else ""


def put(crate, text, home):
    copy_crate(crate, home)
    if example_of(text):
        put_stubs(crate, home, {}, lambda *_: False)
    for path, old, new in pairs_of(text):
        file = path.replace(f"crates/{crate}", home)
        write(file, text_of(file).replace(old, new))


def fault_of(crate, text, said):
    """Returns why the edit of an entry is not refused as it should be, or ""."""
    by, example = BY.search(text)[2], example_of(text)
    if lost := [path for path, old, _ in pairs_of(text) if text_of(path).count(old) != 1]:
        return f"its old text does not stand once in {lost[0]}"
    places = {place.startswith(f"proofs/examples/{by}/Answers.antt") for place in ERROR.findall(said)}
    if example:
        # an example without answers of its own was proved by search alone
        told = "not proved" if places else "no proof: expected answers"
        is_so = f"fn {crate}::{example}: {told}" in said and places <= {True}
    else:
        is_so = {*re.findall(r"error\[([\w-]+)\]", said)} == {*by.split()}
    return "" if is_so else f"it is not refused by {by} alone: {said[-600:]}"


def faults_of(over, crate, entries):
    copies = [(crate, functools.partial(put, crate, it.text), [example_of(it.text) or "nothing"]) for it in entries]
    said = said_of(over, copies)
    return [f"{it.name}: {fault}" for it, its in zip(entries, said) if (fault := fault_of(crate, it.text, its))]


def main(over=TOP, pattern=""):
    entries = [it for name in ("out_of_reach", "definitions") for it in entries_in(f"tests/bodies/{name}.edits", "")]
    tried, groups = [it for it in entries if it.name and re.search(pattern, it.name)], {}
    for it in tried:  # the language refuses all that is checked with what it refuses
        groups.setdefault((pairs_of(it.text)[0][0].split("/")[1], example_of(it.text) == ""), []).append(it)
    parts = lambda of, most: [of[at : at + most] for at in range(0, len(of), most)]
    most = lambda crate: TOGETHER if os.path.isfile(f"{TOP}/crates/{crate}/src/lib.rt") else 1  # no copy is a program
    checks = [(crate, part) for (crate, _), of in groups.items() for part in parts(of, most(crate))]
    with ThreadPoolExecutor(processors()) as workers:
        bad = sum(workers.map(lambda check: faults_of(over, *check), checks), [])
    return status_of(bad, tried, f"{len(tried)} drops, calls or definitions, {len(bad)} not refused")


if __name__ == "__main__":
    sys.exit(main(*sys.argv[1:]))
