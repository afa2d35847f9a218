#!/usr/bin/env python3
"""Runs the tests of the tree, part by part, and ends with a line of counts. Usage: tests/suite.py test|gate|counts

CONTRIBUTING.md (The gate) says what the parts of each are, in which order they come, and when one has failed. In `test`
a failed part does not end the others; in `gate` it ends all. The last line is `N passed, M failed, K skipped`: parts
are skipped for example if a tool is not installed.

The counts that each script prints are compared with counts.txt. `counts` writes that file anew, from what the parts
printed when they last ran.
"""
import contextlib
import os
import re
import shutil
import sys
import tempfile
import time
from collections import namedtuple

from tree import TOP, Job, crates_below, end_by_signals, free_memory, processors, ran, table_of, text_of, write

LOGS, GENTLY, COUNTS = "out/parts", ["nice", "-n", "5"], "tests/documents/counts.txt"
PROGRAM = "crates/bactool/out/bactool"
BEGAN = time.monotonic()
RESULTS = {}  # how many passed and failed in each part that has ended
LEFT_OUT, SHOWN = [], []  # what the parts print of skipped tests, and of how mutants were shown to be wrong
MISCOUNTED = []  # the scripts that compared less than expected
TOOK = {}  # the seconds of each script that printed its counts, and of the rest of its part
# The line of a script on how much it tried, mutants with their controls, and on how much of it failed.
TRIED = r"^[\w./]+: (\d+) (?!not )(?:.* of (\d+) controls)?|^examples/\S+: as it is to be$"
FAILED = r"(\d+) (?:not |don't |failed$)"
# A line of counts, and whose they are: those of a script, or of the tests of a crate.
COUNTED = r"(?m)^(?:(tests/\S+): |[ \d]+of \d+ +(\w+) +)(\d.*?)(?: +\d+:\d\d)?$"

# A part, and how its output is read: its scripts that must print their counts, each after its own path; the numbers of
# what it tried, where without one each match counts as one, and of what failed; which lines are shown as they come; the
# line which shows that it will fail.
Part = namedtuple("Part", "name command scripts tried failed shown lost place settings",
                  defaults=([], TRIED, FAILED, ".", "$^", ".", {}))


class GateFailed(Exception):
    """A part of the gate has failed."""


def beside(*rows):
    """These rows of parts, or one after the other if memory is short: each takes about 2 GB for each processor."""
    return rows if free_memory() >= 4000000000 * processors() else [[part for row in rows for part in row]]


def target(name):
    command = ["make", "--no-print-directory", name]
    return Part(name, command, re.findall(r"(?m)^tests/\S+", ran(*command, "-n").stdout))


def whole_proof(room):
    """`rt ci` in a copy of the tree, since it sets aside kept proofs, and without must-fail/, which it tries slowly."""
    shutil.copytree(".", f"{room}/tree", symlinks=True, ignore=shutil.ignore_patterns(".git", "out", "must-fail"))
    os.mkdir(f"{room}/tree/.git")  # the top of a repository, for rt ci
    os.mkdir(f"{room}/rooms")
    for it in (room, f"{room}/rooms"):
        os.chmod(it, 0o711)  # rt runs programs as nobody
    # with a number given, it proves that many crates at a time, each in one process
    settings = {"RT_JOBS": str(processors()), "TMPDIR": f"{room}/rooms"}
    how = {"tried": r"^(\d+) passed, (\d+) failed$", "failed": r"^\d+ passed, (\d+) failed$"}
    how.update(shown=r"^rt: |^\d+ passed", lost=r"^rt: .* NOT PROVED", place=f"{room}/tree", settings=settings)
    return Part("rt ci", ["rt", "ci"], **how)


def counts_in(said):
    """The counts of each script of a part, unless it skipped something: its numbers, in their order."""
    found = {}
    for script, crate, numbers in re.findall(COUNTED, said):
        found.setdefault(script or crate, []).extend(map(int, re.findall(r"\d+", numbers.replace(",", ""))))
    return {name: found[name] for name in found if not re.search(rf"(?m)^{re.escape(name)}: .*left out", said)}


def miscounted(part, said):
    """The scripts of a part that did not compare as much as in counts.txt, or with `+` at least as much."""
    found, wanted = counts_in(said), dict(dict(table_of(COUNTS)).get(part.name, []))
    yield from (f"{COUNTS} has nothing of {name}" for name in part.scripts if name not in wanted)
    for name, numbers in wanted.items():
        came, least = found.get(name, []), numbers.split()
        fits = [at == int(it.strip("+")) or "+" in it and at > int(it[:-1]) for at, it in zip(came, least)]
        skipped = name not in found and re.search(rf"(?m)^{re.escape(name)}: ", said)
        if not (all(fits) and len(came) == len(least) or skipped):
            yield f"{name} counted {came}, and {COUNTS} has {numbers}; `tests/suite.py counts` writes it anew"


def counts():
    """Writes counts.txt again. A number with `+` keeps the `+`, and the section of a part without a log stays."""
    text = text_of(COUNTS).partition("\n= ")[0]
    for part, rows in table_of(COUNTS):
        log, old = log_of(part), dict(rows)
        found = counts_in(text_of(log)) if os.path.exists(log) else {}
        was = {name: old.get(name, "").split() + [""] * 9 for name in found}
        told = {name: " ".join(f"{it}{'+' * ('+' in at)}" for it, at in zip(found[name], was[name])) for name in found}
        text += f"\n= {part}\n" + "".join(f"{name} | {it}\n" for name, it in {**old, **told}.items())
    write(COUNTS, text)
    return 0


def log_of(name):
    return f"{TOP}/{LOGS}/{name.replace(' ', '_')}.log"


def say(text):
    minutes, seconds = divmod(int(time.monotonic() - BEGAN), 60)
    print(f"{minutes:3}:{seconds:02}  {text}", flush=True)


def work(part):
    """Runs a part, and shows its output, until it has ended, or will fail; each value is a look at it."""
    outer = {name: it for name, it in os.environ.items() if name not in ("MAKEFLAGS", "MFLAGS", "MAKELEVEL")}
    has_ended, is_lost, told, since = False, False, 0, time.monotonic()
    with Job(part.command, log_of(part.name), cwd=part.place, env={**outer, **part.settings}) as job:
        while not has_ended and not is_lost:
            yield part
            has_ended, lines = job.has_ended(), job.said().split("\n")[:-1]
            for line in lines[told:]:
                if re.search(part.shown, line):
                    say(f"{part.name}: {line}")
                if script := re.match(r"(tests/\S+): \d", line):
                    TOOK[script[1]], since = time.monotonic() - since, time.monotonic()
                is_lost = is_lost or bool(re.search(part.lost, line))
            told = len(lines)
        TOOK[part.name] = time.monotonic() - since
        tell(part, job.said(), is_lost or job.process.returncode != 0)


def tell(part, said, is_lost):
    """Notes how many passed and failed, and prints it, after the last lines of a part that failed. It fails, too, if it
    tried nothing, or if one of its scripts printed no counts. Then the gate ends."""
    rows = [row.groups() for row in re.finditer(part.tried, said, re.M)] if part.tried else []
    tried = [sum(int(it) for it in row if it) if any(row) else 1 for row in rows]
    is_silent = not all(re.search(rf"^{re.escape(it)}: ", said, re.M) for it in part.scripts)
    is_lost = is_lost or is_silent or bool(part.tried) and (not tried or 0 in tried)
    failed = sum(map(int, re.findall(part.failed, said, re.M))) or int(is_lost)
    passed, _ = RESULTS[part.name] = max(sum(tried) - failed, 0), failed
    LEFT_OUT.extend(it for it in said.splitlines() if re.search(r"(?<!none )left out", it))
    MISCOUNTED.extend(miscounted(part, said) if not failed else [])
    missing = " ".join(re.findall(r"([\w, -]+)(?:: | is )not installed, left out", said)).replace(",", "").split()
    MISCOUNTED.extend(f"{part.name}: {it} is installed, and was left out" for it in missing if shutil.which(it))
    SHOWN.extend(re.findall(r"\d+ mutants: .*?(?=; \d+ of .* failed$)", said, re.M))
    if failed:
        print("".join(f"    {line}\n" for line in said.splitlines()[-40:]), end="")
    how = f"FAILED, see {os.path.relpath(log_of(part.name))}" if failed else "ended well"
    say(f"{part.name} {how}: {passed} passed, {failed} failed")
    if failed and sys.argv[1] == "gate":
        raise GateFailed


def run(steps):
    """Runs step after step, the rows of each at the same time."""
    for rows in steps:
        with contextlib.ExitStack() as stack:
            looks = [contextlib.closing(look for part in row for look in work(part)) for row in rows]
            left = list(map(stack.enter_context, looks))
            while left:
                left = [row for row in left if next(row, None)]
                time.sleep(0.5)


def test(_):
    print("Here: the tests of both trials, some mutants of each crate, examples, rows and guide, and make lint.")
    print("Left to make gate: proofs from nothing, and all other mutants.", flush=True)
    if not all(os.path.isdir(f"crates/{it}/out/incremental") for it in crates_below()["bactool"]):
        yield [[Part("build", ["./build.py"], tried=r"^ *\d+ of \d+ +\w+ +proved")]]
    trials = Part("trials", ["./build.py", "--tests"], tried=r"(\d+) tests passed")
    sample = Part("mutants", [*GENTLY, "tests/bodies/mutants.py", "--sample"])
    tools, bacsite = target("test-tools"), target("test-bacsite")  # both wait more than they work
    yield beside([trials, tools], [sample, bacsite], [target("lint")])  # the tools use ports of the trials


def gate(room):
    tree, wrong = f"{room}/tree", "tests/bodies/mutants.py"
    documents = Part("documents", ["make", "--no-print-directory", "documents"])
    yield [[documents, Part("fit", [wrong, "--list"], shown=r"^crates/|fit")]]
    self_test = Part("self test", [*GENTLY, "tests/bodies/self_test.py"])
    yield beside([whole_proof(room)], [self_test, Part("mutants", [*GENTLY, wrong, "--over", tree])])
    refused = Part("refused", ["tests/bodies/definition_mutants.py", tree])
    program = Part("program", ["install", "-D", f"{tree}/{PROGRAM}", PROGRAM], tried="")
    false = Part("false checks", ["tests/planted_faults.py", PROGRAM])
    yield [[refused, program, false, *map(target, ("test-tools", "test-bacsite", "lint"))]]


def main(words):
    if words not in (["test"], ["gate"], ["counts"]):
        sys.exit(__doc__)
    os.chdir(TOP)
    if words == ["counts"]:
        return counts()
    os.makedirs(LOGS, exist_ok=True)
    with tempfile.TemporaryDirectory(prefix="gate-") as room, contextlib.suppress(GateFailed):
        run({"test": test, "gate": gate}[words[0]](room))
    longest = sorted(TOOK, key=TOOK.get, reverse=True)[:5]
    print("longest: " + ", ".join(f"{name} {TOOK[name]:.0f} s" for name in longest))
    RESULTS["counts"] = 0, len(MISCOUNTED)
    lost = [f"failed: {name}" for name, (_, failed) in RESULTS.items() if failed]
    print("\n".join([*LEFT_OUT, *SHOWN, *MISCOUNTED, *lost]))
    print("{} passed, {} failed, {} skipped".format(*map(sum, zip(*RESULTS.values())), len(LEFT_OUT)))
    return 1 if lost else 0


end_by_signals(main)
