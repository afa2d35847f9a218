#!/usr/bin/env python3
"""Plants the faults of bacsite_faults.txt in bacsite, one at a time, and prints which of them the tests notice; by
hand.

Usage: tests/site/bacsite_faults.py PROGRAM [NUMBER ..]. A NUMBER is that of a fault, from 1. The tests that must notice
a fault run in a copy of the tree, as run.py runs them. `make documents` reports faults that no longer fit.
"""

import os
import re
import shutil
import subprocess
import sys
import tempfile
from concurrent.futures import ThreadPoolExecutor

HERE = os.path.dirname(os.path.abspath(__file__))
sys.path.append(HERE + "/..")
from tree import TOP, ran, sections_of  # noqa: E402

AT_ONCE, MOST_SECONDS = 4, 900


def faults():
    """Yields the file, the tests, the old text and the new one of each fault."""
    for place, rows in sections_of("tests/site/bacsite_faults.txt"):
        path = place if place.endswith(".py") else f"site/bacsite/{place}.py"
        for row in rows:
            tests, old, new = row.replace("\\n", "\n").split(" || ")
            yield path, tests.split(), old, new


def noticed(program, fault):
    """Returns which test notices a fault, or why that is not known."""
    path, tests, old, new = fault
    with tempfile.TemporaryDirectory() as room:
        for part in ("site", "tests/site", "packaging", "man"):
            shutil.copytree(f"{TOP}/{part}", f"{room}/{part}", symlinks=True)
        with open(f"{room}/{path}", encoding="utf-8") as file:
            text = file.read()
        if text.count(old) != 1:
            return f"stands there {text.count(old)} times"
        with open(f"{room}/{path}", "w", encoding="utf-8") as file:
            file.write(text.replace(old, new))
        command = [sys.executable, f"{room}/tests/site/run.py", program, *tests]
        try:
            done = ran(*command, timeout=MOST_SECONDS, env={**os.environ, "FAILFAST": "1"})
        except subprocess.TimeoutExpired:
            return "noticed, since the tests do not end"
    failed = re.findall(r"(?m)^(?:FAIL|ERROR): (\w+)", done.stdout)
    return "noticed by " + (failed or ["no test, it ends"])[0] if done.returncode else "NOT NOTICED"


def main(program, numbers):
    """Plants the faults, and counts."""
    chosen = [it for it in enumerate(faults(), 1) if not numbers or str(it[0]) in numbers]
    seen = 0
    with ThreadPoolExecutor(AT_ONCE) as pool:
        for (at, fault), told in zip(chosen, pool.map(lambda it: noticed(program, it[1]), chosen)):
            seen += told.startswith("noticed")
            print(f"{at} {fault[0]}: {told}", flush=True)
    print(f"{seen} of {len(chosen)} noticed")
    return seen < len(chosen) or not chosen


if __name__ == "__main__":
    sys.exit(main(os.path.realpath(sys.argv[1]), sys.argv[2:]) if sys.argv[1:] else __doc__)
