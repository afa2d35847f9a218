#!/usr/bin/env python3
"""Runs the tests of bacsite, each file in a process of its own, several at the same time.

Usage: tests/site/run.py PROGRAM [NAME ..]. They run in a network of their own if one can be made. PROGRAM is the one
that bacsite runs; PYTHON names another Python to run bacsite. A NAME is that of a file, like test_page, or of a test in
it. The output of a file that fails is shown. With FAILFAST=1 each file ends at its first failure. Each assertion of a
file must be made by one of its tests.
"""

import ast
import collections
import glob
import os
import re
import subprocess
import sys
import time
import unittest
from concurrent.futures import ThreadPoolExecutor

import network_namespace

HERE = os.path.dirname(os.path.abspath(__file__))
LONGEST = "survey write monitoring ranges stations networks watch calls program order"  # the files that begin first


def ran(name):
    """Runs a file. Returns its name, its status, what it printed, and the seconds that it took."""
    start = time.monotonic()
    command = [sys.executable, HERE + "/run.py", "-v", *["-f"] * bool(os.environ.get("FAILFAST")), name]
    done = subprocess.run(
        command, cwd=HERE, stdout=subprocess.PIPE, stderr=subprocess.STDOUT, encoding="utf-8"
    )
    return name, done.returncode, done.stdout, time.monotonic() - start


def run_here(words):
    """Runs the tests of a file, or some of them. Returns whether one failed, or an assertion of a whole file was not
    made: it is in a loop over nothing, or after a return."""
    made, alone, values, path = collections.Counter(), collections.Counter(), set(), "%s/%s.py" % (HERE, words[-1])

    def noted(method):
        def call(*given, **more):
            frame = sys._getframe(1)
            if frame.f_code.co_filename == path:
                made[frame.f_lineno] += 1
                if not hasattr(given[0], "world"):  # which devices answer, some of them late
                    alone.update([frame.f_lineno])
                    values.add((frame.f_lineno, repr((given[1:], more))))
            if method.__name__ == "assertRegex":
                given[0].assertNotRegex(without_words(given[1]), given[2], "almost any text has this")
            return method(*given, **more)

        return call

    for name in (it for it in dir(unittest.TestCase) if it.startswith("assert")):
        setattr(unittest.TestCase, name, noted(getattr(unittest.TestCase, name)))
    result = unittest.main(None, argv=["run.py", *words], exit=False).result
    if not result.wasSuccessful() or result.skipped or not os.path.isfile(path):
        return not result.wasSuccessful()
    with open(path, encoding="utf-8") as file:
        tree = ast.parse(file.read())
    found = list(assertions(tree))
    left = sorted({line for _, line in found} - set(made))
    waits = {line for it in ast.walk(tree) if isinstance(it, ast.While) for _, line in assertions(it)}
    print(len(found), "assertions, of equality", sum(name == "assertEqual" for name, _ in found))
    with_devices, without = (sum(it[line] for line in it if line not in waits) for it in (made - alone, alone))
    print("made", with_devices, "times")
    print("without devices", without, "times, with", len(values), "values")
    print("".join("FAIL: %s, line %d: nobody made this assertion\n" % (words[-1], it) for it in left), end="")
    return bool(left)


def without_words(text):
    """Returns the text with another sign in place of each letter and digit."""
    return re.sub(rb"\w", b"~", text) if isinstance(text, bytes) else re.sub(r"\w", "~", text)


def assertions(tree):
    """Yields the name and the line of each assertion."""
    for it in ast.walk(tree):
        if isinstance(it, ast.Call) and getattr(it.func, "attr", "").startswith("assert"):
            yield it.func.attr, it.lineno


def counts(status, said):
    """Returns how many tests, rows and assertions a file has, how many of these are of equality, how often they were
    made with devices (apart from those that wait for something) and without, the latter with how many values, and how
    many tests failed: 1 if it ran none."""
    patterns = [r"^Ran (\d+) test", r"^(\d+) rows$", r"^(\d+) assertions", r"^\d+ assertions, of equality (\d+)$"]
    patterns += [r"^made (\d+) times$", r"^without devices (\d+) times", r"^without devices .* (\d+) values$"]
    found = [re.search(it, said, re.M) for it in patterns]
    failed = set(re.findall(r"(?m)^(?:FAIL|ERROR): (\w+)", said))
    return *(int(it[1]) if it else 0 for it in found), len(failed) or int(status != 0 or not found[0])


def main(names):
    files = sorted(os.path.basename(it)[:-3] for it in glob.glob(HERE + "/test_*.py"))
    first = ["test_" + it for it in LONGEST.split()]
    names = names or [*first, *(it for it in files if it not in first)]
    counted = (0,) * 8
    with ThreadPoolExecutor(2 * (os.cpu_count() or 1)) as pool:  # tests wait more than they work
        for name, status, said, seconds in pool.map(ran, names):
            print("%-16s %5.1f s" % (name, seconds), flush=True)
            for test, why in re.findall(r"(?m)^(\w+) .* skipped '(.*)'$", said):
                print("tests/site/run.py: %s of %s is left out, since %s" % (test, name, why))
            if status:
                print(said)
            counted = tuple(map(sum, zip(counted, counts(status, said))))
    told = "%d tests with %d rows and %d assertions, %d of them of equality, made %d times with devices, "
    told += "%d times without, with %d values, %d not as they are to be"
    print("tests/site/run.py:", told % counted)
    return bool(counted[-1] or not counted[0])


if __name__ == "__main__":
    if len(sys.argv) < 2:
        sys.exit(__doc__)
    if sys.argv[1] == "-v":
        sys.exit(run_here(sys.argv[1:]))
    os.environ["BACTOOL"] = os.path.realpath(sys.argv[1])
    os.environ["TZ"] = "TST-5:30"  # a local time that nobody can take for UTC
    network_namespace.enter()
    sys.exit(main(sys.argv[2:]))
