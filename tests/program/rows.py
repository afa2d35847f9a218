#!/usr/bin/env python3
"""Runs the scripts of examples/ and the scripts and command lines of rows/ with the built program, each script also
with one octet for each read, and compares output, errors and status. Usage: tests/program/rows.py PROGRAM [FILE..]: all
rows, or only those of these files. CONTRIBUTING.md (A row) explains the rows.
"""
import os
import pathlib
import re
import subprocess
import sys
import tempfile
from collections import namedtuple
from concurrent.futures import ThreadPoolExecutor

sys.path.insert(0, os.path.dirname(__file__) + "/..")
from tree import TOP, failing_library, files, free_port, is_like, put_tools, status_of, table_of

LETTERS = dict(dict(table_of("tests/program/rows/letters.txt"))["letters"], Z=f"127.0.0.1:{free_port()}")
LETTERS["S"] = f"--mac {LETTERS['Z']} --apdu-timeout 20"
SCRIPT = ["bactool", "bactrace"]

# The words and the script that are run, and the expected result. An `error` may end with two full stops; with `parts`,
# `output` is ignored.
Case = namedtuple("Case", "place words script status output error parts redirection", defaults=[(), ""])


def repeated(found):
    """The text of a brace, once for each number or front."""
    first, last, octets, text = found.groups()
    if octets:
        return "".join(text.replace("#", octets[:end]) for end in range(2, len(octets), 2))
    if not last:
        return text * int(first)
    numbers = range(int(first), int(last) + 1)
    return "".join(text.replace("##", f"{it % 256:02x}").replace("#", str(it)) for it in numbers)


def braced(text):
    return re.sub(r"\{(?:(\d+)(?:\.\.(\d+))?|cut (\w+))\*(.*?)\}", repeated, text)


def spelled(text):
    text = re.sub(r"\b[PQMVASZ]\b", lambda found: LETTERS[found[0]], braced(text))
    text = re.sub(r"\[(01[0-9a-f]+)\]", lambda found: "810a%04x%s" % (4 + len(found[1]) // 2, found[1]), text)
    return text.encode("ascii").decode("unicode_escape")


def text_of(lines):
    return spelled("".join(line[:-1] if line.endswith("\\") else line + "\n" for line in lines))


def words_of(line):
    return ["" if word == "''" else word for word in spelled(line).split(" ")]


def blocks(path):
    """Each row as its place and its lines by their marks."""
    text = pathlib.Path(path).read_text(encoding="ascii")
    for block in re.finditer(r"(?:.+\n?)+", text):
        place = "%s:%d" % (path, text.count("\n", 0, block.start()) + 1)
        row = {}
        for line in block[0].splitlines():
            if not re.match(r"[#<|$NX>~!@]( |$)", line):
                sys.exit(f"{place}: no mark before {line!a}")
            row.setdefault(line[0], []).append(line[2:])
        if row.keys() != {"#"}:
            yield place, row


def filled(row):
    """The row once for each of its lines X, with the values for X and for Y; or as it is, without such lines."""
    for fill in row.pop("X", ["X = Y"]):
        values = dict(zip("XY", fill.partition(" = ")[::2]))
        yield {mark: [re.sub("[XY]", lambda it: values[it[0]], line) for line in lines] for mark, lines in row.items()}


def row_cases(path):
    for place, row in ((place, row) for place, block in blocks(path) for row in filled(block)):
        [end] = row.get("!", ["0"])
        status, _, error = end.partition(" ")
        error = f"bactool: {error}\n" if error and not error.startswith("error:") else spelled(error)
        parts = [spelled(part) for part in row.get("~", [])]
        script, output = text_of(row.get("<", [])), text_of(row.get(">", []))
        for redirection in row.get("@", [""]):
            case = Case(place, SCRIPT, script, int(status), output, error, parts, redirection)
            lasts = [] if "$" in row else row.get("|", ["\\"])
            yield from (case._replace(script=case.script + text_of([last])) for last in lasts)
            yield from (case._replace(words=words_of(line)) for line in row.get("$", []))


def examples():
    for path in map(pathlib.Path, files(f"{TOP}/examples/*.trace")):
        script, output = (file.read_text(encoding="ascii") for file in (path, path.with_suffix(".out")))
        yield Case(f"examples/{path.name}", SCRIPT, script, 0, output, "")


def run(room, case, library):
    """The case as it ends, after a minute with the status 124. With the library each read gives one octet."""
    settings = f"LD_PRELOAD={library} ONE_OCTET=1" if library else ""
    command = ["timeout", "60", "sh", "-c", f'{settings} exec "$0" "$@" {case.redirection}', f"{room}/{case.words[0]}"]
    command = [word.encode("latin-1") for word in (*command, *case.words[1:])]
    ended = subprocess.run(command, input=case.script.encode("latin-1"), capture_output=True, check=False)
    output, error = ended.stdout.decode("latin-1"), ended.stderr.decode("latin-1")
    if "bacrun" in case.words:
        output = re.sub(r"(?m)^tick \d+\n", "", output)
    return case._replace(status=ended.returncode, output=output, error=error)


def is_right(case, ending):
    output, is_open = ending.output == case.output, case.error.endswith("..")
    error = is_like(ending.error, case.error + "\n") if is_open else ending.error == case.error
    if case.parts:
        output = ending.output.endswith("\n") and all(part in ending.output for part in case.parts)
    return ending.status == case.status and error and output


def tell(case, ending, how):
    """Prints the expected and the actual end, and of their outputs what follows the first difference."""
    start = case.output.rfind("\n", 0, len(os.path.commonprefix([case.output, ending.output]))) + 1
    called = " ".join([*case.words, case.redirection])
    print(f"{case.place}: not as it is to be{how}: {called[:300]} < {case.script[:300]!a}")
    for what, it in (("wanted", case), ("came", ending)):
        output = what == "wanted" and case.parts or it.output[start : start + 300]
        print(f"    {what}: status {it.status}, error {it.error[:300]!a}, output from {start} on {output!a}")


def main(program, given):
    paths = given or files(os.path.relpath(TOP + "/tests/program/rows") + "/*.rows")
    cases = [case for path in paths for case in row_cases(path)] + ([] if given else [*examples()])
    scripts = [case for case in cases if case.words == SCRIPT and not case.redirection]
    wrong, texts = set(), {}
    with tempfile.TemporaryDirectory() as room, ThreadPoolExecutor() as pool:
        put_tools(program, room)
        runs = [(case, "") for case in cases]
        if library := failing_library(room):
            runs += [(case, library) for case in scripts]
        for (case, library), ending in zip(runs, pool.map(lambda each: run(room, *each), runs)):
            is_same = not case.parts or texts.setdefault(case.place, ending.output) == ending.output
            if not is_right(case, ending) or not is_same:
                wrong.add((case.place, case.script, *case.words))
                tell(case, ending, ", one octet at a read" if library else "")
    loose = sum(bool(it.parts) or it.error.endswith("..") for it in cases)
    told = f"{len(scripts)} scripts and {len(cases) - len(scripts)} command lines, {loose} by parts of a text"
    return status_of([], cases if not wrong else [], f"{told}, {len(wrong)} not as they are to be")


if __name__ == "__main__":
    sys.exit(main(os.path.abspath(sys.argv[1]), sys.argv[2:]) if len(sys.argv) > 1 else __doc__)
