#!/usr/bin/env python3
"""Tries build.py, suite.py and .ci/run in trees of two crates, in which rt, make's scripts and the script of the
mutants are stand-ins that fail by the rows of stand_in_tools.txt: the failure must be reported, and be the status. It
also tries the message of make without rt. Usage: tests/stand_in_tools.py [COMMAND], to try only its rows.
"""
import os
import re
import shutil
import sys
import tempfile
from concurrent.futures import ThreadPoolExecutor

from tree import ran, status_of, table_of, text_of, write

# A stand-in does what the first rule says whose words it begins with. Otherwise it succeeds.
TOOL = r"""#!/bin/bash
while IFS= read -r rule; do
    [[ "${0##*/} $* " != "${rule%%: *} "* ]] || { eval "${rule#*: }"; exit; }
done <<<"$RULES"
"""
SCRIPT = TOOL + 'echo "$0: 5 calls as they are to be"\n'
(_, FILES), (_, USUAL), *RUNS = table_of("tests/stand_in_tools.txt")


def made(room):
    """Makes a tree of the files in the table, and a stand-in for rt and for each tool that .ci/run would install."""
    wanted = re.search(r"for tool in (.*); do", text_of(".ci/run"))[1].split()
    texts = {f"bin/{name}": TOOL for name in ("rt", *wanted)}
    for path, text in FILES:
        text = text_of(path) if text == "*" else text.replace("\\n", "\n")
        texts[f"tree/{path}"] = SCRIPT if text == "SCRIPT" else text
    for path, text in texts.items():
        write(f"{room}/{path}", text)
        os.chmod(f"{room}/{path}", 0o755)


def of_tree(room, rule):
    """How a command is run in a tree, in which a rule says what fails."""
    settings = {"PATH": f"{room}/bin:{os.environ['PATH']}", "RULES": "\n".join([rule, *sum(USUAL, [])])}
    return {"cwd": f"{room}/tree", "env": {**os.environ, **settings}}


def tried(room, command, rule, status, wanted):
    """Returns how a row failed, or "". A row that takes five minutes ends the script."""
    done = ran("bash", "-c", command, timeout=300, **of_tree(room, rule))
    if done.returncode == int(status) and re.search(wanted, done.stdout.rstrip("\n")):
        return ""
    return f"{command} by [{rule}]: status {done.returncode}, not {status} with /{wanted}/:\n{done.stdout}"


def without_kit():
    """make without a target lists the targets and builds nothing. Without rt a target that needs it prints a line."""
    texts = "".join(map(text_of, ("Makefile", "packaging.mk", "measuring.mk")))
    targets = {*" ".join(re.findall(r"(?m)^\.PHONY: (.*)", texts)).split()}
    with tempfile.TemporaryDirectory() as room:
        for name in ("sh", "bash", "env", "make", "sed", "find", "python3"):
            os.symlink(sys.executable if name == "python3" else shutil.which(name), f"{room}/{name}")
        told = lambda *words: ran(*words, env={"PATH": room})
        listed = told("make", "--no-print-directory")
        if listed.returncode or listed.stdout != told("make", "--no-print-directory", "help").stdout:
            yield f"make alone is not make help: status {listed.returncode}: {listed.stdout}"
        named = {name for name in targets if re.search(rf"(?m)^(make, )?make {name}\b", listed.stdout)}
        parts = {"documents", "kit", "test-tools", "test-bacsite"}  # targets that are parts of others
        yield from (f"make help does not list {name}" for name in sorted(targets - named - parts))
        for words in (["make", "-s", "try"], ["make", "-s", "check"], ["make", "-s", "test"], ["./build.py"]):
            ended = told(*words)
            lines = [line for line in ended.stdout.splitlines() if not line.startswith("make: ***")]
            if not ended.returncode or len(lines) != 1 or not re.search("needs rt.*README.md", lines[0]):
                yield f"{' '.join(words)}, without rt: status {ended.returncode}: {ended.stdout}"


every = [(command, *row) for command, rows in RUNS for row in rows if " ".join(sys.argv[1:]) in command]
with tempfile.TemporaryDirectory() as rooms, ThreadPoolExecutor(4) as pool:
    made(f"{rooms}/new")
    shutil.copytree(f"{rooms}/new", f"{rooms}/built")
    ran("./build.py", **of_tree(f"{rooms}/built", "none"))
    for at, (command, *_) in enumerate(every):  # before the first run: no script is open for writing in a new process
        shutil.copytree(f"{rooms}/{'new' if command == './build.py' else 'built'}", f"{rooms}/{at}")
    wrong = [it for it in pool.map(lambda at: tried(f"{rooms}/{at}", *every[at]), range(len(every))) if it]
wrong += without_kit()
sys.exit(status_of(wrong, every, f"{len(every)} runs of build.py and suite.py, {len(wrong)} not as they are to be"))
