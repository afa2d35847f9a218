#!/usr/bin/env python3
"""Plants faults in a copy of the tree; the script that looks for each fault must report it. It also makes each check of
such a script pass always, one at a time: then a fault must be missed; or of a check whose name stands in each line that
it prints, a fault must be reported by nothing else. Usage: tests/planted_faults.py PROGRAM [SCRIPT], with
planted_faults.txt, whose head explains the rows.
"""
import os
import pathlib
import re
import shutil
import sys
import tempfile
from concurrent.futures import ThreadPoolExecutor

from tree import TOP, end_by_signals, left_out, processors, ran, status_of, table_of, text_of, write

NOT_COPIED = shutil.ignore_patterns(".git", "out", "__pycache__", "*_cache")


def plant(tree, path, old, new):
    """Plants a fault in a copy of the tree, in a new file. Returns the text that is missing for it."""
    place = pathlib.Path(tree, path)
    text, mode = (text_of(place), place.stat().st_mode) if place.exists() else ("", 0o644)
    place.unlink(missing_ok=True)
    write(place, new if old == "*" else text.replace(old, new, 1) if old else text + new)
    place.chmod(mode)
    return [] if old == "*" or old in text else [f"{path} has no {old}"]


def missed(command, faults, check, named):
    """The faults that the command does not report in a copy of the tree in which this check always passes; and of
    these named checks those that no fault needs: each line that reports a fault may have the name."""
    with tempfile.TemporaryDirectory(prefix="false-checks-", dir=f"{TOP}/out") as room:
        tree = f"{room}/tree"
        shutil.copytree(TOP, tree, symlinks=True, ignore=NOT_COPIED, copy_function=os.link)
        lost = [it for row in [*faults, *check] for it in plant(tree, *row[:3])]
        runs = "bash" if command[0].endswith(".sh") else sys.executable
        done = ran("timeout", "1200", runs, *command, cwd=tree)
    lost += [message for *_, message in faults if message not in done.stdout]
    told = [[line for line in done.stdout.split("\n") if message in line] for *_, message in faults]
    lost += [name for name in named if not any(lines and all(name in it for it in lines) for lines in told)]
    return lost if done.returncode else [*lost, "status 0"]


def tries(program, only):
    """The command of each section, its faults, and one check that passes always, or all named ones, with a name."""
    for head, rows in table_of("tests/planted_faults.txt"):
        script, needed, words = re.fullmatch(r"(\S+)(?: if ([\w+]+))?(.*)", head).groups()
        tools = [it for it in (needed or "").split("+") if it and (it != "root" or os.geteuid() != 0)]
        if only in head and not left_out(*tools):
            command = [script, *words.replace("PROGRAM", program).split()]
            faults = [[cell.replace("\\n", "\n") for cell in row] for row in rows if len(row) == 4]
            places = ((text_of(row[0]), row[1]) for row in rows if len(row) == 2)
            named = [at[1] for text, pattern in places for at in re.finditer(pattern, text, re.M)]
            yield f"{head}: faults", command, faults, [], named
            for path, old, new in (row for row in rows if len(row) == 3):
                for at in re.finditer(old, text_of(path), re.M):
                    check = [(path, at[0], at.expand(new))]
                    yield f"{head}, where {at[0].strip()} passes always", command, faults, check, []


def main(words):
    program = (*words, "PROGRAM")[0]
    if not os.path.isfile(program):
        sys.exit(f"tests/planted_faults.py: {program} is no program: `make program` builds one")
    os.environ["BACTOOL"] = os.path.realpath(program)  # for scripts that have no argument for a program
    os.makedirs(f"{TOP}/out", exist_ok=True)  # for links to the files of the tree
    every = list(tries(os.path.realpath(program), "".join(words[1:])))
    with ThreadPoolExecutor(processors()) as pool:
        found = list(pool.map(lambda it: missed(*it[1:]), every))
    wrong = [f"{name}: missed: {lost}" for (name, *_, check, _), lost in zip(every, found) if bool(check) != bool(lost)]
    faults = sum(len(faults) for _, _, faults, check, _ in every if not check)
    checks = sum(bool(check) + len(named) for *_, check, named in every)
    return status_of(wrong, faults and checks, f"{faults} faults and {checks} false checks, {len(wrong)} not seen")


end_by_signals(main)
