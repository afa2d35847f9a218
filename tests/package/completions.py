#!/usr/bin/env python3
"""Asks shells for the completions of the lines of completions.txt. Usage: tests/package/completions.py PROGRAM"""
import os
import re
import sys
import tempfile

sys.path.insert(0, os.path.dirname(__file__) + "/..")
from tree import TOOLS, TOP, left_out, ran, same, shown, table_of, verdict, write

PROGRAM = os.path.realpath(sys.argv[1])
TABLE = dict(table_of("tests/package/completions.txt"))


def options(*words):
    return re.findall(r"(?m)^ +(?:-[A-Za-z](?: [A-Z]+)?, )?(--[a-z-]+)\b", shown(*words, "--help"))


def rows():
    """Lines that are being typed, and what may follow each: those of the table, and options of tools and commands."""
    site = ["python3", TOP + "/site/bacsite"]
    commands = re.findall(r"(?m)^    ([a-z-]+)(?: .*)?$", shown(*site, "--help"))
    lists = {"TOOLS": TOOLS, "COMMANDS": commands, "TAGS": [str(tag) for tag in range(13)]}
    for line, words in TABLE["lines"]:
        yield line, [it for word in words.split() for it in lists.get(word, [word])]
    for tool in TOOLS:
        yield f"{tool} --", options(PROGRAM, tool)
        yield f"bactool {tool} 1 --", options(PROGRAM, tool)
    for command in commands:
        yield f"bacsite {command} x --", options(*site, command)


def completed(shell, folder, lines):
    """The words that follow each line, with the texts beside them, which fish prints."""
    script = [*dict(TABLE["shells"])[shell].split(), f"{TOP}/tests/package/complete.{shell}"]
    parts = re.split(r"(?m)^of (.*)\n", ran(*script, folder, *lines, cwd=folder).stdout)
    return {line: {it.partition("\t")[0].rstrip("/"): it.partition("\t")[2] for it in told.split("\n") if it}
            for line, told in zip(parts[1::2], parts[2::2])}


def main():
    wanted = dict(rows())
    with tempfile.TemporaryDirectory() as folder:
        ran(TOP + "/completions/make.py", PROGRAM, folder)
        os.mkdir(f"{folder}/empty")
        write(f"{folder}/emptied", "")  # not a folder
        for shell, _ in TABLE["shells"]:
            if not left_out(shell):
                found = completed(shell, folder, wanted)
                for line, words in wanted.items():
                    same(f"{line} in {shell}", [*found.get(line, [])], words)
                for line, word, text in TABLE["texts"] if shell == "fish" else ():
                    same(f"the text of {word} in {shell}", found[line].get(word), text)
    return verdict("lines are completed as they are to be")


sys.exit(main())
