#!/usr/bin/env python3
"""Finds the words of words.txt in prose, and names a plainer one for each. Usage: tests/documents/plain_words.py counts
them in the tree, and fails if there are more than it allows. With `-` and a diff from `git diff -U0` on standard input
it prints `file:line: word -> better` for each, and fails if there are any.
"""
import os
import re
import sys

sys.path.insert(0, os.path.dirname(__file__) + "/..")
from tree import TOP, files, status_of, table_of, text_of

TABLE = dict(table_of("tests/documents/words.txt"))
START = r"(?:(?<=[.:;!?] )|(?<=\n\n)|\A)"  # of a sentence


def words():
    for wrong, right, _ in TABLE["words"]:
        start = wrong.startswith(r"\A")
        wrong = (START + wrong[2:] if start else wrong).replace(" ", r"\s")
        yield re.compile(wrong, 0 if start else re.I), right


def prose(name, text):
    """The prose of a text in the same lines, with CODE for code."""
    for place, new, pattern in TABLE["prose"]:
        if re.search(place, name):
            text = re.sub(pattern, lambda it: in_lines(new or "".join(filter(None, it.groups())), it[0]), text)
    return text


def in_lines(text, other):
    return text + "\n" * (other.count("\n") - text.count("\n"))


def pieces_of_diff(diff):
    """The lines that each piece of a diff adds, with the name of the file and the number of the first one."""
    for part in re.split(r"(?m)^(?=\+\+\+ |@@ )", diff):
        if part.startswith("+++ "):
            name = part.split("\n")[0][6:]
        elif part.startswith("@@"):
            yield name, int(re.search(r"\+(\d+)", part)[1]), re.findall(r"(?m)^\+(.*)$", part)


def found(pieces):
    """Yields each word of the list in the prose of these pieces."""
    known = [*words()]
    for name, first, lines in pieces:
        text = prose(name, "\n".join(lines))
        for it, right in ((it, right) for wrong, right in known for it in wrong.finditer(text)):
            yield f"{name}:{first + text.count(chr(10), 0, it.start())}: {' '.join(it[0].split())} -> {right}"


def counted():
    wrong, tried = [], {}
    for what, most, places in TABLE["files"]:
        paths = [os.path.relpath(it, TOP) for it in files(*(f"{TOP}/{place}" for place in places.split()))]
        texts = (it for it in paths if not re.search(r"\.(?:pcap|png)$|numbers\.txt$", it))
        there = [*found((it, 1, text_of(it).splitlines()) for it in texts)]
        wrong += there if len(there) > int(most) else []
        print(f"{what}: {len(there)} words of words.txt, at most {most}")
        tried[f"{len(paths)} files of {what}"] = len(paths)
    return status_of(wrong, all(tried.values()), " and ".join(tried))


def main(words):
    if words != ["-"]:
        return counted()
    there = [*found(pieces_of_diff(sys.stdin.read()))]
    print("\n".join(there), end="\n" * bool(there))
    return int(bool(there))


sys.exit(main(sys.argv[1:]))
