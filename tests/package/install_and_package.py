#!/usr/bin/env python3
"""Tries make install and the package in a folder of its own, by the lines of installed.txt, whose sections name the
tools that they need. Usage: tests/package/install_and_package.py PROGRAM
"""
import os
import re
import sys
import tempfile

sys.path.insert(0, os.path.dirname(__file__) + "/..")
from tree import TOP, follow, left_out, shown, table_of, text_of, verdict

PROGRAM = os.path.realpath(sys.argv[1])
VERSION = re.match(r"bactool ([\d.]+\d)", shown(PROGRAM, "--help"))[1]
DAY = re.search(rf"(?m)^## {re.escape(VERSION)} \((.*)\)$", text_of("CHANGELOG.md"))[1]
TIME, MACHINE = shown("date", "-uRd", DAY).strip(), shown("sh", "-c", "dpkg --print-architecture").strip()
VALUES = {"\\n": "\n", "VERSION": VERSION, "DAY": DAY, "MACHINE": MACHINE, "TIME": TIME}
PUT = {"DOC": "opt/tools/share/doc/bactool", "LIST": "opt/tools/share/bactool/installed"}
SCRIPTS = {"PUT": f"{TOP}/packaging/install.py", "DEB": f"{TOP}/packaging/deb.sh", "PROGRAM": PROGRAM, "TOP": TOP}
SETTINGS = {**os.environ, **PUT, **SCRIPTS, "PREFIX": "/opt/tools", "FORCE": "", "ZSH_COMPLETIONS": "", "DAY": DAY}


def main():
    with tempfile.TemporaryDirectory() as room:
        os.mkdir(f"{room}/top", 0o755)
        for head, rows in table_of("tests/package/installed.txt"):
            if not left_out(*head.partition(" if ")[2].split()):
                follow(rows, VALUES, cwd=f"{room}/top", env={**SETTINGS, "DESTDIR": f"{room}/top"})
    return verdict("facts of what is put and packed are as they are to be")


sys.exit(main())
