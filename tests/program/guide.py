#!/usr/bin/env python3
"""Runs every command of docs/GUIDE.md in one shell, against the demonstration device, and compares the output with the
guide. Usage: tests/program/guide.py PROGRAM

A block that begins with ```console has commands after `$ `, whose further lines begin with `> `; the name of a program
after ```console is one that the block needs. A command that ends in `&` runs on, until all others have ended; the next
waits until its port is taken. If port 47808 or 48000 is taken, another one is used instead. Last come the lines of
crontab, with each of its points in the file, and the command for Nagios, as Nagios would run it.
"""
import difflib
import os
import re
import shlex
import shutil
import sys
import tempfile

sys.path.insert(0, os.path.dirname(__file__) + "/..")
from tree import TOP, Job, end_by_signals, free_port, left_out, put_tools, table_of, text_of, well_or

(_, LINES), (_, NAMES), (_, PORTS) = table_of("tests/program/guide.txt")
# Waits, for ten seconds at most, until a socket has the port.
UNTIL_TAKEN = "for _ in {1..1000}; do grep -q ' [0-9A-F]*:%04X ' /proc/net/udp && break; sleep 0.01; done\n"


def with_ports(text, first, second):
    """The guide with these ports in place of 47808, even if it is not written, and of 48000."""
    for pattern, new in PORTS if (first, second) != (47808, 48000) else []:
        text = re.sub(pattern, new.replace("FIRST", str(first)).replace("SECOND", str(second)), text)
    return text


def scheduled(line, address):
    """The command that prints whether a line of crontab makes a file of each point, or a check a line for Nagios."""
    found = [it.expand(command) for pattern, command in LINES if (it := re.fullmatch(pattern, line))]
    command = (found or [f"echo no line of crontab: {line!r}"])[0]
    for name, value in [*NAMES, ("ADDRESS", address)]:
        command = command.replace(name, value)
    return command


def commands(first, second):
    text, later = with_ports(text_of("docs/GUIDE.md"), first, second), []
    for kind, needed, body in re.findall(r"(?ms)^```(\S*) ?(\S*)\n(.*?)^```$", text):
        if kind != "console":
            lines = [line for line in body.splitlines() if "/usr/local/bin/" in line]
            later += [(scheduled(line, f"127.0.0.1:{first}"), "well\n") for line in lines]
        elif not needed or not left_out(needed):
            for command, printed in re.findall(r"(?m)^\$ (.*\n(?:> ?.*\n)*)((?:(?!\$ ).*\n)*)", body):
                yield re.sub(r"(?m)^> ?", "", command.rstrip("\n")), printed
    yield from later


def run(text, program, room):
    """The output of the script, in a folder with the examples, and with the tools in its PATH."""
    put_tools(program, f"{room}/bin")
    shutil.copytree(f"{TOP}/examples", f"{room}/work/examples")
    outer = {**os.environ, "LC_ALL": "C", "PATH": f"{room}/bin:{os.environ['PATH']}"}
    with Job(["timeout", "900", "bash", "-c", text], f"{room}/came", cwd=f"{room}/work", env=outer) as shell:
        shell.process.wait()
    return shell.said()


def main(words):
    first, second = free_port(47808), free_port(48000)
    rows = list(commands(first, second))
    text, shown = "status=0\n", ""  # the commands, each with the status of the one before; and their expected output
    for command, printed in rows:
        text += f"echo {shlex.quote('$ ' + command)}\n(exit $status)\n{command}\nstatus=$?\n"
        if command.endswith("&"):
            text += UNTIL_TAKEN % (second if str(second) in command else first)
        shown += f"$ {command}\n{printed}"
    with tempfile.TemporaryDirectory() as room:
        came = run(text, os.path.realpath(words[0]), room)
    told = list(difflib.unified_diff(shown.splitlines(), came.splitlines(), "docs/GUIDE.md", "came", lineterm="", n=4))
    return well_or(told, f"{len(rows)} commands of docs/GUIDE.md, as shown")


end_by_signals(main)
