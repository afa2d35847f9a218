#!/usr/bin/env python3
"""Makes each allocation of the program fail, one in each run, and then each system call, with each of some errors. The
head of fault_injection.txt says how the run must end, or go on. With fault_injection.c the kernel ends a run at any
call that is not noted, except those for memory, signals and the end.

Usage: tests/program/fault_injection.py PROGRAM [tried|calls]; it needs cc. With `calls` only system calls fail, and
also with `tried`, for a program that `rt try` has made, which allocates memory in another way. That program shows
whether the searched part of a line is searched again at each read: code from LLVM searches so fast that reads hide it.
"""
import errno
import os
import re
import subprocess
import sys
import tempfile
from collections import namedtuple

sys.path.insert(0, os.path.dirname(__file__) + "/..")
from tree import SCRIPT, TOP, failing_library, files, free_port, table_of, text_of

PROGRAM, ROOM = os.path.realpath(sys.argv[1]), tempfile.TemporaryDirectory()
SAID = os.dup2(os.open(f"{ROOM.name}/said", os.O_CREAT | os.O_RDWR), 3)  # where fault_injection.c writes
TABLE = dict(table_of("tests/program/fault_injection.txt"))
FAULTS, REFUSALS, SILENCE = (names.split() for _, names in TABLE["errors"])
ERRORS = FAULTS + REFUSALS + SILENCE
LINES = {call: line for line, calls in TABLE["lines"] for call in calls.split()}
OF = {"PORT": str(free_port())}  # the names of the table; the lock of the port has another descriptor than 3
for each, text in TABLE["names"]:
    OF[each] = text.format_map(OF).replace("\\n", "\n")
Ended = namedtuple("Ended", "status output error said words")


def filled(section):
    return [[cell.format_map(OF).replace("\\n", "\n") for cell in row] for row in TABLE[section]]


def run(words, given="", error="EIO", **settings):
    """Returns the end of a run with these settings, and what fault_injection.c says; a call fails with this error. The
    output of a device is that of a client, which asks until it is answered, or the device has failed."""
    settings.update(ERRNO=getattr(errno, error), LD_PRELOAD=f"{ROOM.name}/fault_injection.so")
    os.truncate(SAID, os.lseek(SAID, 0, os.SEEK_SET))
    command = ["env", *(f"{name}={value}" for name, value in settings.items()), PROGRAM, *words]
    how = {"input": given, "capture_output": True, "text": True, "timeout": 200, "pass_fds": [SAID]}
    client = [PROGRAM, *OF["CLIENT"].split()] if words[:1] == ["bacdev"] else ["true"]
    with subprocess.Popen(client, stdout=subprocess.PIPE, text=True) as asking:
        it = subprocess.run(command, check=False, **how)
        if it.returncode:
            asking.kill()
        output = re.sub(r"tick \d+\n", "", it.stdout + asking.stdout.read())  # the times in a run of many requests
    return Ended(it.returncode, output, it.stderr, os.pread(SAID, 1 << 20, 0).decode().split(), words)


def expect(is_so, what, ended):
    if not is_so:
        sys.exit(f"not as it is to be: {what}: {ended}")


def is_fault(ended, call, whole="", status=3):
    """The last calls are this one and the report, except the clock after `fcntl` and the last output of bacrun. The
    fault is that of the call, and the output is the beginning of the whole."""
    is_told = ended.error == f"bactool: {LINES[call]}\n"
    more = ["clock_gettime"] * (call == "fcntl"), ["write"] * (ended.words[:1] == ["bacrun"])
    is_last = any(ended.said[-2 - len(it):] == [call, *it, "tell"] for it in more)
    return ended.status == status and is_told and is_last and whole.startswith(ended.output)


def memory_refused(status, words, given=""):
    """Each allocation fails in turn; if none fails, the status is this one."""
    for number in range(1, sys.maxsize):
        ended = run(words, given, REFUSED=number)
        if "memory" not in ended.said:
            expect(number > 1 and ended.status == status, words, ended)
            return number - 1
        expect(is_fault(ended, "memory", status=4), f"request {number} of {words} refused", ended)


def with_refusal(output, number):
    """The journal of a run with one request, to which the system refuses the send with this number."""
    send = list(re.finditer(r"(?m)^# send 0 (.*\n)", output))[number - 1]
    return f"{output[: send.end()]}# unsent {send[1]}{output[send.end() :]}"


def failures(calls):
    """The calls up to each that can fail, how many of them can, and each error with which it is tried: only one, if the
    system's library handles all of them in the same way."""
    calls, errors_of = calls.split(), lambda call: ERRORS[:1] if call in ("fcntl", "clock_gettime") else ERRORS
    ends = [at for at, call in enumerate(calls, 1) if call != "tell" and not call.isdigit()]
    return [(calls[:at], number, it) for number, at in enumerate(ends, 1) for it in errors_of(calls[at - 1])]


def in_turn(status, calls, words, given):
    """The words make these calls and no others, with this status; then each of them fails, with each error."""
    words = words.split()
    whole, tried = run(words, given), failures(calls)
    is_run, is_device = words[0] in ("bacrun", "bacdev"), words[0] == "bacdev"
    expect((str(whole.status), " ".join(whole.said)) == (status, calls), words, whole)
    expect(not is_device or whole.output == "4290999a\n", words, whole)
    silence = SILENCE + REFUSALS * is_run
    for made, number, error in tried:
        call, sends = made[-1], made.count("sendto")
        ended = run(words[:-1] + [str(1 + sends)] if is_device else words, given, error, FAILED=number)
        is_silence = (call == "recvfrom" and error in silence) or (call == "clock_gettime" and number > 4)
        if not is_silence and not (call == "sendto" and is_run):
            is_right = is_fault(ended, call, whole.output if "write" in made else "")
        elif is_device:
            is_right = ended[:4] == (*whole[:3], [*made, "recvfrom", "sendto"])
        elif call == "sendto":
            is_right = ended[:4] == whole._replace(output=with_refusal(whole.output, sends))[:4]
        else:
            is_right = ended[:3] == whole[:3]
        expect(is_right and ended.said[: len(made)] == made, f"{error} at call {number} of {words}", ended)
    return len(tried)


def searching():
    """With one octet for each read, the longest lines may take three times as long as short ones, octet by octet."""
    took = []
    for length in (32, 4096):
        begun = os.times().children_user
        ended = run(["bactrace"], ("tick 1".ljust(length - 1) + "\n") * (64 * 1024 // length), ONE_OCTET=1)
        expect(ended.status == 0, "a script of long lines", ended[:1])
        took.append(os.times().children_user - begun)
    expect(took[1] <= 3 * took[0], "the seconds of short lines and of long ones", took)


os.environ.update({"TRIED": "1"} if sys.argv[2:] else {})
if failing_library(ROOM.name):
    if sys.argv[2:] == ["tried"]:
        searching()
    elif not sys.argv[2:]:
        scripts = map(text_of, files(f"{TOP}/examples/*.trace"))
        requests = sum(memory_refused(0, ["bactrace"], script) for script in scripts)
        requests += sum(memory_refused(int(status), words.split()) for status, words in filled("refused memory"))
        print(f"{SCRIPT}: {requests} requests for memory refused, each told as it is to be", flush=True)
    calls = sum(in_turn(*it) for it in filled("runs"))
    for number, call, output, words, given in filled("once"):
        ended = run(words.split(), given, FAILED=number, SHORT=1)
        expect(is_fault(ended, call, output) and ended.output == output, f"call {number} of {words}", ended)
    print(f"{SCRIPT}: {calls} calls failed in turn, each told as it is to be, or taken for silence")
