#!/usr/bin/env python3
"""Measures the built program as docs/SPEED.md shows it. Usage: bench/measure.py [--write] [PART ..]: these parts of
boxes.txt, or all; with --write the results are written there. BACTOOL names a program other than the repository's own,
and ROUNDS how often two servers are compared.
"""
import os
import re
import statistics
import subprocess
import sys
import tempfile
import time

sys.path.insert(0, os.path.dirname(__file__) + "/../tests")
from tree import PROGRAM, TOP, all_crates, device, left_out, processors, ran, resident, table_of, text_of, write

ROUNDS = int(os.environ.get("ROUNDS", 15))
REPLIES, MANY_REPLIES, RUNS, LINES = 20000, 60000, 200, 10000000
UDP, JOURNAL = f"{TOP}/out/udp", f"{TOP}/out/journal"
BACRP = ["bacrp", "1234", "0", "5", "85", "--mac"]
CALLGRIND = ["valgrind", "--tool=callgrind", "--callgrind-out-file=/dev/null", PROGRAM]
BOXES = dict(table_of("bench/boxes.txt"))
MIXED = text_of("bench/mixed.trace").splitlines(keepends=True)


def mixed(count):
    """A script of this many lines: reads, writes, their answers, requests to the device, ticks."""
    for line in range(count):
        yield MIXED[line % 6].format(line=line, number=(line // 3 + 1) % 256)


def timed(words, given=None, output=subprocess.DEVNULL):
    begun = time.monotonic()
    subprocess.run(words, stdin=given, stdout=output, check=True)
    return time.monotonic() - begun


def load(port, outstanding, count):
    """The replies a second of a server, with this many requests on their way."""
    return int(subprocess.check_output([UDP, "load", str(port), str(outstanding), str(count)]))


def spread(numbers, form="{}"):
    shown = [form.format(it) for it in (statistics.median_low(numbers), min(numbers), max(numbers))]
    return "{:>8} ({} to {})".format(*shown)


def rounds(windows, asked):
    """Measures the echo server and bacdev in turn, with each of these numbers of open requests."""
    rates = {(program, window): [] for window in windows for program in (UDP, PROGRAM)}
    for (program, window), found in list(rates.items()) * ROUNDS:
        with device(program=[program]) as (_, port):
            found.append(asked(program, port, window))
    return ([rates[program, window] for window in windows] for program in (UDP, PROGRAM))


def grown(tool, lines, count):
    """The most memory of a tool after a tenth of these lines, and after all of them."""
    how = {"stdin": subprocess.PIPE, "stdout": subprocess.DEVNULL, "text": True}
    with subprocess.Popen([PROGRAM, tool], **how) as process:
        for number, line in enumerate(lines):
            process.stdin.write(line)
            if number == count // 10:
                early = resident(process)
        return early, resident(process)


def network():
    """Rates, and the most memory: a child's `ru_maxrss` would include the memory of Python before the child began."""
    echoes, rates = rounds((1, 32), lambda _, port, window: load(port, window, REPLIES))
    echo, ours = list(map(spread, echoes)), list(map(spread, rates))
    ratios = [spread([one / by for one, by in zip(*both)], "{:.2f}") for both in zip(rates, echoes)]
    best = [max(one) / max(by) for one, by in zip(rates, echoes)]
    with device() as (process, port):
        bacdev = [load(port, 32, count) and resident(process) for count in (1000, MANY_REPLIES)]
    with device() as (_, port):
        bacrun = grown("bacrun", [f"read 127.0.0.1:{port} 0 5 85\n"] * MANY_REPLIES, MANY_REPLIES)
    bactrace = grown("bactrace", mixed(LINES), LINES)
    return locals()


def batch(port, window):
    """The reads a second of one bacrun, all of which must be answered: so many that its start hardly counts."""
    write(f"{TOP}/out/reads", f"read 127.0.0.1:{port} 0 5 85\n" * MANY_REPLIES)
    with open(f"{TOP}/out/reads", encoding="utf-8") as reads, open(JOURNAL, "w", encoding="utf-8") as journal:
        seconds = timed([PROGRAM, "bacrun", "--window", str(window)], reads, journal)
    if text_of(JOURNAL).count("\n# done ") != MANY_REPLIES:
        sys.exit("bacrun: a read has no answer")
    return MANY_REPLIES / seconds


def floor(window):
    """The reads a second of a plain client that makes the calls that the contract of bacrun requires."""
    with device() as (_, port), open(JOURNAL, "w", encoding="utf-8") as journal:
        words = [UDP, "batch", str(port), str(window), str(MANY_REPLIES)]
        return int(subprocess.run(words, stdout=journal, stderr=subprocess.PIPE, check=True).stderr)


def runs():
    read = lambda program, port, window: batch(port, window) if program == PROGRAM else load(port, window, MANY_REPLIES)
    bare, ours = (list(map(statistics.median, rates)) for rates in rounds((1, 8, 64), read))
    calls = [statistics.median([floor(window) for _ in range(ROUNDS)]) for window in (1, 8, 64)]
    with device() as (_, port):
        bacrp = RUNS / sum(timed([PROGRAM, *BACRP, f"127.0.0.1:{port}"]) for _ in range(RUNS))
    by_bare, by_calls, by_bacrp = ([one / by for one, by in zip(ours, it)] for it in (bare, calls, [bacrp] * 3))
    return locals()


def counted(said):
    return int(re.search(r"refs: +([\d,]+)", said)[1].replace(",", ""))


def of_a_run(*words, given=""):
    return counted(ran(*CALLGRIND, *words, input=given, stdin=None).stdout)


def of_replies(count):
    """The instructions of a device that answers this many requests, one after another."""
    with device("--count", str(count), program=CALLGRIND, stderr=subprocess.PIPE, text=True) as (process, port):
        load(port, 1, count)
        return counted(process.communicate()[1])


def instructions():
    """Each of the first two is the difference of two runs, so the program's start is not included."""
    if left_out("valgrind"):
        return None
    few, many = (of_a_run("bactrace", given="".join(mixed(count))) for count in (6000, 66000))
    line, reply = (many - few) / 60000, (of_replies(2200) - of_replies(200)) / 2000
    with device() as (_, port):
        read, help_text = of_a_run(*BACRP, f"127.0.0.1:{port}"), of_a_run("--help")
    return locals()


def calls():
    """The output of each benchmark; for the client's calls, the least of nine runs. They are proved in a copy of the
    crates that they call: in the tree the gate would prove them too."""
    below, texts = ["bac_wire", "bac_work", "bac_pdu", "bac_tsm", "bac_device"], {}
    with tempfile.TemporaryDirectory(dir=f"{TOP}/out") as room:
        os.mkdir(f"{room}/.git")  # the top of a repository, for rt
        subprocess.run(["cp", "-a", *(f"{TOP}/crates/{name}" for name in below), room], check=True)
        rows = [f"{name}: {' '.join(all_crates()[name])}\n" for name in below]
        for name, runs in (("values", 1), ("kinds", 1), ("clients", 9)):
            write(f"{room}/{name}/src/main.rt", text_of(f"bench/{name}.rattle"))
            write(f"{room}/crates.txt", "".join(rows) + f"{name}: {' '.join(below)}\n")
            subprocess.run(["rt", "run"], cwd=f"{room}/{name}", check=True, capture_output=True)
            texts[name] = subprocess.check_output(["sh", "-c", f"{room}/{name}/out/{name};" * runs], text=True)
    table = "| Call, with so many open | 2 | 8 | 16 | 64 |\n|---|---|---|---|---|"
    times = {}
    for call, opened, nanos in re.findall("(.*); (.*); (.*)", texts["clients"]):
        times.setdefault(call, {}).setdefault(opened, []).append(float(nanos))
    for call, found in times.items():
        table += "\n" + " | ".join([f"| {call}", *(str(min(nanos)) for nanos in found.values())]) + " |"
    return {**texts, "table": table}


def lines_of(part):
    """A box: the command, when and where it was run, and the rows of its section of boxes.txt."""
    tree = subprocess.check_output(["git", "describe", "--always"], cwd=TOP, text=True).strip()
    yield f"$ bench/measure.py {part}"
    load_now = lambda: "{:.2f} {:.2f} {:.2f}".format(*os.getloadavg())
    yield f"# {time.strftime('%-d %B %Y')}, tree {tree}, {processors()} processors, load {load_now()}"
    if values := globals()[part]():
        rows = [[it.replace("\\n", "\n").format(**{**globals(), **values}) for it in row] for row in BOXES[part]]
        yield from ((f"{name:34}" + "".join(f" {cell:>8}" for cell in cells)).rstrip() for name, *cells in rows)
    yield f"# load at the end {load_now()}"


os.makedirs(f"{TOP}/out", exist_ok=True)
subprocess.run([os.environ.get("CC", "cc"), "-O2", "-Wall", "-o", UDP, f"{TOP}/bench/udp.c"], check=True)
for part in [it for it in sys.argv[1:] if it != "--write"] or BOXES:
    box = ""
    for line in lines_of(part):
        print(line, flush=True)
        box += line + "\n"
    if "--write" in sys.argv:
        shown = rf"(?m)^\$ bench/measure\.py {part}\n(?:.|\n)*?^(?=```$)"
        write(f"{TOP}/docs/SPEED.md", re.sub(shown, lambda _, box=box: box, text_of("docs/SPEED.md")))
