#!/usr/bin/env python3
"""Runs bacrun against two peers of this machine, A and B, which answer by the plans of runs.txt. Its head says what is
tried, and `check` has the conditions on each run. Usage: tests/program/runs.py PROGRAM
"""
import contextlib
import os
import re
import select
import signal
import socket
import struct
import subprocess
import sys
import time
from collections import namedtuple
from concurrent.futures import ThreadPoolExecutor

sys.path[:0] = [__file__.rpartition("/")[0] + "/.."]
from rows import blocks, braced
from tree import TOP, device, framed, local_socket, processors, same, verdict

PIPES = dict.fromkeys(("stdin", "stdout", "stderr"), subprocess.PIPE)
LINE = 4096  # the most octets of a line
CLOSING = "# end of the run"
TIMESTAMPS = 35  # SO_TIMESTAMPNS of Linux: the system says when each datagram came
# A Reject of a request that nobody made, so long that a run reads it no faster than it comes.
STRAY = bytes.fromhex("810a03e80100606309") + bytes(991)
SENT = re.compile(r"(?m)^# (?:send \d+|who) (.*)")  # a remark on a datagram, which it has after its peer
REFUSED = re.compile(r"[\d.]+:0\b|255\.255\.255\.255")  # the system sends nothing to these peers
WHO_IS, I_AM = b"\x10\x08", bytes.fromhex("1000c40200000722058c91032105")
Run = namedtuple("Run", "words text status journal fault heard seconds")


def answer_to(octets, has_route):
    """The answer: to a read of an analog object its instance, or this many bits; a binary input does not exist. To a
    Who-Is the I-Am of the device 7, or of station 07 of network 5 if it has a network."""
    route = octets[6 : 9 + octets[8]] if octets[5] & 32 else b""
    apdu = octets[6 + len(route) + bool(route) :]
    if apdu.startswith(WHO_IS):
        return framed(I_AM, b"\x01\x08\x00\x05\x01\x07" if route and has_route else b"\x01\x00")
    kind, instance = divmod(int.from_bytes(apdu[5:9], "big"), 1 << 22)
    value = b"\x24" + instance.to_bytes(4, "big")
    if kind == 2:
        instance %= 17000  # no datagram would have room for more bits
        bits = bytes([-instance % 8]) + bytes(-(-instance // 8))
        value = b"\x85\xfe" + len(bits).to_bytes(2, "big") + bits
    reply = b"\x30" + apdu[2:] + b"\x3e" + value + b"\x3f"
    if kind == 3 or apdu[3] == 15:
        reply = (b"\x50" if kind == 3 else b"\x20") + apdu[2:4] + b"\x91\x01\x91\x1f" * (kind == 3)
    return framed(reply, b"\x01\x08" + route if route and has_route else b"\x01\x00")


def act(words, heard, peers, process):
    """Does what a plan has for the last received datagram, and returns the peer that it floods."""
    place, _, desk = heard[-1][:3]
    for how, rest in (word.rpartition(":")[::2] for word in words):
        if how == "octets":
            place.sendto(bytes.fromhex(rest), desk)
        elif rest == "stop":
            process.send_signal(signal.SIGSTOP)
        elif rest.isdigit():
            here, octets, there = heard[int(rest)][:3]
            sender = peers[1 - peers.index(here)] if how == "other" else here
            sender.sendto(answer_to(octets, how != "plain"), there)
    if "stop" in words:
        time.sleep(1)
        process.send_signal(signal.SIGCONT)
    return [(place, desk)] * ("flood" in words)


def received(peers):
    """What has come to the peers: each datagram with its peer, its sender and its time, in the order of these times."""
    came, before = [], -1
    while len(came) > before:  # when nothing more has come to either, nothing earlier is still to be read
        before = len(came)
        for peer in peers:
            with contextlib.suppress(BlockingIOError):
                while True:
                    octets, [(*_, stamp)], _, desk = peer.recvmsg(2048, 64, socket.MSG_DONTWAIT)
                    seconds, nanoseconds = struct.unpack("qq", stamp)
                    came.append((peer, octets, desk, seconds * 10**9 + nanoseconds))
    return sorted(came, key=lambda one: one[3])


def play(process, peers, plan):
    """The datagrams that the peers, by the plan, receive until the end, each with its peer, its sender and its time."""
    heard, flooded, has_ended = [], [], False
    while not has_ended:
        has_ended = process.poll() is not None
        for datagram in received(peers):
            heard.append(datagram)
            flooded += act(next(plan, []), heard, peers, process)
        for place, desk in flooded * 200:
            place.sendto(STRAY, desk)
        select.select(peers, [], [], 0 if has_ended or flooded else 0.02)
    return heard


def run(program, words, text, plan):
    """A run of these words over this input, in which A and B are two peers that act by the plan."""
    with local_socket() as one, local_socket() as other, ThreadPoolExecutor(1) as pool:
        for peer in (one, other):
            peer.setsockopt(socket.SOL_SOCKET, TIMESTAMPS, 1)
        address = {it: "127.0.0.1:%d" % it.getsockname()[1] for it in (one, other)}
        named = dict(zip("AB", address.values()))
        words, text = (re.sub(r"(?<=[cdeo] )[AB]\b", lambda found: named[found[0]], it) for it in (words, text))
        begun = time.monotonic()
        with subprocess.Popen([program, *words.split()], **PIPES) as process:
            printed = pool.submit(process.communicate, text.encode())
            heard = play(process, [one, other], iter(plan))
            journal, fault = (octets.decode() for octets in printed.result())
        heard = [(f"{address[peer]} {octets.hex()}", at) for peer, octets, _, at in heard]
        return Run(words, text, process.returncode, journal, fault, heard, time.monotonic() - begun)


def who_is(line):
    """The remark of a line `who`, as it stands in the journal."""
    peer, *limits = line.split()[1:]
    address, *route = peer.split("/")
    network = b"\x01\x00"
    if route:
        number, station = 65535 if route[0] == "*" else int(route[0]), bytes.fromhex("".join(route[1:]))
        network = b"\x01\x20" + number.to_bytes(2, "big") + bytes([len(station)]) + station + b"\xff"
    octets = [(at, int(limit).to_bytes(4, "big").lstrip(b"\0") or b"\0") for at, limit in enumerate(limits)]
    body = b"".join(bytes([at << 4 | 8 | len(one)]) + one for at, one in octets)
    return f"# who {peer if route[1:] else address} {framed(WHO_IS + body, network).hex()}"


def check(name, program, it):
    """Checks a run of bacrun. Returns its remarks, whole, without their marks and the closing one."""
    lines, whole = it.journal.split("\n"), it.journal.replace("\n#+", "")
    same(f"{name}: where the closing remark is", [at for at, line in enumerate(lines) if line == CLOSING],
         [len(lines) - 2] if it.status == 0 else [])
    acts = re.findall(r"(?m)^.*(?:\n# (?!who |wait |end ).*)*", whole)  # a line, and the remarks that follow from it
    refused = ["".join(f"\n# unsent {one}" for one in SENT.findall(act) if REFUSED.match(one)) for act in acts]
    same(f"{name}: remarks on refused datagrams", ["".join(act.partition("\n# unsent ")[1:]) for act in acts], refused)
    remarks = [remark for remark in re.findall("(?m)^# (.*)", whole) if f"# {remark}" != CLOSING]
    replay = subprocess.run([program, "bactrace"], input=it.journal.encode(), capture_output=True, check=False)
    told = [remark for remark in remarks if not re.match("who |unsent |wait ", remark)]
    printed = "".join(f"{remark}\n" for remark in told).encode()
    same(f"{name}: what bactrace prints", (replay.returncode, replay.stdout), (0, printed))
    sent = [re.sub(r"/\S*", "", one) for one in SENT.findall(whole) if not REFUSED.match(one)]
    same(f"{name}: what the peers heard", sorted(one for one, _ in it.heard), sorted(sent))
    same(f"{name}: lines that are too long, or cut for nothing",
         (max(map(len, lines)) > LINE, "\n#+" in it.journal), (False, any(len(one) > LINE - 2 for one in remarks)))
    asked = [line for line in lines[1:-1] if not re.match("#(?! who | wait )|data |tick ", line)]
    given = [line for line in it.text.removesuffix("\n").split("\n") if line[:1] != "#"]
    given = [who_is(line) if line[:3] == "who" else "# " * (line[:4] == "wait") + line for line in given]
    same(f"{name}: lines of the input", asked, given[: len(asked)] if it.status else given)
    now, counts = set(), [0]
    for word, ticket in (remark.split(" ")[:2] for remark in told if " " in remark):
        now = now | {ticket} if word == "send" else now - {ticket}
        counts.append(len(now))
    most = int(re.search(r"--window (\d+)|$", it.words)[1] or 1)
    same(f"{name}: {max(counts)} are open", max(counts) <= most, True)
    return remarks


def in_short(remark):
    """Remarks on datagrams without their octets, and bits by their number."""
    remark = re.sub(r"^(send \d+|who|unsent) .*", r"\1", remark)
    return re.sub("B'(0+)'", lambda found: f"{len(found[1])} bits", remark)


def tried(program, place, row):
    """Tries a row. By the clock each request of a row with `N` comes again no earlier than nine tenths of the timeout
    after its last send, and on a quiet network not more than 60 ms late."""
    options, plan, wanted = (braced(row[mark][0]) for mark in "$@>")
    text = braced("\n".join(row["<"])).replace("\\n", "\n")
    it = run(program, f"bacrun {options}", text, (group.split(",") for group in plan.split()))
    remarks = [*map(in_short, check(place, program, it))]
    same(f"{place}: datagrams for nobody came", remarks.count("drop") > 9, "flood" in plan)
    same(place, [one for one in remarks if "flood" not in plan or one != "drop"], wanted.split(", "))
    status, _, fault = row.get("!", ["0"])[0].partition(" ")
    same(f"{place}: the end", (it.status, it.fault), (int(status), f"bactool: {fault}\n" if fault else ""))
    timeout, retries = map(int, re.findall(r"--apdu-\w+ (\d+)", options))
    shared = 1 + os.getloadavg()[0] / processors()  # how many other processes share each processor
    most = (len(text.splitlines()) * (timeout / 1000 + 1) * (retries + 1) + 1) * shared
    same(f"{place}: {it.seconds:.1f} seconds", 0 < it.seconds < most, True)
    for count in map(int, row.get("N", [])):
        sends = sorted(it.heard)
        gaps = [(after[1] - one[1]) / 1e6 for one, after in zip(sends, sends[1:]) if one[0] == after[0]]
        on_time = [0.9 * timeout <= gap <= timeout + 60 * shared for gap in gaps]
        same(f"{place}: milliseconds between sends: {gaps}", on_time, [True] * count)


def typed(program):
    """A line that is written into an open pipe is answered before the next one, and a bad one ends the run."""
    with contextlib.suppress(BrokenPipeError), device(program=[program]) as (_, port), \
            subprocess.Popen([program, "bacrun"], **PIPES) as process:
        for ticket, (kind, instance, value) in enumerate([(0, 5, "4290999a"), (3, 3, "0"), (1, 1, "00000000")]):
            process.stdin.write(b"read 127.0.0.1:%d %d %d 85\n" % (port, kind, instance))
            process.stdin.flush()
            told = next((line for line in process.stdout if line.startswith(b"# done")), b"").decode()
            same(f"typed: line {ticket + 1}", told, f"# done {ticket} value {value}\n")
        printed = process.communicate(b"tick 1\n")
        same("typed: a bad line", (process.returncode, printed[1]), (2, b"bactool: line 4: bad line\n"))


def main(program):
    signal.alarm(900)
    rows = list(blocks(f"{TOP}/tests/program/runs.txt"))
    alone = lambda row: "N" in row or "flood" in row["@"][0]  # by the clock, or a peer that takes all the time there is
    for workers, is_alone in ((4, False), (1, True)):
        with ThreadPoolExecutor(workers) as pool:
            list(pool.map(lambda row: tried(program, *row), (row for row in rows if alone(row[1]) == is_alone)))
    signal.alarm(60)
    typed(program)
    return verdict("ends, replays and lines of runs are as they are to be")


if __name__ == "__main__":
    sys.exit(main(sys.argv[1]) if len(sys.argv) == 2 else __doc__)
