#!/usr/bin/env python3
"""Gives the built program random input, and checks its answers and its output, up to the first difference. The input is
the lines and datagrams of the test rows, unchanged and damaged. Usage: bench/soak.py device DATAGRAMS [SEED], script
LINES [SEED], runs RUNS [SEED], or readers ANSWERS [SEED]; BACTOOL names a program other than the tree's. The function
of each, like `soak_device`, says what it does, and yields the kinds of what it has seen.
"""
import contextlib
import itertools
import random
import re
import subprocess
import sys
import time
from collections import Counter

sys.path[:0] = [f"{sys.path[0]}/../{folder}" for folder in ("tests", "tests/program", "site")]
from bacsite.messages import ABORT, CONFIRMED, DISTRIBUTE, READ, REJECT, UNCONFIRMED, UNICAST, Datagram, message_of
from bacsite.messages import outcome_of
from bacsite.bodies import parameters, read_ack
from rows import row_cases
from runs import check, run
from tree import PROGRAM, TOP, WRONG, device, files, framed, local_socket, resident


def read(octets):
    """bacsite's reading of a datagram."""
    return message_of(Datagram(0, "", "", octets))


# Of the scripts of the rows: lines with requests, datagrams, and the answers, each with the place of its invoke id.
CASES = [case for path in files(TOP + "/tests/program/rows/scripts-*.rows") for case in row_cases(path)]
WELL = "\n".join(case.script for case in CASES if case.status == 0)
ASKS = sorted({*re.findall("(?m)^(?:read|write) .*", WELL)})
FOUND = {it for case in CASES for it in re.findall(r"\b81(?:0a|0b|04)[0-9a-f]{4,}", case.script)}
DATAGRAMS = [bytes.fromhex(it) for it in sorted(FOUND)]
ANSWERS = [(it.datagram.octets, it.at + 1) for it in map(read, DATAGRAMS) if it.apdu and it.apdu.is_answer]


def damaged(dice, datagram):
    """The datagram with octets inserted, replaced or cut off, or a bit changed; mostly it has its new length."""
    octets = bytearray(datagram)
    for _ in range(dice.randint(1, 3)):
        at = dice.randrange(len(octets) + 1)
        turned = bytes(octet ^ 1 << dice.randrange(8) for octet in octets[at : at + 1])
        more = dice.randbytes(dice.randint(1, 4))
        end, others = dice.choice([(at, more), (at + 1, dice.randbytes(1)), (len(octets), b""), (at + 1, turned)])
        octets[at:end] = others
    if len(octets) >= 4 and dice.random() < 0.7:
        octets[:4] = datagram[:2] + len(octets).to_bytes(2, "big")
    return bytes(octets)


def any_datagram(dice, port):
    """A datagram of the rows, unchanged or damaged. If it is forwarded, it names only this machine, or port 0 there."""
    datagram = dice.choice(DATAGRAMS)
    datagram = damaged(dice, datagram) if dice.random() < 0.6 else datagram
    if datagram[1:2] == b"\x04":
        here = bytes([127, 0, 0, 1]) + (0 if dice.random() < 0.1 else port).to_bytes(2, "big")
        datagram = datagram[:4] + here[: max(0, len(datagram) - 4)] + datagram[10:]
    return datagram


INSTANCE, BATCH, BATCHES = 1234, 16, 3000  # a bacdev, and the datagrams to it; each batch ends with one of ours
VENDOR = bytes.fromhex("810a0011010400059b0c0c020004d21978")
ANNOUNCED = [50, 128, 206, 480, 1024, 1476] + [50] * 10
I_AM = "1000c4020004d22205c49103220104"
# Replies to a confirmed request, without the invoke id: kind after kind, with the numbers that it has.
KINDS = r"(?P<SimpleACK>200f)|(?P<ComplexACK>300c.*)|(?P<Error>500[cf]91(..)91(..))|(?P<Reject>60(0[45679]))"
KINDS += "|(?P<Abort>71(04))"


def is_asked(body):
    """Whether a Who-Is with this body asks for the device."""
    limits = list(parameters(body)) or [(0, b"\0"), (1, b"\xff" * 4)]
    is_right = [number for number, _ in limits] == [0, 1] and all(1 <= len(it) <= 4 for _, it in limits)
    low, high = (int.from_bytes(it, "big") for _, it in limits) if is_right else (1, 0)
    return low <= INSTANCE <= high


def expected(datagram):
    """Returns the expected reply: None, or the route, the invoke id (of an I-Am None), and the announced size."""
    if len(datagram) < 4 or datagram[0] != 0x81 or int.from_bytes(datagram[2:4], "big") != len(datagram):
        return None
    message, route = read(datagram), b""
    apdu = message.apdu
    origin, *source = message.sender.split("/")
    is_to_all = datagram[1] != UNICAST or message.receiver != ""
    is_here = datagram[1] != DISTRIBUTE and message.receiver.split("/")[1:2] in ([], ["65535"])
    if not apdu or not is_here or origin.endswith(":0"):  # no reply can be sent to port 0
        return None
    if source:
        network, station = int(source[0]), bytes.fromhex(source[1].strip("*"))
        if network in (0, 65535) or not 1 <= len(station) <= 7:
            return None
        route = network.to_bytes(2, "big") + bytes([len(station)]) + station
    if apdu.kind == UNCONFIRMED and apdu.service == 8 and is_asked(apdu.body):
        return route, None, 50
    is_for_us = apdu.kind == CONFIRMED and not is_to_all
    return (route, apdu.invoke, ANNOUNCED[datagram[message.at + 1] & 15]) if is_for_us else None


def kind_of(reply, route, invoke_id, room):
    """Returns the kind of a reply, if it can be read and fits; otherwise None."""
    network = b"\x01\x20" + route + b"\xff" if route else b"\x01\x00"
    octets = reply[4 + len(network) :]
    if reply != framed(octets, network) or len(octets) > room:
        return None
    if invoke_id is None:
        return "I-Am" if octets.hex() == I_AM else None
    found = re.fullmatch(KINDS, (octets[:1] + octets[2:]).hex())
    if not found or octets[1] != invoke_id or octets[0] == 0x30 and not read_ack(octets[3:]):
        return None
    return " ".join([found.lastgroup, *(str(int(it, 16)) for it in found.groups() if it and len(it) == 2)])


def tried(desk, batch):
    """The kinds of the replies to a batch. The known reply to the last datagram shows that no other reply came."""
    wanted, replies = [it for it in map(expected, batch) if it], []
    with contextlib.suppress(OSError):
        for datagram in batch:
            desk.send(datagram)
        replies.extend(desk.recv(2048) for _ in wanted)
    kinds = [kind_of(reply, *one) for reply, one in itertools.zip_longest(replies, wanted, fillvalue=b"")]
    if not all(kinds):
        sent = "\n".join(f"  {it.hex()} expects {expected(it)}" for it in batch)
        sys.exit(f"not as expected, {[reply.hex() for reply in replies]}; sent:\n{sent}")
    return kinds + ["no reply"] * (len(batch) - len(wanted))


def soak_device(dice, left):
    """Sends datagrams to bacdev, and reads every reply. The expected one comes from bacsite's reading of the datagram,
    by the rules of docs/PROTOCOL.md."""
    for first in range(0, left, BATCH * BATCHES):
        batches = min(BATCHES, -(-(left - first) // BATCH))
        count = str(batches * (BATCH + 1))
        with device("--count", count, stderr=subprocess.PIPE) as (process, port), local_socket(port, 5) as desk:
            for _ in range(batches):
                batch = [any_datagram(dice, desk.getsockname()[1]) for _ in range(BATCH)]
                yield from tried(desk, [*batch, VENDOR])
            if process.wait(10) != 0 or process.stderr.read() != b"":
                sys.exit("it didn't end by its count")


PLACES, RETRIES, BLOCK = 64, 3, 200
# Each block ends with a request to the device, whose reply shows that everything before it was printed.
ASK, REPLY = "ask 127.0.0.9:9 810a001101040005010c0c000000051955", "reply 127.0.0.9:9 810a0017010030010c"
PRINTED = r"send \d+ \S+ [0-9a-f]+|done \d+ .+|timeout \d+|full|too-long|drop|silent|reply \S+ 810a[0-9a-f]+"


def any_answer(dice, number):
    """The digits of one of the answers, with this invoke id; it may be damaged."""
    octets, at = dice.choice(ANSWERS)
    octets = octets[:at] + bytes([number]) + octets[at + 1 :]
    return (damaged(dice, octets) if dice.random() < 0.2 else octets).hex()


def followed(line, opened, count):
    """The kind of a printed line, if it is possible after this many requests. Those that are open have their datagram,
    their invoke id, and how often they were sent."""
    word, *words = line.split(" ", 2)
    if not re.fullmatch(PRINTED, line) or word == "full" and len(opened) < PLACES:
        return None
    if word not in ("send", "done", "timeout"):
        return word
    ticket = int(words[0])
    datagram, number, times = opened.pop(ticket, (words[-1], None, 0))
    if word != "send":
        return word if times and (word == "done" or times > RETRIES) else None
    is_possible = words[1] == datagram and times <= RETRIES
    if not times:
        number = read(bytes.fromhex(datagram.split()[1])).apdu.invoke
        is_possible = ticket == count and len(opened) < PLACES and number not in [it[1] for it in opened.values()]
    opened[ticket] = (datagram, number, times + 1)
    return ("sent again" if times else "send") if is_possible else None


def soak_script(dice, lines):
    """Runs one long script through bactrace, with a tick now and then, and follows each request through the output."""
    peers = [line.split()[1].split("/")[0] for line in ASKS]
    chosen = dice.choices(ASKS, k=6000) + ["", "# a comment", "  \t"]  # in their shares; an answer has any invoke id
    chosen += [f"data {dice.choice(peers)} {any_answer(dice, at % 256) or '81'}" for at in range(24000)]
    chosen += [f"ask {dice.choice(peers)} {any_datagram(dice, 47808).hex() or '81'}" for _ in range(6000)]
    counts, opened, asked, now = Counter(), {}, 0, 0
    how = {"stdin": subprocess.PIPE, "stdout": subprocess.PIPE, "text": True}
    with subprocess.Popen([PROGRAM, "bactrace"], **how) as process:
        for _ in range(0, lines, BLOCK):
            part = dice.choices(chosen, k=BLOCK)
            for at in range(0, BLOCK, 20):
                now += dice.choice([0, 1, 50, 200, 3000 if dice.random() < 0.02 else 100])
                part[at] = f"tick {now}"
            asked += sum(line.startswith(("read", "write", "data", "ask")) for line in part)
            process.stdin.write("\n".join([*part, ASK, ""]))
            process.stdin.flush()
            while not (line := process.stdout.readline()).startswith(REPLY):
                counts[followed(line.rstrip("\n"), opened, counts["send"])] += 1
                if counts[None]:
                    sys.exit(f"does not fit: {line!r}; it was printed over:\n" + "\n".join(part))
            told = sum(counts.values()) - counts["sent again"] - counts["timeout"]
            if told != asked:
                sys.exit(f"{told} lines printed for {asked}, the last of them:\n" + "\n".join(part))
        counts["KB of memory at most"] = resident(process)
        process.stdin.close()
        if process.wait(10) != 0:
            sys.exit(f"status {process.returncode}")
    return counts


def plan(dice):
    """A plan for the peers, as in tests/program/runs.txt: mostly they answer each datagram."""
    for number in itertools.count():
        words = [str(number)] * dice.choice([0, 1, 1, 1, 1, 2]) + ["stop"] * (dice.random() < 0.004)
        words += [dice.choice(["", "other:", "plain:"]) + str(dice.randint(0, number))] * (dice.random() < 0.2)
        octets = dice.choice([any_answer(dice, (number + dice.randint(-7, 2)) % 256), ""])
        words += [f"octets:{octets}"] * (dice.random() < 0.3)
        yield dice.sample(words, len(words))


def soak_runs(dice, count):
    """Runs bacrun over random requests, against two peers that answer, lose, double, hold back and damage what they
    send, and some to which the system refuses to send; each run is checked as tests/program/runs.py does."""
    peers = [*"ABABABAB", "127.0.0.1:0", "255.255.255.255:47808"]  # the system refuses to send to the last two
    asks = ASKS + [f"read P 2 {dice.randrange(17000)} 85" for _ in range(len(ASKS) // 10)]  # bits of many lines
    asks = [re.sub("(?<=[de]) [^/ ]+", f" {peer}", ask, count=1) for ask in asks if len(ask) < 4000 for peer in peers]
    reaches = ["", "/*", "/1", "/65534", "/5/07", "/9/01020304050607"]
    for _ in range(count):
        words = f"bacrun --apdu-timeout {dice.choice([5, 20, 60])} --apdu-retries {dice.randint(0, 2)}"
        words += f" --window {dice.choice([1, 2, 8, 64])}"
        low = dice.choice([0, 255, 256, 65535, 65536, 4194303])
        limits = dice.choice(["", f" {low} {dice.randint(low, 4194303)}"])
        who = f"who {dice.choice(peers)}{dice.choice(reaches)}{limits}"
        others = ["", "# a remark", who, f"wait {dice.choice([0, 1, 5, 30])}"]
        lines = [dice.choice(asks if dice.random() < 0.9 else others) for _ in range(dice.randint(1, 80))]
        it = run(PROGRAM, words, "\n".join([*lines, ""]), plan(dice))
        yield from (remark.split()[0] for remark in check("a run", PROGRAM, it))
        if WRONG or it.status != 0:
            sys.exit("\n".join([*WRONG, it.words, it.fault, it.text, it.journal]))


ASKED, HEADS = "127.0.0.9:47808", ["0100"] * 4 + ["0103", "0120ffff00ff", "0157"]


def odd_answer(dice, number, body=bytes.fromhex("0c4b00000119553e")):
    """A datagram that answers a read of a vendor's value, perhaps damaged after its invoke id."""
    parts = [bytes([dice.randrange(256)]) + dice.randbytes(dice.randrange(9)) for _ in range(dice.randrange(3))]
    for tag in dice.choices(range(13), k=dice.randrange(4)):
        octets = dice.randbytes(dice.choice([1, 4, 4, 8, 20]))
        parts.append(bytes([tag << 4 | min(len(octets), 5)]) + bytes([len(octets)] * (len(octets) > 4)) + octets)
    dice.shuffle(parts)
    whole = bytes([0x30, number, 12]) + body + b"".join(parts) + b"\x3f"
    if dice.random() < 0.4:
        whole = whole[:2] + damaged(dice, whole[2:])
    if dice.random() < 0.1:
        whole = bytes([dice.choice([0x20, 0x38, 0x50, 0x60, 0x71]), number]) + dice.randbytes(dice.randrange(9))
    return framed(whole, bytes.fromhex(dice.choice(HEADS)))


def soak_readers(dice, count):
    """Gives bactrace unusual answers to a read, and compares how each ended the request with bacsite's reading. A
    Reject ends it if the answer does not: if it is invalid, has another number, or is for another service."""
    numbers = [number % 256 for number in range(1, count + 1)]
    answers = [odd_answer(dice, number) for number in numbers]
    lines = (f"read {ASKED} 300 1 85\ndata {ASKED} {answer.hex()}\ndata {ASKED} 810a0009010060{number:02x}09\n"
             for number, answer in zip(numbers, answers))
    done = subprocess.run([PROGRAM, "bactrace"], input="".join(lines), stdout=subprocess.PIPE, text=True, check=True)
    told = done.stdout.splitlines()
    if not 0 < 3 * count == len(told):
        sys.exit(f"bactrace prints {len(told)} lines, not three for each of {count} answers")
    for at, (octets, number, line, end) in enumerate(zip(answers, numbers, told[1::3], told[2::3])):
        apdu = read(octets).apdu
        taken = apdu and apdu.is_answer and apdu.invoke == number
        taken = taken and (apdu.kind in (REJECT, ABORT) or apdu.service == READ)
        wanted = (f"done {at} {outcome_of(apdu)}", "drop") if taken else ("drop", f"done {at} reject 9")
        if (line, end) != wanted:
            sys.exit(f"{octets.hex()}: bactrace prints {line!r} and {end!r}, bacsite reads {wanted!r}")
        yield line.split(" ")[2] if taken else line


def main(what, count, seed=random.randrange(1 << 32)):
    print(f"seed {seed}", flush=True)
    begun = time.time()
    counts = Counter(globals()[f"soak_{what}"](random.Random(int(seed)), int(count)))
    if not counts or not int(count) or what == "runs" and counts["done"] <= counts["timeout"]:
        sys.exit(f"{what}: nothing was tried, or few requests were answered")
    print(f"{what}: {count} in {time.time() - begun:.0f} s")
    for kind, number in sorted(counts.items()):
        print(f"{number:9}  {kind}")


main(*sys.argv[1:]) if sys.argv[2:] else sys.exit(__doc__)
