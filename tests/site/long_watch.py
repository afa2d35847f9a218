#!/usr/bin/env python3
"""Long watches, by hand: is a value ever older than it says, or another point's; is one ever lost?

Usage: tests/site/long_watch.py PROGRAM late [ROUNDS [SEED]]
       tests/site/long_watch.py PROGRAM hours [HOURS [SPEED [SEED]]], in a network and with mounts of its own

The value of each point is the time, in microseconds, when its device read it, and the number of the point. So each row
shows whether it is about the right point, and whether the value was read after the time of the row.

`late` watches devices which answer late, twice, never, or when the number of the request comes again, at random, by
default in 1000 rounds, which take some minutes, and end after twenty. `hours` watches one device with a clock that runs
SPEED times as fast (60), eight hours by default. In the first half disturbances happen: losses, restarts of the device,
a machine that sleeps, a full disk, kill -9, a program that is stopped for a while; in the second half one process goes
on, and its memory is checked.
"""

import csv
import os
import random
import signal
import socket
import subprocess
import sys
import tempfile
import threading
import time
from collections import Counter
from datetime import datetime

import network_namespace
from fast_clock import Clock
from stand_ins import StandIn, bits, unsigned

HERE = os.path.dirname(os.path.abspath(__file__))
SITE = os.path.realpath(HERE + "/../../site")
sys.path.insert(0, SITE)
from bacsite.watch import LONGEST  # noqa: E402

KIND, POINTS = 48, (1, 16, 64, 128)  # the type of the points; how many points each device of `late` has
MOST_SECONDS = 1200
LATE_TIMES = 8  # times --apdu-timeout
HOWS = ("lost", "late", "twice", "held", "twice, held")  # a bad answer is sent


class Telling(StandIn):
    """A device whose values say when they were read, and for which point. `dice` has it answer badly."""

    def __init__(self, count, clock, dice=None, rate=0.0, patience=0.1, at=None):
        self.clock, self.dice, self.rate, self.patience = clock, dice, rate, patience
        self.losing, self.counts, self.is_down, self.held = 0.0, Counter(), False, {}
        super().__init__(77, {(KIND, it, 111): bits("0000") for it in range(count)}, at=at)
        self.count = count

    def serve(self):
        place = self.socket.getsockname()
        while True:
            self.socket.settimeout(0.05)
            try:
                datagram, client = self.socket.recvfrom(2048)
                self.send(self.reply(datagram[6:]), client)
            except socket.timeout:
                pass
            if self.is_down:  # nobody has the port
                self.socket.close()
                while self.is_down:
                    time.sleep(0.01)
                self.socket = socket.socket(socket.AF_INET, socket.SOCK_DGRAM)
                self.socket.bind(place)

    def reply(self, apdu):
        instance = int.from_bytes(apdu[5:9], "big") & 4194303
        self.values[(KIND, instance, 85)] = unsigned(self.clock.time_ns() // 1000 * 1000 + instance)
        self.asked.clear()  # the device forgets the requests
        return super().reply(apdu)

    def send(self, reply, client):
        if self.dice and self.dice.random() < self.losing:
            self.counts["lost"] += 1
            return
        number = (client, reply[1:2])
        if number in self.held:  # an answer that was held back until its number came again
            super().send(self.held.pop(number), client)
        how = self.dice.choice(HOWS) if self.dice and self.dice.random() < self.rate else "at once"
        self.counts[how] += how != "at once"
        if how in ("at once", "twice", "twice, held"):
            super().send(reply, client)
        if how in ("held", "twice, held"):
            self.held[number] = reply
        if how in ("late", "twice"):
            later = self.dice.random() * self.patience * LATE_TIMES
            threading.Timer(later, super().send, [reply, client]).start()


class Checked:
    """Rows that were looked at: how many of each kind, and the wrong ones."""

    def __init__(self):
        self.counts, self.wrong = Counter(), []

    def see(self, row, instance):
        """Checks a row."""
        if not row["value"]:
            self.counts[row["missing"]] += 1
            return
        self.counts["values"] += 1
        micros, whose = divmod(int(row["value"]), 1000)
        if whose != instance:
            self.wrong.append(("of another point", row))
        if micros < millis_of(row["time"]) * 1000:
            self.wrong.append(("older than it says", row))

    def told(self):
        """Returns the counts in words, and prints the wrong rows."""
        for it in self.wrong[:5]:
            print(*it)
        counts = ", ".join("%d %s" % (count, name) for name, count in sorted(self.counts.items()))
        return "%s; %d wrong" % (counts, len(self.wrong))


def millis_of(stamp):
    """The milliseconds since 1970 of a time in a row."""
    return round(datetime.fromisoformat(stamp.replace("Z", "+00:00")).timestamp() * 1000)


def rows_of(path):
    with open(path, encoding="utf-8", newline="") as file:
        return list(csv.DictReader(file))


def listed(folder, names):
    """A list of points, and the number of each by its name."""
    points = {"%d-%d" % (at, it): it for at, (_, count) in enumerate(names) for it in range(count)}
    with open(folder + "/list", "w", encoding="ascii") as file:
        for at, (address, count) in enumerate(names):
            file.writelines("%d-%d %s %d %d 85\n" % (at, it, address, KIND, it) for it in range(count))
    return points


class Machine:
    """The clock of the machine."""

    time_ns = staticmethod(time.time_ns)


def late(folder, tools, rounds="1000", seed=None):
    """Rounds at devices that answer late, twice or never."""
    seed = int(seed or random.randrange(1 << 32))
    dice, path = random.Random(seed), folder + "/late.csv"
    devices = [Telling(it, Machine, random.Random(dice.random()), 1.5 / (it + 3)) for it in POINTS]
    points = listed(folder, [(it.address, it.count) for it in devices])
    words = [sys.executable, SITE + "/bacsite", "watch", folder + "/list", "--csv", path, "--no-flags"]
    words += ["--tools", tools, "--every", "0.1", "--rounds", rounds, "--for", "%ds" % MOST_SECONDS]
    begun = time.monotonic()
    subprocess.run([*words, "--apdu-timeout", "100", "--apdu-retries", "0"], stdout=subprocess.DEVNULL)
    checked, last = Checked(), Counter()
    for row in rows_of(path):
        checked.see(row, points[row["point"]])
        last[row["point"]] += row["missing"] != "not asked"
    did = sum((it.counts for it in devices), Counter())
    least = min(last[it] for it in points)
    print("seed %d: %d rounds at least, %.0f s; the devices: %s" % (seed, least, time.monotonic() - begun, dict(did)))
    print("tests/site/long_watch.py:", checked.told())
    return bool(checked.wrong) or not (len(did) == len(HOWS) and checked.counts["values"])


class Hours:
    """A watch by a fast clock, with many disturbances."""

    def __init__(self, folder, tools, hours, speed, seed):
        self.folder, self.tools, self.dice = folder, tools, random.Random(seed)
        self.clock = Clock(folder + "/clock", speed)
        self.end, self.path = hours * 3600, folder + "/disk/hours.csv"
        os.mkdir(folder + "/disk")
        subprocess.run(["mount", "-t", "tmpfs", "-o", "size=48m", "none", folder + "/disk"], check=True)
        self.device = Telling(3, self.clock, self.dice)
        self.points = listed(folder, [(self.device.address, 3)])
        self.printed, self.wrong, self.happened = [], [], Counter()
        self.process, self.sizes = None, []

    def begin(self):
        """Begins the watch, and reads what it prints."""
        words = [sys.executable, HERE + "/fast_clock.py", self.folder + "/clock", SITE, "watch", self.folder + "/list"]
        words += ["--csv", self.path, "--page", self.folder + "/hours.html", "--all", "--tools", self.tools]
        words += ["--apdu-timeout", "50", "--apdu-retries", "1"]
        self.process = subprocess.Popen(words, stdout=subprocess.PIPE, stderr=subprocess.PIPE, encoding="utf-8")
        threading.Thread(target=self.read, args=[self.process.stdout], daemon=True).start()

    def read(self, stream):
        for line in stream:
            if line.endswith("\n"):  # a killed process may leave part of a line
                self.printed.append(line)

    def sleep(self, seconds):
        """Waits by the clock of the machine, and checks the memory."""
        until = time.monotonic() + seconds
        while time.monotonic() < until:
            time.sleep(0.2)
            with open("/proc/%d/statm" % self.process.pid, encoding="ascii") as file:
                pages = int(file.read().split()[1])
            files = len(os.listdir("/proc/%d/fd" % self.process.pid))
            self.sizes.append((self.clock.monotonic(), self.process.pid, pages * 4, files))

    def losses(self):
        self.device.losing = self.dice.choice([0.1, 1.0])
        self.sleep(2)
        self.device.losing = 0.0

    def restart_of_the_device(self):
        self.device.is_down = True
        self.sleep(1)
        self.device.is_down = False

    def sleep_of_the_machine(self):
        self.process.send_signal(signal.SIGSTOP)
        self.clock.put_on(self.dice.randrange(300, 3000))
        time.sleep(0.3)
        self.process.send_signal(signal.SIGCONT)

    def stop_of_the_program(self):
        self.process.send_signal(signal.SIGSTOP)
        time.sleep(1)
        self.process.send_signal(signal.SIGCONT)

    def full_disk(self):
        """No row that was printed meanwhile may be missing when there is room again."""
        with open(self.folder + "/disk/filler", "wb", buffering=0) as file:
            try:
                while file.write(b"\0" * 4096):
                    pass
            except OSError:
                pass
        self.sleep(3)
        os.unlink(self.folder + "/disk/filler")
        self.sleep(1)

    def kill(self, number=signal.SIGKILL):
        """After a kill the file has all earlier rows, and the printed ones; the next watch continues it."""
        self.process.send_signal(number)
        self.process.wait()
        time.sleep(0.2)
        with open(self.path, "rb") as file:
            before = file.read()
        self.begin()
        after, until = b"", time.monotonic() + 30
        while len(after) <= len(before) and time.monotonic() < until:
            self.sleep(0.5)
            with open(self.path, "rb") as file:
                after = file.read()
        if not after.startswith(before[: before.rfind(b"\n") + 1]) or len(after) <= len(before):
            self.wrong.append(("not whole after a kill", len(before), len(after)))

    def end_by_a_signal(self):
        self.kill(signal.SIGTERM)

    def run(self):
        """The first half with all disturbances, the second without."""
        self.begin()
        self.sleep(2)
        kinds = [self.losses, self.restart_of_the_device, self.sleep_of_the_machine, self.stop_of_the_program]
        kinds += [self.full_disk, self.kill, self.kill, self.end_by_a_signal]
        while self.clock.monotonic() < self.end / 2:
            happens = self.dice.choice(kinds)
            self.happened[happens.__name__] += 1
            happens()
            self.sleep(1 + 3 * self.dice.random())
        while self.clock.monotonic() < self.end:
            self.sleep(1)
        self.process.send_signal(signal.SIGTERM)
        if self.process.wait() not in (0, 1):
            self.wrong.append(("ended with", self.process.returncode, self.process.stderr.read()))
        time.sleep(0.5)

    def checked(self):
        """Compares the file with the printed text."""
        checked, rows, last = Checked(), rows_of(self.path), {}
        for row in rows:
            if None in row.values() or None in row:
                self.wrong.append(("a torn row", row))
                continue
            checked.see(row, self.points[row["point"]])
            at, before = millis_of(row["time"]), last.get(row["point"])
            if before and row["missing"] != "not asked" != before[1] and not 0 < at - before[0] < 60000 * LONGEST:
                self.wrong.append(("a gap that nothing tells of", before, row))
            last[row["point"]] = at, row["missing"]
        kept = {(it["time"], it["point"], it["value"]) for it in rows}
        for line in self.printed:
            time_of, point, value = line.split("\t")[:3]
            if (time_of, point, "" if value == "-" else value) not in kept:
                self.wrong.append(("printed, and not in the file", line))
        checked.wrong += self.wrong
        return checked

    def grew(self):
        """Returns the growth of the memory in the last quarter, in KiB, and the open files."""
        mine = [it for it in self.sizes if it[1] == self.process.pid]
        early = [it for it in mine if it[0] < self.end * 0.8 and it[0] > self.end * 0.7]
        late_ones = [it for it in mine if it[0] > self.end * 0.9]
        return max(it[2] for it in late_ones) - max(it[2] for it in early), max(it[3] for it in late_ones)


def hours(folder, tools, count="8", speed="60", seed=None):
    """Hours of a watch, with many disturbances."""
    seed = int(seed or random.randrange(1 << 32))
    watch, begun = Hours(folder, tools, float(count), float(speed), seed), time.monotonic()
    watch.run()
    checked, (grown, files) = watch.checked(), watch.grew()
    rounds = len({it.split("\t")[0] for it in watch.printed})
    told = ", ".join("%s %d" % it for it in sorted(watch.happened.items()))
    print("seed %d: %s hours in %.0f s; %s" % (seed, count, time.monotonic() - begun, told))
    print("%d rows printed, at %d times; the memory grew by %d KiB in the last fifth, %d open files" % (
        len(watch.printed), rounds, grown, files))
    print("tests/site/long_watch.py:", checked.told())
    return bool(checked.wrong) or grown > 1024 or len(watch.happened) < 7


def main(tool, which, *words):
    if which == "hours":
        network_namespace.enter("--mount")
    with tempfile.TemporaryDirectory() as folder:
        os.symlink(os.path.realpath(tool), folder + "/bactool")
        status = {"late": late, "hours": hours}[which](folder, folder, *words)
        if which == "hours":
            subprocess.run(["umount", folder + "/disk"], check=True)
    return status


if __name__ == "__main__":
    if len(sys.argv) < 3:
        sys.exit(__doc__)
    sys.exit(main(*sys.argv[1:]))
