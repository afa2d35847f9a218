#!/usr/bin/env python3
"""Surveys one simulated site with everything that hides a device, and compares all that is shown with what is there.

Usage: tests/site/whole_site.py PROGRAM [SEED], by hand: some minutes, in a network of its own. At the addresses of a
range are devices that answer at once, slowly, late, from another port, or no read; that lose requests, restart, become
another device, refuse their object list, or answer about another object. Two routers lead to one network; one rejects,
one is busy, the stations of one answer from another port, and one has 40 stations whose answers come 0.1 to 0.4 seconds
one after another. A second survey without these stations is compared with the first one, after devices were moved and
removed.

The status is 1 if a device is hidden, a value is wrong or missing without a reason, or fewer than 10,000 were compared.
"""

import json
import os
import random
import re
import subprocess
import sys
import tempfile
import time
from collections import Counter

import network_namespace
from routers import StrictRouter, Trunk
from stand_ins import LateStandIn, StandIn, an_object, socket_at
from unusual_sites import OBJECTS, Odd, compared, values_of

BACSITE = os.path.dirname(os.path.abspath(__file__)) + "/../../site/bacsite"
HOST, PORT = "127.0.1.%d", 47809  # at 47808 bacsite hears the answers of stations
LEAST = 10000  # values that are compared
PLAIN = 130  # devices without an anomaly
REFUSALS = [("abort", 0), ("abort", 9), ("reject", 1), ("error", 2, 31), "silent"]
SHOWN = ("name", "value", "meaning", "unit")


class Absent(Odd):
    """A device that is there only while `is_there`."""

    is_there = True

    def reply(self, apdu):
        return super().reply(apdu) if self.is_there else b""


class Restarting(Odd):
    """A device that restarts in the middle of the survey: for two seconds it loses all requests."""

    back_at = None

    def reply(self, apdu):
        if self.count == OBJECTS and not self.back_at:
            self.back_at = time.monotonic() + 2
        return b"" if self.back_at and time.monotonic() < self.back_at else super().reply(apdu)


class FromAnotherPort(StandIn):
    """A device whose answers come from another port than the one at which it is asked."""

    other = None

    def send(self, reply, client):
        self.other = self.other or socket_at(self.socket.getsockname()[0], 0)
        self.other.sendto(b"\x81\x0a" + (len(reply) + 6).to_bytes(2, "big") + b"\x01\x00" + reply, client)


class Site:
    """The devices; what must be shown for each address; and what may be shown for its objects."""

    def __init__(self, seed):
        self.dice, self.host = random.Random(seed), 0
        self.instances = iter(self.dice.sample(range(1, 4194302), 999))
        self.wanted = {}  # by address: the instance, a pattern of the reasons, and whether all values come
        self.shown = {}  # by address: the values of each device that may be there
        self.movers, self.goers, self.becoming, self.strange = [], [], [], []

    def place(self):
        """A socket at the next address."""
        self.host += 1
        return socket_at(HOST % self.host, PORT)

    def made(self, kind, count=OBJECTS, at=None, **more):
        """A device at the next address, and what must be shown for its objects."""
        instance = next(self.instances)
        values, shown = values_of(self.dice, instance, count)
        device = kind(instance, values, at=at or self.place(), **more)
        return device, shown

    def add(self, kind, count=OBJECTS, reasons="", is_whole=True, **more):
        """Adds a device, and what must be shown for it."""
        device, shown = self.made(kind, count, **more)
        self.wanted[device.address] = (device.instance, reasons, is_whole)
        self.shown[device.address] = [shown]
        return device

    def fill(self):
        """Adds all devices and routers."""
        for _ in range(PLAIN):
            self.add(Odd)
        for _ in range(4):
            self.add(Odd, 3, delay=0.35)
            self.add(LateStandIn, delay=0.1)
            self.add(Odd, lose=7)
            self.add(Restarting)
            self.add_strange("next")
            self.add_strange("behind")
        self.add(Odd, 1, delay=1.3)
        for refusal in REFUSALS:
            self.add_refusing(refusal)
        for _ in range(3):
            self.add_becoming()
        self.add_unheard()
        self.add_moving()
        self.add_routers()

    def add_strange(self, way):
        """A device that answers about another object, or one answer late: its values may be missing."""
        device = self.add(Odd, reasons=".*", is_whole=False)
        device.way = way
        self.strange.append(device.address)

    def add_refusing(self, refusal):
        """A device that refuses its object list, but gives the elements."""
        device = self.add(Odd)
        listed = device.values[8, device.instance, 76]
        for at in range(OBJECTS):
            device.values[8, device.instance, 76, at + 1] = listed[5 * at : 5 * at + 5]
        device.values[8, device.instance, 76] = refusal

    def add_becoming(self):
        """A device that becomes another one in the middle of the survey."""
        device = self.add(Odd, reasons=".*at the end another device: 8:[0-9]+", is_whole=False)
        device.other, shown = self.made(StandIn, at=socket_at("127.0.0.1", 0))
        device.way = "becomes"
        self.shown[device.address].append(shown)
        self.becoming.append(device)

    def add_unheard(self):
        """Devices that answer a Who-Is and no read, that answer from another port, and very late; and one that answers
        twice."""
        device = self.add(Odd, reasons="timeout; device %d answers a Who-Is, and no read")
        device.values[8, 4194303, 75] = device.values[8, device.instance, 75] = "silent"
        other = self.add(FromAnotherPort, reasons=r"timeout; device %d answers a Who-Is from 127\.0\.1\.[0-9]+:[0-9]+")
        late = self.add(LateStandIn, delay=5, reasons="timeout; device %d answers a read very late")
        for it in device, other, late:
            self.wanted[it.address] = (None, *self.wanted[it.address][1:])
            self.wanted[it.address] = (None, self.wanted[it.address][1].replace("%d", str(it.instance)), False)
        for _ in range(2):
            twin = self.add(Odd, reasons=r"(same instance as 127\.0\.1\.[0-9]+:47809)?")
            twin.instance = device.instance

    def add_moving(self):
        """Devices that move to another address, or are removed, before the second survey."""
        for _ in range(3):
            device = self.add(Absent)
            there = Absent(device.instance, device.values, at=self.place())
            there.is_there = False
            self.movers.append((device, there))
        self.goers = [self.add(Absent) for _ in range(2)]

    def stations(self, network, numbers, count=OBJECTS):
        """Stations of a network, by their routes."""
        found = {}
        for number in numbers:
            device, shown = self.made(Absent, count, at=socket_at("127.0.0.1", 0))
            found["%d/%02x" % (network, number)] = device
            self.shown[device] = [shown]
        return found

    def add_behind(self, router, stations):
        """Expects the stations behind this router."""
        for route, device in stations.items():
            address = "%s/%s" % (router.address, route)
            self.wanted[address] = (device.instance, "", True)
            self.shown[address] = self.shown[device]

    def add_routers(self):
        """The routers, and the stations behind them."""
        both, own = self.stations(5, range(1, 11)), self.stations(6, range(1, 4))
        first, second = self.add(StrictRouter), self.add(StrictRouter)
        first.stations, second.stations = {**both, **own}, dict(both)
        self.add_behind(first, first.stations)
        told = "(10|9) stations also behind " + re.escape(first.address)
        self.wanted[second.address + "/*"] = (None, told, False)
        slow = self.stations(20, range(1, 41), 2)
        self.trunk = self.add(Trunk, stations=slow, gap=(0.1, 0.4), kept=12)
        self.trunk_host = self.host
        self.add_behind(self.trunk, slow)
        self.goers.append(both["5/01"])
        self.elsewhere = self.add(StrictRouter)
        self.elsewhere.stations = self.stations(9, range(1, 4))
        self.elsewhere.answers_from = socket_at(HOST % self.host, 0)
        told = r"3 stations answered through 127\.0\.1\.[0-9]+:[0-9]+; no station answers"
        self.wanted[self.elsewhere.address + "/9/*"] = (None, told, False)
        self.named = [self.elsewhere.address + "/9/*"]
        for network, says, told in (
            (7, b"\x03\x01", r"reject-message-to-network 7: no route to that network \(1\)"),
            (8, b"\x04", "router-busy-to-network 8"),
        ):
            router = self.add(StrictRouter)
            router.says = says
            for reach in "%s/%d/*" % (router.address, network), router.address + "/*":
                self.wanted[reach] = (None, told + "; no station answers", False)
            self.named.append("%s/%d/*" % (router.address, network))

    def words(self, *left_out):
        """The words of a survey of all addresses, except these hosts; and of the named networks."""
        lows = [1, *(it + 1 for it in left_out)]
        highs = [*(it - 1 for it in left_out), self.host + 5]
        return ["127.0.1.%d-127.0.1.%d:%d" % (*it, PORT) for it in zip(lows, highs)] + self.named

    def change(self):
        """Moves devices, and removes some. Returns what must be shown of that, by address."""
        self.wanted = {it: wanted for it, wanted in self.wanted.items() if not it.startswith(self.trunk.address)}
        changes = {}
        for device in self.becoming:
            changes[device.address] = "was device %d D%d" % (device.instance, device.instance)
            self.wanted[device.address] = (device.other.instance, "", True)
            self.shown[device.address] = self.shown[device.address][1:]
        for here, there in self.movers:
            here.is_there, there.is_there = False, True
            changes[there.address] = "was at " + here.address
            self.wanted[there.address] = self.wanted.pop(here.address)
            self.shown[there.address] = self.shown[here.address]
        for device in self.goers:
            device.is_there = False
            (address,) = [it for it, (instance, *_) in self.wanted.items() if instance == device.instance]
            changes[address] = "was device %d D%d" % (device.instance, device.instance)
            self.wanted[address] = (None, "timeout", False)
        return changes


def surveyed(tools, words):
    """The lines of a survey, by their addresses; and its last line."""
    command = [sys.executable, BACSITE, "survey", "--json", "--tools", tools, "--stations", *words]
    done = subprocess.run(command, stdout=subprocess.PIPE, stderr=subprocess.PIPE, encoding="utf-8", check=False)
    lines = [json.loads(it) for it in done.stdout.splitlines()]
    return lines, done.stdout, done.stderr.strip()


def wrong_of(site, lines, counts):
    """Finds hidden devices, and wrong values in the lines."""
    by_address = {it["address"]: it for it in lines}
    yield from ("%s is twice" % it for it, count in Counter(it["address"] for it in lines).items() if count > 1)
    yield from ("hidden: %s" % it for it in site.wanted if it not in by_address)
    for line in lines:
        address, told = line["address"], "; ".join(line["reasons"])
        instance, reasons, is_whole = site.wanted.get(address, (None, "no line", False))
        if line["device"] != instance or not re.fullmatch(reasons, told):
            yield "%s: device %s, %s, in place of %s, %s" % (address, line["device"], told, instance, reasons)
        shown = site.shown.get(address, [])
        yield from compared(line, shown, counts)
        if is_whole:
            yield from lacking(line, shown[0], counts)


def lacking(line, shown, counts):
    """The values of a device that are not shown, and have no reason."""
    there = {(it["type"], it["instance"]): it for it in line["objects"]}
    yield from ("%s: no object %s" % (line["address"], it) for it in shown if it not in there)
    for which, it in there.items():
        counts["objects"] += 1
        for what in SHOWN:
            has_reason = it["reasons"] if what == "value" and not shown[which]["value"] else not shown[which][what]
            if not (it[what] or has_reason):
                yield "%s: no %s of %s" % (line["address"], what, it)


def report(name, site, found, counts, begun):
    lines, _, last = found
    wrong = list(wrong_of(site, lines, counts))
    print("%s, %.0f s: %s" % (name, time.monotonic() - begun, last))
    print("  %d lines; %s" % (len(lines), ", ".join("%d %s" % (counts[it], it) for it in sorted(counts))), flush=True)
    print("".join("  %s\n" % it[:500] for it in wrong), end="")
    return len(wrong)


def main(program, seed=None):
    seed = int(seed or random.randrange(1 << 32))
    site, counts, again = Site(seed), Counter(), Counter()
    site.fill()
    with tempfile.TemporaryDirectory() as room:
        os.symlink(os.path.realpath(program), room + "/bactool")
        begun = time.monotonic()
        first = surveyed(room, site.words())
        wrong = report("a survey, seed %d" % seed, site, first, counts, begun)
        changes = site.change()
        with open(room + "/before", "w", encoding="utf-8") as file:
            file.write(first[1])
        begun = time.monotonic()
        second = surveyed(room, ["--since", room + "/before", *site.words(site.trunk_host)])
        wrong += report("a second one", site, second, again, begun)
        found = {it["address"]: "; ".join(it["changes"]) for it in second[0] if it["address"] not in site.strange}
        found = {address: told for address, told in found.items() if told}
        wrong += found != changes
        print("  changes: %s%s" % (found, "" if found == changes else ", and not %s" % changes))
    values = sum(counts[it] for it in SHOWN)
    print("tests/site/whole_site.py: %d values of %d objects, %d things wrong" % (values, counts["objects"], wrong))
    return bool(wrong or values < LEAST)


if __name__ == "__main__":
    if len(sys.argv) < 2:
        sys.exit(__doc__)
    network_namespace.enter()
    sys.exit(main(*sys.argv[1:]))
