#!/usr/bin/env python3
"""Surveys sites of unusual devices, and compares each value, name, unit and state shown with those of the device.

Usage: tests/site/unusual_sites.py PROGRAM [VALUES [SEED]], by hand. It goes on until this many values were shown,
10,000 by default; a value that the device does not have, or another object's, ends it with status 1. A device answers
about the next object, or one answer late; it has numbers of other types with eight digits, texts of states that are
equal or crossed, names of another object; it becomes another device meanwhile, answers late, or loses requests; it is
behind a router.
"""

import json
import os
import random
import struct
import subprocess
import sys
from collections import Counter
from decimal import Decimal

import network_namespace
from stand_ins import RouterStandIn, StandIn, an_object, bits, enumerated, real, string, tagged, unsigned

SITE = os.path.dirname(os.path.abspath(__file__)) + "/../../site/bacsite"
OBJECTS, DEVICES = 24, 20
WAYS = ("plain", "next", "behind", "becomes", "late", "loses", "routed", "routed next", "routed behind")
UNITS = {62: "degrees-celsius", 98: "percent", 53: "pascals"}
STANDARD = {"0": "inactive", "1": "active"}
PATIENCE = ["--apdu-timeout", "150", "--apdu-retries", "1"]


def number_of(dice, kind):
    """Octets of a present value, and its text, which is empty if its type is wrong."""
    if dice.random() < 0.2 and kind < 3:
        count = dice.randrange(10**7, 10**8)
        octets = unsigned(count, dice.choice([2, 3, 9]))
        return octets if dice.random() < 0.7 else tagged(5, struct.pack(">d", count)), None
    quarters = dice.randrange(-4000, 4000)
    shown = str(Decimal(quarters) / 4).rstrip("0").rstrip(".") if quarters % 4 else str(quarters // 4)
    octets = struct.pack(">f", quarters / 4)
    if kind == 300 and dice.random() < 0.5:
        count = dice.randrange(10**7, 10**8)
        return unsigned(count), str(count)
    return tagged(4, octets), shown


def values_of(dice, instance, count=OBJECTS):
    """The values of a device; and what must be shown for each object: name, value, meaning and unit."""
    objects = [(dice.choice([0, 0, 1, 2, 4, 13, 19, 300]), at) for at in range(count)]
    own = {(8, instance, it): string("D%d" % instance) for it in (70, 77, 121)}
    own[8, instance, 76] = b"".join(an_object(*it) for it in objects)
    own[8, instance, 76, 0] = unsigned(len(objects))
    shown = {}
    for kind, at in objects:
        name = dice.choice(["%d of %d" % (at, instance), "%d of %d" % (at + 1, instance), "same"])
        meaning, unit = "", ""
        if kind in (4, 13, 19):
            count = dice.randrange(2) if kind == 4 else dice.randrange(1, 5)
            octets, value = (enumerated if kind == 4 else unsigned)(count), str(count)
            texts = [dice.choice(["1", "2", "3", "4", "0", "On", "Off", "active"]) for _ in range(5)]
            own.update({(kind, at, 110, it): string(texts[it]) for it in range(1, 5)})
            own.update({(kind, at, 46): string(texts[0]), (kind, at, 4): string(texts[1])})
            meaning = texts[count]
        else:
            octets, value = number_of(dice, kind)
            number, unit = dice.choice(list(UNITS.items()))
            own[kind, at, 117] = enumerated(number)
        own.update({(kind, at, 77): string(name), (kind, at, 85): octets, (kind, at, 111): bits("0000")})
        shown[kind, at] = {"name": name, "value": value, "meaning": meaning, "unit": unit}
    return own, shown


class Odd(StandIn):
    """A device that answers in one of these ways. `other` is the device that it becomes."""

    way, other, before, count = "plain", None, b"", 0

    def reply(self, apdu):
        self.count += 1
        if self.way == "becomes" and self.count > 2 * OBJECTS:
            return self.other.reply(apdu)
        if "next" in self.way and apdu[:2] != b"\x10\x08" and self.count % 3 == 0:
            what = struct.unpack(">I", apdu[5:9])[0]
            apdu = apdu[:5] + struct.pack(">I", what + (what >> 22 != 8)) + apdu[9:]
        found = super().reply(apdu)
        if "behind" in self.way and apdu[:2] != b"\x10\x08":
            found, self.before = (self.before or found), found
            found = found[:1] + apdu[2:3] + found[2:]
        return found


def device_of(dice, way):
    """A device, how it is asked, and what may be shown for it: by the instances that it has."""
    instances = dice.sample(range(1, 4000000), 2)
    parts = [values_of(dice, it) for it in instances[: 1 + (way == "becomes")]]
    more = {"delay": dice.choice([0.02, 0.1])} if way == "late" else {"lose": 7} if way == "loses" else {}
    device = Odd(instances[0], parts[0][0], **more)
    device.way = way
    if way == "becomes":
        device.other = StandIn(instances[1], parts[1][0])
    shown = [it[1] for it in parts]
    if "routed" not in way:
        return device.address, shown
    router = RouterStandIn(dice.randrange(4000000), {})
    router.stations = {"5/0%d" % dice.randrange(1, 10): device}
    return "%s/%s" % (router.address, next(iter(router.stations))), shown


def compared(line, shown, counts):
    """Counts the values that are shown for a device; returns the wrong ones."""
    is_told = any("another device" in it for it in line["reasons"])
    for it in line["objects"]:
        known = [part[it["type"], it["instance"]] for part in shown if (it["type"], it["instance"]) in part]
        for what in ("name", "value", "meaning", "unit"):
            if not it[what]:
                counts["missing, with a reason" if it["reasons"] else "none"] += 1
                continue
            counts[what] += 1
            places = [at for at, part in enumerate(known) if part[what] == it[what]]
            if what == "meaning" and it["type"] == 4 and it[what] == STANDARD.get(it["value"]):
                continue  # an Error names no object: the one before may be taken for that of the object's own text
            if what == "meaning" and is_told:
                continue  # a state of one device, with the text of the device that it has become
            if not places or 0 not in places and not is_told:
                yield "%s: %s of %s is shown, and not %s" % (line["address"], what, it, known)


def main(program, values=10000, seed=None):
    dice, counts = random.Random(seed), Counter()
    while sum(counts[it] for it in ("name", "value", "meaning", "unit")) < int(values):
        shown = dict(device_of(dice, dice.choice(WAYS)) for _ in range(DEVICES))
        tools = os.path.dirname(os.path.realpath(program))
        words = [sys.executable, SITE, "survey", "--json", "--tools", tools, *PATIENCE, *shown]
        words += ["--window", str(dice.choice([1, 1, 4]))]
        done = subprocess.run(words, stdout=subprocess.PIPE, check=False)
        for line in map(json.loads, done.stdout.splitlines()):
            counts["devices"] += 1
            counts.update(it.split(":")[0] for it in line["reasons"])
            wrong = list(compared(line, shown.get(line["address"], []), counts))
            if wrong:
                return "\n".join(wrong)
        print(dict(counts), flush=True)
    return 0


if __name__ == "__main__":
    network_namespace.enter()
    sys.exit(main(*sys.argv[1:]) if sys.argv[1:] else __doc__)
