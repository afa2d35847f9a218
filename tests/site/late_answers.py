"""Polls devices that answer late, twice at once, while few ports are free, and checks whose values come.

Usage: late_answers.py BACSITE [OPTION ..], in a network of its own (network_namespace.py), since it sets the range of
ports that the system gives. Each of 60 devices has 25 points, whose values are their instances. A device answers 350 ms
after a request; bacsite asks again after 70 ms, and later after up to 280.
"""

import re
import subprocess
import sys

import network_namespace
from stand_ins import LateStandIn, socket_at, unsigned

DEVICES, POINTS = 60, 25


def main(bacsite, *options):
    network_namespace.bring_up()
    with open("/proc/sys/net/ipv4/ip_local_port_range", "w", encoding="ascii") as ports:
        ports.write("40000 40199")
    values = {(23, it, 85): unsigned(it) for it in range(POINTS)}
    sockets = [socket_at("127.0.1.%d" % host, 47808) for host in range(1, DEVICES + 1)]
    devices = [LateStandIn(77, values, 0.35, at=it) for it in sockets]
    points = [
        "%d %s 23 %d 85\n" % (it, device.address, it) for device in devices for it in range(POINTS)
    ]
    words = [sys.executable, bacsite, "poll", "-", "--at-once", str(DEVICES), *options]
    words += ["--no-flags", "--apdu-timeout", "70", "--apdu-retries", "9"]
    pipe = subprocess.PIPE
    polls = [subprocess.Popen(words, stdin=pipe, stdout=pipe, encoding="ascii") for _ in range(2)]
    for poll in polls:
        poll.stdin.write("".join(points))
        poll.stdin.close()
    outs = "".join(poll.stdout.read() for poll in polls)
    rows = re.findall(r"(?m)^\S+\t(.*)\t(.*)\t-\t-\t-$", outs)
    wrong = [row for row in rows if row[0] != row[1]]
    late = sum(it.heard for it in devices) > 2 * len(points) * 1.1
    print(len(rows), "values,", len(wrong), "of another point,", "late" if late else "in time")


main(*sys.argv[1:])
