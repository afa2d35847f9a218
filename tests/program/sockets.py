#!/usr/bin/env python3
"""Runs the built program over sockets of this machine: a device with closed streams, at each address, to the end of its
count, and at a port that is taken; and datagrams of each length from 1,000 octets to 2,047, which are received whole,
while longer ones are ignored. Usage: tests/program/sockets.py PROGRAM
"""
import contextlib
import os
import socket
import sys

sys.path.insert(0, os.path.dirname(__file__) + "/..")
from runs import run
from tree import device, follow, framed, is_taken, local_socket, same, table_of, verdict

PROGRAM, LONGEST = os.path.realpath(sys.argv[1]), 2047
POINT = bytes.fromhex("0c004000011955")  # analog-output 1, its present value
READ = "bacrp 1234 1 1 85 --mac A --apdu-timeout 5000 --apdu-retries 0"
# The lengths near which a buffer of the system, or of the code, may end.
SOME = [1000, 1023, 1024, 1025, 1472, 1473, 1476, 1477, 1496, 1497, 1498, 1500, 1501, 1535, 1536, 2046, 2047]


def devices():
    """A section of sockets.txt has the last words of a device, and what runs beside it; then it has its count."""
    for words, rows in table_of("tests/program/sockets.txt"):
        with device(program=["sh", "-c", f'exec "$0" "$@" {words}', PROGRAM]) as (process, port):
            values = {"PORT": str(port), "PID": str(process.pid), "IT": PROGRAM}
            follow(rows, {"\\n": "\n", "PORT": str(port)}, env={**os.environ, **values})
            same("the status of a device that has its count", process.wait(10), 0)


def datagram(length, head):
    """A datagram of this length: this head of an APDU, and a string between brackets."""
    octets = bytes(place % 251 for place in range(length - 12 - len(head)))
    return framed(head + b"\x3e\x65\xfe" + len(octets).to_bytes(2, "big") + octets + b"\x3f"), octets


def heard_by_a_device():
    """A point refuses a write of a string (2, 9). A datagram that lost an octet has a wrong length, and is ignored."""
    with device(program=[PROGRAM]) as (_, port), local_socket(port, 10) as desk:
        for length in range(1000, LONGEST + 1):
            for it in (LONGEST + 1, length):
                desk.send(datagram(it, bytes([0, 5, it % 256, 15]) + POINT)[0])
            answer = desk.recv(LONGEST).hex()
            same(f"an answer to {length} octets", answer, f"810a000d010050{length % 256:02x}0f91029109")


def heard_by_tools():
    """A tool prints the octets of a string, and a vendor as the I-Am has it, even past 65,535, the standard's last."""
    head = bytes([0x30, 1, 12]) + POINT
    for length in SOME:
        (longer, _), (whole, octets) = datagram(LONGEST + 1, head), datagram(length, head)
        it = run(PROGRAM, READ, "", [[f"octets:{longer.hex()}", f"octets:{whole.hex()}"]])
        same(f"an answer of {length} octets", it.journal, f"X'{octets.hex()}'\n")
    for vendor in (65535, 65536, 2**32 - 1):
        number = vendor.to_bytes((vendor.bit_length() + 7) // 8, "big")
        i_am = bytes.fromhex("1000c4020004d22205c49103") + bytes([0x20 + len(number)]) + number
        it = run(PROGRAM, "bacwi --apdu-timeout 500 --mac A", "", [[f"octets:{framed(i_am).hex()}"]])
        same(f"the vendor {vendor}", it.journal, f"1234 {it.words.split()[-1]} 1476 3 {vendor}\n")


with contextlib.suppress(OSError), socket.socket(socket.AF_INET6, socket.SOCK_DGRAM) as one:
    one.bind(("::1", 0))
    same("a port that only IPv6 uses is taken", is_taken(one.getsockname()[1]), True)
devices()
heard_by_a_device()
heard_by_tools()
sys.exit(verdict("answers and ends over sockets are as they are to be"))
