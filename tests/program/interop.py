#!/usr/bin/env python3
"""Runs the tools and nmap against bacdev, while tshark records and reads every datagram on the loopback interface.

Usage: tests/program/interop.py, once the program is built; interop.txt has the requests and the expected results. It
needs root, nmap and tshark. It exits with status 1 and reports each difference: another output of a tool or nmap, or a
datagram that tshark finds malformed or reads in another way.
"""
import re
import subprocess
import sys
import tempfile
import time

sys.path.insert(0, sys.path[0] + "/..")
from tree import PROGRAM, Job, device, left_out, local_socket, ran, same, table_of, verdict

IS_BAD = "_ws.malformed or _ws.expert.severity >= 0x600000 or not bacapp"


def asked(port, words, printed, *wanted):
    """Runs a tool with the device. Returns what tshark must find in each of the two datagrams."""
    mac = f"127.0.0.1:{port}"
    done = ran(PROGRAM, *words.split(), "--mac", mac)
    same(words, (done.returncode in (0, 1), done.stdout.rstrip("\n").replace(mac, "PEER")), (True, printed))
    return [texts.split(" & ") for texts in wanted]


def sent(port, octets, _, reply, name):
    """Sends the device a datagram that no tool sends. Returns what tshark must find in it and in the reply."""
    with local_socket(port, 2) as client:
        client.send(bytes.fromhex(octets))
        same(octets, client.recv(2048).hex(), reply)
    return [[], [name]]


def read_by_tshark(file, port):
    """Returns tshark's reading of each datagram, the sender's port with the octets, and the places of bad ones."""
    words = ["tshark", "-r", file, "-d", f"udp.port=={port},bvlc"]
    whole, fields, bad = (ran(*words, *more.split("; "), stderr=subprocess.DEVNULL).stdout for more in (
        "-P; -V", "-T; fields; -e; udp.srcport; -e; udp.payload", f"-T; fields; -e; frame.number; -Y; {IS_BAD}"))
    texts = re.split(r"(?m)^ +\d+ +[\d.]+ (?=127\.)", re.sub(r" +", " ", re.sub(r"\[ +", "[", whole)))[1:]
    datagrams = [(int(sender), octets) for sender, octets in (line.split("\t") for line in fields.splitlines())]
    return texts, datagrams, {int(number) - 1 for number in bad.split()}


if left_out("nmap", "tshark"):
    sys.exit(1)
*rows, (_, by_hand), (_, of_nmap) = table_of("tests/program/interop.txt")
with tempfile.TemporaryDirectory() as room, device(stderr=subprocess.DEVNULL) as (_, port):
    words = ["tshark", "-q", "-i", "lo", "-f", f"udp port {port}", "-w", f"{room}/pcap"]
    recording = Job(words, f"{room}/log")
    while "Capturing" not in recording.said() and not recording.has_ended():
        time.sleep(0.1)
    time.sleep(2)
    wanted = [it for head, lines in rows for row in lines for it in asked(port, *head.format(*row).split(" | "))]
    ours = len(wanted)
    wanted += [it for row in by_hand for it in sent(port, *row)]
    told = ran("nmap", "-sU", "-Pn", "-n", "-p", str(port), "--script", "+bacnet-info", "127.0.0.1").stdout
    found = re.findall(r"(?m)^\|[ _]+(?!bacnet-info)([^:\n]+): (.+)$", told)
    same("nmap", found, [tuple(row) for row in of_nmap])
    time.sleep(2)
    recording.stop()
    texts, datagrams, bad = read_by_tshark(f"{room}/pcap", port)
foreign = {at for at in range(ours, len(datagrams)) if datagrams[at][0] != port}
same("malformed", bad - foreign, set())
places = [at for at in range(len(wanted), len(texts)) if re.match(r".* location *\n", texts[at])]
same("nmap's questions for a location, which the device hasn't", len(places), 1)
located = [(at + 1, ["Error readProperty", "Error Code: unknown-property (32)"]) for at in places]
for at, found in [*enumerate(wanted), *located]:
    for text in found:
        same(f"{text} in {datagrams[at][1]}: {texts[at].splitlines()[0]}", text in texts[at], True)
sys.exit(verdict(f"things are as they are to be, of {len(texts)} datagrams"))
