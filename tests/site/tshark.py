#!/usr/bin/env python3
"""Compares bacsite's reading of each datagram of captures with tshark's; by hand.

Usage: tests/site/tshark.py [--keep] CAPTURE ..; a datagram that begins like BACnet/IP counts as BACnet/IP, at any port.
It compares the type of the APDU, invoke id, service, for a read or write the object and the property, for an Error
class and code, and the reason of a Reject or an Abort. With --keep tshark's output is kept beside each capture, for the
tests.
"""

import subprocess
import sys

import harness  # noqa: F401  this sets the path to bacsite
from bacsite.bodies import error_body, read_ack, read_body, write_body
from bacsite.messages import ABORT, COMPLEX, CONFIRMED, ERROR, READ, REJECT, SEGMENT, UNCONFIRMED, WRITE, message_of
from bacsite.capture.pcap import Passed, datagram_of, packets_of

TYPES = "type invoke_id confirmed_service unconfirmed_service".split()
PLACES = "objectType instance_number property_identifier".split()
REASONS = "error_class error_code reject_reason abort_reason".split()
FIELDS = [f"bacapp.{name}" for name in TYPES + PLACES + REASONS]
BODIES = {(CONFIRMED, READ): read_body, (CONFIRMED, WRITE): write_body, (COMPLEX, READ): read_ack}


def asked_of_tshark(path):
    """A line of each packet."""
    command = ["tshark", "-r", path, "-d", "udp.port==1-65535,bvlc", "-T", "fields"]
    command += ["-E", "occurrence=f", "-E", "separator=;"]
    known = ["_ws.malformed", "bacnet.slen", "bacnet.dlen", "icmp.type", "bvlc.type", *FIELDS]
    command += [word for name in known for word in ("-e", name)]
    done = subprocess.run(command, stdout=subprocess.PIPE, stderr=subprocess.DEVNULL, check=True)
    return done.stdout.decode()


def told_by_tshark(lines):
    """For each packet whether tshark can't read it, and its fields; none if it is not BACnet/IP.

    tshark can't read stations of seven octets, which BACnet has, and takes the quotation in an ICMP packet for a
    datagram.
    """
    for line in lines.splitlines():
        malformed, source, target, icmp, link, *fields = line.split(";")
        is_read = not malformed and "7" not in (source, target)
        yield not is_read, fields if link and not icmp else [""]


def told_by_bacsite(packet):
    """Whether a body can be read, and the same fields, as bacsite reads them."""
    try:
        message = message_of(datagram_of(packet))
    except Passed:
        return False, [""]
    apdu, found = message.apdu, dict.fromkeys(FIELDS, "")
    if not apdu:
        return False, list(found.values())
    has_service = apdu.kind not in (UNCONFIRMED, SEGMENT, REJECT, ABORT)
    found["bacapp.type"] = str(apdu.kind)
    found["bacapp.invoke_id"] = "" if apdu.kind == UNCONFIRMED else str(apdu.invoke)
    found["bacapp.confirmed_service"] = str(apdu.service) if has_service else ""
    found["bacapp.unconfirmed_service"] = str(apdu.service) if apdu.kind == UNCONFIRMED else ""
    if apdu.kind in (REJECT, ABORT):
        name = "reject" if apdu.kind == REJECT else "abort"
        found[f"bacapp.{name}_reason"] = str(apdu.service)
    reader = BODIES.get((apdu.kind, apdu.service)) if apdu.part is None else None
    body = reader(apdu.body) if reader else None
    if body:
        found.update(zip(FIELDS[4:7], map(str, body.ref)))
    both = error_body(apdu.body) if apdu.kind == ERROR else None
    if both:
        found.update(zip(FIELDS[7:9], map(str, both)))
    return reader is not None, list(found.values())


def compared(path, lines):
    """How many datagrams agree, how many tshark can't read, and the differences in words."""
    agree, lost, differ = 0, 0, []
    with open(path, "rb") as file:
        for at, (packet, told) in enumerate(zip(packets_of(file), told_by_tshark(lines)), 1):
            is_lost, theirs = told
            has_body, ours = told_by_bacsite(packet)
            if len(theirs) > 1 and not has_body:
                theirs[4:7] = [""] * 3  # of another service, or the first of several parts
            if is_lost:
                lost += 1
            elif ours == theirs:
                agree += len(ours) > 1
            else:
                differ.append(f"{path}: packet {at}: {ours}, and to tshark {theirs}")
    return agree, lost, differ


def main(words):
    """Compares the captures."""
    keeps = words[:1] == ["--keep"]
    agree = lost = differ = 0
    for path in words[keeps:]:
        lines = asked_of_tshark(path)
        if keeps:
            with open(path + ".tshark", "w", encoding="ascii") as file:
                file.write(lines)
        more, unread, wrong = compared(path, lines)
        agree, lost, differ = agree + more, lost + unread, differ + len(wrong)
        print("".join(line + "\n" for line in wrong), end="")
    print(f"{agree} datagrams agree, {differ} differ, {lost} are not read by tshark")
    return differ > 0 or agree == 0


if __name__ == "__main__":
    sys.exit(main(sys.argv[1:]) if len(sys.argv) > 1 else __doc__)
