"""Stand-ins for controllers at ports of 127.0.0.1, and octets of values."""

import socket
import struct
import threading
import time
from collections import deque
from contextlib import suppress

REJECT, ABORT, ERROR = 0x60, 0x71, 0x50
READ, WRITE = 12, 15
EVERY_NETWORK = 65535
WHO_IS = b"\x10\x08"


def local_socket():
    """A UDP socket at a port of 127.0.0.1 that no other socket of this machine has."""
    return socket_at("127.0.0.1", 0)


def socket_at(host, port):
    """A UDP socket at this port of a host; 0 is any free port."""
    found = socket.socket(socket.AF_INET, socket.SOCK_DGRAM)
    found.bind((host, port))
    return found


def destination_of(datagram):
    """The network that a datagram names, 0 for none; the station there in hexadecimal; and the APDU."""
    if not datagram[5] & 0x20:
        return 0, "", datagram[6:]
    network, length = struct.unpack(">HB", datagram[6:9])
    return network, datagram[9 : 9 + length].hex(), datagram[10 + length :]


def tagged(tag, octets):
    """A value: its application tag, and its contents."""
    length = len(octets)
    more = b""
    if length >= 5:
        more = bytes([length]) if length < 254 else b"\xfe" + struct.pack(">H", length)
    return bytes([tag << 4 | min(length, 5)]) + more + octets


def unsigned(value, tag=2):
    return tagged(tag, value.to_bytes(max(1, (value.bit_length() + 7) // 8), "big"))


def enumerated(value):
    return unsigned(value, 9)


def real(octets):
    return tagged(4, bytes.fromhex(octets))


def string(text, charset=0):
    return tagged(7, bytes([charset]) + (text if isinstance(text, bytes) else text.encode()))


NAMED = {(8, 77, 77): string("D"), (8, 77, 121): string("V"), (8, 77, 70): string("M")}  # of device 77


def bits(text):  # of up to eight bits
    return tagged(8, bytes([8 - len(text), int(text.ljust(8, "0"), 2)]))


def an_object(kind, instance):
    return tagged(12, struct.pack(">I", kind << 22 | instance))


NULL = b"\x00"


class StandIn:
    """A device with the values that it is given.

    The keys of `values` are object type, instance, property and, for an element, its index. A value is the octets in
    the tag 3, ("error", class, code), ("abort", reason), ("reject", reason) or "silent"; or a list of these, one for
    each read, of which the last is repeated.

    The device answers after `delay` seconds, and loses each `lose`-th datagram. It keeps written values, except if
    `writes` is "refuse", "reject", "abort", "lose" (nothing happens) or "silent" (it keeps the value and does not
    answer).

    `asked` has the keys of the reads, `written` the writes, `ports` those of the clients; `early` counts requests that
    came while another was open.
    """

    def __init__(self, instance, values, delay=0.0, lose=0, writes="", knows_itself=True, at=None):
        self.instance = instance
        self.values = {(8, instance, 75): an_object(8, instance), **values}
        if knows_itself:
            self.values.setdefault((8, 4194303, 75), an_object(8, instance))
        else:
            self.values[(8, 4194303, 75)] = ("error", 1, 31)
        self.delay, self.lose, self.writes = delay, lose, writes
        self.asked, self.written, self.ports, self.early, self.heard = [], [], [], 0, 0
        self.commands, self.times = {}, []
        self.socket = at or local_socket()
        self.address = "%s:%d" % self.socket.getsockname()
        threading.Thread(target=self.serve, daemon=True).start()

    def serve(self):
        while True:
            datagram, client = self.socket.recvfrom(2048)
            self.heard += 1
            self.ports.append(client[1])
            self.times.append(time.monotonic())
            if self.lose and self.heard % self.lose == 0:
                continue
            reply = self.reply_to(datagram)
            if self.delay:
                time.sleep(self.delay)
                self.count_early()
            self.send(reply, client)

    def reply_to(self, datagram):
        """Returns the APDU that answers a datagram; None for a network other than its own."""
        network, _, apdu = destination_of(datagram)
        return self.reply(apdu) if network in (0, EVERY_NETWORK) else b""

    def send(self, reply, client):
        if reply:
            head = b"\x81\x0a" + struct.pack(">H", len(reply) + 6) + b"\x01\x00"
            self.socket.sendto(head + reply, client)

    def count_early(self):
        self.socket.setblocking(False)
        try:
            self.early += bool(self.socket.recvfrom(2048, socket.MSG_PEEK))
        except BlockingIOError:
            pass
        self.socket.setblocking(True)

    def reply(self, apdu):
        """Returns the APDU that answers."""
        if apdu[:2] == b"\x10\x08":
            self.asked.append("who-is")
            return (
                b"\x10\x00" + an_object(8, self.instance) + unsigned(1476) + b"\x91\x03\x22\x01\x04"
            )
        service, invoke, body = apdu[3], apdu[2:3], apdu[4:]
        what = struct.unpack(">I", body[1:5])[0]
        length = body[5] & 7
        at = 6 + length
        key = (what >> 22, what & 4194303, int.from_bytes(body[6:at], "big"))
        if body[at:] and body[at] >> 4 == 2:
            size = body[at] & 7
            key += (int.from_bytes(body[at + 1 : at + 1 + size], "big"),)
            at += 1 + size
        if service == WRITE:
            return self.write_reply(invoke, key, body[at:])
        self.asked.append(key)
        value = self.values.get(key, ("error", 2, 32))
        if isinstance(value, list):
            value = value.pop(0) if len(value) > 1 else value[0]
        return answer(value, invoke, body)

    def write_reply(self, invoke, key, rest):
        """Makes a write; returns the APDU that answers. The rest has the value in the tag 3, and perhaps a priority."""
        value, _, after = rest[1:].rpartition(b"\x3f")
        priority = after[1] if after else 0
        self.written.append((key, value, priority))
        if self.writes == "refuse":
            return bytes([ERROR]) + invoke + bytes([WRITE, 0x91, 2, 0x91, 40])
        if self.writes == "reject":
            return bytes([REJECT]) + invoke + b"\x09"
        if self.writes == "abort":
            return bytes([ABORT]) + invoke + b"\x00"
        if self.writes != "lose":
            self.keep(key, value, priority)
        return b"" if self.writes in ("lose", "silent") else b"\x20" + invoke + bytes([WRITE])

    def keep(self, key, value, priority):
        array = (*key[:2], 87)
        if array not in self.values:
            self.values[key] = value
            return
        commands = self.commands.setdefault(key[:2], [NULL] * 16)
        commands[(priority or 16) - 1] = value
        self.values[array] = b"".join(commands)
        standing = [it for it in commands if it != NULL]
        self.values[key] = standing[0] if standing else self.values[(*key[:2], 104)]


def answer(value, invoke, body):
    """The APDU that answers a ReadProperty."""
    if value == "silent":
        return b""
    if value[:1] == ("error",):
        return bytes([ERROR]) + invoke + bytes([READ, 0x91, value[1], 0x91, value[2]])
    if value[:1] in (("abort",), ("reject",)):
        return bytes([ABORT if value[0] == "abort" else REJECT]) + invoke + bytes(value[1:])
    return b"\x30" + invoke + b"\x0c" + body + b"\x3e" + value + b"\x3f"


class LateStandIn(StandIn):
    """A device that answers each request `delay` seconds later, however many are waiting."""

    def serve(self):
        waiting = deque()
        while True:
            left = max(1e-4, waiting[0][0] - time.monotonic()) if waiting else None
            self.socket.settimeout(left)
            with suppress(socket.timeout):
                datagram, client = self.socket.recvfrom(2048)
                self.heard += 1
                self.ports.append(client[1])
                self.times.append(time.monotonic())
                waiting.append((time.monotonic() + self.delay, self.reply_to(datagram), client))
            while waiting and waiting[0][0] <= time.monotonic():
                self.send(*waiting.popleft()[1:])


class RouterStandIn(StandIn):
    """A router, which is a device too. Its `stations` are those on the other side, by routes like 5/01.

    It answers a Who-Is for all of its stations, and then for itself. A datagram to another station is lost.
    """

    stations = {}

    def serve(self):
        while True:
            datagram, client = self.socket.recvfrom(2048)
            self.heard += 1
            network, station, apdu = destination_of(datagram)
            route, asked = "%d/%s" % (network, station) if network else "", {**self.stations, "": self}
            who_is = apdu[:2] == b"\x10\x08"
            for name, device in asked.items() if who_is else [(route, asked.get(route))]:
                if self.delay:
                    time.sleep(self.delay)
                    self.count_early()
                self.send_from(name, device.reply(apdu) if device else b"", client)

    def send_from(self, route, reply, client, at=None):
        """Sends the reply of a station, named as the source, from the socket of the router or another."""
        network, _, station = route.partition("/")
        octets = bytes.fromhex(station)
        source = struct.pack(">HB", int(network), len(octets)) + octets if route else b""
        head = b"\x01\x08" + source if route else b"\x01\x00"
        if reply:
            length = struct.pack(">H", 4 + len(head) + len(reply))
            (at or self.socket).sendto(b"\x81\x0a" + length + head + reply, client)
