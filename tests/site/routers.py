"""Stand-ins for routers that pass a Who-Is on as most routers do: only to the network that the header names."""

import queue
import random
import struct
import threading
import time

from stand_ins import EVERY_NETWORK, WHO_IS, RouterStandIn, destination_of

ALL = range(4194304)  # all instances
I_AM = b"\x10\x00"


class StrictRouter(RouterStandIn):
    """A router that answers a network message, if `says` is one, instead of passing anything on."""

    says = None
    pause = 0.0  # between the answers to a Who-Is, as on a slow bus
    answers_from = None  # another socket, from which stations answer

    def serve(self):
        while True:
            datagram, client = self.socket.recvfrom(2048)
            self.heard += 1
            network, station, apdu = destination_of(datagram)
            if network not in (0, EVERY_NETWORK) and self.says is not None:
                self.send_npdu(b"\x01\x80" + self.says + struct.pack(">H", network), client)
            elif apdu[:2] == WHO_IS:
                self.who_is(network, apdu[2:], client)
            else:
                name = "%d/%s" % (network, station) if network else ""
                device = {"": self, **self.stations}.get(name)
                self.passes(name, device.reply(apdu) if device else b"", client)

    def who_is(self, network, limits, client):
        """Lets each device that is asked for introduce itself."""
        self.asked.append((network, limits.hex()))
        is_for_all = network == EVERY_NETWORK
        named = {"": self} if is_for_all or not network else {}
        named.update((it, station) for it, station in self.stations.items() if network)
        for name, device in named.items():
            is_there = is_for_all or name.startswith("%d/" % network) or not network
            if is_there and device.instance in instances_of(limits):
                self.introduce(name, device, client)

    def introduce(self, name, device, client):
        """Passes on the I-Am of a station, each after a pause."""
        wait = self.pause * (1 + list(self.stations).index(name)) if name else 0
        threading.Timer(wait, self.passes, [name, device.reply(WHO_IS), client]).start()

    def passes(self, name, reply, client):
        """Passes on the answer of a station, or its own."""
        self.send_from(name, reply, client)

    def send_from(self, route, reply, client, at=None):
        super().send_from(route, reply, client, self.answers_from if route else at)

    def send_npdu(self, octets, client, function=b"\x0a"):
        self.socket.sendto(b"\x81" + function + struct.pack(">H", 4 + len(octets)) + octets, client)


class Trunk(StrictRouter):
    """A router to a slow bus, on which one answer comes after another. It broadcasts each I-Am."""

    def __init__(self, instance, values, stations, gap, kept, at=None):
        self.stations, self.gap, self.dice = stations, gap, random.Random(instance)
        self.waiting, self.lost = queue.Queue(kept), 0  # it has no room for more answers
        threading.Thread(target=self.send_in_turn, daemon=True).start()
        super().__init__(instance, values, at=at)

    def introduce(self, name, device, client):
        self.passes(name, device.reply(WHO_IS), client)

    def passes(self, name, reply, client):
        """Keeps the answer of a station until the bus is free, if there is room."""
        if not name:
            self.send_from(name, reply, client)
        elif self.waiting.full():
            self.lost += 1
        else:
            self.waiting.put((name, reply, client))

    def send_in_turn(self):
        while True:
            name, reply, client = self.waiting.get()
            time.sleep(self.dice.uniform(*self.gap))
            if reply[:2] == I_AM:
                network, _, station = name.partition("/")
                source = struct.pack(">HB", int(network), len(station) // 2) + bytes.fromhex(station)
                self.send_npdu(b"\x01\x28\xff\xff\0" + source + b"\xfe" + reply, ("127.0.0.1", 47808), b"\x0b")
            else:
                self.send_from(name, reply, client)


def instances_of(limits):
    """The instances within the limits of a Who-Is."""
    if not limits:
        return ALL
    size = limits[0] & 7
    return range(int.from_bytes(limits[1 : 1 + size], "big"), 1 + int.from_bytes(limits[2 + size :], "big"))
