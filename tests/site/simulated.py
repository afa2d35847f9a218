"""A client and unusual devices whose time is simulated: the datagrams, and how the client's requests end."""
import heapq
import random
from typing import Dict, List, Tuple

from datagram_builders import Step, wrapped

PEERS = [
    ("10.0.0.1:47808", ""),
    ("10.0.0.1:47808", "/5/07"),
    ("10.0.0.2:47808", ""),
    ("10.0.0.3:50123", "/65534/01020304050607"),
]
BODIES = ["0c000000051955", "0c00400001194d2901", "0c3fffffff1a0200"]
WRITES = [
    "0c0040000119553e4441a000003f4908",
    "0c0040000119553e003f",
    "0c0040000119553e7507" + "00526f6f6d2035" + "3f",
    "0c00400001195529023e75050048616c6c3f4910",
    "0c0040000119553e0e2105" + "0f3f",
]
SAYS = ["good"] * 6 + ["error", "reject", "abort", "badack", "segmented", "baderror"]


class World:
    """A client with some clock and many open requests at once; the devices answer at random."""

    def __init__(self, seed, count, at_once, timeout, retries, jitter=0.0, client="10.0.0.9:47808"):
        self.dice, self.count, self.at_once, self.client = (
            random.Random(seed),
            count,
            at_once,
            client,
        )
        self.timeout, self.retries, self.jitter = timeout, retries, jitter
        self.steps: List[Step] = []
        self.queue: List[Tuple[float, int, str, tuple]] = []
        self.open: Dict[int, list] = {}
        self.ends: List[str] = []
        self.services: List[int] = []
        self.last, self.order = 0, 0

    def later(self, at, what, *more):
        self.order += 1
        heapq.heappush(self.queue, (at, self.order, what, more))

    def run(self):
        self.later(0.0, "ask")
        while self.queue:
            at, _, what, more = heapq.heappop(self.queue)
            getattr(self, what)(at, *more)
        return self

    def ask(self, at):
        if len(self.ends) >= self.count:
            return
        self.later(at + self.dice.expovariate(1 / 20), "ask")
        if len(self.open) >= self.at_once:
            return
        number = (self.last + 1) % 256
        while number in self.open:
            number = (number + 1) % 256
        self.last = number
        address, route = self.dice.choice(PEERS)
        service = self.dice.choice([12, 12, 12, 15, 14])
        body = self.dice.choice(WRITES if service == 15 else BODIES)
        head = "0104"
        if route:
            _, network, station = route.split("/")
            head = "0124%04x%02x%sff" % (int(network), len(station) // 2, station)
        octets = wrapped("0005%02x%02x%s" % (number, service, body), head)
        self.open[number] = [len(self.ends), address, route, service, body, octets, 0]
        self.ends.append("open")
        self.services.append(service)
        self.send(at, number, len(self.ends) - 1)

    def send(self, at, number, ticket):
        it = self.open[number]
        self.steps.append((at, self.client, it[1], it[5]))
        self.device(at, number, it)
        self.later(at + self.timeout + self.dice.random() * self.jitter, "due", number, ticket)

    def due(self, at, number, ticket):
        it = self.open.get(number)
        if not it or it[0] != ticket:
            return
        if it[6] < self.retries:
            it[6] += 1
            self.send(at, number, ticket)
        else:
            self.ends[ticket] = "timeout"
            del self.open[number]

    def device(self, at, number, it):
        """Answers or not, at some time, and perhaps with another number, service or address."""
        d, (_, address, route, service, body) = self.dice, it[:5]
        say = d.choice(SAYS)
        good = (
            "20%02x0f" % number
            if service == 15
            else "30%02x%02x%s3e44%08x3f" % (number, service, body, d.getrandbits(32))
        )
        apdu = {
            "error": "50%02x%02x91029120" % (number, service),
            "reject": "60%02x09" % number,
            "abort": "71%02x04" % number,
            "badack": "30%02x%02x0c" % (number, service),
            "segmented": "38%02x0001%02x%s" % (number, service, body),
            "baderror": "50%02x%02x01" % (number, service),
        }.get(say, good)
        way = d.random()
        sender, wait = address, d.random() * 5
        if way < 0.25:
            return
        if way < 0.35:
            wait = d.random() * self.timeout * (self.retries + 3)
        elif way < 0.40:
            self.answer(at + d.random() * self.timeout, sender, route, apdu)
        elif way < 0.44:
            apdu = apdu[:2] + "%02x" % d.randrange(256) + apdu[4:]
        elif way < 0.47:
            sender = d.choice(["10.0.0.1:9", "10.0.0.77:47808"])
        elif way < 0.50:
            route = d.choice(["", "/5/07", "/6/07"])
        elif way < 0.53:
            apdu = (
                d.choice(["70%02x04", "40%02x0000", "1008%02x", "20%02x10", "0005%02x0c"]) % number
            )
        self.answer(at + wait, sender, route, apdu)

    def answer(self, at, sender, route, apdu):
        self.later(at, "arrive", sender, route, apdu)

    def arrive(self, at, sender, route, apdu):
        head = "0100"
        if route:
            _, network, station = route.split("/")
            head = "0108%04x%02x%s" % (int(network), len(station) // 2, station)
        self.steps.append((at, sender, self.client, wrapped(apdu, head)))
        octets = bytes.fromhex(apdu)
        kind, it = octets[0] >> 4, self.open.get(octets[1])
        if (
            not it
            or (sender, route) != (it[1], it[2])
            or kind not in (2, 3, 5, 6, 7)
            or kind == 7
            and not octets[0] & 1
        ):
            return
        if kind in (2, 3, 5) and octets[4 if kind == 3 and octets[0] & 8 else 2] != it[3]:
            return
        self.ends[it[0]] = apdu
        del self.open[octets[1]]
