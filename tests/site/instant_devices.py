"""Controllers that answer at once and in one process, so that a test of the order of many takes milliseconds."""

import threading

import harness  # noqa: F401  this sets the path to bacsite
from bacsite.messages import apdu_of, outcome_of
from bacsite.tools import Outcome, Tools
from datagram_builders import wrapped
from stand_ins import an_object, answer, real


class QuickCalls(Tools):
    """Calls to devices: the values of each by its address, like those of a StandIn.

    `gates` has events by addresses: devices there answer once the event is set. `over` has events that are set when a
    device is no longer asked. The first `taken` bacruns find that their port is taken. Requests in `lost` are sent
    twice. `heard` has the lines of a bacwi.
    """

    def __init__(
        self, devices, window=1, gates=None, at_once=8, timeout=60000, retries=0, taken=0, lost=(), heard=()
    ):
        super().__init__("none", timeout, retries, at_once)
        self.heard, self.search = heard, None
        self.devices, self.window = devices, window
        self.gates, self.taken, self.lost = gates or {}, taken, lost
        self.over = {address: threading.Event() for address in devices}
        self.asked, self.begun, self.most = [], [], 0

    def start(self, words, until=float("inf")):
        self.begun.append(words)
        if words[0] != "bacrun":
            self.search = QuickWhoIs(lines=self.heard)
            return self.search
        self.taken -= 1
        if self.taken >= 0:
            return QuickWhoIs("bactool: bind failed")
        return QuickRun(self, int(words[words.index("--window") + 1]))


class Course:
    """The time of a watch, and the device that it asks: only waits and present values take time. `waits` has by how
    much each wait is too long, and `takes` how long each value takes, in seconds."""

    def __init__(self, waits=(), takes=()):
        self.now, self.waits, self.takes = 0.0, list(waits), list(takes)
        self.is_set = lambda: False  # whether the watch is over

    def monotonic(self):
        return self.now

    def time_ns(self):
        return round(self.now * 1e9)

    def wait(self, seconds):
        self.now += max(0.0, seconds) + (self.waits.pop(0) if self.waits else 0.0)
        return False

    def get(self, what, lacks):
        if what[2] != 85:
            return lacks
        self.now += self.takes.pop(0) if self.takes else 0.0
        return real("42290000")


class QuickWhoIs:
    """A bacwi that has received these lines, or a tool that ends at once with a reason."""

    def __init__(self, told="", lines=()):
        self.told, self.lines = told, list(lines)

    def put(self, text):
        pass

    def line(self):
        return self.lines.pop(0) if self.lines else None

    def is_ready(self, seconds):
        return True

    def outcome(self):
        return Outcome(3 if self.told else 1, self.lines, self.told)

    def kill(self):
        pass


class QuickRun:
    """A bacrun that answers in order. It waits for input as long as fewer requests are open than the window, and
    otherwise for an answer."""

    def __init__(self, calls, window):
        self.calls, self.window, self.lines = calls, window, []
        self.tickets, self.open, self.address = 0, [], None

    def put(self, text):
        for line in text.splitlines():
            if line.startswith("wait "):
                self.lines.append("# " + line)
            elif line:
                self.ask(*line.split())
            else:
                self.end(0)
                self.lines.append("")

    def ask(self, _, address, *what):
        self.end(self.window - 1)
        what = tuple(map(int, what))
        self.address = address
        self.calls.asked.append((address, *what))
        sent = "# send %d %s 00" % (self.tickets, address)
        self.lines += [sent] * (1 + (what in self.calls.lost))
        self.open.append((self.tickets, what))
        self.tickets += 1
        self.calls.most = max(self.calls.most, len(self.open))

    def end(self, most):
        while len(self.open) > most:
            ticket, what = self.open.pop(0)
            value = self.calls.devices[self.address].get(what, ("error", 2, 32))
            if isinstance(value, list):
                value = value.pop(0) if len(value) > 1 else value[0]
            number = what[2].to_bytes(max(1, -(-what[2].bit_length() // 8)), "big")
            body = b"\x0c" + an_object(*what[:2])[1:] + bytes([0x18 + len(number)]) + number
            body += bytes([0x29, what[3]]) if what[3:] else b""
            apdu = answer(value, b"\x01", body)
            outcome = outcome_of(apdu_of(apdu)) if apdu else ""
            self.lines += ["data %s %s" % (self.address, wrapped(apdu.hex()))] if apdu else []
            told = "# done %d %s" % (ticket, outcome) if apdu else "# timeout %d" % ticket
            rest = range(4096, len(told), 4094)
            self.lines += [told[:4096], *("#+" + told[at : at + 4094] for at in rest)]

    def line(self):
        if self.address in self.calls.gates:
            self.calls.gates[self.address].wait(60)
        if not self.lines and len(self.open) == self.window:
            self.end(self.window - 1)
        if not self.lines:
            raise AssertionError("it waits for its input, and nobody hands it any")
        return self.lines.pop(0)

    def outcome(self):
        if self.address:
            self.calls.over[self.address].set()
        return Outcome(0)

    def kill(self):
        pass
