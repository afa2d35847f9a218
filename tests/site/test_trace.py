"""Tests of the scripts for bactrace, and that bactrace ends each request as the client did. BACTOOL names the
program."""
import os
import subprocess
import unittest
from collections import Counter

from datagram_builders import CLIENT, DEVICE, ack, datagrams, exchange, wrapped
from harness import TOOL
from simulated import World
from bacsite.capture.talks import GRACE, MILLI, Pairing
from bacsite.capture.trace import Choice, is_askable, traced
from bacsite.messages import message_of, outcome_of
from bacsite.streams import Failure

SEEDS = int(os.environ.get("SEEDS", "20"))


def messages(steps):
    return [message_of(it) for it in datagrams(steps)]


def lines(steps, timeout=None, retries=None, **choice):
    """The script of steps, without comments."""
    script = traced(messages(steps), Choice(**choice), timeout, retries)
    return [it for it in script if it[0] != "#"]


def printed(script):
    """Returns what bactrace prints."""
    done = subprocess.run(
        [TOOL, "bactrace"],
        input="\n".join(script) + "\n",
        stdout=subprocess.PIPE,
        stderr=subprocess.PIPE,
        encoding="utf-8",
    )
    assert done.returncode == 0, done.stderr
    return done.stdout.splitlines()


def ends_of(text):
    """The ends of requests, by ticket."""
    ends = {}
    for line in text:
        word, ticket, *rest = [*line.split(" ", 2), ""][:3]
        if word in ("done", "timeout"):
            assert int(ticket) not in ends
            ends[int(ticket)] = rest[0] if word == "done" else word
    return ends


class Lines(unittest.TestCase):
    def test_numbers(self):
        """The numbers of the answers become those that bactrace gives."""
        steps = (
            exchange(0, 1.5, 77) + exchange(10, 11, 78) + [(12, DEVICE, CLIENT, wrapped(ack(78)))]
        )
        self.assertEqual(
            lines(steps),
            [
                "client 3000 3 0",
                "read %s 0 5 85" % DEVICE,
                "data %s %s" % (DEVICE, wrapped(ack(1))),
                "tick 10",
                "read %s 0 5 85" % DEVICE,
                "data %s %s" % (DEVICE, wrapped(ack(2))),
                "data %s %s" % (DEVICE, wrapped(ack(78))),
            ],
        )

    def test_writes(self):
        """Values that a script cannot have are reported, and written as null."""
        rows = [
            ("0c0040000119553e4441a000003f4908", "write %s 1 1 85 8 -1 4 41a00000"),
            ("0c0040000119552900" + "3e2105" + "91013f", "write %s 1 1 85 0 0 2 5 9 1"),
            (
                "0c0040000119553e820400c4020004d2653f"[:-4] + "3f",
                "write %s 1 1 85 0 -1 8 0000 12 8:1234",
            ),
            (
                "0c0040000119553e11a47c0a1f04b40c1e00006201ff31fb3f",
                "write %s 1 1 85 0 -1 1 true 10 7c0a1f04 11 0c1e0000 6 01ff 3 -5",
            ),
            ("0c0040000119553e7503" + "00c3bc" + "3f", "write %s 1 1 85 0 -1 7 ü"),
            ("0c0040000119553e7504" + "00412042" + "3f", "write %s 1 1 85 0 -1 0 null"),
            ("0c0040000119553e71003f", "write %s 1 1 85 0 -1 0 null"),
            ("0c0040000119553e603f", "write %s 1 1 85 0 -1 0 null"),
            ("0c0040000119553e7502" + "0541" + "3f", "write %s 1 1 85 0 -1 0 null"),
            ("0c0040000119553e3f", "write %s 1 1 85 0 -1 0 null"),
            ("0c0040000119553e0e0f3f", "write %s 1 1 85 0 -1 0 null"),
            ("0c0040000119553e7502" + "00ff" + "3f", "write %s 1 1 85 0 -1 0 null"),
            ("0c0040000119553e75fe01f4" + "00" + "41" * 499 + "3f", "write %s 1 1 85 0 -1 0 null"),
            (
                "0c0040000119553e75fe01cf" + "00" + "41" * 462 + "3f",
                "write %s 1 1 85 0 -1 7 " + "A" * 462,
            ),
            ("0c0040000119553e75fe01d0" + "00" + "41" * 463 + "3f", "write %s 1 1 85 0 -1 0 null"),
        ]
        for body, line in rows:
            with self.subTest(body=body):
                script = lines([(0, CLIENT, DEVICE, wrapped("0005010f" + body, "0104"))])
                self.assertEqual(script[1], line % DEVICE)
                self.assertEqual(printed(script[:2])[0][:7], "send 0 ")

    def test_remarks(self):
        """Each datagram that is not a plain answer, and each request that is not as it was, has a remark."""
        long = wrapped(ack(2, "65fe0800" + "00" + "41" * 2047))
        steps = [*exchange(0, 1), (2, DEVICE, CLIENT, wrapped(ack(1))), (3, DEVICE, CLIENT, wrapped("20090f"))]
        steps += [*exchange(10, None, 2), (11, DEVICE, CLIENT, long), (20, CLIENT, DEVICE, wrapped("0005030c0c00"))]
        steps += [(30, CLIENT, DEVICE, wrapped("0005040f0c0040000119553e603f")), *exchange(40, 20000, 5)]
        script = list(traced(messages(steps), Choice(), None, None))
        read = "read analog-input 5 present-value (0 5 85)"
        write = "write analog-output 1 present-value (1 1 85) = X''"
        self.assertEqual([it for it in script if it[0] == "#"], [
            "# 4 requests of 127.0.0.1:50000",
            "# request 3, at 00:00:00.040Z: its time is up before the answer comes",
            "# 00:00:00.000Z #1 " + read,
            "# 00:00:00.002Z a second answer",
            "# 00:00:00.003Z #9 an answer to nothing seen: ok",
            "# 00:00:00.010Z #2 " + read,
            "# 00:00:00.011Z a datagram of %d octets" % (len(long) // 2),
            "# 00:00:00.020Z #3 service 12 (ReadProperty), which can't be read; its body can't be read",
            "# 00:00:00.030Z #4 %s; a script can't have this value: null stands for it" % write,
            "# 00:00:00.040Z #5 " + read,
        ])
        first, second = datagrams(exchange(0, 1))
        cut = [message_of(first), message_of(second._replace(octets=second.octets[:20], is_cut=True))]
        script = list(traced(cut, Choice(), None, None))
        self.assertEqual(script[-1], "# 00:00:00.001Z a datagram that the capture has cut")

    def test_long_remarks_are_cut(self):
        body = "0c0040000119553e75fe01f4" + "00" + "41" * 499 + "3f"
        steps = [(0, CLIENT, DEVICE, wrapped("0005010f" + body, "0104"))]
        datagrams_ = [message_of(it) for it in datagrams(steps)]
        self.assertLessEqual(max(map(len, traced(datagrams_, Choice(), None, None))), 400)

    def test_routes(self):
        for head, peer in (
            ("0124000501" + "07ff", DEVICE + "/5/07"),
            ("0124000500" + "ff", None),
            ("0124ffff00" + "ff", None),
            ("0124ffff01" + "07ff", None),
        ):
            with self.subTest(head=head):
                script = lines([(0, CLIENT, DEVICE, wrapped("0005010c0c000000051955", head))])
                asked = [it for it in script if it.startswith("read")]
                self.assertEqual(asked, ["read %s 0 5 85" % peer] if peer else [])

    def test_settings(self):
        """The client's wait is the least gap between its sends, and a copy of a datagram is not a send."""
        sends = [
            (at, CLIENT, DEVICE, wrapped("0005010c0c000000051955", "0104"))
            for at in (0, 0.2, 2000.9, 4002)
        ]
        self.assertEqual(lines(sends)[0], "client 2000 2 0")
        self.assertEqual(lines(sends, timeout=1500, retries=1)[0], "client 1500 1 0")
        self.assertEqual(
            lines(sends)[1:], ["read %s 0 5 85" % DEVICE, "tick 2000", "tick 4002", "tick 6002"]
        )

    def test_waits_that_are_left(self):
        """A request without an answer is given up after as many waits as in bactrace."""
        script = lines(exchange(0, None), timeout=1000, retries=2)
        self.assertEqual(script[2:], ["tick 1000", "tick 2000", "tick 3000"])

    def test_choice(self):
        other = "127.0.0.2:50000"
        steps = exchange(0, 1) + exchange(2, 3, of=other) + exchange(4, 5, to="127.0.0.9:47808")
        with self.assertRaisesRegex(Failure, "2 clients"):
            lines(steps)
        self.assertEqual(sum(it[:4] == "read" for it in lines(steps, client="127.0.0.1")), 2)
        self.assertEqual(
            sum(it[:4] == "read" for it in lines(steps, client="127.0.0.1", device="127.0.0.9")), 1
        )
        self.assertEqual(
            sum(it[:4] == "data" for it in lines(steps, client="127.0.0.1", device="127.0.0.9")), 1
        )
        with self.assertRaisesRegex(Failure, "no read or write of 127.0.0.3"):
            lines(steps, client="127.0.0.3")

    def test_differences(self):
        """A late answer is named at the beginning."""
        steps = exchange(0, 700)
        script = list(traced(messages(steps), Choice(), 300, 1))
        self.assertEqual(
            script[:2],
            [
                "# 1 request of %s" % CLIENT,
                "# request 0, at 00:00:00.000Z: its time is up before the answer comes",
            ],
        )


class Against(unittest.TestCase):
    """Comparison of simulated clients with bactrace."""

    def compare(self, world, settings):
        """Returns the number of requests, and those whose ends differ: the client's, the model's and bactrace's."""
        heard = messages(sorted(world.steps, key=lambda it: it[0]))
        script = list(traced(heard, Choice("10.0.0.9"), *settings))
        ends = ends_of(printed(script))
        pairing = Pairing()
        events = [(message, pairing.take(message)) for message in heard]
        talks = [
            it.talk
            for message, it in events
            if it.kind == "request" and is_askable(message) and message.sender == world.client
        ]
        truths = [end for end, service in zip(world.ends, world.services) if service != 14]
        self.assertEqual(len(truths) - len(talks), 0)
        odd = []
        for ticket, (truth, talk) in enumerate(zip(truths, talks)):
            if truth != "timeout":
                answer = datagrams([(0, DEVICE, CLIENT, wrapped(truth))])[0]
                truth = outcome_of(message_of(answer).apdu)
            here = ends.get(ticket, "open")
            if here != truth:
                odd.append((truth, here, talk))
        return len(truths), odd

    def test_exact_clock(self):
        counts = Counter()
        for seed in range(SEEDS):
            with self.subTest(seed=seed):
                world = World(seed, 400, 1 + seed * 3 % 64, 300, seed % 4).run()
                self.assertEqual(len(world.ends), 400)
                count, odd = self.compare(world, (300, seed % 4))
                for (
                    truth,
                    here,
                    talk,
                ) in odd:  # only answers that come within GRACE of the end of the last wait
                    self.assertEqual({truth, here}, {"timeout", talk.outcome})
                    came = talk.answers[0].nanos
                    waited = came - max(it for it in talk.sends if it <= came)
                    self.assertLessEqual(abs(waited - 300 * MILLI), GRACE + MILLI)
                counts.update(requests=count, different=len(odd))
        self.assertLess(counts["different"] * 200, counts["requests"])

    def test_more_than_places(self):
        """Requests for which bactrace has no place are reported, and the numbers go on as in bactrace."""
        world = World(1, 400, 90, 3000, 3).run()
        heard = messages(sorted(world.steps, key=lambda it: it[0]))
        script = list(traced(heard, Choice("10.0.0.9"), 3000, 3))
        full = [it.endswith("; bactrace has no place for it") for it in script if it[0] == "#"]
        lines = printed(script)
        self.assertGreater(sum(full), 5)
        self.assertEqual(sum(it.startswith("full") for it in lines), sum(full))
        said = ends_of(lines)
        self.assertEqual(sorted(said), list(range(len(said))))


if __name__ == "__main__":
    unittest.main()
