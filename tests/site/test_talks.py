"""Tests of the pairing of requests with their answers, and of their lines."""
import unittest

from datagram_builders import CLIENT, DEVICE, ack, datagrams, exchange, read_apdu, wrapped
from bacsite.capture.command import ALL, Group, Tally, marks_of
from bacsite.capture.lines import json_of, line_of, millis
from bacsite.capture.pcap import Passing
from bacsite.capture.talks import MILLI, Pairing, Talk
from bacsite.messages import message_of

OTHER = "127.0.0.2:47808"
# From the standard's examples of encoding: 65.0 of analog-input 10 of device 4, and status flags.
CHANGE = "09121c020000042c0000000a39004e09552e44428200002f096f2e8204002f4f"
READ = "2026-01-01T00:00:00.000Z  %s > %s  #1 read analog-input 5 present-value (0 5 85): " % (
    CLIENT,
    DEVICE,
)


def entries(steps):
    """The entries of steps."""
    pairing, found, last = Pairing(), [], 0
    for datagram in datagrams(steps):
        pairing.take(message_of(datagram))
        found += pairing.settled()
        last = datagram.nanos
    return found + list(pairing.rest(last))


def lines(steps):
    """The lines of steps, without their marks."""
    return [line_of(it)[2:] for it in entries(steps)]


def resend(at, invoke=1):
    return exchange(at, None, invoke)


class Pairs(unittest.TestCase):
    def test_ends(self):
        rows = [
            (ack(1), "72.3"),
            ("50010c0"[:2] + "010c91029120", "error 2 32 (property, unknown-property)"),
            ("600109", "reject 9 (unrecognized-service)"),
            ("710104", "abort 4 (segmentation-not-supported)"),
            ("710163", "abort 99"),
            ("50010c", "bad-error"),
            ("30010c0c", "bad-ack"),
            ("380100010c", "bad-ack, in 1 part"),
            ("380100010c" + ack(1)[6:], "72.3, in 1 part"),
            ("3c0100010c" + ack(1)[6:], "answered in parts, of which some are missing"),
        ]
        for apdu, end in rows:
            with self.subTest(apdu=apdu):
                self.assertEqual(lines(exchange(0, 1.25, 1, apdu)), [READ + end + "  1.25 ms"])

    def test_marks(self):
        rows = [
            (
                "sent again",
                exchange(0, None) + exchange(1000, 1001.5),
                ["72.3  1002 ms  sent 2 times, 1000 ms apart"],
            ),
            (
                "a copy",
                exchange(0, None) + exchange(1, 2),
                ["72.3  2.00 ms  sent 2 times, 1.00 ms apart, as copies"],
            ),
            (
                "second",
                exchange(0, 1) + [(5, DEVICE, CLIENT, wrapped(ack(1, "41a00000")))],
                ["72.3  1.00 ms  SECOND answer 4.00 ms after the first: 20"],
            ),
            (
                "second as the first",
                exchange(0, 1) + [(5, DEVICE, CLIENT, wrapped(ack(1)))],
                ["72.3  1.00 ms  SECOND answer 4.00 ms after the first"],
            ),
            (
                "late",
                exchange(0, None) + resend(1000) + [(2100, DEVICE, CLIENT, wrapped(ack(1)))],
                ["72.3  2100 ms  sent 2 times, 1000 ms apart  LATE: 1100 ms after the last send"],
            ),
            (
                "not late",
                exchange(0, None) + resend(1000) + [(2040, DEVICE, CLIENT, wrapped(ack(1)))],
                ["72.3  2040 ms  sent 2 times, 1000 ms apart"],
            ),
            ("no answer", exchange(0, None) + exchange(9000, 9001, 2)[:1], ["no answer"]),
            (
                "cut off",
                exchange(0, None) + exchange(900, 901, 2)[:1],
                ["no answer  the capture ends 900 ms later"],
            ),
            ("again", exchange(0, 1) + exchange(0.5 + 1, None), ["72.3  1.00 ms"]),
        ]
        for name, steps, ends in rows:
            with self.subTest(name=name):
                self.assertEqual(lines(steps)[:1], [READ + end for end in ends])

    def test_front(self):
        """The beginning of a line shows whether it needs attention."""
        second = [(5, DEVICE, CLIENT, wrapped(ack(1)))]
        rows = [
            (exchange(0, 1), " "),
            (exchange(0, None), "!"),
            (exchange(0, 1, 1, "600109"), "!"),
            (exchange(0, 1) + second, "~"),
            (exchange(0, None) + exchange(1000, 1001), "~"),
            (exchange(0, 1, 1, "20010c"), "!"),
            (second, "!"),
            ([(0, CLIENT, DEVICE, wrapped("1008"))], " "),
        ]
        for steps, mark in rows:
            self.assertEqual(line_of(entries(steps)[0])[:2], mark + " ", steps)

    def test_a_clock_that_is_set_back(self):
        """By time, an answer may come before its request."""
        steps = exchange(1000, None) + resend(2000) + [(500, DEVICE, CLIENT, wrapped(ack(1)))]
        self.assertIn("72.3  -500.00 ms", lines(steps)[0])

    def test_again(self):
        """The same request after its answer is a new one that is marked."""
        first, second = entries(exchange(0, 1) + exchange(3000, 3001))
        self.assertIsNone(first.again)
        self.assertIn("AGAIN, 2999 ms after its answer", line_of(second))

    def test_a_minute_later(self):
        """After a minute without an answer the same octets are a new request."""
        for gap, count in ((59000, 1), (61000, 2)):
            self.assertEqual(len(entries(exchange(0, None) + resend(gap))), count)

    def test_number_used_again(self):
        """Another request with the number of an open one ends the open one; a late answer is that of the new one."""
        other = (10, CLIENT, DEVICE, wrapped(read_apdu(1, "0c000000061955"), "0104"))
        first, second = entries(exchange(0, None) + [other, (11, DEVICE, CLIENT, wrapped(ack(1)))])
        self.assertEqual((first.outcome, second.outcome), ("", "value 4290999a"))

    def test_round(self):
        """After all other numbers the same octets are a new request."""
        steps = exchange(0, None) + [
            it for at in range(2, 257) for it in exchange(at, at + 0.5, at % 256)
        ]
        self.assertEqual(
            sum(isinstance(it, Talk) for it in entries(steps + exchange(300, 301))), 257
        )
        self.assertEqual(
            sum(isinstance(it, Talk) for it in entries(steps[:400] + exchange(300, 301))), 201
        )

    def test_others(self):
        """An answer to nothing, and answers from another address, for another service, to another client or route."""
        stray = (2, DEVICE, CLIENT, wrapped(ack(9)))
        away = (2, OTHER, CLIENT, wrapped(ack(1)))
        rows = [
            (stray, "#9 an answer to nothing seen: 72.3"),
            (away, "#1 an answer to nothing seen: 72.3"),
            ((2, DEVICE, CLIENT, wrapped("20010f")), "#1 an answer to nothing seen: ok"),
        ]
        for step, words in rows:
            with self.subTest(step=step):
                first, second = lines(exchange(0, None) + [step])
                self.assertEqual(second.split("  ", 2)[2], words)
                self.assertEqual(first, READ + "no answer  the capture ends 2.00 ms later")

    def test_messages(self):
        rows = [
            ("1008", "Who-Is"),
            ("10080a03e81a04d2", "Who-Is devices 1000 to 1234"),
            ("10080a04d21a04d2", "Who-Is device 1234"),
            (
                "1000c4020004d22205c49103220104",
                "I-Am device 1234, APDUs of 1476 octets, segmentation none, vendor 260",
            ),
            ("1000c4000004d22205c49103220104", "unconfirmed service 0 (I-Am)"),
            ("1063", "unconfirmed service 99"),
            ("1002", "unconfirmed service 2 (UnconfirmedCOVNotification)"),
            (
                "1002" + CHANGE,
                "change at device 4: analog-input 10 present-value (0 10 85) = 65, "
                "analog-input 10 status-flags (0 10 111) = B'0000'",
            ),
            ("400100", "#1 acknowledgement of a part"),
            ("700104", "#1 abort 4 of the client"),
        ]
        for apdu, words in rows:
            with self.subTest(apdu=apdu):
                self.assertEqual(
                    lines([(0, DEVICE, CLIENT, wrapped(apdu))])[0].split("  ", 2)[2], words
                )

    def test_parts(self):
        """The parts of a long answer are not second answers."""
        body = ack(1)[6:]
        first, second, last = body[:8], body[8:20], body[20:]
        whole, missing = "72.3, in 3 parts", "answered in parts, of which some are missing"
        for parts, end in (
            (((0, first), (1, second), (2, last)), whole),
            (((0, first), (1, second), (1, second), (2, last)), whole),
            (((0, first), (2, last)), missing),
            (((0, first), (1, second)), missing),
            (((0, first), (1, second[:-4] + "ff42"), (2, last)), "bad-ack, in 3 parts"),
        ):
            sent = [(it, "%s01%02x010c%s" % ("38" if it[1] is last else "3c", *it)) for it in parts]
            steps = exchange(0, 1, 1, sent[0][1])
            for at, (part, apdu) in enumerate(sent[1:], 2):
                steps += [(at, CLIENT, DEVICE, wrapped("4001%02x01" % (part[0] - 1)))]
                steps += [(at + 0.5, DEVICE, CLIENT, wrapped(apdu))]
            with self.subTest(parts=[it[0] for it in parts]):
                self.assertEqual(lines(steps), [READ + end + "  1.00 ms"])
                mark = "!" if "bad" in end else " "
                self.assertEqual(line_of(entries(steps)[0])[0], mark)
        lone = [(2, CLIENT, DEVICE, wrapped("40010001"))]
        self.assertIn("#1 acknowledgement of a part", lines(exchange(0, 1) + lone)[1])
        server = [(2, CLIENT, DEVICE, wrapped("41010001"))]
        parted = exchange(0, 1, 1, "3c0100010c" + first)
        self.assertIn("#1 acknowledgement of a part", lines(parted + server)[1])

    def test_what_a_capture_has_cut(self):
        """The first octets of a datagram that is cut show only what it is."""
        found = datagrams(exchange(0, 1))
        error = datagrams(exchange(0, 1, 1, "50010c91029120"))
        for asked, answer, lost, end in (
            (found[0], found[1], 6, READ + "answered, cut by the capture  1.00 ms"),
            (found[0], error[1], 1, READ + "answered, cut by the capture  1.00 ms"),
            (found[0], error[1], 0, READ + "error 2 32 (property, unknown-property)  1.00 ms"),
        ):
            answer = answer._replace(octets=answer.octets[: len(answer.octets) - lost], is_cut=True)
            pairing = Pairing()
            pairing.take(message_of(asked))
            self.assertEqual(pairing.take(message_of(answer)).kind, "answer")
            (talk,) = pairing.rest(answer.nanos)
            self.assertEqual(line_of(talk)[2:], end)
            self.assertEqual(talk.has_failed, "error" in end or answer.octets[6] == 0x50)
        cut = found[0]._replace(octets=found[0].octets[:-1], is_cut=True)
        pairing = Pairing()
        pairing.take(message_of(cut))
        (talk,) = pairing.rest(cut.nanos)
        self.assertIn("#1 service 12 (ReadProperty), cut by the capture: no answer", line_of(talk))
        cut = found[0]._replace(octets=found[0].octets[:9], is_cut=True)
        self.assertEqual(message_of(cut).words, "an APDU that is cut: 000501")

    def test_routes(self):
        """Stations behind a router are different peers."""
        asked = [
            (0, CLIENT, DEVICE, wrapped(read_apdu(1), "01240005010%dff" % at)) for at in (7, 8)
        ]
        answer = [(5, DEVICE, CLIENT, wrapped(ack(1), "010800050108"))]
        self.assertEqual([it.outcome for it in entries(asked + answer)], ["", "value 4290999a"])
        self.assertIn(DEVICE + "/5/08", lines(asked + answer)[1])

    def test_services(self):
        steps = [
            (0, CLIENT, DEVICE, wrapped("0005011a0c000000051e0955" + "1f", "0104")),
            (1, DEVICE, CLIENT, wrapped("30011a0c")),
        ]
        self.assertTrue(
            lines(steps)[0].endswith("#1 service 26 (ReadRange): answered  1.00 ms")
        )
        self.assertTrue(
            lines([(0, CLIENT, DEVICE, wrapped("0005010c0c"))])[0].endswith(
                "#1 service 12 (ReadProperty), which can't be read: no answer  the capture ends 0.00 ms later"
            )
        )

    def test_other_object(self):
        """An answer about something else is marked; the device's own number in place of 4194303 is not."""
        rows = [
            ("0c000000051955", "0c000000061955", True),
            ("0c023fffff194b", "0c020004d2194b", False),
            ("0c023fffff194b", "0c020004d2194d", True),
            ("0c000000051955", "0c000000051a0055", False),
            ("0c000000051955", "0c0000000519552901", True),
        ]
        for asked, told, is_other in rows:
            with self.subTest(asked=asked, told=told):
                steps = [
                    (0, CLIENT, DEVICE, wrapped(read_apdu(1, asked))),
                    (1, DEVICE, CLIENT, wrapped(ack(1, what=told))),
                ]
                (talk,) = entries(steps)
                self.assertEqual((talk.has_failed, "OTHER" in line_of(talk)), (is_other, is_other))
        self.assertTrue(line_of(talk).endswith(": 72.3  1.00 ms  OTHER: the answer is of 0 5 85 1"), line_of(talk))

    def test_types(self):
        """The octets show the type of a value, also for a vendor's property and if the property has another type."""
        rows = [
            ("0c000000051a0200", "444290999a", "72.3"),
            ("0c000000051975", "443f800000", "1"),
            ("0c000000051975", "9140", "64 (degrees-fahrenheit)"),
            ("0c000000051a0200", "55084034000000000000", "20"),
            ("0c004000011957", "0044420c0000", "{null, 35}"),
            ("0c03400002196e", "7300416275020043", '{"Ab", "C"}'),
        ]
        for what, value, shown in rows:
            with self.subTest(value=value):
                apdu = "30010c%s3e%s3f" % (what, value)
                steps = [
                    (0, CLIENT, DEVICE, wrapped(read_apdu(1, what))),
                    (1, DEVICE, CLIENT, wrapped(apdu)),
                ]
                self.assertEqual(lines(steps)[0].split("): ")[1], shown + "  1.00 ms")

    def test_order(self):
        """Entries come in the order of their beginnings, even if the first is answered last."""
        steps = (
            exchange(0, None, 1)
            + exchange(1, 2, 2)
            + [(30_000, DEVICE, CLIENT, wrapped(ack(1)))]
            + exchange(200_000, 200_001, 3)
        )
        self.assertEqual([it.apdu.invoke for it in entries(steps)], [1, 2, 3])

    def test_nothing_is_kept(self):
        """Settled requests are forgotten."""
        pairing = Pairing()
        for datagram in datagrams(
            [it for at in range(3000) for it in exchange(at * 1000, at * 1000 + 1, at % 256)]
        ):
            pairing.take(message_of(datagram))
            list(pairing.settled())
        self.assertLess(len(pairing.entries), 100)
        self.assertLess(len(pairing.latest), 100)

    def test_json(self):
        what = "read analog-input 5 present-value (0 5 85)"
        talk = {"kind": "talk", "time": "2026-01-01T00:00:00.000Z", "client": CLIENT, "device": DEVICE, "invoke_id": 1}
        talk.update(service=12, what=what, object=[0, 5, 85], written=None, priority=None, ms=1.25, remarks=[])
        talk.update(outcome="abort 4", shown="abort 4 (segmentation-not-supported)", failed=True)
        self.assertEqual(json_of(entries(exchange(0, 1.25, 1, "710104"))[0]), talk)
        again = "sent 2 times, 1000 ms apart"
        talk.update(outcome="value 4290999a", shown="72.3", failed=False, ms=1002.5, remarks=[again])
        self.assertEqual(json_of(entries(exchange(0, None) + exchange(1000, 1002.5))[0]), talk)
        written = "0005020f0c00400001195529023e4441a000003f4908"
        found = json_of(entries([(1500, CLIENT, DEVICE, wrapped(written)), (2000, CLIENT, DEVICE, wrapped("1008"))])[0])
        talk.update(time="2026-01-01T00:00:01.500Z", invoke_id=2, service=15, object=[1, 1, 85, 2], written="20")
        talk.update(priority=8, what="write analog-output 1 present-value[2] (1 1 85 2) = 20 at 8", ms=None)
        talk.update(outcome="no answer", shown="no answer", failed=True, remarks=["the capture ends 500 ms later"])
        self.assertEqual(found, talk)
        other = {"kind": "other", "time": "2026-01-01T00:00:02.000Z", "client": CLIENT, "device": DEVICE}
        found = json_of(entries([(2000, CLIENT, DEVICE, wrapped("1008"))])[0])
        self.assertEqual(found, {**other, "what": "Who-Is"})

    def test_steering(self):
        """Text from a device does not control a terminal."""
        answer = "30010c0c00000005194d3e7508001b5b324a0aff413f"
        line = lines(exchange(0, 1, 1, answer))[0]
        self.assertTrue(line.isprintable(), line)


class Counts(unittest.TestCase):
    def test_parts(self):
        for times, percent, wanted in (
            ([5], 50, 5),
            ([1, 2, 3, 4], 50, 2),
            ([1, 2, 3], 50, 2),
            (list(range(1, 101)), 95, 95),
        ):
            self.assertEqual(Group(took=times).within(percent), wanted)

    def test_millis(self):
        rows = (
            (0, "0.00"),
            (1_234_567, "1.23"),
            (9_994_000, "9.99"),
            (9_996_000, "10.0"),
            (99_960_000, "100"),
            (1_500_000_000, "1500"),
        )
        for nanos, text in rows:
            self.assertEqual(millis(nanos), text)

    def test_the_least_wait_of_a_client_counts(self):
        steps = []
        for invoke, start, again in ((1, 0, 300), (2, 1000, 2000)):
            send = wrapped(read_apdu(invoke), "0104")
            steps += [(start, CLIENT, DEVICE, send), (again, CLIENT, DEVICE, send)]
            steps += [(again + 1, DEVICE, CLIENT, wrapped(ack(invoke)))]
        talks = entries(sorted(steps + exchange(3000, 3500, 3)))
        self.assertEqual([it.late for it in talks], [None, None, 500 * MILLI])

    def test_percentiles(self):
        group = Group(took=[at * MILLI for at in range(100, 0, -1)])
        self.assertEqual(
            [group.within(it) for it in (50, 95, 100)], [50 * MILLI, 95 * MILLI, 100 * MILLI]
        )
        figures = group.figures()
        told = [figures[name] for name in ("median_ms", "ms_of_95", "longest_ms")]
        self.assertEqual(told, [50, 95, 100])

    def test_group(self):
        group = Group()
        steps = (
            exchange(0, 1)
            + exchange(10, 2000, 2)
            + exchange(20, 21, 3, "600309")
            + exchange(30, None, 4)
        )
        for entry in entries(sorted(steps)):
            group.add(["requests", *marks_of(entry, 1000 * 10**6)], entry.took)
        figures = group.figures()
        wanted = {"requests": 4, "answered": 2, "refused": 1, "unanswered": 1, "sent_again": 0, "slow": 1, "late": 0}
        wanted.update(answered_twice=0, asked_again=0, open_at_the_end=1, failed=2)
        self.assertEqual(figures, {**wanted, "median_ms": 1.0, "ms_of_95": 1990.0, "longest_ms": 1990.0})

    def test_a_summary_has_each_mark(self):
        """A resend and a late answer; a second answer; an answered request again; a slow one; one that is open."""
        late = exchange(0, None) + resend(1000) + [(2100, DEVICE, CLIENT, wrapped(ack(1)))]
        steps = late + exchange(3000, 3001, 2) + [(3002, DEVICE, CLIENT, wrapped(ack(2)))]
        steps += exchange(4000, 4001, 3) + exchange(4500, 4502, 3) + exchange(5000, 6000, 4, to=OTHER)
        steps += exchange(7000, None, 5) + [(7400, CLIENT, DEVICE, wrapped("1008"))]
        tally, passing = Tally(1000 * MILLI), Passing(packets=13)
        for entry in entries(steps):
            tally.add(entry)
        self.assertEqual(list(tally.lines(passing)), """\
6 requests of 1 client to 2 devices: 5 answered, 0 refused, 1 unanswered
of these 1 sent again, 2 slow, 1 late, 1 answered twice, 1 asked again, 1 open at the end, 2 failed
device           requests  answered  refused  unanswered  sent again  slow  median ms  longest ms
127.0.0.1:47808  5         4         0        1           1           1     1.00       2100
127.0.0.2:47808  1         1         0        0           0           1     1000       1000
also seen: Who-Is 1""".split("\n"))
        none = dict.fromkeys(ALL, 0)
        other = {**none, "requests": 1, "answered": 1, "slow": 1}
        other.update({"median ms": 1000, "ms of 95": 1000, "longest ms": 1000})
        first = {**none, "requests": 5, "answered": 4, "unanswered": 1, "sent again": 1, "slow": 1, "late": 1}
        first.update({"failed": 2, "answered twice": 1, "asked again": 1, "open at the end": 1})
        first.update({"median ms": 1, "ms of 95": 2100, "longest ms": 2100})
        both = {name: first[name] + other[name] for name in ALL}
        both.update({"median ms": 2, "ms of 95": 2100, "longest ms": 2100})
        told = [{name.replace(" ", "_"): it for name, it in part.items()} for part in (both, first, other)]
        wanted = {"kind": "summary", "all": told[0], "clients": 1, "devices": {DEVICE: told[1], OTHER: told[2]}}
        wanted.update(others={"Who-Is": 1}, packets=13, cut=0, passed_over={}, damage=None)
        self.assertEqual(tally.figures(passing), wanted)


if __name__ == "__main__":
    unittest.main()
