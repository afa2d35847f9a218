"""Each limit, chunk and modulus: at the limit, one above it, and at 0. Nothing here needs the program."""

import argparse
import errno
import os
import signal
import tempfile
import unittest
import unittest.mock
from contextlib import nullcontext
from types import SimpleNamespace

import harness  # noqa: F401  this sets the path to bacsite
from bacsite import points, session, standard, streams, survey
from bacsite.bodies import items_of
from bacsite.capture import lines
from bacsite.capture.lines import MOST_LISTED, _listed
from bacsite.capture.pcap import FUNCTIONS, Packet, Passed, datagram_of
from bacsite.capture.talks import Answer
from bacsite.capture.trace import MOST_BODY, MOST_PROPERTY, ROUTE
from bacsite.controller import Controller
from bacsite.device import Bounds
from bacsite.messages import COMPLEX, Apdu, apdu_of
from bacsite.page import Line, Sample, _address_number
from bacsite.parsing import duration_of, within
from bacsite.place import Place, encoded_for
from bacsite.points import Point
from bacsite.standard import PropertyRef
from bacsite.streams import moment, width, Failure
from bacsite.survey import Earlier
from bacsite.sweep import Station, Sweep
from bacsite.tools import Outcome, Processes, Tools
from bacsite.watch import Watch
from datagram_builders import CLIENT, DEVICE, udp
from instant_devices import QuickCalls, QuickWhoIs
from stand_ins import an_object, real, unsigned

A = "192.0.2.1:47808"


class Taken(QuickCalls):
    """The second bacrun finds that its port is taken."""

    def start(self, words, until=float("inf")):
        self.taken = int(len(self.begun) == 1)
        return super().start(words, until)


class Lost(Tools):
    """Tools whose bacruns end at once: `put` has the lines that each of them was given."""

    def __init__(self):
        super().__init__("none", 1000, 2, 4)
        self.put, self.begun = [], []
        self.processes = SimpleNamespace(over=lambda _: Outcome(0))

    def start(self, words, until=float("inf")):
        self.begun.append(words)
        ends = QuickWhoIs()
        ends.put = self.put.append
        return ends


class Asked(unittest.TestCase):
    """How many requests are open at once, for how long, and in which order."""

    def test_what_was_open_is_asked_for_in_its_order(self):
        values = {(0, at, 85): real("42290000") for at in range(9)}
        values[0, 1, 85] = [("abort", 9), real("42290000")]
        many = Taken({A: values}, 4, timeout=1, retries=1)
        with Controller(many, A) as controller:
            found = controller.ask_all([PropertyRef(0, at, 85) for at in range(9)])
        self.assertEqual([it.reason for it in found], [""] * 9)
        self.assertGreaterEqual(len(many.begun), 3, "the second one had the port of somebody")
        last = [it[2] for it in many.asked if it[2] not in (0, 1)]
        self.assertEqual(last, sorted(last))

    def test_late_ones_are_asked_by_64(self):
        rows = (0, 9, []), (64, 9, [64]), (65, 9, [64, 1]), (129, 1, [64, 64, 1]), (9, 0, []), (9, -1, [])
        for count, patience, parts in rows:
            many, asked = Lost(), [f"192.0.2.1:{at}" for at in range(count)]
            self.assertEqual(session.late_answers(many, asked, patience), {})
            lines = [text.split("\n") for text in many.put]
            lines = [[line for line in part if line] for part in lines]
            self.assertEqual(sorted(map(len, lines), reverse=True), parts)
            there = {line.split()[1] for part in lines for line in part}
            self.assertEqual(there, set(asked) if patience > 0 else set())

    def test_all_that_is_sent_is_kept(self):
        """A journal has the reads of a range, those that are awaited at its end, and the questions to stations."""
        with tempfile.TemporaryDirectory() as folder:
            many, sent = QuickCalls({A: {(8, 4194303, 75): an_object(8, 77)}}), f"# send 0 {A} 00\n"
            many.journals = streams.Journals(folder)
            many.listener = lambda *_: QuickWhoIs(lines=["# wait 1"])
            scan = session.Scan(many, [A])
            scan.run(lambda *_: None)
            scan.end()
            self.assertEqual(session.late_answers(many, [A], 9), {A: "device 77 answers a read very late"})
            Sweep(many, [A + "/*"], Bounds(), []).run()
            found = {}
            for name in os.listdir(folder):
                with open(f"{folder}/{name}", encoding="ascii") as file:
                    found[name] = file.readline()
        both = {"range-1.trace": sent, "range-2.trace": sent}
        self.assertEqual(found, {**both, "stations-1.trace": "# wait 1\n"})

    def test_late_ones_are_awaited_for_a_minute_at_most(self):
        for timeout, seconds, patience in (
            (7499, 999, 59992),
            (7500, 999, 60000),
            (7501, 999, 60000),
            (60000, 999, 60000),
            (1000, 10, 8000),
            (1000, 9, 7000),
            (1000, 2, 0),
        ):
            many = QuickCalls({A: {(8, 4194303, 75): "silent"}}, timeout=timeout)
            (target,) = points.targets(["192.0.2.1-1"])
            with unittest.mock.patch("bacsite.survey.late_answers", return_value={}) as late:
                bounds = Bounds(deadline=seconds)
                found = list(survey.Survey(many, bounds, Earlier()).devices([target]))
            self.assertEqual((late.call_args[0][2], [it.hidden for it in found]), (patience, [True]))

    def test_so_many_are_asked_for_together(self):
        rows = (1, 3, [1, 1, 1]), (4, 0, []), (4, 32, [32]), (4, 33, [32, 1]), (2, 33, [16, 16, 1])
        for window, count, parts in rows:
            with Controller(QuickCalls({A: {}}, window), A) as controller:
                self.assertEqual([len(it) for it in controller.parts(range(count))], parts)


class Waits(unittest.TestCase):
    """How long something is waited for, by a clock that stands still, or goes on only by what is waited for."""

    def waits(self, values, ended=False, **more):
        """A controller at noon, and a list of how long it waits."""
        calls, waits = QuickCalls({A: values}, **more), []
        calls.processes.ended = SimpleNamespace(wait=lambda seconds: waits.append(round(seconds, 3)) or ended)
        return Controller(calls, A), waits

    def test_a_device_that_may_have_restarted(self):
        """Eight times --apdu-timeout, but no more than eight seconds, and than there is time."""
        clock = SimpleNamespace(monotonic=lambda: 43200.0)
        for timeout, left, wanted in ((100, 99, [0.8]), (999, 99, [7.992]), (1001, 99, [8.0]), (60000, 9, [8.0]),
                                      (1000, 7.5, [7.5]), (1000, 0, []), (1000, -1, [])):
            for ended, device in ((False, 77), (False, 78), (True, 77)):
                controller, waits = self.waits({(8, 4194303, 75): an_object(8, device)}, ended, timeout=timeout)
                controller.instance, controller.silent, controller.deadline = 77, True, 43200 + left
                with unittest.mock.patch("bacsite.controller.time", clock):
                    is_back = controller.comes_back()
                self.assertEqual((is_back, waits), (bool(wanted) and (ended, device) == (False, 77), wanted))
                self.assertEqual((controller.instance, controller.silent), (77, ended or not wanted))
                controller.rest()

    def test_a_device_that_is_busy(self):
        """It is asked again --apdu-retries times, each after its time limit."""
        busy, good = ("abort", 9), real("42290000")
        for timeout, retries, values, reason, wanted in (
            (250, 2, [busy, good], "", [0.25]),
            (250, 2, [busy, busy, good], "", [0.25] * 2),
            (250, 2, [busy, busy, busy, good], "abort 9", [0.25] * 2),
            (3000, 0, [busy, good], "abort 9", []),
            (3000, 9, [good], "", []),
        ):
            controller, waits = self.waits({(0, 1, 85): values}, timeout=timeout, retries=retries)
            self.assertEqual((controller.ask(PropertyRef(0, 1, 85)).reason, waits), (reason, wanted))
            controller.rest()
        controller, waits = self.waits({(0, 1, 85): [busy, good]}, ended=True, timeout=250, retries=2)
        self.assertEqual((controller.ask(PropertyRef(0, 1, 85)).reason, waits), ("abort 9", [0.25]), "all are ended")
        controller.rest()

    def test_a_deadline(self):
        """Nothing is asked from then on; what was asked before has its answer."""
        now = [43200.0]
        for left, wanted in ((3.0, ["", "", ""]), (1.5, ["", "", "not asked"]), (1.0, ["", "not asked", "not asked"]),
                             (0.0, ["not asked"] * 3), (-0.5, ["not asked"] * 3)):
            good, now[0] = real("42290000"), 43200.0
            device = SimpleNamespace(get=lambda *_, good=good: now.append(now.pop() + 1) or good)
            with unittest.mock.patch("bacsite.controller.time", SimpleNamespace(monotonic=lambda: now[0])):
                with Controller(QuickCalls({A: device}), A, 43200.0 + left) as controller:
                    found = controller.ask_all([PropertyRef(0, at, 85) for at in range(3)])
                    is_over = controller.is_over
            self.assertEqual(([it.reason for it in found], is_over), (wanted, "not asked" in wanted), left)

    def test_the_answer_to_a_who_is(self):
        """Twice as long as the read of the identity took, at least a tenth of a second."""
        for took, wanted in ((0.0, 0.1), (0.05, 0.1), (0.06, 0.12), (2.0, 4.0)):
            controller, _ = self.waits({}, timeout=700)
            controller._took = took
            with unittest.mock.patch("bacsite.tools.Search.wait_for") as wait:
                controller.search()
            self.assertEqual(wait.call_args[0], (A, wanted))
            self.assertEqual(controller.tools.begun, [["bacwi", "--mac", A, "--apdu-timeout", "700"]])

    def sweep(self, words, then=lambda: None, **more):
        """The first question of a sweep: the milliseconds and the lines that bacrun is given."""
        made, now, given = Sweep(QuickCalls({}), words, Bounds(**more), []), [43200.0], []

        def hear(milliseconds, text=""):
            now[0] += milliseconds / 1000
            given.append((milliseconds, text.count("\n")))
            then(made, now[0] - 43200)
            return True

        with unittest.mock.patch("bacsite.sweep.time", SimpleNamespace(monotonic=lambda: now[0])):
            self.assertTrue(made._ask(SimpleNamespace(hear=hear)))
        return given

    def test_stations_are_heard_as_long_as_the_words_say(self):
        for listen, count in ((1, 2), (4, 8), (10, 20)):
            found = self.sweep([A + "/*"], lambda *_: None, listen=listen)
            self.assertEqual(found, [(1, 1), *[(500, 0)] * count], listen)

    def test_nobody_waits_for_more_than_three_seconds_once_all_have_answered(self):
        station = Station(7, A + "/5/07")

        def answers(sweep, seconds):
            """The station, which was known before, answers a second after the question."""
            (reach,) = sweep.reaches
            reach._before.add(station)
            if 1 <= seconds < 1.5:
                reach.heard(station)
                sweep._last = 43200 + seconds

        for listen, count in ((3, 6), (4, 8), (5, 8), (60, 8)):
            found = self.sweep([A + "/5/*"], answers, listen=listen)
            self.assertEqual(found, [(1, 1), *[(500, 0)] * count], listen)

    def test_256_questions_are_handed_over_at_once(self):
        for count, parts in ((1, [1]), (256, [256]), (257, [256, 1]), (600, [256, 256, 88])):
            words = [f"192.0.2.{at // 99}:{47808 + at % 99}/*" for at in range(count)]
            found = self.sweep(words, lambda *_: None, listen=1)
            self.assertEqual([lines for _, lines in found if lines], parts)

    def test_a_sweep_ends_after_64_questions(self):
        told = "new stations still answered after 64 questions"
        for count, faults in ((63, []), (64, [told]), (99, [told])):
            calls, left = QuickCalls({}), list(range(count))
            calls.listener = lambda *_: QuickWhoIs()
            sweep = Sweep(calls, [A + "/*"], Bounds(), [])

            def ask(_, sweep=sweep, left=left):
                sweep.rounds += bool(left)
                return bool(left) and left.pop() >= 0

            with unittest.mock.patch.object(sweep, "_ask", ask):
                sweep.run()
            self.assertEqual((sweep.faults, sweep.rounds), (faults, min(count, 64)))

    def test_64_scans_at_once_have_64_addresses_or_more(self):
        for count, wanted in ((1, [1]), (64, [64]), (65, [64, 1]), (4096, [64] * 64), (4097, [65] * 63 + [2])):
            targets = points.targets(["10.0.0.1-10.0.%d.%d" % divmod(count, 256)])
            jobs = survey.Survey(QuickCalls({}), Bounds(), Earlier()).jobs(targets)
            scans = [it.args[0] for it in jobs if it.func.__name__ == "scanned"]
            self.assertEqual([len(it) for it in scans], wanted)


class Written(unittest.TestCase):
    """Values that are refused before they are sent, by the object's own limits."""

    def refused(self, kind, limits, words):
        """Returns the words that are refused."""
        refused = []
        values = {(kind, 7, number): octets for number, octets in limits.items()}
        with Controller(QuickCalls({A: values}), A) as controller:
            for word in words.split():
                place = Place(A, PropertyRef(kind, 7, standard.PRESENT_VALUE), is_present_value=True)
                try:
                    encoded_for(controller, place, word, None)
                except Failure:
                    refused.append(word)
        return " ".join(refused)

    def test_limits_of_numbers(self):
        zero, hundred, below = real("00000000"), real("42c80000"), real("c2c80000")
        for least, most, words, refused in (
            (zero, hundred, "0 50 100 -0.5 100.5 150", "-0.5 100.5 150"),
            (below, zero, "-100 -1 0 -100.5 0.5", "-100.5 0.5"),
            (zero, zero, "-5 0 5", ""),  # of one who knows of none
            (hundred, hundred, "100 99 101", "99 101"),
            (None, zero, "-5 0 0.5", "0.5"),
            (zero, None, "0 5 -0.5", "-0.5"),
            (None, None, "-5 0 5", ""),
        ):
            limits = {standard.MIN_VALUE: least, standard.MAX_VALUE: most}
            limits = {number: it for number, it in limits.items() if it}
            self.assertEqual(self.refused(2, limits, words), refused, (least, most))

    def test_states(self):
        count = {standard.NUMBER_OF_STATES: unsigned(3)}
        self.assertEqual(self.refused(19, count, "0 1 3 4"), "0 4")
        self.assertEqual(self.refused(19, {standard.NUMBER_OF_STATES: unsigned(1)}, "0 1 2"), "0 2")
        self.assertEqual(self.refused(5, {}, "0 1 2"), "2")


class Octets(unittest.TestCase):
    """Octets that are read and kept."""

    def test_parts_are_numbered_by_256(self):
        for count in 1, 255, 256, 257, 300, 513:
            parts = [Apdu(COMPLEX, 8 | 4 * (at < count - 1), 1, at % 256, 12, b"x") for at in range(count)]
            answer = Answer(0, parts[0], "segmented", [])
            for part in parts:
                answer.add(part)
                answer.add(part)  # that comes again
            self.assertEqual(len(answer.whole.body), count)

    def test_a_part_that_is_missing(self):
        parts = [Apdu(COMPLEX, 8 | 4 * (at < 3), 1, at, 12, b"x") for at in range(4)]
        answer = Answer(0, parts[0], "segmented", [])
        for part in parts[:2] + parts[3:]:
            answer.add(part)
        self.assertEqual((len(answer.parts), answer.whole), (2, None))

    def test_requests_in_parts(self):
        for octets, part, service, body in (
            ("0005010c0955", None, 12, "0955"),
            ("080501000f0c0955", 0, 12, "0955"),
            ("080501ff0f0c", 255, 12, ""),
            ("0c0501000f0f", 0, 15, ""),
        ):
            found = apdu_of(bytes.fromhex(octets))
            self.assertEqual((found.part, found.service, found.body.hex()), (part, service, body))
        self.assertIsNone(apdu_of(bytes.fromhex("080501000f")), "its service is cut off")
        self.assertIsNone(apdu_of(bytes.fromhex("000501")))

    def test_apdus_that_are_cut(self):
        """The shortest APDU of each kind, with its invoke id and its service; a shorter text is not an APDU."""
        for octets, kind, invoke, service in (
            ("0005010c", 0, 1, 12),
            ("1008", 1, 0, 8),
            ("20010f", 2, 1, 15),
            ("30010c", 3, 1, 12),
            ("38010104" + "0c", 3, 1, 12),
            ("50010c", 5, 1, 12),
            ("600109", 6, 1, 9),
            ("710104", 7, 1, 4),
        ):
            found = apdu_of(bytes.fromhex(octets))
            self.assertEqual((found.kind, found.invoke, found.service, found.body), (kind, invoke, service, b""))
            self.assertIsNone(apdu_of(bytes.fromhex(octets[:-2])), octets)
        self.assertEqual([apdu_of(bytes.fromhex(it)).invoke for it in ("40", "4005", "400501")], [0, 5, 5])
        self.assertEqual([apdu_of(bytes.fromhex(it)) for it in ("", "80", "f00101")], [None] * 3)

    def test_what_one_object_lacks_all_lack(self):
        one, odd = "0c000000011e29554e21054f1f", "0c000000021e29551f"
        self.assertEqual(len(lines.told_by(bytes.fromhex(one * 2))), 2)
        for octets in one + odd, odd + one, odd:
            self.assertIsNone(lines.told_by(bytes.fromhex(octets)), octets)

    def test_32_tags_may_be_open(self):
        for count, is_read in ((0, True), (32, True), (33, False)):
            octets = bytes([0x0E] * count + [0x0F] * count)
            self.assertEqual(items_of(octets) is not None, is_read, count)

    def test_so_many_values_are_listed(self):
        for count, more in ((0, ""), (1, ""), (MOST_LISTED, ""), (MOST_LISTED + 1, "1"), (40, "24")):
            listed = _listed(["x"] * count)
            told = f", and {more} more" if more else ""
            self.assertEqual(listed, ", ".join(["x"] * min(count, MOST_LISTED)) + told)
        self.assertEqual((MOST_LISTED, MOST_BODY, MOST_PROPERTY), (16, 476, 4194303))

    def test_functions_of_the_link(self):
        for function, is_one in ((0, True), (FUNCTIONS - 1, True), (FUNCTIONS, False), (255, False)):
            octets = bytes([0x81, function, 0, 4])
            packet = Packet(0, 101, 0, udp(CLIENT, DEVICE, octets))
            with nullcontext() if is_one else self.assertRaises(Passed):
                datagram_of(packet)

    def test_routes_of_a_script(self):
        for route, is_one in (("/5/01", True), ("/65535/01", False), ("/65534/01", True), ("/5/" + "01" * 7, True),
                              ("/5/" + "01" * 8, False), ("/5/", False), ("/5/1", False), ("", True)):
            self.assertEqual(bool(ROUTE.fullmatch(A + route)), is_one, route)


class Pieces(unittest.TestCase):
    def test_a_line_that_comes_in_pieces_is_one(self):
        every = Processes()
        process = every.start(["sh", "-c", "printf ab; sleep 0.2; printf 'c\\nd\\n\\n'; sleep 0.2; printf e"])
        self.assertEqual([process.line() for _ in range(4)], ["abc", "d", "", None])
        self.assertEqual(every.over(process).lines, ["e"])


class Texts(unittest.TestCase):
    def test_widths(self):
        for text, columns in (("", 0), ("A", 1), ("\uff21", 2), ("\uff76", 1), ("\u6e29", 2), ("e\u0301", 1)):
            self.assertEqual(width(text), columns, ascii(text))

    def test_moments(self):
        for millis, told in ((0, "00.000"), (1, "00.001"), (999, "00.999"), (1000, "01.000"), (59999, "59.999")):
            self.assertEqual(moment(millis), f"1970-01-01T00:00:{told}Z")

    def test_addresses_stand_by_their_numbers(self):
        numbers = [_address_number(f"192.0.2.{host}:{port}") for host in (6, 7, 8) for port in (0, 1, 65535)]
        self.assertEqual(numbers, sorted(set(numbers)))

    def test_numbers_within(self):
        reader = within(0, 9)
        self.assertEqual([reader("0"), reader("9")], [0, 9])
        self.assertEqual(within(1, 999999999)("999999999"), 999999999)
        for word in "10", "-1", "", "0.0", "0000000001":
            with self.assertRaises(argparse.ArgumentTypeError):
                reader(word)

    def test_a_range_of_addresses(self):
        for word, count in (("192.0.2.5-5", 1), ("192.0.2.0/32", 1), ("192.0.2.0/31", 2), ("192.0.2.0/30", 2),
                            ("10.0.0.0/16", 65534)):
            self.assertEqual(len(points.targets([word])), count, word)
        for word in "10.0.0.0/15", "192.0.2.5-4", "192.0.2.0/33", "192.0.2.5:65536":
            with self.assertRaises(Failure):
                points.targets([word])

    def test_no_number_stands_twice(self):
        titles = [it.split(" | ")[0] for it in standard.TEXT.split("\n= ")[1:]]
        compared = 0
        for title in titles:
            numbers = [it[0] for it in standard.rows(title) if it[0].isdigit()]
            compared += len(numbers)
            self.assertEqual([it for it in numbers if numbers.count(it) > 1], [], title)
        self.assertGreater(compared, 300)


class Drawn(unittest.TestCase):
    """What the page of a watch has of a point, and reads from the table."""

    def test_4000_samples_of_a_point_are_drawn(self):
        for count in 0, 1, 3999, 4000, 4001, 4004:
            line = Line(Point("p", ref=PropertyRef(0, 1, 85)))
            made = [Sample(at, str(at * 7919 % 4007)) for at in range(count)]
            for it in made:
                line.add(it)
            if count <= 4000:
                self.assertEqual(line.samples, made)
            else:
                self.assertLess(len(line.samples), 3010)
                self.assertLessEqual({min(made, key=size_of), max(made, key=size_of), made[-1]}, {*line.samples})

    def test_a_watch_lasts_for_1000_days(self):
        self.assertEqual(duration_of("1000d"), 86400000)
        self.assertEqual(duration_of("0.1"), 0.1)
        for word in "1000d1s", "1000.1d", "0", "0d0s", "":
            with self.assertRaises(argparse.ArgumentTypeError):
                duration_of(word)

    def test_32_mib_of_an_earlier_watch_are_drawn(self):
        kept = SimpleNamespace(words=SimpleNamespace(page=""), seen=[])
        file = SimpleNamespace(rows=lambda most: kept.seen.append(most) or [])
        for page in "x.html", "":
            kept.words.page = page
            Watch._take_earlier(kept, file, {})
        self.assertEqual(kept.seen, [32 << 20, 1 << 20])


def size_of(sample):
    return int(sample.text)


class Kept(unittest.TestCase):
    """Files as a machine leaves them that stops suddenly."""

    def test_all_of_a_file_is_handed_over_before_it_takes_its_place(self):
        sizes = []
        with tempfile.TemporaryDirectory() as folder:
            with unittest.mock.patch("os.fsync", side_effect=lambda it: sizes.append(os.fstat(it).st_size)):
                streams.replace_file(folder + "/x", ["one", "two"])
                streams.replace_file(folder + "/x", [])
        self.assertEqual(sizes, [6, 0])

    def test_a_file_that_can_not_be_written_is_left_as_it_was(self):
        """A signal waits until that is over, whatever fails."""
        before, masks = signal.pthread_sigmask(signal.SIG_BLOCK, ()), []
        with tempfile.TemporaryDirectory() as folder:
            path = folder + "/x"
            streams.replace_file(path, ["old"])
            told = f"writing failed: {path}: No space left on device"
            full = OSError(errno.ENOSPC, "No space left on device")
            for fault, wanted in ((full, told), (ZeroDivisionError("x"), "x")):
                for call in "os.fsync", "os.fchmod", "os.rename":
                    with unittest.mock.patch(call, side_effect=lambda *_, fault=fault: self.fail_with(fault, masks)):
                        with self.assertRaises((Failure, ZeroDivisionError)) as caught:
                            streams.replace_file(path, ["new"])
                    self.assertEqual((str(caught.exception), os.listdir(folder)), (wanted, ["x"]), call)
                    with open(path, encoding="ascii") as file:
                        self.assertEqual(file.read(), "old")
        self.assertEqual(masks, [before | set(streams.SIGNALS)] * 6)
        self.assertEqual(signal.pthread_sigmask(signal.SIG_BLOCK, ()), before)

    def fail_with(self, fault, masks):
        masks.append(signal.pthread_sigmask(signal.SIG_BLOCK, ()))
        raise fault

    def test_who_may_read_a_file(self):
        """A new file has the permissions of the umask, or is for all; another one keeps its own."""
        for for_all, umask, old, wanted in ((False, 0o022, None, 0o644), (False, 0o077, None, 0o600),
                                            (False, 0o002, None, 0o664), (True, 0o077, None, 0o644),
                                            (True, 0o000, None, 0o644), (True, 0o022, 0o640, 0o640),
                                            (False, 0o077, 0o606, 0o606)):
            with tempfile.TemporaryDirectory() as folder:
                path = folder + "/x"
                if old:
                    with open(path, "wb"):
                        os.chmod(path, old)
                mask = os.umask(umask)
                streams.replace_file(path, ["new"], for_all=for_all)
                self.assertEqual((os.umask(mask), os.stat(path).st_mode & 0o7777), (umask, wanted))

    def test_100000_lines_wait_for_the_disk(self):
        full = OSError(errno.ENOSPC, "No space left on device")
        for count, lost in ((0, 0), (99999, 0), (100000, 0), (100001, 1), (100005, 5)):
            with tempfile.TemporaryDirectory() as folder:
                rows = streams.Rows(folder + "/rows.csv", "head\n")
                with unittest.mock.patch("os.write", side_effect=full):
                    rows.add(["first\n"] * (count > 0) + ["%d\n" % at for at in range(1, count)])
                self.assertEqual((bool(rows.fault), rows.lost), (count > 0, lost), count)
                rows.add([])
                os.close(rows._file)
                with open(folder + "/rows.csv", encoding="ascii") as file:
                    lines = file.read().split("\n")
                self.assertEqual((lines[0], len(lines)), ("head", 2 + count - lost))
                if count:
                    self.assertEqual((lines[1], lines[-2]), (str(lost or "first"), str(count - 1)))

    def test_a_journal_has_4_mib(self):
        for size, is_full in ((0, False), ((4 << 20) - 1, False), (4 << 20, True), ((4 << 20) + 1, True)):
            journal = streams.Journal(streams.Journals())
            for length in ((size // 2, size - size // 2) if size else ()):
                journal.add("x" * (length - 1))
            self.assertEqual(journal.is_full, is_full, size)

    def test_the_first_fault_of_a_journal_is_told(self):
        journals = streams.Journals()
        for number, path in ((28, "one"), (5, "two")):
            journals.failed(path, OSError(number, os.strerror(number)))
        self.assertEqual(journals.fault, "cannot write one: No space left on device")


if __name__ == "__main__":
    unittest.main()
