"""Cases that only one line of bacsite is for: a port that is always taken, a station of another network, the number 0,
packets out of order, vendors' types. Nothing here needs the program."""

import argparse
import time
import unittest
from collections import Counter
from contextlib import ExitStack
from types import SimpleNamespace
from unittest import mock

from datagram_builders import CLIENT, DEVICE, ack, ether, read_apdu, udp, wrapped
from bacsite.capture import trace
from bacsite.capture.lines import subscription_of
from bacsite.capture.pcap import Packet, Passing
from bacsite.capture.talks import MILLI, Answer, Talk
from bacsite.controller import Controller
from bacsite.main import main
from bacsite.device import Bounds, Device, SiteObject, _held_by, device_of
from bacsite.messages import Datagram, ReadResult, message_of, outcome_of
from bacsite.page import _instance
from bacsite.points import point_of
from bacsite.poll import Meanings, poll, prometheus, readings_of
from bacsite.report import as_release
from bacsite.session import Scan
from bacsite.standard import OBJECT_TYPES, ObjectId, PropertyRef, has_value, may_be_commanded, priority_text
from bacsite.streams import Failure, clock_drift, opened, show
from bacsite.sweep import Sweep, parts_of
from bacsite.tools import BIND_FAILED
from bacsite.values import Kind, Value
from bacsite.watch import _asked
from bacsite.write import Order, _all_written, write_list
from instant_devices import QuickCalls
from stand_ins import an_object, bits, enumerated, real, string, tagged, unsigned

A = "192.0.2.1:47808"


class Ports(unittest.TestCase):
    """Another program has each port, or the first ones."""

    def test_a_controller_is_tried_100_times(self):
        for taken, reason, begun in ((1000, BIND_FAILED, 100), (100, BIND_FAILED, 100), (99, "", 100), (1, "", 2)):
            many = QuickCalls({A: {(0, 1, 85): real("42290000")}}, taken=taken)
            with Controller(many, A) as controller:
                self.assertEqual(controller.ask(PropertyRef(0, 1, 85)).reason, reason)
            self.assertEqual(len(many.begun), begun)

    def test_a_tool_is_tried_100_times(self):
        for taken, told, begun in ((1000, BIND_FAILED, 100), (99, "", 100), (0, "", 1)):
            many = QuickCalls({}, taken=taken)
            many.processes.over = lambda process: process.outcome()
            self.assertEqual(many.run(["bacrun", "--window", "1"]).told, told)
            self.assertEqual(len(many.begun), begun)

    def test_a_range_is_tried_100_times(self):
        for taken, answers, begun in ((1000, 0, 100), (99, 1, 100), (1, 1, 2)):
            many = QuickCalls({A: {(8, 4194303, 75): real("42290000")}}, taken=taken)
            found = list(Scan(many, [A]).ends(1000, 0))
            self.assertEqual(([address for address, _ in found], len(many.begun)), ([A] * answers, begun))


class Settings(unittest.TestCase):
    def test_a_setting_that_is_a_state_has_its_name(self):
        values = {(8, 77, 76, 0): unsigned(1), (8, 77, 76): an_object(4, 1), (8, 4194303, 75): an_object(8, 77)}
        values.update({(4, 1, 77): string("Fan"), (4, 1, 85): enumerated(0), (4, 1, 104): enumerated(1)})
        with Controller(QuickCalls({A: values}), A) as controller:
            self.assertEqual(controller.identify(), "")
            (found,) = device_of(controller, Bounds(details=True), {}).objects
        self.assertEqual(found.settings, {"relinquish-default": "1 (active)"})


class Polls(unittest.TestCase):
    """A poll asks for no more than it shows, since each request loads a slow network."""

    VALUES = {(0, 1, 85): real("41a80000"), (0, 1, 111): bits("0000"), (4, 2, 111): bits("0000")}
    VALUES.update({(4, 2, 85): enumerated(1), (4, 2, 4): string("On"), (4, 2, 46): string("Off")})
    POINTS = [point_of(what, [A, *what.split()]) for what in ("0 1 85", "4 2 85", "0 9 85")]

    def asked(self, work, no_flags):
        many = QuickCalls({A: self.VALUES})
        words = SimpleNamespace(list="-", sorted=False, file="a.prom", no_flags=no_flags)
        with ExitStack() as stack:
            for name in "put", "replace_file", "is_replaceable":
                stack.enter_context(mock.patch("bacsite.poll." + name))
            stack.enter_context(mock.patch("bacsite.poll.points_of", return_value=self.POINTS))
            stack.enter_context(mock.patch("bacsite.poll.Tools.of", return_value=many))
            self.assertEqual(work(words), 1)
        return [what for _, *what in many.asked]

    def test_what_is_asked(self):
        """Texts of states are asked only for a list that shows them, and flags only of values that are good."""
        first, state, flags, text, none = [0, 1, 85], [4, 2, 85], [4, 2, 111], [4, 2, 4], [0, 9, 85]
        self.assertEqual(self.asked(poll, False), [first, [0, 1, 111], state, flags, text, none])
        self.assertEqual(self.asked(poll, True), [first, state, text, none])
        self.assertEqual(self.asked(prometheus, False), [first, [0, 1, 111], state, flags, none])
        self.assertEqual(self.asked(prometheus, True), [first, state, none])

    def test_the_time_of_a_value_is_that_of_its_question(self):
        times = iter("abcdef")
        with Controller(QuickCalls({A: self.VALUES}), A) as controller:
            with mock.patch("bacsite.poll.stamp", lambda: next(times)):
                found = readings_of(controller, self.POINTS, True, True)
        told = [(it.at, it.value.text, it.text) for it in found]
        self.assertEqual(told, [("a", "21", ""), ("a", "1", "On"), ("a", "error 2 32", "")])


class Stations(unittest.TestCase):
    def test_a_station_of_a_network_that_was_not_asked(self):
        """It answers through a router that was asked for another network: it belongs to no reach."""
        for network, here in ((5, 1), (6, 0)):
            sweep = Sweep(None, ["192.0.2.7:47808/5/*", "192.0.2.9:47808/6/*"], Bounds(), [])
            octets = bytes.fromhex(wrapped("1000c4020000072201e091032105", "010800%02x0107" % network))
            sweep._take(message_of(Datagram(0, "192.0.2.7:47808", "", octets)))
            self.assertEqual([len(it.found) for it in sweep.reaches], [here, 0])
            self.assertEqual([len(it.elsewhere) for it in sweep.reaches], [0, 0])

    def test_two_stations_with_the_least_instance(self):
        for known, parts in (([0, 0], [(0, 9)]), ([0, 5], [(0, 4), (5, 9)]), ([5, 5], [(0, 4), (5, 9)])):
            self.assertEqual(parts_of((0, 9), known), parts)


class Numbers(unittest.TestCase):
    def test_the_device_0_has_a_number(self):
        self.assertEqual([_instance(Device(A, it)) for it in (0, 7, None)], ["0", "7", ""])

    def test_types_with_a_present_value(self):
        """Calendars, trend logs and vendors' types may have one; a device, a file and a class of notices have none."""
        self.assertEqual([has_value(it) for it in (0, 6, 128, 300, 8, 10, 15)], [True] * 4 + [False] * 3)


    def test_types_that_may_be_commanded(self):
        """Outputs, values, doors and lights, by the clauses of their types; a type of a vendor may be one too."""
        wanted = [1, 2, 4, 5, 14, 19, 30, 39, 40, 42, 44, 45, 46, 47, 48, 50, 54, 55]
        self.assertEqual([it for it in OBJECT_TYPES if may_be_commanded(it)], wanted)
        self.assertEqual([may_be_commanded(it) for it in (128, 1023)], [True, True])

    def test_names_of_priorities(self):
        """Clause 19.2 names five of the sixteen."""
        told = {1: "1 (manual-life-safety)", 2: "2 (automatic-life-safety)", 5: "5 (critical-equipment-control)"}
        told.update({6: "6 (minimum-on-off)", 8: "8 (manual-operator)"})
        self.assertEqual([priority_text(it) for it in range(1, 17)], [told.get(it, str(it)) for it in range(1, 17)])


class Whole(unittest.TestCase):
    """Everything that is read of a device, with something missing of each object."""

    VALUES = {
        (8, 4194303, 75): an_object(8, 77),
        (8, 77, 77): string("D"),
        (8, 77, 121): string("V"),
        (8, 77, 155): unsigned(7),
        (8, 77, 76, 0): unsigned(7),
        (8, 77, 76): b"".join(an_object(*it) for it in ((8, 77), (0, 1), (4, 2), (13, 3), (300, 4), (1, 5), (15, 6))),
        (0, 1, 77): string("Room"),
        (0, 1, 85): real("41a80000"),
        (0, 1, 111): tagged(8, b"\x04\x90"),
        (0, 1, 117): enumerated(62),
        (0, 1, 28): string("Roof"),
        (0, 1, 36): enumerated(0),
        (0, 1, 45): real("41f00000"),
        (0, 1, 59): string("low"),
        (4, 2, 85): enumerated(1),
        (4, 2, 4): string("On"),
        (4, 2, 46): string("Off"),
        (4, 2, 104): enumerated(0),
        (4, 2, 117): enumerated(62),
        (13, 3, 77): string("Mode"),
        (13, 3, 85): unsigned(2),
        (13, 3, 110): string("Day") + string("Night"),
        (13, 3, 110, 2): string("Night"),
        (13, 3, 111): ("error", 2, 27),
        (300, 4, 77): string("Own"),
        (300, 4, 85): string("a"),
        (300, 4, 117): ("error", 1, 27),
        (1, 5, 77): string("Valve"),
        (1, 5, 85): real("7fc00000"),
        (1, 5, 104): real("00000000"),
        (1, 5, 87): b"\0" * 7 + real("3f800000") + b"\0" * 8,
        (15, 6, 77): string("Alarms"),
        (15, 6, 85): unsigned(1),
    }

    def found(self, bounds, names=None, **more):
        with Controller(QuickCalls({A: {**self.VALUES, **more.pop("values", {})}}, **more), A) as controller:
            self.assertEqual(controller.identify(), "")
            return device_of(controller, bounds, names or {})

    def wanted(self):
        """The device, and its objects by their types."""
        on, two = Value(Kind.NUMBER, "1", "active"), Value(Kind.NUMBER, "2")
        room = SiteObject(0, 1, "Room", Value(Kind.NUMBER, "21"), unit="degrees-celsius")
        room.flags = ("in-alarm", "out-of-service")
        mode = SiteObject(13, 3, "Mode", two, "Night", reasons=["status-flags: error 2 27"])
        own = SiteObject(300, 4, "Own", Value(Kind.TEXT, "a"), reasons=["units: error 1 27"])
        valve = SiteObject(1, 5, "Valve", reasons=["present-value: no number: NaN"])
        fan = SiteObject(4, 2, value=on, meaning="On", reasons=["object-name: error 2 32"])
        objects = [room, fan, mode, own, valve, SiteObject(15, 6, "Alarms")]
        device = Device(A, 77, "D", "V", "", "7", objects, [it.object_id for it in objects])
        device.reasons = ["model-name: error 2 32"]
        return device, {it.object_type: it for it in objects}

    def test_all_of_it(self):
        for window in 1, 4:
            self.assertEqual(self.found(Bounds(), window=window), self.wanted()[0])

    def test_an_object_that_is_listed_twice(self):
        twice = {(8, 77, 76): self.VALUES[8, 77, 76] + an_object(0, 1), (8, 77, 76, 0): unsigned(8)}
        self.assertEqual(self.found(Bounds(), values=twice), self.wanted()[0])

    def test_details(self):
        wanted, by_type = self.wanted()
        by_type[0].description, by_type[0].event_state = "Roof", "normal"
        by_type[0].settings = {"high-limit": "30"}
        by_type[0].reasons = ['low-limit: no real: "low"']
        by_type[4].settings = {"inactive-text": "Off", "active-text": "On", "relinquish-default": "0 (inactive)"}
        by_type[13].settings = {"state-text": '{"Day", "Night"}'}
        by_type[1].settings = {"relinquish-default": "0"}
        self.assertEqual(self.found(Bounds(details=True)), wanted)

    def test_names_that_are_known(self):
        wanted, by_type = self.wanted()
        by_type[0].name, by_type[0].name_read = "Hall", False
        names = {(77, "7"): {ObjectId(0, 1): "Hall"}, (77, "8"): {ObjectId(13, 3): "Other"}}
        self.assertEqual(self.found(Bounds(), names), wanted)

    def test_what_is_held(self):
        wanted, by_type = self.wanted()
        wanted.objects = [by_type[0], by_type[13], by_type[1]]
        by_type[1].priorities = (8,)
        self.assertEqual(self.found(Bounds(held=True)), wanted, "a reason is told once")
        by_type[13].reasons = ["status-flags: abort 9"]
        by_type[13].flags = ()
        values = {(13, 3, 111): [("abort", 9), bits("0000")]}
        self.assertEqual(self.found(Bounds(held=True), values=values), wanted, "it may be another one by then")

    def test_some_objects(self):
        wanted, _ = self.wanted()
        del wanted.objects[2:]
        wanted.reasons += ["4 of 6 objects not asked"]
        self.assertEqual(self.found(Bounds(objects=2)), wanted)

    def test_the_device_alone(self):
        wanted = Device(A, 77, "D", "V", "", reasons=["model-name: error 2 32"])
        wanted.facts = {"firmware": "1.0", "status": "not-operational", "protocol_revision": "14"}
        values = {(8, 77, 44): string("1.0"), (8, 77, 112): enumerated(4), (8, 77, 139): unsigned(14)}
        self.assertEqual(self.found(Bounds(devices=True), values=values), wanted)
        now = time.localtime(1793174400 + 9)
        day = bytes([now.tm_year - 1900, now.tm_mon, now.tm_mday, 255])
        values[8, 77, 56], values[8, 77, 57] = tagged(10, day), tagged(11, bytes([*now[3:6], 0]))
        wanted.facts["clock"] = "+9 s"
        with mock.patch("time.time", return_value=1793174400):
            self.assertEqual(self.found(Bounds(devices=True), values=values), wanted)


class Doubts(unittest.TestCase):
    def test_a_device_that_is_another_at_the_end(self):
        me, other = an_object(8, 77), an_object(8, 78)
        for value, late, told in (
            (me, False, ""),
            (other, False, "at the end another device: 8:78"),
            (("abort", 0), False, "at the end: abort 0"),
            (an_object(0, 77), False, "at the end: no device: 0:77 (analog-input)"),
            ("silent", False, "at the end: timeout"),
            (other, True, ""),
        ):
            values = {(8, 4194303, 75): value, (8, 77, 75): ("abort", 0)}
            with Controller(QuickCalls({A: values}), A, 0.0 if late else float("inf")) as controller:
                controller.instance = 77
                self.assertEqual(controller.has_changed(), told)

    def test_texts_of_a_device_that_is_another_at_the_end(self):
        """They are forgotten, since another device may be there next time; those of the same device are kept."""
        name, unit = PropertyRef(0, 1, 77), PropertyRef(0, 1, 117)
        for last, known in ((77, {name: "Room", unit: "degrees-celsius"}), (78, {})):
            values = {(8, 4194303, 75): [an_object(8, 77), an_object(8, last)], (0, 1, 117): enumerated(62)}
            values.update({(0, 1, 85): real("41a80000"), (0, 1, 77): string("Room")})
            with Controller(QuickCalls({A: values}), A) as controller:
                meanings = Meanings(controller)
                self.assertEqual(len(_asked([point_of("t", ["77@" + A, "0", "1", "85"])], meanings, False)), 1)
            self.assertEqual(meanings.known, known)

    def test_who_commands_an_object(self):
        """The entries above the program that are not null; other values than an array are a reason."""
        name = "priority-array"
        for number, region, reason, wanted in (
            (87, "00" * 16, "", None),
            (87, "00" * 8 + "4442280000" + "00" * 7, "", None),
            (87, "00" * 7 + "4442280000" + "00" * 8, "", ((8,), "")),
            (87, "4442280000" + "00" + "9101" + "00" * 13, "", ((1, 3), "")),
            (87, "00" + "0e4442280000" + "0f" + "00" * 14, "", ((2,), "")),
            (87, "4442", "", ((), name + ": cannot be read: hex 4442")),
            (87, "", "timeout", ((), name + ": timeout")),
            (87, "", "error 1 27", ((), name + ": error 1 27")),
            (87, "", "error 2 32", None),
            (87, "", "error 1 31", None),
            (111, "820400", "", None),
            (111, "8204c0", "", None),
            (111, "820420", "", ((), "")),
            (111, "820410", "", ((), "")),
            (111, "", "abort 0", ((), "status-flags: abort 0")),
        ):
            held = _held_by(PropertyRef(1, 1, number), ReadResult(bytes.fromhex(region), reason))
            self.assertEqual(held, wanted, (region, reason))


class Packets(unittest.TestCase):
    def test_the_end_of_a_capture_is_its_latest_packet(self):
        frame = ether(udp(CLIENT, DEVICE, bytes.fromhex(wrapped(ack(1)))))
        for times in ((5, 9, 7), (9, 5, 7), (5, 7, 9)):
            passing = Passing()
            packets = (Packet(at, 1, 0, frame) for at in times)
            self.assertEqual(len(list(passing.datagrams(packets))), 3)
            self.assertEqual((passing.last, passing.packets, passing.counts), (9, 3, Counter()))

    def test_a_copy_of_another_interface(self):
        """It is skipped, however many interfaces there are."""
        frame = ether(udp(CLIENT, DEVICE, bytes.fromhex(wrapped(ack(1)))))
        copy = {"copies of another interface": 1}
        for which, found, counts in ((1, 2, {}), (2, 1, copy), (300, 1, copy)):
            passing = Passing()
            packets = (Packet(at, 1, it, frame) for at, it in ((5, 1), (6, which)))
            self.assertEqual((len(list(passing.datagrams(packets))), passing.counts), (found, counts))

    def test_the_first_answer_ends_a_request(self):
        asked, good, bad = (self.apdu(it) for it in (read_apdu(1), ack(1), "30010c"))
        for answers, has_failed in (((good,), False), ((good, bad), False), ((bad, good), True), ((), True)):
            talk = Talk(CLIENT, DEVICE, asked, [0], 0)
            talk.answers = [Answer(at, it, outcome_of(it), []) for at, it in enumerate(answers, 1)]
            self.assertEqual(talk.has_failed, has_failed, answers)

    def apdu(self, octets):
        return message_of(Datagram(0, A, A, bytes.fromhex(wrapped(octets)))).apdu

    def test_a_version_that_is_missing(self):
        for octets, words in (("810a0004", "network version missing"), ("810a000502", "network version 02")):
            self.assertEqual(message_of(Datagram(0, A, A, bytes.fromhex(octets))).words, words)


class Streams(unittest.TestCase):
    def test_what_is_no_text_is_shown_too(self):
        with mock.patch("os.write") as written:
            show("a\ud800\n")
        self.assertEqual(written.call_args[0], (2, b"a\\ud800\n"))

    def test_how_far_a_clock_is_ahead(self):
        """The time is that of this machine, without the part of a second."""
        for ahead, rest, told in ((0, "", "+0 s"), (0, ".99", "+0 s"), (61, ".00", "+61 s"), (-3600, ".50", "-3600 s")):
            text = time.strftime("%Y-%m-%dT%H:%M:%S", time.localtime(1793174400 + ahead)) + rest
            with mock.patch("time.time", return_value=1793174400.9):
                self.assertEqual(clock_drift(text), told)
        for text in "", "T", "2026-10-28T", "*-10-28T08:00:00.00", "2026-10-28 WedT08:00:00", "2026-10-28T*:00:00":
            self.assertEqual(clock_drift(text), "", text)

    def test_the_status_of_a_journal_with_a_fault(self):
        """It is 3, but not for a check that has found something; the fault is printed on one line."""
        for command, status, fault, wanted, told in (
            ("read", 0, "", 0, []),
            ("read", 1, "", 1, []),
            ("read", 0, "cannot write a\nb", 3, ["bacsite: cannot write a\\nb\n"]),
            ("read", 1, "full", 3, ["bacsite: full\n"]),
            ("check", 0, "full", 3, ["bacsite: full\n"]),
            ("check", 2, "full", 2, ["bacsite: full\n"]),
            ("check", 1, "", 1, []),
        ):
            words = argparse.Namespace(work=lambda _, status=status: status, journal=SimpleNamespace(fault=fault))
            parser, shown = SimpleNamespace(parsed=lambda _, words=words: words), []
            with mock.patch("sys.argv", ["bacsite", command]), mock.patch("bacsite.main.show", shown.append):
                with mock.patch("bacsite.main.parser_of", return_value=parser):
                    self.assertEqual((main(), shown), (wanted, told), (command, status, fault))

    def test_how_a_failure_is_told(self):
        """On standard error; of a check on standard output, without the sign that monitoring takes for itself."""
        for command, why, wanted, told in (
            ("read", Failure("a\x1bb", 2), 2, ("", "bacsite: a\\x1bb\n")),
            ("read", Failure("", 3), 3, ("", "")),
            ("read", SystemExit(), 0, ("", "")),
            ("read", ZeroDivisionError("x|y"), 3, ("", "bacsite: ZeroDivisionError('x|y')\n")),
            ("check", Failure("a|b", 2), 3, ("BACNET UNKNOWN - a/b\n", "")),
            ("check", SystemExit(), 3, ("", "")),
            ("check", KeyError("x"), 3, ("BACNET UNKNOWN - KeyError('x')\n", "")),
        ):
            parser, out, err = SimpleNamespace(parsed=mock.Mock(side_effect=why)), [], []
            with mock.patch("sys.argv", ["bacsite", command]), mock.patch("bacsite.main.show", err.append):
                with mock.patch("bacsite.main.parser_of", return_value=parser):
                    with mock.patch("bacsite.main.put", out.append):
                        found = main(), ("".join(out), "".join(err))
            self.assertEqual(found, (wanted, told), (command, why))

    def test_a_closed_input(self):
        with mock.patch("sys.stdin", None), self.assertRaises(Failure) as raised:
            opened("-")
        told = "cannot read standard input: it is closed"
        self.assertEqual((str(raised.exception), raised.exception.status), (told, 3))


class Old(unittest.TestCase):
    def test_an_old_device_is_found_among_others_that_answer(self):
        """It knows only its own instance, which a Who-Is brings, and another device answers that too."""
        values = {(8, 11, 75): an_object(8, 11)}
        many = QuickCalls({A: values}, heard=["12 192.0.2.9:47808 1476 3 9", f"11 {A} 1476 3 9"])
        with Controller(many, A) as controller:
            self.assertEqual((controller.identify(), controller.instance), ("", 11))

    def test_what_is_missing_in_a_list_of_releases(self):
        held = SiteObject(1, 2, name="Valve", reasons=["timeout"])
        device = Device(A, 77, reasons=["busy"], objects=[held, SiteObject(300, 4, priorities=(3,))])
        held.priorities = (8, 6)
        self.assertEqual(as_release(device, None), f"""\
# {A}: busy
77@{A} analog-output 2 null --priority 8  # Valve
# analog-output 2: priority 6 is the device's own
# analog-output 2: timeout
77@{A} 300 4 null --priority 3  #
""")


class Lists(unittest.TestCase):
    def test_the_status_of_a_list_that_is_stopped(self):
        """Status 2 says that nothing was written: it stays only if no line before was."""
        for ends, dry, wanted in (
            ([2], [False], 2),
            ([0, 2], [False, False], 1),
            ([0, 2], [True, False], 2),
            ([0, 3], [False, False], 3),
            ([Failure("", 2)], [False], 2),
            ([0, Failure("", 2)], [False, False], 1),
            ([0, Failure("", 2)], [True, False], 2),
            ([0, Failure("", 3)], [False, False], 3),
            ([0, 0], [False, True], 0),
        ):
            lines = [(at, Order(None, SimpleNamespace(address=A), "1", None, 8, it)) for at, it in enumerate(dry)]
            with ExitStack() as stack:
                for name in "Controller", "prepared", "put":
                    stack.enter_context(mock.patch("bacsite.write." + name))
                stack.enter_context(mock.patch("bacsite.write.written", side_effect=ends))
                try:
                    status = _all_written(None, lines, False)
                except Failure as failure:
                    status = failure.status
            self.assertEqual(status, wanted, (ends, dry))

    def test_a_list_shows_no_count_of_jobs(self):
        words = SimpleNamespace(list="-", dry_run=False)
        with mock.patch("bacsite.write.alone", return_value=7) as alone, mock.patch("bacsite.write.Tools.of"):
            with mock.patch("bacsite.write.lines_of", return_value=[]):
                self.assertEqual((write_list(words), alone.call_args[1]), (7, {"quiet": True}))


class Subscriptions(unittest.TestCase):
    def test_which_parts_a_subscription_may_lack(self):
        """Clause 13.14: process and object are needed; without the last two it is a cancellation."""
        process, what, confirmed, seconds = "0905", "1c00000007", "2901", "393c"
        for octets, wanted in (
            (process + what + confirmed + seconds, (5, (0, 7), True, 60)),
            (process + what + "2900" + seconds, (5, (0, 7), False, 60)),
            (process + what + confirmed, (5, (0, 7), True, None)),
            (process + what, (5, (0, 7), None, None)),
            (process, None),
            (what + confirmed, None),
            (process + what + seconds, None),
        ):
            self.assertEqual(subscription_of(bytes.fromhex(octets)), wanted, octets)


class Turns(unittest.TestCase):
    def test_an_answer_at_the_time_of_a_turn_comes_before_it(self):
        """The client sends again at 1 s and 2 s, and gives up at 3 s: what it did not send again had its answer."""
        for came, wanted in ((999, []), (1000, []), (1001, [1000]), (2000, [1000]), (3000, [1000, 2000])):
            talk = SimpleNamespace(sends=[0], answers=[SimpleNamespace(nanos=came * MILLI)])
            self.assertEqual([it // MILLI for it in trace.turns_of(talk, trace.Settings(1000, 2))], wanted, came)
        talk.answers = []
        self.assertEqual([it // MILLI for it in trace.turns_of(talk, trace.Settings(1000, 2))], [1000, 2000, 3000])


if __name__ == "__main__":
    unittest.main()
