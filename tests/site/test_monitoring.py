"""Lists of points, checks, and text files for node_exporter."""

import calendar
import os
import re
import resource
import subprocess
import sys
import time
import unittest

import harness
import bacsite
from bacsite.check import OK, CRITICAL, UNKNOWN, WARNING, range_of, verdict_on, verdict_on_flags
from bacsite.points import Point
from bacsite.poll import Reading, metrics_of, row_of
from bacsite.streams import Failure
from bacsite.values import NOTHING, Kind, Value, fault
from stand_ins import an_object, bits, enumerated, real, string, unsigned


def flagged(instance, flags):
    """Returns the value 42.25 of an analog input, and these status flags."""
    return {(0, instance, 85): real("42290000"), (0, instance, 111): bits(flags)}


class Poll(harness.SiteTest):
    def poll(self, text, *options, **more):
        """The status, and point, value and reason of each row of a list, with flags and texts if there are any."""
        status, out, err = self.run_site(
            "poll", self.path("list-%s" % self.id(), text), *options, **more
        )
        rows = [
            re.fullmatch(r"\d{4}-\d\d-\d\dT\d\d:\d\d:\d\dZ\t(.*)", line)[1]
            for line in out.splitlines()
        ]
        self.assertEqual(err, "")
        return status, [re.sub(" - -$", "", row.replace("\t", " ")) for row in rows]

    def test_flags_and_texts(self):
        """A point with a fault has no good value; other flags are shown, and the device's text of a state."""
        self.stand_in(
            {
                **flagged(1, "0100"),
                **flagged(2, "1001"),
                (4, 1, 85): enumerated(1),
                (4, 1, 4): string("Running"),
                (4, 1, 111): bits("0000"),
                (13, 1, 85): unsigned(2),
                (13, 1, 110, 2): string("Night"),
                (13, 1, 111): bits("0010"),
                (0, 3, 85): real("42290000"),
                (0, 3, 111): ("error", 1, 27),
            }
        )
        objects = [(0, 1), (0, 2), (4, 1), (13, 1), (0, 3)]
        text = "".join("p HERE %d %d 85\n" % it for it in objects)
        wanted = ["p - fault: 42.25 fault -", "p 42.25 - in-alarm, out-of-service -", "p 1 - - Running"]
        wanted += ["p 2 - overridden Night", "p 42.25 - status-flags: error 1 27 -"]
        self.assertEqual(self.poll(text), (1, wanted))
        self.assertEqual(self.poll(text.replace("HERE 0 1 85", "HERE 0 1 111"))[0], 0)
        plain = [*(["p 42.25 -"] * 2), "p 1 - - Running", "p 2 - - Night", "p 42.25 -"]
        self.assertEqual(self.poll(text, "--no-flags"), (0, plain))
        self.rows(
            """
            read HERE 0 1 85 => 1 fault: 42.25
            read HERE 0 1 85 --no-flags => 0 42.25
            read HERE 0 2 85 => 0 42.25, in-alarm, out-of-service
            read HERE 4 1 85 => 0 1 (Running)
            read HERE 13 1 85 => 0 2 (Night), overridden
            check HERE 13 1 85 => 0 BACNET OK - 2 (Night), overridden | value=2;~:;~:
            """
        )
        out = self.world.folder + "/fault.prom"
        self.assertEqual(self.run_site("prometheus", self.path("one", "p HERE 0 1 85\nq HERE 0 2 85\n"), out)[0], 1)
        with open(out, encoding="utf-8") as file:
            lines = [line for line in file if line.startswith("bacnet_value")]
        self.assertEqual(lines, [self.spelled('bacnet_value{point="q",address="HERE"} 42.25\n')])

    def test_a_value_has_the_time_of_its_request(self):
        device = self.stand_in({(0, 1, 85): real("42290000")}, delay=2.1)
        path = self.path("slow", "p HERE 0 1 85\n")
        out = self.run_site("poll", path, "--no-flags", "--apdu-timeout", "9000")[1]
        asked = calendar.timegm(time.strptime(out.partition("\t")[0], "%Y-%m-%dT%H:%M:%SZ"))
        heard = time.time() - (time.monotonic() - device.times[0])
        self.assertLess(asked - heard, 1, "the answer came 2.1 s later")

    def test_a_list_of_early_versions(self):
        self.assertEqual(
            self.poll(
                """outdoor DEV real 0 5 85\nname DEV plain 0 5 77\nfan DEV plain 4 4 85
            boiler DEV real 0 99 85\nmode DEV real 14 1 85\nattic DEAD real 0 1 85\nattic-fan DEAD plain 4 1 85
            cellar 1.2.3.256 real 0 1 85\n""",
                "--sorted",
            ),
            (
                1,
                [
                    "outdoor 72.3 -",
                    "name Outdoor temperature -",
                    "fan 0 -",
                    "boiler - error 1 31",
                    "mode - no real: unsigned 1",
                    "attic - timeout",
                    "attic-fan - not asked",
                    "cellar - no address: 1.2.3.256",
                ],
            ),
        )

    def test_marks_comments_and_wrong_lines(self):
        text = (
            "\ufeffa DEV 0 5 85\r\n\n#\r\n#x DEV 0 5 85\n  c 1000@DEV 4 4 85\r\nd 7@DEV 4 4 85\n"
            "e ODD 0 1 85\nf ODD 300 1 85\nh x"
        )
        self.assertEqual(
            self.poll(text, "--sorted"),
            (
                1,
                [
                    "a 72.3 -",
                    "c 0 -",
                    "d - another device: 8:1000",
                    "e - no number: NaN",
                    "f 2 -",
                    "h - wanted: [INSTANCE@]ADDRESS [real|double|integer] TYPE INSTANCE PROPERTY [INDEX]",
                ],
            ),
        )

    def test_names_are_shown_without_what_steers_a_terminal(self):
        self.assertEqual(self.poll("a\x1b[2J DEV 0 5 85\n"), (0, ["a\\x1b[2J 72.3 -"]))

    def test_so_many_controllers_are_asked_at_once(self):
        values = {(0, 1, 85): real("42290000")}
        slow = [self.stand_in(values, delay=0.3) for _ in range(6)]
        text = "".join("p%d %s 0 1 85\n" % (at, it.address) for at, it in enumerate(slow))
        self.assertEqual(self.poll(text, "--at-once", "1", "--apdu-timeout", "5000")[0], 0)
        times = sorted(it.times[0] for it in slow)
        gaps = [after - at for at, after in zip(times, times[1:])]
        self.assertGreater(min(gaps), 0.29, "each is asked when the one before has answered")

    def test_controllers_are_printed_as_they_are_ready(self):
        text = "a DEAD 0 5 85\nb DEV 0 5 85\nc DEAD 0 5 85\nd DEV 4 4 85\n"
        self.assertEqual(
            self.poll(text), (1, ["b 72.3 -", "d 0 -", "a - timeout", "c - not asked"])
        )
        self.assertEqual(
            self.poll(text, "--sorted"), (1, ["a - timeout", "b 72.3 -", "c - not asked", "d 0 -"])
        )

    def test_values_of_the_wrong_type(self):
        self.stand_in(
            {
                (0, 1, 85): string("n/a"),
                (0, 2, 85): b"\0",
                (0, 3, 85): b"",
                (0, 4, 85): unsigned(1) * 2,
                (13, 1, 85): b"\xa4\x12\x34\x56\x78",
                (4, 1, 85): enumerated(42480000),
                (4, 2, 85): enumerated(7),
                (4, 3, 85): enumerated(2),
            }
        )
        points = [(0, 1), (0, 2), (0, 3), (0, 4), (13, 1), (4, 1), (4, 2), (4, 3)]
        text = "".join("p HERE %d %d 85\n" % point for point in points)
        self.assertEqual(
            self.poll(text),
            (
                1,
                [
                    "p - " + why
                    for why in (
                        'no real: "n/a"',
                        "no real: null",
                        "no real: {}",
                        "no real: {1, 1}",
                        "no integer: D'12345678'",
                        "no state: 42480000",
                        "no state: 7",
                        "no state: 2",
                    )
                ],
            ),
        )

    def test_a_line_ends_at_its_line_feed_alone(self):
        for mark in ("\u2028", "\x0b", "\x1c", "\x85"):
            status, rows = self.poll("a%sb DEV 0 5 85\nc DEV 0 5 85\n" % mark)
            self.assertEqual((status, rows[0][:4], len(rows)), (1, "a - ", 2))

    def test_words(self):
        self.path("check", "a DEV 0 5 85\n")
        self.rows(
            """
            read check 0 5 85 => 2 !no address: check
            poll IN/check --sort => 2 !unrecognized arguments: --sort; see bacsite --help
            poll --at-once 257 IN/check => 2 !argument --at-once: not 1 to 256: 257; see bacsite poll --help
            poll IN/check IN/check => 2 !unrecognized arguments: IN/check; see bacsite --help
            """
        )

    def test_files(self):
        row = self.run_site("poll", "/dev/stdin", stdin=self.spelled("a DEV 0 5 85"))[1][20:]
        self.assertEqual(row, "\ta\t72.3\t-\t-\t-\n")
        self.assertEqual(
            self.run_site("poll", "-", stdin=self.spelled("a DEV 0 5 85"))[1][20:], row
        )
        self.path("empty", "# a\n\n")
        self.path("latin", b"\xfc 1 0 5 85")
        self.rows(
            """
            poll IN => 3 !cannot read IN: Is a directory
            poll IN/none => 3 !cannot read IN/none: No such file or directory
            poll IN/empty => 2 !no point in IN/empty
            poll IN/latin => 2 !not UTF-8: IN/latin
            """
        )

    def test_another_device_is_asked_once(self):
        wrong = self.stand_in({(0, 1, 85): real("42290000")})
        self.assertEqual(self.poll("p 78@HERE 0 1 85\n" * 5), (1, ["p - another device: 8:77"] * 5))
        self.assertEqual(wrong.asked, [(8, 4194303, 75)])

    def test_silent_and_lossy(self):
        self.stand_in({(0, 1, 85): real("42290000")}, lose=4)
        self.assertEqual(self.poll("p HERE 0 1 85\n" * 12), (0, ["p 42.25 -"] * 12))
        self.stand_in({(0, 1, 85): real("42290000"), (0, 2, 85): "silent", (0, 3, 85): "silent"})
        text = "".join("%d HERE 0 %d 85\n" % (at, at) for at in (1, 2, 1, 2, 3, 1))
        wanted = [
            "1 42.25 -",
            "2 - timeout",
            "1 42.25 -",
            "2 - timeout",
            "3 - timeout",
            "1 - not asked",
        ]
        self.assertEqual(self.poll(text), (1, wanted))

    def test_one_request_at_a_time_and_controllers_side_by_side(self):
        values = {(8, 77, 76): an_object(0, 1), (0, 1, 85): real("42290000")}
        slow = [self.stand_in(values, delay=0.4) for _ in range(8)]
        text = "".join("p%d %s 0 1 85\n" % (at, slow[at % 8].address) for at in range(40))
        begun = time.monotonic()
        self.assertEqual(self.poll(text, "--apdu-timeout", "5000")[0], 0)
        self.assertLess(time.monotonic() - begun, harness.at_load(12), "40 answers take 16 s one after another")
        self.run_site("survey", "--apdu-timeout", "5000", *(it.address for it in slow + slow))
        self.assertEqual([it.early for it in slow], [0] * 8)


class Ranges(unittest.TestCase):
    def test_ranges(self):
        for word, inside, outside in (
            ("10", (0, 10, 5.5), (-1, 11)),
            ("10:", (10, 1e9), (9.9,)),
            ("~:10", (-1e9, 10), (10.1,)),
            ("10:20", (10, 20), (9, 21)),
            ("@10:20", (9, 21), (10, 15, 20)),
            ("-10:-5.5", (-10, -5.5), (-5, -11)),
            (".5:5", (0.5, 5), (0.4, 6)),
            ("5.:6.", (5, 6), (4,)),
            ("", (0, -1e30, 1e30), ()),
            (" ~: ", (0,), ()),
            ("@~:0", (1,), (0, -1)),
            (":10", (0, 10), (-0.1, 10.1)),
            ("@:10", (-1, 11), (0, 10)),
        ):
            made = range_of(word)
            with self.subTest(word=word):
                self.assertEqual([made.alerts(it) for it in inside], [False] * len(inside))
                self.assertEqual([made.alerts(it) for it in outside], [True] * len(outside))
        for word in ("5:1", ":-1", "a", "1,5", "@", "1:2:3", "--1", "~", "1e3", "nan:"):
            with self.subTest(word=word), self.assertRaises(Failure):
                range_of(word)

    def test_flags(self):
        def flagged(*bits):
            return Value(Kind.OTHER, ", ".join(bits), bits=bits)

        value = Value(Kind.NUMBER, "1")
        for flags, wanted in (
            (NOTHING, (OK, "")),
            (Value(Kind.OTHER, "normal"), (OK, "")),
            (flagged("in-alarm", "overridden"), (OK, "in-alarm, overridden")),
            (flagged("fault"), (CRITICAL, "fault")),
            (flagged("fault", "out-of-service"), (CRITICAL, "fault, out-of-service")),
            (flagged("out-of-service"), (WARNING, "out-of-service")),
            (fault("timeout"), (UNKNOWN, "status-flags: timeout")),
        ):
            self.assertEqual(verdict_on_flags(Reading(Point(""), value, "", flags)), wanted)
        unread = Reading(Point(""), value, "", fault("timeout"))
        for warning, status in (("0", WARNING), ("1", UNKNOWN)):
            found = verdict_on(unread, range_of(warning), range_of(""))
            self.assertEqual(found.status, status)


class Told(unittest.TestCase):
    def test_readings(self):
        """Rows of a poll, and metrics: a point that is good, one with a fault, and others without a good value."""
        alarm = Value(Kind.OTHER, "in-alarm, fault", bits=("in-alarm", "fault"))
        out, over = (Value(Kind.OTHER, it, bits=(it,)) for it in ("out-of-service", "overridden"))
        at, one, two = "192.0.2.7:47808", Value(Kind.NUMBER, "1"), Value(Kind.NUMBER, "2", "active")
        readings = [Reading(Point("room", at), Value(Kind.NUMBER, "21.5"), "T", Value(Kind.OTHER, "normal"))]
        readings += [Reading(Point('q"\\', at, 77), two, "T", alarm, "Night"), Reading(Point("c", at, 0), two, "T")]
        readings += [Reading(Point("d", at), fault("timeout"), "T")]
        readings += [Reading(Point("e", at), Value(Kind.TEXT, "a"), "T", fault("abort 0"))]
        readings += [Reading(Point("f", at), one, "T", out), Reading(Point("g", at), one, "T", over, "On")]
        self.assertEqual("".join(map(row_of, readings)).split("\n"), [
            "T\troom\t21.5\t-\t-\t-",
            'T\tq"\\\t-\tfault: 2 (Night)\tin-alarm, fault\tNight',
            "T\tc\t2\t-\t-\t-",
            "T\td\t-\ttimeout\t-\t-",
            "T\te\ta\t-\tstatus-flags: abort 0\t-",
            "T\tf\t1\t-\tout-of-service\t-",
            "T\tg\t1\t-\toverridden\tOn",
            "",
        ])
        names = ["room", 'q\\"\\\\', *"cdefg"]
        mark = [f'{{point="{it}",address="{at}"}}' for it in names]
        mark[1:3] = [it[:-1] + f',device="{device}"}}' for it, device in zip(mark[1:3], (77, 0))]
        up = [f"bacnet_up{it} {int(is_up)}" for it, is_up in zip(mark, (True, False, True, False, False, False, True))]
        values = [f"bacnet_value{mark[place]} {value}" for place, value in ((0, 21.5), (2, 2), (5, 1), (6, 1))]
        flags = ((1, "in-alarm"), (1, "fault"), (5, "out-of-service"), (6, "overridden"))
        flags = [f'bacnet_flag{mark[place][:-1]},flag="{it}"}} 1' for place, it in flags]
        up_head = ["# HELP bacnet_up Whether the point has a value, and neither a fault nor is out of service."]
        up_head += ["# TYPE bacnet_up gauge"]
        value_head = ["# HELP bacnet_value The value of the point.", "# TYPE bacnet_value gauge"]
        flag_head = ["# HELP bacnet_flag 1 for each status flag of the point that is set.", "# TYPE bacnet_flag gauge"]
        wanted = [*up_head, *up, *value_head, *values, *flag_head, *flags, ""]
        self.assertEqual(metrics_of(readings).split("\n"), wanted)
        self.assertEqual(metrics_of(readings[:1]).split("\n"), [*up_head, up[0], *value_head, values[0], ""])


class Check(harness.SiteTest):
    def test_rows(self):
        values = {(0, 3, 85): ("abort", 4), (0, 4, 85): real("7f7fffff")}
        self.stand_in({**values, (0, 5, 85): real("3dcccccd")})
        self.rows(
            """
            check -w 60:70 -c 50:90 DEV real 0 5 85 => 1 BACNET WARNING - 72.3 | value=72.3;60:70;50:90
            check --warning 60:70 --critical=50:90 DEV 0 5 85 => 1 BACNET WARNING - 72.3 | value=72.3;60:70;50:90
            check -w @72:73 DEV 0 5 85 => 1 BACNET WARNING - 72.3 | value=72.3;@72:73;~:
            check -w '' -c '' DEV 0 5 85 => 0 BACNET OK - 72.3 | value=72.3;~:;~:
            check -w .5:5 DEV 0 5 85 => 1 BACNET WARNING - 72.3 | value=72.3;.5:5;~:
            check -c 72 DEV 0 5 85 => 2 BACNET CRITICAL - 72.3 | value=72.3;~:;72
            check -w 60 -c 72 DEV 0 5 85 => 2 BACNET CRITICAL - 72.3 | value=72.3;60;72
            check -H DEV -t 9 0 5 85 => 0 BACNET OK - 72.3 | value=72.3;~:;~:
            check --hostname 1000@DEV --timeout 9 real 0 5 85 => 0 BACNET OK - 72.3 | value=72.3;~:;~:
            check 77@HERE 0 4 85 => 0 BACNET OK - 3.4028235e+38 | value=340282350000000000000000000000000000000;~:;~:
            check ODD 0 1 85 => 2 BACNET CRITICAL - no number: NaN
            check DEAD 0 1 85 => 2 BACNET CRITICAL - timeout
            check DEV 0 99 85 => 3 BACNET UNKNOWN - error 1 31
            check HERE 0 3 85 => 3 BACNET UNKNOWN - abort 4
            check ODD 1 3 85 => 3 BACNET UNKNOWN - no real: unsigned 1
            check 78@HERE 0 1 85 => 3 BACNET UNKNOWN - another device: 8:77
            check ODD 300 1 85 => 0 BACNET OK - 2 | value=2;~:;~:
            check ODD 300 1 77 => 3 BACNET UNKNOWN - no number: A/B
            check nobody.invalid 0 5 85 => 3 BACNET UNKNOWN - no address: nobody.invalid
            check 9 0 5 85 => 3 BACNET UNKNOWN - no address: 9
            check 7@DEV 0 5 85 => 3 BACNET UNKNOWN - another device: 8:1000
            check DEV 0 5 a|b => 3 BACNET UNKNOWN - no property: a/b
            check -c 5:1 DEV => 3 BACNET UNKNOWN - no range: 5:1
            check -w :80 DEV 0 5 85 => 0 BACNET OK - 72.3 | value=72.3;:80;~:
            check -w 5:: DEV => 3 BACNET UNKNOWN - no range: 5::
            check --tools /nowhere DEV 0 5 85 => 3 BACNET UNKNOWN - no bactool in /nowhere
            check -c 0.1 HERE 0 5 85 => 0 BACNET OK - 0.1 | value=0.1;~:;0.1
            """
        )
        self.assertEqual(
            [self.run_site("check", *it)[0] for it in (["--help"], [], ["-c"])], [3, 3, 3]
        )
        told = "BACNET UNKNOWN - argument -t/--timeout: expected one argument; see bacsite check --help\n"
        self.assertEqual(self.run_site("check", "-t"), (3, told, ""))

    def test_numbers_past_those_of_a_double_are_exact(self):
        self.stand_in({(23, 1, 85): unsigned(2**53 + 1)})
        for limit, status in ((2**53, 2), (2**53 + 1, 0)):
            found = self.run_site("check", "-c", str(limit), "HERE", "23", "1", "85")
            self.assertEqual(found[0], status)
            self.assertIn(" - 9007199254740993 | value=9007199254740993;", found[1])

    def test_the_version(self):
        found = self.run_site("check", "-V")
        self.assertEqual(found, (3, "bacsite %s\n" % bacsite.VERSION, ""))
        self.assertEqual(self.run_site("check", "--version"), found)

    def test_a_name_server_that_is_silent(self):
        code = (
            "import socket, sys, time\n"
            "sys.path.insert(0, %r)\n"
            "socket.getaddrinfo = lambda *_: time.sleep(60)\n"
            "sys.argv[1:] = ['check', '-t', '1', 'host.example', '0', '5', '85']\n"
            "from bacsite.main import run\n"
            "run()\n"
        )
        begun = time.monotonic()
        done = subprocess.run(
            [sys.executable, "-c", code % (harness.TOP + "/site")], stdout=subprocess.PIPE
        )
        wanted = (2, b"BACNET CRITICAL - not done in time\n")
        self.assertEqual((done.returncode, done.stdout), wanted)
        self.assertLess(time.monotonic() - begun, harness.at_load(20))

    def test_a_host_name(self):
        port = self.names["DEV"].split(":")[1]
        wanted = (0, "BACNET OK - 72.3 | value=72.3;~:;~:\n", "")
        self.assertEqual(self.run_site("check", "-H", "localhost:" + port, "0", "5", "85"), wanted)
        self.assertEqual(self.run_site("check", "1000@localhost:" + port, "0", "5", "85"), wanted)

    def test_status_flags(self):
        values = {
            (0, 1, 85): real("42290000"),
            (0, 1, 111): bits("0100"),
            (0, 1, 103): enumerated(1),
        }
        for at, flags in enumerate(("0001", "1010", "0110"), 2):
            values.update({(0, at, 85): real("42290000"), (0, at, 111): bits(flags)})
        values.update(
            {
                (0, 5, 85): real("42290000"),
                (0, 5, 111): unsigned(15),
                (0, 1, 85, 1): real("42290000"),
                (0, 6, 85): real("42290000"),
                (0, 7, 85): real("42290000"),
                (0, 7, 111): "silent",
                (300, 1, 85): real("42290000"),
                (300, 1, 111): bits("0100"),
            }
        )
        self.stand_in(values)
        self.rows(
            """
            check HERE 0 1 85 => 2 BACNET CRITICAL - 42.25, fault: no-sensor | value=42.25;~:;~:
            check HERE 0 2 85 => 1 BACNET WARNING - 42.25, out-of-service | value=42.25;~:;~:
            check HERE 0 2 85 -c 1 => 2 BACNET CRITICAL - 42.25, out-of-service | value=42.25;~:;1
            check HERE 0 3 85 => 0 BACNET OK - 42.25, in-alarm, overridden | value=42.25;~:;~:
            check HERE 0 3 85 -w 1 => 1 BACNET WARNING - 42.25, in-alarm, overridden | value=42.25;1;~:
            check HERE 0 4 85 => 2 BACNET CRITICAL - 42.25, fault, overridden | value=42.25;~:;~:
            check HERE 0 5 85 => 3 BACNET UNKNOWN - 42.25, status-flags: no bits: unsigned 15 | value=42.25;~:;~:
            check HERE 0 6 85 => 0 BACNET OK - 42.25 | value=42.25;~:;~:
            check HERE 0 7 85 => 3 BACNET UNKNOWN - 42.25, status-flags: timeout | value=42.25;~:;~:
            check HERE real 300 1 85 => 2 BACNET CRITICAL - 42.25, fault | value=42.25;~:;~:
            check HERE 0 1 85 1 => 0 BACNET OK - 42.25 | value=42.25;~:;~:
            check HERE 0 1 85 --no-flags => 0 BACNET OK - 42.25 | value=42.25;~:;~:
            """
        )
        for reliability, told in ((enumerated(0), "fault"), (enumerated(999), "fault: 999")):
            values[0, 1, 103] = reliability
            self.stand_in(values)
            self.rows("check HERE 0 1 85 => 2 BACNET CRITICAL - 42.25, %s | value=42.25;~:;~:" % told)

    def test_a_deadline(self):
        begun = time.monotonic()
        found = self.run_site("check", "-t", "1", "--apdu-timeout", "20000", "DEAD", "0", "5", "85")
        self.assertEqual(found, (2, "BACNET CRITICAL - not done in time\n", ""))
        self.assertLess(time.monotonic() - begun, harness.at_load(15))


class Prometheus(harness.SiteTest):
    def file(self, name):
        with open(self.world.folder + "/" + name, encoding="utf-8") as file:
            return file.read()

    def test_a_file(self):
        self.stand_in(
            {
                (0, 4, 85): real("7f7fffff"),
                **flagged(5, "0100"),
                **flagged(6, "1010"),
                (0, 7, 85): real("42290000"),
                (0, 7, 111): unsigned(15),
            }
        )
        self.path(
            "points",
            'out 1000@DEV 0 5 85\nq"\\ DEV 4 4 85\nnan ODD 0 1 85\nname ODD 0 2 77\nfar HERE 0 4 85\n'
            "bad x 1 1 1\nsick HERE 0 5 85\nheld HERE 0 6 85\nodd HERE 0 7 85\n",
        )
        self.rows("prometheus IN/points IN/new.prom => 1 ", before=lambda: os.umask(0o077))
        self.assertEqual(oct(os.stat(self.world.folder + "/new.prom").st_mode), "0o100644")
        os.chmod(self.world.folder + "/new.prom", 0o640)
        self.rows("prometheus IN/points IN/new.prom => 1 ")
        self.assertEqual(oct(os.stat(self.world.folder + "/new.prom").st_mode), "0o100640")
        self.assertEqual(
            self.file("new.prom"),
            self.spelled(
                """\
# HELP bacnet_up Whether the point has a value, and neither a fault nor is out of service.
# TYPE bacnet_up gauge
bacnet_up{point="out",address="DEV",device="1000"} 1
bacnet_up{point="q\\"\\\\",address="DEV"} 1
bacnet_up{point="nan",address="ODD"} 0
bacnet_up{point="name",address="ODD"} 1
bacnet_up{point="far",address="HERE"} 1
bacnet_up{point="bad"} 0
bacnet_up{point="sick",address="HERE"} 0
bacnet_up{point="held",address="HERE"} 1
bacnet_up{point="odd",address="HERE"} 0
# HELP bacnet_value The value of the point.
# TYPE bacnet_value gauge
bacnet_value{point="out",address="DEV",device="1000"} 72.3
bacnet_value{point="q\\"\\\\",address="DEV"} 0
bacnet_value{point="far",address="HERE"} 3.4028235e+38
bacnet_value{point="held",address="HERE"} 42.25
bacnet_value{point="odd",address="HERE"} 42.25
# HELP bacnet_flag 1 for each status flag of the point that is set.
# TYPE bacnet_flag gauge
bacnet_flag{point="sick",address="HERE",flag="fault"} 1
bacnet_flag{point="held",address="HERE",flag="in-alarm"} 1
bacnet_flag{point="held",address="HERE",flag="overridden"} 1
"""
            ),
        )
        self.path("sick", "sick HERE 0 5 85\n")
        self.rows("prometheus --no-flags IN/sick IN/sick.prom => 0 ")
        self.assertIn(" 1\n# HELP bacnet_value", self.file("sick.prom"))
        self.assertNotIn("bacnet_flag", self.file("sick.prom"))

    def test_a_signal_waits_until_the_file_is_whole(self):
        path = self.path("whole.prom", "old")
        code = (
            "import os, signal, sys\n"
            "sys.path.insert(0, %r)\n"
            "from bacsite.streams import replace_file\n"
            "def parts():\n"
            "    assert any(it.startswith('whole.prom.') for it in os.listdir(%r))\n"
            "    yield 'new'\n"
            "    os.kill(os.getpid(), signal.SIGTERM)\n"
            "    yield ' and whole'\n"
            "replace_file(%r, parts())\n"
        )
        code %= (harness.TOP + "/site", self.world.folder, path)
        done = subprocess.run([sys.executable, "-c", code])
        self.assertEqual((done.returncode, self.file("whole.prom")), (-15, "new and whole"))

    def test_what_is_there_is_kept(self):
        folder = self.world.folder
        for name, text in (
            ("good", "a DEV 0 5 85"),
            ("twice", "a DEV 0 5 85\na DEV 4 4 85"),
            ("keep.prom", "old"),
            ("notes", "old"),
        ):
            self.path(name, text)
        os.mkfifo(folder + "/pipe.prom")
        os.mkdir(folder + "/folder.prom")
        os.symlink(folder + "/keep.prom", folder + "/link.prom")
        there = sorted(os.listdir(folder))
        for name in ("/dev/stdout", "IN/link.prom", "IN/pipe.prom", "IN/folder.prom", "IN/notes"):
            self.rows(
                "prometheus IN/good %s => 2 !no plain file whose name ends in .prom: %s"
                % (name, name)
            )
        self.rows(
            """
            prometheus IN/twice IN/keep.prom => 2 !two points have the name a
            prometheus IN/no IN/keep.prom => 3 !cannot read IN/no: No such file or directory
            prometheus IN/good IN/none/b.prom => 3 !writing failed: IN/none/b.prom: No such file or directory
            prometheus IN/good /proc/b.prom => 3 !writing failed: /proc/b.prom: No such file or directory
            """
        )
        self.rows(
            "prometheus IN/good IN/keep.prom => 3 !writing failed: IN/keep.prom: File too large",
            before=lambda: resource.setrlimit(resource.RLIMIT_FSIZE, (20, 20)),
        )
        self.assertEqual((self.file("keep.prom"), sorted(os.listdir(folder))), ("old", there))


if __name__ == "__main__":
    unittest.main()
