"""Writes: which are refused before anything is sent, the datagrams, and the output."""

import os
import resource
import signal
import subprocess
import unittest
from unittest import mock

import harness
from bacsite import standard, write
from bacsite.controller import Controller
from bacsite.place import Place, encode
from bacsite.standard import PropertyRef
from bacsite.streams import Failure
from bacsite.tools import Outcome, Tools
from bacsite.write import ending_of
from stand_ins import NULL, an_object, enumerated, real, string, tagged, unsigned

PATIENT = "1 1 20 --priority 8 --apdu-timeout 900".split()

VALVE = {
    (1, 1, 77): string("Valve"),
    (1, 1, 79): enumerated(1),
    (1, 1, 85): real("00000000"),
    (1, 1, 87): NULL * 16,
    (1, 1, 104): real("00000000"),
    (1, 1, 69): real("c1200000"),
    (1, 1, 65): real("42c80000"),
}
MODE = {
    (14, 2, 77): string("Mode"),
    (14, 2, 79): enumerated(14),
    (14, 2, 85): unsigned(1),
    (14, 2, 74): unsigned(4),
    (14, 2, 110): string("Off") + string("Heat") + string("Both") + string("both"),
    (14, 2, 110, 2): string("Heat"),
}
FAN = {
    (5, 3, 77): string("Fan"),
    (5, 3, 79): enumerated(5),
    (5, 3, 85): enumerated(0),
    (5, 3, 4): string("Läuft"),
    (5, 3, 46): string("Steht"),
}
NO_LIMITS = {
    (2, 7, 77): string("Flow"),
    (2, 7, 85): real("00000000"),
    (2, 7, 65): real("00000000"),
    (2, 7, 69): real("00000000"),
    (2, 8, 77): string("Most"),
    (2, 8, 85): real("00000000"),
    (2, 8, 22): real("3f800000"),
    (2, 8, 65): real("42c80000"),
    (2, 9, 77): string("Least"),
    (2, 9, 85): real("00000000"),
    (2, 9, 65): real("7fc00000"),
    (2, 9, 69): real("40a00000"),
    (45, 1, 77): string("Steps"),
    (45, 1, 85): tagged(3, b"\x05"),
    (45, 1, 22): unsigned(1),
}
# States whose names are numbers of other states, or the standard's names for another state.
CROSSED = {
    (14, 5, 77): string("Stage"),
    (14, 5, 85): unsigned(1),
    (14, 5, 74): unsigned(4),
    (14, 5, 110): string("Off") + string("1") + string("2") + string("3"),
    (14, 6, 77): string("Unnamed"),
    (14, 6, 85): unsigned(1),
    (14, 6, 74): unsigned(2),
    (14, 6, 110): string("") + string("On"),
    (5, 6, 77): string("Door"),
    (5, 6, 85): enumerated(0),
    (5, 6, 4): string("Inactive"),
    (5, 6, 46): string("Active"),
}
VENDOR = {(300, 1, 77): string("X"), (300, 1, 85): unsigned(5)}
TEXT = {
    (40, 1, 77): string("Note"),
    (40, 1, 85): string("old"),
    (0, 9, 77): string("S"),
    (0, 9, 81): b"\x10",
    (0, 9, 28): string(""),
    (0, 9, 117): enumerated(62),
    (0, 9, 85): real("7fc00000"),
    (0, 9, 111): b"\x82\x04\0",
}
ALL = {**VALVE, **MODE, **FAN, **NO_LIMITS, **VENDOR, **TEXT}


class Write(harness.SiteTest):
    def test_what_is_sent(self):
        device = self.stand_in(ALL)
        for words, what, value, priority in (
            ("1 1 20 --priority 8", (1, 1, 85), real("41a00000"), 8),
            ("analog-output 1 -2.5 --priority 9", (1, 1, 85), real("c0200000"), 9),
            ("1 1 null --priority 9", (1, 1, 85), NULL, 9),
            ("2 8 150 --property cov-increment", (2, 8, 22), real("43160000"), 0),
            ("14 2 3", (14, 2, 85), unsigned(3), 0),
            ("14 2 heat", (14, 2, 85), unsigned(2), 0),
            ("5 3 läuft", (5, 3, 85), enumerated(1), 0),
            ("5 3 Inactive", (5, 3, 85), enumerated(0), 0),
            ("300 1 6 --type unsigned", (300, 1, 85), unsigned(6), 0),
            ("40 1 -x", (40, 1, 85), string("-x"), 0),
            ("40 1 -5", (40, 1, 85), string("-5"), 0),
            ("40 1 -.5°", (40, 1, 85), string("-.5°"), 0),
            ("40 1 a\\x1bb", (40, 1, 85), string("a\\x1bb"), 0),
            ("40 1 null --type text", (40, 1, 85), string("null"), 0),
            ("14 2 Off", (14, 2, 85), unsigned(1), 0),
            ("14 2 4 --type unsigned", (14, 2, 85), unsigned(4), 0),
            ("2 7 1e6", (2, 7, 85), real("49742400"), 0),
            ("45 1 3 --property cov-increment", (45, 1, 22), unsigned(3), 0),
            ("45 1 -3", (45, 1, 85), tagged(3, b"\xfd"), 0),
            ("0 9 true --property out-of-service", (0, 9, 81), b"\x11", 0),
            ("0 9 Öl --property 28", (0, 9, 28), string("Öl"), 0),
            ("0 9 degrees-fahrenheit --property units", (0, 9, 117), enumerated(64), 0),
            ("0 9 1.5", (0, 9, 85), real("3fc00000"), 0),
            ("14 2 Warm --property state-text --index 2", (14, 2, 110, 2), string("Warm"), 0),
        ):
            given = words.split(" ")
            if "-x" in given:
                given.insert(given.index("-x"), "--")
            status, out, err = self.run_site("write", "77@HERE", *given)
            with self.subTest(words=words):
                self.assertEqual(
                    (status, err, device.written[-1]), (0, "", (what, value, priority))
                )
                self.assertNotIn("not as written", out)

    def test_what_is_printed(self):
        self.stand_in(VALVE)
        head = "device 77 at HERE\nobject 1:1 analog-output Valve\n"
        status, out, _ = self.run_site("write", "HERE", "1", "1", "20", "--priority", "8")
        self.assertEqual(
            (status, out),
            (
                0,
                self.spelled(
                    head + "before: 0\nwrite 20 at priority 8: ok\nnow: 20\n"
                    "priority 8 (manual-operator): 20\nrelinquish-default: 0\n"
                ),
            ),
        )
        status, out, _ = self.run_site("write", "HERE", "1", "1", "30", "--priority", "10")
        self.assertEqual(
            (status, out),
            (
                0,
                self.spelled(
                    head
                    + "before: 20\nwrite 30 at priority 10: ok\nnow: 20\npriority 8 (manual-operator): 20\n"
                    "priority 10: 30\nrelinquish-default: 0\n"
                    "priority 8 (manual-operator) holds it: what is written at 10 waits\n"
                ),
            ),
        )
        status, out, _ = self.run_site("write", "HERE", "1", "1", "null", "--priority", "8")
        self.assertEqual(
            (status, out),
            (
                0,
                self.spelled(
                    head + "before: 20\nwrite null at priority 8: ok\nnow: 30\n"
                    "priority 10: 30\nrelinquish-default: 0\n"
                ),
            ),
        )

    def test_a_held_point(self):
        """A higher priority that holds the point is reported, if a value is waiting below."""
        self.stand_in(VALVE)
        for words, last in (
            ("20 --priority 8", "relinquish-default: 0"),
            ("null --priority 10", "relinquish-default: 0"),
            ("30 --priority 16", "priority 8 (manual-operator) holds it: what is written at 16 waits"),
            ("30 --priority 5", "relinquish-default: 0"),
        ):
            out = self.run_site("write", "HERE", "1", "1", *words.split(" "))[1]
            with self.subTest(words=words):
                self.assertEqual(out.splitlines()[-1], last)

    def test_what_is_refused_before_anything_is_sent(self):
        device = self.stand_in(ALL)
        self.rows(
            """
            write 78@HERE 1 1 20 --priority 8 => 1 !another device: 8:77; no write was sent
            write HERE 1 1 20 => 2 !1:1 analog-output is commanded by priorities: choose one with --priority; no..
            write HERE 1 1 20,5 --priority 8 => 2 !no number: '20,5'; no write was sent
            write HERE 1 1 on --priority 8 => 2 !no number: 'on'; no write was sent
            write HERE 1 1 nan --priority 8 => 2 !no number: 'nan'; no write was sent
            write HERE 1 1 1e40 --priority 8 => 2 !past the range: 1e40; no write was sent
            write HERE 1 1 100.5 --priority 8 => 2 !1:1 analog-output takes -10 to 100, not 100.5; no write was sent
            write HERE 1 1 -11 --priority 8 => 2 !1:1 analog-output takes -10 to 100, not -11; no write was sent
            write HERE 2 8 100.5 => 2 !2:8 analog-value takes up to 100, not 100.5; no write was sent
            write HERE 2 9 4 => 2 !2:9 analog-value takes 5 and more, not 4; no write was sent
            write HERE 14 2 0 => 2 !14:2 multi-state-output takes 1 to 4, not 0; no write was sent
            write HERE 14 2 5 => 2 !14:2 multi-state-output takes 1 to 4, not 5; no write was sent
            write HERE 14 2 1.5 => 2 !no number and no state: 1.5; it has off, heat; no write was sent
            write HERE 14 2 both => 2 !both may be 3 (Both) or 4 (both): give its number; no write was sent
            write HERE 5 3 2 => 2 !5:3 binary-value takes 0 to 1, not 2; no write was sent
            write HERE 5 3 null => 2 !null releases a priority: 5:3 binary-value has no priority array; no write was..
            write HERE 300 1 6 => 2 !the type of 300:1 is not known: give it with --type; no write was sent
            write HERE 1 1 6 --type unsigned --priority 8 => 2 !1:1 analog-output is no unsigned, but real; no write..
            write HERE 0 9 1 --property out-of-service => 2 !neither true nor false: 1; no write was sent
            write HERE 0 9 parsec --property units => 2 !no number and no state: parsec; no write was sent
            write HERE 14 2 x --property state-text => 2 !state-text has several values: choose one with --index; no..
            write HERE 1 2 20 => 1 !present-value: error 2 32; no write was sent
            write HERE 0 9 x --property 12 => 1 !application-software-version: error 2 32; no write was sent
            write HERE 0 9 5 --property 9999 --type unsigned => 1 !property 9999: error 2 32; no write was sent
            write HERE 1 1 20 --priority 6 => 2 !priority 6 is the device's own
            write HERE 1 1 20 --priority 17 => 2 !argument --priority: not 1 to 16: 17; see bacsite write --help
            write HERE 1 1 20 --priority -5 => 2 !argument --priority: not 1 to 16: -5; see bacsite write --help; put..
            write HERE 1 1 20 --priority 0 => 2 !argument --priority: not 1 to 16: 0; see bacsite write --help
            write HERE 1 1 20 --property pv => 2 !no property: pv; perhaps present-value or protocol-version
            write HERE 1 1 => 2 !the following arguments are required: VALUE; see bacsite write --help
            write HERE 40 1 null => 2 !null releases a priority: 40:1 characterstring-value has no priority array; no..
            write HERE 45 1 -3 --property cov-increment => 2 !past the range: -3; no write was sent
            write DEAD 1 1 20 --priority 8 => 1 !timeout; no write was sent
            """
        )
        told = self.run_site("write", "HERE", "40", "1", "-x")[2]
        self.assertTrue(told.endswith("--help; put a value like -x after --\n"), told)
        self.assertEqual(device.written, [])

    def test_an_object_that_is_another(self):
        device = self.stand_in({**VALVE, (1, 1, 79): enumerated(0)})
        self.rows(
            "write HERE 1 1 20 --priority 8 => 1 !it is of another object type: 0 (analog-input); no write was sent"
        )
        self.stand_in({**VALVE, (1, 1, 85): unsigned(20)})
        self.rows(
            "write HERE 1 1 20 --priority 8 => 1 !present-value: no real: unsigned 20; no write was sent"
        )
        self.stand_in({**VALVE, (1, 1, 69): "silent"})
        self.rows("write HERE 1 1 20 --priority 8 => 1 !min-pres-value: timeout; no write was sent")
        self.stand_in({**VALVE, (1, 1, 87): "silent"})
        self.rows("write HERE 1 1 20 --priority 8 => 1 !priority-array: timeout; no write was sent")
        self.stand_in({**MODE, (14, 2, 110): "silent"})
        self.rows("write HERE 14 2 1 => 1 !state-text: timeout; no write was sent")
        self.stand_in({**FAN, (5, 3, 4): "silent"})
        self.rows("write HERE 5 3 1 => 1 !the text of state 1: timeout; no write was sent")
        self.assertEqual(device.written, [])

    def test_a_word_that_may_be_two_states(self):
        device = self.stand_in(CROSSED)
        self.rows(
            """
            write HERE 14 5 1 => 2 !1 may be 1 (Off) or 2 (1): by --type unsigned it is the number; no write was sent
            write HERE 14 6 '' => 2 !no number and no state: ; it has on; no write was sent
            write HERE 5 6 active => 2 !active may be 0 (Active) or 1 (Inactive): give its number; no write was sent
            write HERE 5 6 INACTIVE => 2 !INACTIVE may be 0 (Active) or 1 (Inactive): give its number; no write was sent
            """
        )
        self.assertEqual(device.written, [])
        for words, line in (
            ("14 5 4", "write 4 (3): ok"),
            ("14 5 1 --type unsigned", "write 1 (Off): ok"),
            ("14 5 off", "write 1 (Off): ok"),
            ("5 6 1", "write 1 (Inactive): ok"),
        ):
            status, out, _ = self.run_site("write", "HERE", *words.split(" "))
            with self.subTest(words=words):
                now = line[6:-4]
                self.assertEqual((status, out.splitlines()[3:]), (0, [line, "now: " + now]))

    def test_states_have_the_texts_of_the_object_everywhere(self):
        array = {(14, 2, 87): NULL * 16, (14, 2, 104): unsigned(2), (14, 2, 85): unsigned(2)}
        self.stand_in({**MODE, **array})
        status, out, _ = self.run_site("write", "HERE", "14", "2", "1", "--priority", "8")
        wanted = ["before: 2 (Heat)", "write 1 (Off) at priority 8: ok", "now: 1 (Off)"]
        wanted += ["priority 8 (manual-operator): 1 (Off)", "relinquish-default: 2 (Heat)"]
        self.assertEqual((status, out.splitlines()[2:]), (0, wanted))
        words = ["14", "2", "off", "--property", "relinquish-default", "--dry-run"]
        out = self.run_site("write", "HERE", *words)[1].splitlines()[2:]
        self.assertEqual(out[0], "before: 2 (Heat)")
        self.assertEqual(out[1], "write 1 (Off): checked, no write was sent")
        self.stand_in({**MODE, (14, 2, 110): ("error", 2, 27)})
        out = self.run_site("write", "HERE", "14", "2", "3")[1].splitlines()[2:]
        self.assertEqual(out, ["before: 1", "write 3: ok", "now: 3"])

    def test_a_priority_array_that_can_not_be_read(self):
        faults = {"error 2 27": ("error", 2, 27), "reject 9": ("reject", 9), "abort 9": ("abort", 9)}
        for told, fault in {**faults, "no list": b"\x2e\x2f"}.items():
            device = self.stand_in({**VALVE, (1, 1, 87): fault})
            device.keep = lambda key, value, _: device.values.update({key: value})
            out = self.run_site("write", "HERE", "1", "1", "20", "--priority", "8")
            wanted = ["before: 0", "priority-array: " + told, "write 20 at priority 8: ok"]
            wanted += ["now: 20", "priority-array: " + told]
            self.assertEqual((out[0], out[1].splitlines()[2:]), (0, wanted))
        self.rows("write HERE 1 1 null => 2 !null releases a priority: 1:1 analog-output has no priority array; no..")
        device.keep = lambda *_: None
        found = self.run_site("write", "HERE", "1", "1", "null", "--priority", "8")
        self.assertEqual(device.written[-1], ((1, 1, 85), NULL, 8))
        last = "not sure, since no priority is read: 20"
        self.assertEqual((found[0], found[1].splitlines()[-1]), (1, last))

    def test_a_dry_run(self):
        device = self.stand_in(VALVE)
        status, out, _ = self.run_site(
            "write", "HERE", "1", "1", "20", "--priority", "8", "--dry-run"
        )
        self.assertEqual(
            (status, out.splitlines()[-1]),
            (0, "write 20 at priority 8: checked, no write was sent"),
        )
        self.assertEqual(device.written, [])

    def last_lines(self, mode, count, values=None):
        device = self.stand_in(values or VALVE, writes=mode)
        status, out, _ = self.run_site("write", "HERE", "1", "1", "20", "--priority", "8")
        return status, out.splitlines()[3:][:count], len(device.written)

    def test_what_the_device_refuses(self):
        for mode, why in (("refuse", "error 2 40"), ("reject", "reject 9")):
            wanted = ["write 20 at priority 8: refused: " + why, "now: 0", "relinquish-default: 0"]
            self.assertEqual(self.last_lines(mode, 9), (1, wanted, 1))

    def test_an_outcome_that_is_not_known(self):
        unknown = "write 20 at priority 8: outcome not known: the write may have been made (%s)"
        self.assertEqual(
            self.last_lines("silent", 3),
            (1, [unknown % "timeout", "now: 20", "priority 8 (manual-operator): 20"], 3),
        )
        self.assertEqual(
            self.last_lines("lose", 4),
            (
                1,
                [unknown % "timeout", "now: 0", "relinquish-default: 0", "not as written: null"],
                3,
            ),
        )
        self.assertEqual(self.last_lines("abort", 2), (1, [unknown % "abort 0", "now: 0"], 1))

    def test_a_device_that_keeps_another_value(self):
        device = self.stand_in(VALVE)
        keep = device.keep
        device.keep = lambda key, value, priority: keep(key, real("41a80000"), priority)
        status, out, _ = self.run_site("write", "HERE", "1", "1", "20", "--priority", "8")
        self.assertEqual((status, out.splitlines()[-1]), (1, "not as written: 21"))

    def test_a_full_disk_stops_it_before_the_write(self):
        device = self.stand_in(VALVE)
        with open("/dev/full", "w", encoding="utf-8") as full:
            found = self.run_site("write", "HERE", "1", "1", "20", "--priority", "8", stdout=full)
        told = "bacsite: writing failed; no write was sent\n"
        self.assertEqual((found[0], found[2], device.written), (3, told, []))
        out, into = os.pipe()
        os.close(out)
        found = self.run_site("write", "HERE", "1", "1", "20", "--priority", "8", stdout=into)
        os.close(into)
        told = "bacsite: no write was sent\n"
        self.assertEqual((found[0], found[2], device.written), (3, told, []))

    def test_a_tool_that_sends_nothing(self):
        device = self.stand_in(VALVE)
        os.mkdir(self.world.folder + "/bound")
        script = '#!/bin/sh\n[ "$1" = bacwp ] && echo "bactool: bind failed" >&2 && exit 3\nexec %s "$@"\n'
        os.chmod(self.path("bound/bactool", script % harness.TOOL), 0o755)
        words = ["write", "--tools", "IN/bound", "HERE", "1", "1", "20", "--priority", "8"]
        status, out, _ = self.run_site(*words)
        last = "write 20 at priority 8: no write was sent: bactool: bind failed"
        self.assertEqual((status, out.splitlines()[3:], device.written), (3, [last], []))

    def test_an_output_that_fails_behind_the_write_says_how_that_ended(self):
        for mode, how in (("", "ok"), ("silent", "outcome not known: the write may have been made")):
            for limit, why in ((100, "writing failed"), (None, "nobody reads on")):
                device = self.stand_in(VALVE, writes=mode, delay=0.2)
                reader, pipe = os.pipe()
                path = self.path("out", b"")
                with open(path if limit else pipe, "w", encoding="utf-8") as out:
                    process = subprocess.Popen(
                        [*self.world.command, "write", device.address, *PATIENT],
                        stdout=out,
                        stderr=subprocess.PIPE,
                        preexec_fn=lambda: limit
                        and resource.setrlimit(resource.RLIMIT_FSIZE, (limit, limit)),
                    )
                while not device.written:
                    self.assertIsNone(process.poll())
                os.close(reader)
                err = process.communicate(timeout=20)[1].decode()
                told = "bacsite: write 20 at priority 8: " + how
                with self.subTest(mode=mode, why=why):
                    self.assertEqual((process.returncode, err[: len(told)]), (3, told))
                    self.assertIn("; " + why, err)

    def test_a_device_that_becomes_another(self):
        for after, told in (
            (("error", 1, 31), "error 1 31"),
            (an_object(8, 78), "it says another number"),
            ("silent", "timeout"),
        ):
            own = {(8, 77, 75): after}
            self.stand_in({**VALVE, **own}, writes="refuse" if after == "silent" else "")
            out = self.run_site("write", "HERE", "1", "1", "20", "--priority", "8")
            last = "not sure that it is device 77 still: " + told
            with self.subTest(told=told):
                self.assertEqual((out[0], out[1].splitlines()[-1]), (1, last))

    def test_a_signal_says_that_the_write_may_have_been_made(self):
        device = self.stand_in(VALVE, writes="silent")
        words = [
            "write",
            device.address,
            "1",
            "1",
            "20",
            "--priority",
            "8",
            "--apdu-timeout",
            "20000",
        ]
        told = b"bacsite: ended by a signal: the write may have been made; read it back\n"
        for number, whom in ((signal.SIGTERM, os.kill), (signal.SIGINT, os.killpg)):
            device.written.clear()
            process = self.begun(*words, start_new_session=True)
            while not device.written:
                self.assertIsNone(process.poll())
            whom(process.pid, number)
            err = process.communicate(timeout=20)[1]
            self.assertEqual((process.returncode, err), (-number, told))

    def test_the_device_of_the_package(self):
        for words, wanted in (
            (
                "DEV 0 5 22.5 => 1",
                "object 0:5 analog-input Outdoor temperature;before: 72.3;"
                "write 22.5: refused: error 2 40;now: 72.3",
            ),
            (
                "1000@DEV 4 4 active --priority 5 => 0",
                "object 4:4 binary-output Fan;before: 0 (inactive);write 1 (active) at priority 5: ok;"
                "now: 1 (active);priority 5 (critical-equipment-control): 1 (active);"
                "relinquish-default: 0 (inactive)",
            ),
            (
                "DEV 4 4 null --priority 5 => 0",
                "object 4:4 binary-output Fan;before: 1 (active);write null at priority 5: ok;"
                "now: 0 (inactive);relinquish-default: 0 (inactive)",
            ),
        ):
            self.rows(f"write {words} device 1000 at DEV;{wanted}")


class Faults(harness.SiteTest):
    def test_whatever_fails_behind_a_sent_write_is_told(self):
        device, asking = self.stand_in(VALVE), Tools(harness.TOOL, 300, 2, 1)
        place = Place(device.address, PropertyRef(1, 1, 85), is_present_value=True)
        order = write.Order(None, place, "20", None, 8, dry=False)
        for part, told in (("_sent", write.NOT_KNOWN), ("_read_back", "ok")):
            with mock.patch("bacsite.write." + part, side_effect=OSError("no space")):
                with mock.patch("bacsite.write.put"), self.assertRaises(Failure) as caught:
                    with Controller(asking, device.address) as controller:
                        write.written(controller, order)
            wanted = "write 20 at priority 8: %s; no space" % told
            self.assertEqual((str(caught.exception), caught.exception.status), (wanted, 3))


class List(harness.SiteTest):
    LINES = """\
# the plant
77@HERE analog-output 1 20 --priority 8  # a valve

HERE 40 1 "Room  5" --dry-run
HERE 40 1 -5
HERE 1 1 -11 --priority 9
HERE 1 1 30 --priority 10
"""

    def test_all_lines_are_checked_before_the_first_write(self):
        device = self.stand_in(ALL)
        found = self.run_site("write-list", self.path("writes", self.LINES))
        told = "bacsite: line 6: 1:1 analog-output takes -10 to 100, not -11; no write was sent\n"
        self.assertEqual((found, device.written), ((2, "", told), []))

    def test_it_stops_at_the_first_that_is_not_sure(self):
        """A limit that changes only after the first lines were written."""
        limits = {(1, 1, 69): [real("c1200000"), real("c1200000"), real("c1200000"), real("41200000")]}
        device = self.stand_in({**ALL, **limits})
        lines = self.LINES.replace("-11", "9").replace("1 1 20", "1 1 20").splitlines()
        path = self.path("writes-2", "\n".join(lines[:5] + lines[5:6]) + "\n")
        status, out, err = self.run_site("write-list", path)
        told = "bacsite: line 6: 1:1 analog-output takes 10 to 100, not 9; no write was sent; "
        self.assertEqual((status, err), (1, told + "2 of 4 lines written before\n"))
        written = [((1, 1, 85), real("41a00000"), 8), ((40, 1, 85), string("-5"), 0)]
        self.assertEqual(device.written, written)
        parts = out.split("\n\n")
        self.assertEqual([it.split("\n")[3] for it in parts[:3]], [
            "write 20 at priority 8: ok",
            'write "Room  5": checked, no write was sent',
            'write "-5": ok',
        ])

    def test_a_write_that_is_refused_stops_it(self):
        device = self.stand_in(ALL, writes="refuse")
        lines = "HERE 14 2 heat\nHERE 14 2 off\n"
        status, out, _ = self.run_site("write-list", "-", stdin=self.spelled(lines))
        last = "stopped at line 1: 0 of 2 lines written before"
        self.assertEqual((status, out.splitlines()[-1]), (1, last))
        self.assertEqual(len(device.written), 1)

    def test_all_lines_are_right_before_any_is_sent(self):
        device = self.stand_in(ALL)
        for line, why in (
            ("HERE 14 2", "the following arguments are required: VALUE"),
            ("HERE 14 2 2 --priority 6", "priority 6 is the device's own"),
            ("HERE 14 2 -h", "the following arguments are required: VALUE"),
            ("HERE 40 1 'x", "no closing quotation"),
            ("HERE 40 1 a\0", "no word has the character 0"),
        ):
            found = self.run_site("write-list", "-", stdin=self.spelled("HERE 14 2 2\n" + line))
            with self.subTest(line=line):
                self.assertEqual((found[:2], found[2][: 17 + len(why)]), ((2, ""), "bacsite: line 2: " + why))
                self.assertTrue(found[2].endswith("; no write was sent\n"))
        self.rows("write-list /dev/null => 2 !no write in /dev/null")
        self.assertEqual(device.written, [])

    def test_a_dry_run_sends_nothing(self):
        device = self.stand_in(ALL)
        path = self.path("dry", "HERE 14 2 heat\nHERE 14 2 off\n")
        status, out, _ = self.run_site("write-list", path, "--dry-run")
        self.assertEqual((status, out.count("checked, no write was sent")), (0, 2))
        self.assertEqual(device.written, [])


class Endings(unittest.TestCase):
    def test_endings(self):
        for outcome, told, status, was_sent in (
            (Outcome(0, ["ok"]), "ok", 0, True),
            (
                Outcome(0, ["ok", "ok"]),
                "outcome not known: the write may have been made (status 0)",
                3,
                True,
            ),
            (Outcome(0, []), "outcome not known: the write may have been made (status 0)", 3, True),
            (Outcome(1, ["error 2 37"]), "refused: error 2 37", 1, True),
            (
                Outcome(1, ["timeout"]),
                "outcome not known: the write may have been made (timeout)",
                1,
                True,
            ),
            (
                Outcome(1, ["bad-ack"]),
                "outcome not known: the write may have been made (bad-ack)",
                1,
                True,
            ),
            (
                Outcome(1, ["segmented"]),
                "outcome not known: the write may have been made (segmented)",
                1,
                True,
            ),
            (
                Outcome(2, [], "bactool: bad value 1"),
                "no write was sent: bactool: bad value 1",
                2,
                False,
            ),
            (
                Outcome(3, [], "bactool: bind failed"),
                "no write was sent: bactool: bind failed",
                3,
                False,
            ),
            (
                Outcome(3, [], "bactool: receiving failed"),
                "outcome not known: the write may have been made (bactool: receiving failed)",
                3,
                True,
            ),
            (
                Outcome(-9, []),
                "outcome not known: the write may have been made (status -9)",
                3,
                True,
            ),
            (Outcome(None, [], "cannot run x"), "no write was sent: cannot run x", 3, False),
        ):
            with self.subTest(outcome=outcome):
                ending = ending_of(outcome)
                self.assertEqual(
                    (ending.told, ending.status, ending.was_sent), (told, status, was_sent)
                )


class Encode(unittest.TestCase):
    def test_values(self):
        for word, tag, wanted, text in (
            ("20.5", standard.REAL, "41a40000", "20.5"),
            ("20.5", standard.DOUBLE, "4034800000000000", "20.5"),
            ("007", standard.UNSIGNED, "7", "7"),
            ("-7", standard.SIGNED, "-7", "-7"),
            ("true", standard.BOOLEAN, "true", "true"),
            ("0101", standard.BITS, "0101", "B'0101'"),
            ("01ff", standard.OCTETS, "01ff", "X'01ff'"),
            ("2024-10-31", standard.DATE, "7c0a1f04", "2024-10-31"),
            ("1900-01-01", standard.DATE, "00010101", "1900-01-01"),
            ("2154-12-31", standard.DATE, "fe0c1f02", "2154-12-31"),
            ("12:30", standard.TIME, "0c1e0000", "12:30:00.00"),
            ("9:30:05.07", standard.TIME, "091e0507", "09:30:05.07"),
            ("analog-input:5", standard.OBJECT, "0:5", "0:5"),
            ("8:1234", standard.OBJECT, "8:1234", "8:1234"),
            (" x ", standard.STRING, " x ", " x "),
            ("a\x1b[2J", standard.STRING, "a\x1b[2J", "a\\x1b[2J"),
            ("a\\x1b[2J", standard.STRING, "a\\x1b[2J", "a\\\\x1b[2J"),
            ("A1\\Fan", standard.STRING, "A1\\Fan", "A1\\Fan"),
            (
                "18446744073709551615",
                standard.UNSIGNED,
                "18446744073709551615",
                "18446744073709551615",
            ),
            ("null", standard.NULL, "null", "null"),
        ):
            with self.subTest(word=word, tag=tag):
                found = encode(word, tag)
                self.assertEqual(found, (tag, wanted, text))

    def test_words_that_are_none(self):
        past, bits, octets = "past the range: ", "no bits, as 0101: ", "no octets in hexadecimal digits, as 01ff: "
        date, years = "no date, as 2024-10-31: ", "no date of 1900 to 2154: "
        moment = "no time, as 12:30 or 12:30:05.00: "
        for word, tag, why in (
            ("-1", standard.UNSIGNED, past),
            ("18446744073709551616", standard.UNSIGNED, past),
            ("4294967296", standard.ENUMERATED, past),
            ("9223372036854775808", standard.SIGNED, past),
            ("-9223372036854775809", standard.SIGNED, past),
            ("1.5", standard.SIGNED, "no number: "),
            ("٣", standard.UNSIGNED, "no number: "),
            ("True", standard.BOOLEAN, "neither true nor false: "),
            ("1", standard.BOOLEAN, "neither true nor false: "),
            ("", standard.BITS, bits),
            ("2", standard.BITS, bits),
            ("1f f", standard.OCTETS, octets),
            ("f", standard.OCTETS, octets),
            ("2024-02-30", standard.DATE, date),
            ("1899-01-01", standard.DATE, years),
            ("2155-12-31", standard.DATE, years),
            ("2200-01-01", standard.DATE, years),
            ("24:00", standard.TIME, moment),
            ("12:60", standard.TIME, moment),
            ("12:30:60", standard.TIME, moment),
            ("12", standard.TIME, moment),
            ("5", standard.OBJECT, "no object, as 0:5 or analog-input:5: "),
            ("x", standard.NULL, "not null: "),
            ("maybe", standard.ENUMERATED, "no number: "),
        ):
            self.assertEqual(self.refused(word, tag), (why + word, 2))
        self.assertEqual(self.refused("0:4194304", standard.OBJECT), ("no instance: 4194304", 2))
        self.assertEqual(self.refused("", standard.REAL), ("no number: ''", 2))

    def refused(self, word, tag):
        """Why a word is refused, and the status."""
        with self.assertRaises(Failure) as caught:
            encode(word, tag)
        return str(caught.exception), caught.exception.status


if __name__ == "__main__":
    unittest.main()
