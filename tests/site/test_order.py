"""Several controllers: status and order if the first one fails, progress, and signals to a group."""

import json
import os
import pty
import re
import signal
import subprocess
import sys
import time
import unittest
from contextlib import suppress
from unittest import mock

import harness
from stand_ins import StandIn, an_object, enumerated, local_socket, real, string

FORTY = {(0, 1, 85): real("42290000"), (8, 77, 76): an_object(0, 1), (0, 1, 77): string("A")}
NAMES = {(8, 77, number): string("x") for number in (77, 121, 70)}


class Several(harness.SiteTest):
    def both(self, **more):
        """The addresses of a device that refuses all requests at once, and of one that answers later."""
        return self.stand_in({}).address, self.stand_in({**FORTY, **NAMES}, delay=0.3, **more).address

    def test_a_poll_does_not_forget_who_failed_first(self):
        bad, good = self.both()
        for lines in (("a %s" % bad, "b %s" % good), ("b %s" % good, "a %s" % bad)):
            text = "".join(line + " 0 1 85\n" for line in lines)
            for options, wanted in (((), "ab"), (("--sorted",), "".join(it[0] for it in lines))):
                words = ["poll", *options, "--apdu-timeout", "5000", self.path("both", text)]
                status, out, _ = self.run_site(*words)
                names = re.findall(r"(?m)^\S+\t(.)\t", out)
                self.assertEqual((status, "".join(names)), (1, wanted))

    def test_a_survey_does_not_forget_who_failed_first(self):
        bad, good = self.both()
        for options, wanted in (
            ((), [bad, good]),
            (("--sorted",), [good, bad]),
            (("--html", self.world.folder + "/both.html"), [good, bad]),
        ):
            words = ["survey", *options, "--devices", "--apdu-timeout", "5000", good, bad]
            status, out, _ = self.run_site(*words)
            if "--html" in options:
                with open(options[1], encoding="utf-8") as file:
                    out = "\n".join(re.findall(r"<dt>address</dt><dd>([0-9.:]+)", file.read()))
            with self.subTest(options=options):
                self.assertEqual((status, re.findall(r"(?m)^127\S+", out)), (1, wanted))

    def test_prometheus_keeps_the_order_of_the_list(self):
        bad, good = self.both()
        text = "b %s 0 1 85\na %s 0 1 85\n" % (good, bad)
        words = ["prometheus", "--no-flags", self.path("both", text)]
        path = self.world.folder + "/both.prom"
        self.assertEqual(self.run_site(*words, path)[0], 1)
        with open(path, encoding="utf-8") as file:
            found = re.findall(r'bacnet_up{point="(.)".* (.)\n', file.read())
        self.assertEqual(found, [("b", "1"), ("a", "0")])

    def test_a_deadline_is_kept_in_order_too(self):
        slow = self.stand_in({**FORTY, **NAMES, (0, 1, 85): "silent"}, delay=0.2)
        words = ["survey", "--sorted", "--deadline", "1", "--apdu-timeout", "20000"]
        begun = time.monotonic()
        status, out, _ = self.run_site(*words, "77@" + slow.address, "1000@DEV")
        self.assertEqual(status, 1)
        self.assertRegex(out, "deadline|not done in time")
        self.assertLess(time.monotonic() - begun, harness.at_load(18))

    def test_a_vendors_object_has_a_unit_too(self):
        unit = {(300, 2, 77): string("V"), (300, 2, 85): real("42290000"), (300, 2, 117): enumerated(62)}
        self.stand_in({**NAMES, **unit, (8, 77, 76): an_object(300, 2)})
        status, out, _ = self.run_site("survey", "HERE", "--json")
        found = json.loads(out)["objects"][0]
        self.assertEqual((status, found["value"], found["unit"]), (0, "42.25", "degrees-celsius"))
        self.stand_in({**NAMES, **unit, (300, 2, 117): enumerated(999), (8, 77, 76): an_object(300, 2)})
        found = json.loads(self.run_site("survey", "HERE", "--json")[1])["objects"][0]
        self.assertEqual(found["unit"], "999")

    def test_the_last_property_is_asked_for(self):
        device = self.stand_in({(0, 1, 77): string("A"), (0, 1, 85): real("42290000")})
        status, out, _ = self.run_site("properties", "HERE", "0", "1", "--last", "85")
        wanted = "77 object-name A\n85 present-value 42.25\n"
        self.assertEqual((status, out, max(device.asked)), (0, wanted, (0, 1, 4194303)))
        self.assertEqual(sorted(it[2] for it in device.asked), [*range(86), 371, 4194303])
        self.assertNotIn("85", self.run_site("properties", "HERE", "0", "1", "--last", "84")[1])


class Terminal(harness.SiteTest):
    def told(self, *words):
        """The output, and the progress that a terminal shows. It is read meanwhile, since a terminal holds little."""
        terminal, side = pty.openpty()
        shown = b""
        with subprocess.Popen([*self.world.command, *words], stdout=subprocess.PIPE, stderr=side) as process:
            os.close(side)
            with suppress(OSError):  # once nobody has the other side
                while True:
                    shown += os.read(terminal, 65536)
            os.close(terminal)
            return process.stdout.read().decode(), shown.decode()

    def test_how_far_it_is_in_both_orders(self):
        fast = self.stand_in({**FORTY, (0, 2, 85): real("42290000")})
        slow = self.stand_in(FORTY, delay=min(4, harness.at_load(0.9)))
        text = "s %s 0 1 85\n" % slow.address + "".join(
            "f %s 0 %d 85\n" % (fast.address, at) for at in (1, 2)
        )
        both = ["77@" + slow.address, "77@" + fast.address]
        for words, told in (
            (["poll", "--no-flags", self.path("two", text)], "\r1 of 2 done, 3 calls "),
            (["survey", "--devices", *both], "\r1 of 2 done, "),
            (["survey", "--devices", "--sorted", *both], "\r1 of 2 done, "),
        ):
            _, shown = self.told(*words, "--apdu-timeout", "5000")
            with self.subTest(words=words):
                self.assertIn(told, shown)
                self.assertTrue(shown.endswith("\r\x1b[K"), shown)

    def test_a_write_shows_no_progress(self):
        slow = self.stand_in({**FORTY, (0, 1, 79): enumerated(0)}, delay=0.5)
        out, shown = self.told("write", slow.address, "0", "1", "5", "--apdu-timeout", "5000")
        self.assertIn("write 5: ok", out)
        self.assertEqual(shown, "")


class Group(harness.SiteTest):
    def test_a_signal_to_the_group_ends_all_at_once(self):
        slow = [self.stand_in({**FORTY, (0, 1, 85): "silent"}) for _ in range(3)]
        text = "".join("p %s 0 1 85\n" % it.address for it in slow)
        path = self.path("group", text)
        for number in (signal.SIGINT, signal.SIGTERM, signal.SIGHUP):
            for device in slow:
                device.asked.clear()
            words = ["poll", path, "--apdu-timeout", "30000"]
            with self.begun(*words, start_new_session=True) as process:
                while not all(it.asked for it in slow):
                    self.assertIsNone(process.poll())
                begun = time.monotonic()
                os.killpg(process.pid, number)
                out, err = process.communicate(timeout=20)
            self.assertEqual((process.returncode, out, err), (-number, b"", b""))
            self.assertLess(time.monotonic() - begun, harness.at_load(6))


class Harness(unittest.TestCase):
    def test_a_device_counts_a_request_that_comes_while_another_is_open(self):
        with local_socket() as desk:
            place = local_socket()
            for _ in range(2):
                desk.sendto(bytes.fromhex("810a000801001008"), place.getsockname())
            device = StandIn(77, {}, delay=0.01, at=place)
            desk.settimeout(harness.at_load(20))
            self.assertEqual([desk.recv(99)[6:8] for _ in range(2)], [b"\x10\0"] * 2)
            self.assertEqual(device.early, 1)

    def test_a_loaded_machine_has_more_time(self):
        count = os.cpu_count() or 1
        for load, seconds in ((0.0, 6), (count / 2, 6), (count * 1.0, 6), (count * 2.0, 12)):
            with mock.patch("os.getloadavg", return_value=(load, 0.0, 0.0)):
                self.assertEqual(harness.at_load(6), seconds)

    def test_devices_that_do_not_come_up_are_not_left(self):
        mark = "30%d" % (100000 + os.getpid())
        tool = harness.world().folder + "/failing"
        with open(tool, "w", encoding="ascii") as file:
            file.write('#!/bin/sh\ncase "$1" in bacdev) exec sleep %s ;; *) exit 3 ;; esac\n' % mark)
        os.chmod(tool, 0o755)
        code = "import harness; harness.world()"
        done = subprocess.run(
            [sys.executable, "-c", code],
            cwd=os.path.dirname(os.path.abspath(__file__)),
            env={**os.environ, "BACTOOL": tool},
            stderr=subprocess.PIPE,
        )
        self.assertIn(b"bacdev does not answer", done.stderr)
        self.assertEqual([it for it in os.listdir("/proc") if mark in words_of(it)], [])


def words_of(process):
    """The words of a process."""
    try:
        with open(f"/proc/{process}/cmdline", encoding="utf-8", errors="replace") as file:
            return file.read().split("\0")
    except OSError:
        return []


if __name__ == "__main__":
    unittest.main()
