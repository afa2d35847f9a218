"""Calls: late answers, answers about other points, busy and slow controllers, tools that fail."""

import io
import os
import resource
import struct
import subprocess
import sys
import time
import unittest

import network_namespace
import harness
from bacsite import messages, streams, tools
from bacsite.standard import PropertyRef
from datagram_builders import wrapped
from stand_ins import LateStandIn, StandIn, real, string, unsigned


class OtherStandIn(StandIn):
    """A device that answers this many times about the object with the next instance."""

    wrong = 1

    def reply(self, apdu):
        found = super().reply(apdu)
        if self.wrong and found[:1] == b"\x30":
            self.wrong -= 1
            found = found[:7] + bytes([found[7] + 1]) + found[8:]
        return found


FORTY = real("42290000")


def ack(what, value=FORTY, head="0100"):
    """A whole datagram that acknowledges a read."""
    body = b"\x0c" + struct.pack(">I", what[0] << 22 | what[1]) + b"\x19" + bytes(what[2:3])
    body += b"\x29" + bytes(what[3:]) if what[3:] else b""
    apdu = b"\x30\x01\x0c" + body + b"\x3e" + value + b"\x3f"
    return bytes.fromhex(wrapped(apdu.hex(), head))


class WhoseAnswer(harness.SiteTest):
    def test_a_value_is_taken_only_for_what_the_answer_is_about(self):
        good, strange = (FORTY, ""), (b"", messages.STRANGE)
        for asked, told, wanted in (
            ((0, 1, 85), (0, 1, 85), good),
            ((0, 1, 85), (0, 2, 85), strange),
            ((0, 1, 85), (1, 1, 85), strange),
            ((0, 1, 85), (0, 1, 77), strange),
            ((0, 1, 85), (0, 1, 85, 1), strange),
            ((1, 1, 87, 8), (1, 1, 87, 8), good),
            ((1, 1, 87, 8), (1, 1, 87, 9), strange),
            ((1, 1, 87, 8), (1, 1, 87), (b"", "an answer without its index")),
            ((1, 1, 87, 8), (1, 2, 87), strange),
            ((8, 4194303, 75), (8, 77, 75), good),
            ((8, 4194303, 75), (8, 77, 77), strange),
            ((8, 4194303, 75), (0, 77, 75), strange),
            ((8, 77, 75), (8, 78, 75), strange),
            ((0, 4194303, 85), (0, 7, 85), strange),
        ):
            for head in "0100", "01080005010a", "0120ffff00ff":
                with self.subTest(asked=asked, told=told, head=head):
                    ended = messages.Ended("value 42290000", ack(told, head=head))
                    self.assertEqual(messages.answer_of(ended, PropertyRef(*asked)), wanted)
        for outcome, apdu, wanted in (
            ("ok", "20010c", "bad-ack"),
            ("bad-ack", "30010c0c", "bad-ack"),
            ("segmented", "380100010c0c", "segmented"),
            ("error 2 32", "50010c91029120", "error 2 32"),
            ("bad-error", "50010c01", "bad-error"),
            ("reject 9", "600109", "reject 9"),
            ("abort 4", "710104", "abort 4"),
        ):
            ended = messages.Ended(outcome, bytes.fromhex(wrapped(apdu)))
            self.assertEqual(messages.answer_of(ended, PropertyRef(0, 1, 85)), (b"", wanted))
        self.assertEqual(messages.answer_of(messages.Ended("timeout"), PropertyRef(0, 1, 85)), (b"", "timeout"))

    def test_the_reader_is_compared_with_the_proved_printer(self):
        octets = ack((0, 1, 85))
        for outcome, datagram, told in (
            ("value 42290001", octets, "it reads value 42290000 and bactool value 42290001 in "),
            ("value 3", octets, "it reads value 42290000 and bactool value 3 in "),
            ("error 2 32", octets, "it reads value 42290000 and bactool error 2 32 in "),
            ("bad-ack", octets, "it reads value 42290000 and bactool bad-ack in "),
            ("value 3", b"", "it reads no answer and bactool value 3 in nothing"),
            ("value 3", b"\x81\x0a\0\4", "it reads no answer and bactool value 3 in 810a0004"),
        ):
            found = messages.answer_of(messages.Ended(outcome, datagram), PropertyRef(0, 1, 85))
            self.assertEqual((found.region, found.reason[:20]), (b"", "a fault of bacsite: "))
            end = datagram.hex() if told.endswith("in ") else ""
            self.assertEqual(found.reason[20:], told + end)

    def test_a_difference_is_told_as_a_fault_of_the_program(self):
        os.mkdir(self.world.folder + "/differing")
        lines = "data 127.0.0.1:9 %s\\n# done 0 value 3\\n" % ack((0, 1, 85)).hex()
        path = self.path("differing/bactool", "#!/bin/sh\nprintf '%s'\ncat >/dev/null" % lines)
        os.chmod(path, 0o755)
        told = "a fault of bacsite: it reads value 42290000 and bactool value 3 in 810a"
        for words, status, line in (
            (["read"], 1, told),
            (["check"], 3, "BACNET UNKNOWN - " + told),
        ):
            words += ["--tools", "IN/differing", "DEV", "0", "1", "85"]
            found, out, _ = self.run_site(*words)
            self.assertEqual((found, out[: len(line)]), (status, line))
        words = ["write", "--tools", "IN/differing", "DEV", "0", "1", "5"]
        self.assertIn("a fault of bacsite: ", self.run_site(*words)[2])

    def test_a_number_of_another_type_is_none(self):
        values = {(0, 1, 85): unsigned(42290000), (300, 1, 85): unsigned(42290000)}
        self.stand_in({**values, (23, 1, 85): FORTY, (13, 1, 85): real("00000001")})
        self.rows(
            """
            read HERE 0 1 85 => 1 no real: unsigned 42290000
            check HERE 0 1 85 => 3 BACNET UNKNOWN - no real: unsigned 42290000
            read HERE 300 1 85 => 0 42290000
            read HERE 23 1 85 => 1 no integer: real 42.25
            read HERE 13 1 85 => 1 no integer: real 1e-45
            """
        )

    def test_it_is_asked_for_again(self):
        values = {(0, 1, 85): real("42290000")}
        device = self.stand_in(values, kind=OtherStandIn)
        self.rows("read HERE 0 1 85 => 0 42.25")
        self.assertEqual(device.asked, [(0, 1, 85)] * 2 + [(0, 1, 111)])
        device = self.stand_in(values, kind=OtherStandIn)
        device.wrong = 9
        self.rows("read HERE 0 1 85 => 1 an answer about another point")
        self.assertEqual(device.asked, [(0, 1, 85)] * 3)

    @unittest.skipUnless(network_namespace.way(), "no network namespace can be made")
    def test_no_value_is_that_of_another_point(self):
        late = [sys.executable, os.path.dirname(__file__) + "/late_answers.py"]
        done = subprocess.run(
            [*network_namespace.way(), *late, self.world.command[-1]], stdout=subprocess.PIPE, encoding="ascii"
        )
        # Of 3000; fewer come on a busy machine, where some are given up.
        self.assertRegex(done.stdout, r"\A[1-9]\d{2,3} values, 0 of another point, late\n\Z")


class Calls(harness.SiteTest):
    def test_a_write_that_is_ended_is_told(self):
        ended = tools.Tools("bactool", 1000, 0, 1)
        ended.processes.end()
        with ended.writing():
            ended.run(["bacwp"])
        self.assertEqual(ended.writes, 1)

    def test_busy_controllers_are_asked_again(self):
        for reason in (3, 8, 9):
            device = self.stand_in(
                {(0, 1, 85): [("abort", reason), ("abort", reason), real("42290000")]}
            )
            self.rows("read HERE 0 1 85 --no-flags => 0 42.25")
            self.assertEqual(device.asked, [(0, 1, 85)] * 3)
        device = self.stand_in({(0, 1, 85): [("error", 0, 3), real("42290000")]})
        self.rows("read HERE 0 1 85 --no-flags => 0 42.25")
        device = self.stand_in({(0, 1, 85): ("abort", 9)})
        self.rows("read HERE 0 1 85 --no-flags --apdu-timeout 1500 --apdu-retries 1 => 1 abort 9")
        first, second = device.times
        self.assertGreater(second - first, 1.5)
        device = self.stand_in({(0, 1, 85): ("abort", 2)})
        self.rows("read HERE 0 1 85 --no-flags => 1 abort 2")
        self.assertEqual(len(device.asked), 1)

    def test_a_slow_controller_is_given_time(self):
        device = self.stand_in({(0, 1, 85): real("42290000")}, kind=LateStandIn, delay=1.2)
        path = self.path("slow", "p HERE 0 1 85\n" * 6)
        self.assertEqual(self.run_site("poll", "--no-flags", "--apdu-timeout", "800", path)[0], 0)
        self.assertEqual(device.heard, 7, "the first request alone is sent twice")

    def test_a_fast_controller_keeps_the_time(self):
        device = self.stand_in({(0, 1, 85): real("42290000"), (0, 2, 85): "silent"})
        path = self.path("fast", "a HERE 0 1 85\nb HERE 0 2 85\n")
        words = ["poll", "--no-flags", "--apdu-timeout", "2000", "--apdu-retries", "1", path]
        self.assertEqual(self.run_site(*words)[0], 1)
        _, first, second = device.times
        self.assertLess(second - first, 3.9, "it is sent again after two seconds, not four")

    def test_what_is_too_long_is_read_by_its_elements(self):
        texts = {(13, 1, 110, at): string("State %d" % at) for at in range(1, 40)}
        for reason in (1, 4, 11):
            self.stand_in({(13, 1, 110): ("abort", reason), (13, 1, 110, 0): unsigned(39), **texts})
            self.rows(
                "read HERE 13 1 110 => 0 {%s}" % ", ".join('"State %d"' % at for at in range(1, 40))
            )
        for count, text in (
            (("error", 2, 42), "abort 4"),
            (unsigned(4000000000), "abort 4"),
            (unsigned(3), "element 1 of 3: error 2 32"),
            (unsigned(1), "element 1 of 1: error 2 32"),
            (string("x"), "abort 4"),
        ):
            device = self.stand_in({(13, 1, 110): ("abort", 4), (13, 1, 110, 0): count})
            self.rows("read HERE 13 1 110 => 1 " + text)
            self.assertLessEqual(len(device.asked), 3)

    def test_journals(self):
        device = self.stand_in({(0, at, 85): real("42290000") for at in range(9)}, lose=5)
        folder = self.world.folder + "/journals"
        os.mkdir(folder)
        path = self.path("noted", "".join("p HERE 0 %d 85\n" % at for at in range(9)))
        self.assertEqual(self.run_site("poll", path, "--journal", folder)[0], 0)
        names, sends = sorted(os.listdir(folder)), 0
        self.assertEqual(names[0], device.address.replace(":", "_") + "-1.trace")
        for name in names:
            with open(folder + "/" + name, encoding="ascii") as file:
                told = file.read()
            if not told:
                continue  # as a bacrun leaves it whose port is taken; the sends are counted below
            replayed = subprocess.run(
                [harness.TOOL, "bactrace"], input=told, stdout=subprocess.PIPE, encoding="ascii"
            )
            *lines, closing = told.splitlines()
            self.assertEqual(closing, "# end of the run")
            said = [line[2:] for line in lines if line.startswith("# ")]
            self.assertEqual((replayed.returncode, replayed.stdout.splitlines()), (0, said))
            sends += told.count("# send")
        self.assertEqual(sends, device.heard)
        self.rows("read HERE 0 1 85 --journal IN/none => 3 !no folder: IN/none")

    def test_a_journal_on_a_full_disk(self):
        """The value is shown anyway, and a status that alerts stays."""
        folder = self.world.folder + "/full"
        os.mkdir(folder)
        full = {"before": lambda: resource.setrlimit(resource.RLIMIT_FSIZE, (150, 150))}
        path = self.names["DEV"].replace(":", "_")
        for words, status, shown in (
            ("read DEV 0 5 85", 3, "72.3\n"),
            ("check DEV 0 5 85", 3, "BACNET OK - 72.3 | value=72.3;~:;~:\n"),
            ("check -c 80: DEV 0 5 85", 2, "BACNET CRITICAL - 72.3 | value=72.3;~:;80:\n"),
            ("read DEV 0 5 9999", 3, "error 2 32\n"),
            ("survey 1000@DEV --list", 3, ""),
        ):
            with self.subTest(words=words):
                found = self.run_site(*words.split(), "--journal", folder, **full)
                # a bacrun whose port was taken has an empty journal too
                name = "%s/%s-%d.trace" % (folder, path, len(os.listdir(folder)))
                told = "bacsite: cannot write %s: File too large\n" % name
                out = shown or found[1]
                self.assertEqual((found, os.path.getsize(name)), ((status, out, told), 150))
        self.assertEqual(found[1].count("1000@"), 11)

    def test_a_journal_that_takes_a_line_in_parts(self):
        class Slow(io.BytesIO):
            def write(self, octets):
                return super().write(octets[:5])

        file = Slow()
        streams.Journal(streams.Journals(), file).add("# done 0 ok")
        self.assertEqual(file.getvalue(), b"# done 0 ok\n")

    def test_a_journal_that_can_not_be_begun(self):
        folder = self.world.folder + "/gone"
        os.mkdir(folder)
        kept = streams.Journals(folder)
        os.rmdir(folder)
        self.assertIsNone(kept.begun("192.0.2.7:47808/5/01"))
        told = "cannot write %s/192.0.2.7_47808_5_01: No such file or directory" % folder
        self.assertEqual(kept.fault, told)

    def test_tools_that_fail(self):
        os.mkdir(self.world.folder + "/odd")
        for text, wanted in (
            ("kill -9 $$", "no line of bacrun, status -9"),
            ("exit 0", "no line of bacrun, status 0"),
            ("echo 'bactool: no such thing' >&2; exit 3", "bactool: no such thing"),
            ("echo 1; echo 2", "no line of bacrun, status 0"),
            ("printf '\\377'", "no line of bacrun, status 0"),
            ("printf '# done 7 ok\\n# send x\\ndata x\\n\\n'", "no line of bacrun, status 0"),
        ):
            os.chmod(self.path("odd/bactool", "#!/bin/sh\n%s\n" % text), 0o755)
            self.rows("read --tools IN/odd DEV 0 5 85 => 1 " + wanted)
            status, _, _ = self.run_site("check", "--tools", "IN/odd", "DEV", "0", "5", "85")
            self.assertEqual(status, 3)
        self.path("odd/bactool", "#!/nowhere\n")
        self.rows(
            "read --tools IN/odd DEV 0 5 85 => 1 cannot run IN/odd/bactool: No such file or directory"
        )


if __name__ == "__main__":
    unittest.main()
