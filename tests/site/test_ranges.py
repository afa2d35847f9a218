"""Surveys of ranges, and of devices known only from a Who-Is: which are listed, and which are silent."""

import time
import unittest

import harness
from stand_ins import NAMED, LateStandIn, StandIn, an_object

HURRIED = ["--apdu-timeout", "300"]  # also on a busy machine


class TwoStandIn(StandIn):
    """An address from which another device also answers a Who-Is."""

    def send(self, reply, client):
        super().send(reply, client)
        if reply[:2] == b"\x10\x00":
            super().send(reply[:2] + an_object(8, 78) + reply[7:], client)


class SlowStandIn(StandIn):
    """A device that serves one request after another, each for 1.9 s, and answers no Who-Is."""

    def reply(self, apdu):
        time.sleep(1.9)
        return b"" if apdu[:2] == b"\x10\x08" else super().reply(apdu)


class Ranges(harness.SiteTest):
    def test_who_does_not_know_4194303_is_asked_by_a_who_is(self):
        old = self.stand_in({**NAMED, (8, 77, 76): b""}, knows_itself=False)
        self.assertEqual(
            self.run_site("survey", "HERE")[:2], (0, self.spelled("HERE  device 77  D  V  M\n"))
        )
        self.assertIn("who-is", old.asked)
        self.rows(
            "survey 78@HERE => 1 HERE  device -  another device: 8:77\nread 77@HERE 8 77 77 => 0 D"
        )
        stranger = self.stand_in({}, knows_itself=False)
        del stranger.values[8, 77, 75]
        self.rows("survey HERE => 1 HERE  device -  error 2 32")

    def test_the_device_0_is_no_other_one(self):
        """0 names a device, as each other number does."""
        told = "another device: 8:1000"
        self.rows(f"""
            survey 0@DEV => 1 DEV  device -  {told}
            read 0@DEV 0 5 85 => 1 {told}
            properties 0@DEV 0 5 => 1 77 object-name {told}
            check 0@DEV 0 5 85 => 3 BACNET UNKNOWN - {told}
            write 0@DEV 1 1 20 --priority 8 => 1 !{told}; no write was sent
            prometheus {self.path("zero", "z 0@DEV 0 5 85")} IN/zero.prom => 1
        """)

    def test_two_who_answer_a_who_is_are_none(self):
        self.stand_in(NAMED, kind=TwoStandIn, knows_itself=False)
        self.rows("survey HERE => 1 HERE  device -  error 1 31")

    def test_ranges_hide_who_is_silent(self):
        self.stand_in(NAMED)
        port = self.names["HERE"].split(":")[1]
        found = self.run_site("survey", "--devices", "127.0.0.1-4:" + port)
        wanted = self.spelled("HERE  device 77  D  V  M\n")
        self.assertEqual(found, (0, wanted, "4 asked, 1 device, 3 silent\n"))
        status, out, _ = self.run_site("survey", "--devices", "--silent", "127.0.0.0/29:" + port)
        self.assertEqual((status, out.count("\n"), out.count("timeout")), (0, 6, 5))
        port = self.names["DEAD"].split(":")[1]
        found = self.run_site("survey", "127.0.0.1-2:" + port)
        self.assertEqual(found, (1, "", "2 asked, 0 devices, 2 silent\n"))

    def test_a_range_shows_where_nothing_can_be_sent(self):
        """Nobody is at the first address, and the second one is for broadcasts."""
        port = self.names["DEAD"].split(":")[1]
        found = self.run_site("survey", "127.255.255.254-255:" + port)
        line = "127.255.255.255:%s  device -  timeout (the system refused to send it)\n" % port
        counts = "2 asked, 0 devices, 1 silent, 1 for another reason without a device\n"
        self.assertEqual(found, (1, line, counts))

    def test_a_range_hides_nobody_who_answers_a_who_is(self):
        port = self.names["DEV"].split(":")[1]
        status, out, err = self.run_site("survey", "--devices", "--sorted", "127.0.0.1-2:" + port)
        odd = "127.0.0.2:%s  device -  timeout; device 1000 answers a Who-Is from 127.0.0.1:%s"
        self.assertEqual((status, out.splitlines()[-1]), (1, odd % (port, port)))
        told = "2 asked, 1 device, 0 silent, 1 for another reason without a device\n"
        self.assertEqual(err, told)
        own = {(8, 4194303, 75): "silent", (8, 77, 75): "silent"}
        self.stand_in({**NAMED, **own})
        status, out, _ = self.run_site("survey", "127.0.0.1-1:" + self.names["HERE"].split(":")[1])
        told = "HERE  device -  timeout; device 77 answers a Who-Is, and no read\n"
        self.assertEqual((status, out), (1, self.spelled(told)))

    def test_one_who_answers_very_late_is_not_hidden(self):
        """The answer of a late device is awaited for longer than all the first requests."""
        slow = max(1, round(harness.at_load(0.4)))  # on a busy machine all takes so many times as long
        hurried = ["--apdu-timeout", str(300 * slow)]
        for values, told in (
            ({}, "device 77 answers a read very late"),
            ({(8, 4194303, 75): ("error", 1, 31)}, "a read is answered very late: error 1 31"),
            ({(8, 4194303, 75): an_object(0, 1)}, "a read is answered very late: by no device"),
        ):
            self.stand_in({**NAMED, **values}, kind=LateStandIn, delay=1.8 * slow)
            word = "127.0.0.1-2:" + self.names["HERE"].split(":")[1]
            line = self.spelled("HERE  device -  timeout; %s\n" % told)
            counts = "2 asked, 0 devices, 1 silent, 1 for another reason without a device\n"
            self.assertEqual(self.run_site("survey", word, *hurried), (1, line, counts))
        words = ["survey", "--devices", "--sorted", "--silent", word, "1000@DEV", *hurried]
        lines = self.run_site(*words)[1].splitlines()
        other = line.replace("127.0.0.1", "127.0.0.2").partition(";")[0]
        self.assertEqual(lines[:2], [line[:-1], other])
        self.assertIn("  device 1000  ", lines[2])
        self.stand_in(NAMED, kind=LateStandIn, delay=1.3 * slow)
        word = "127.0.0.1-2:" + self.names["HERE"].split(":")[1]
        found = self.run_site("survey", word, "--apdu-timeout", str(250 * slow), "--deadline", str(2 * slow))
        late = self.spelled("HERE  device -  timeout; a read is answered very late\n")
        self.assertEqual(found, (1, late, counts), "what came to the first socket counts")

    def test_one_request_at_a_time(self):
        """A device that serves one request after another answers each only after the survey gave it up; the last read
        waits until the others are served."""
        self.stand_in(NAMED, kind=SlowStandIn)
        found = self.run_site("survey", "127.0.0.1-1:" + self.names["HERE"].split(":")[1], *HURRIED)
        line = self.spelled("HERE  device -  timeout; a read is answered very late\n")
        counts = "1 asked, 0 devices, 0 silent, 1 for another reason without a device\n"
        self.assertEqual(found, (1, line, counts))

    def test_a_lost_race_does_not_cost_the_device(self):
        for word in "HERE", "127.0.0.1-1:":
            own = an_object(8, 77)
            self.stand_in({**NAMED, (8, 77, 76): own, (8, 4194303, 75): ["silent"] * 3 + [own]})
            word += self.names["HERE"].split(":")[1] if word[-1] == ":" else ""
            wanted = self.spelled("HERE  device 77  D  V  M\n")
            self.assertEqual(self.run_site("survey", word)[:2], (0, wanted))


if __name__ == "__main__":
    unittest.main()
