"""Stations behind a router: each is read and written through its route, and a survey lists them."""

import csv
import io
import json
import os
import signal
import time
import unittest

import harness
from stand_ins import NULL, RouterStandIn, StandIn, an_object, enumerated, real, string, unsigned

NAMED = {(8, 77, 77): string("Router"), (8, 77, 121): string("V"), (8, 77, 70): string("M")}
OWN = {**NAMED, (8, 77, 76): an_object(8, 77)}


def station(instance, octets, **more):
    """A station with a temperature, and a valve that is commanded."""
    device = {(8, instance, number): string("S") for number in (77, 70, 121)}
    sensor = {(0, 1, 77): string("T"), (0, 1, 79): enumerated(0), (0, 1, 85): real(octets)}
    valve = {(1, 1, 77): string("Valve"), (1, 1, 79): enumerated(1), (1, 1, 85): real("00000000")}
    valve.update({(1, 1, 87): NULL * 16, (1, 1, 104): real("00000000")})
    text = {(40, 1, 77): string("Text"), (40, 1, 79): enumerated(40), (40, 1, 85): string("old")}
    listed = {(8, instance, 76): an_object(8, instance) + an_object(0, 1)}
    return StandIn(instance, {**device, **sensor, **valve, **text, **listed}, **more)


class Stations(harness.SiteTest):
    patience = harness.PATIENT

    def setUp(self):
        super().setUp()
        self.first, self.second = station(11, "42290000"), station(12, "42480000")
        self.router = self.stand_in(OWN, kind=RouterStandIn)
        self.router.stations = {"5/01": self.first, "65534/0a0b0c": self.second}

    def test_points(self):
        self.rows(
            """
            read HERE/5/01 0 1 85 => 0 42.25
            read HERE/65534/0A0B0C 0 1 85 => 0 50
            read 11@HERE/5/01 0 1 85 => 0 42.25
            read 12@HERE/5/01 0 1 85 => 1 another device: 8:11
            read HERE 0 1 85 => 1 error 2 32
            read HERE/5/02 0 1 85 => 1 timeout
            check -w 50 HERE/5/01 0 1 85 => 0 BACNET OK - 42.25 | value=42.25;50;~:
            check -H 12@HERE/65534/0a0b0c -w 49 0 1 85 => 1 BACNET WARNING - 50 | value=50;49;~:
            check HERE/5/02 0 1 85 => 2 BACNET CRITICAL - timeout
            """
        )
        wanted = "77 object-name T\n79 object-type 0 (analog-input)\n85 present-value 42.25\n"
        found = self.run_site("properties", "HERE/5/01", "0", "1", "--last", "85")
        self.assertEqual(found, (0, wanted, ""))

    def test_a_list(self):
        text = "a HERE/5/01 0 1 85\nb HERE/65534/0a0b0c 0 1 85\nc HERE 8 77 77\n"
        path = self.path("stations", text)
        status, out, _ = self.run_site("poll", "--sorted", path)
        rows = [line.split("\t")[1:3] for line in out.splitlines()]
        self.assertEqual((status, rows), (0, [["a", "42.25"], ["b", "50"], ["c", "Router"]]))
        out = self.world.folder + "/routed.prom"
        self.assertEqual(self.run_site("prometheus", path, out)[0], 0)
        with open(out, encoding="utf-8") as file:
            text = self.spelled('bacnet_value{point="a",address="HERE/5/01"} 42.25\n')
            self.assertIn(text, file.read())

    def test_one_request_at_a_time_behind_a_router(self):
        self.router.delay = 0.02
        lines = ["p HERE/%s 0 1 85\n" % it for it in self.router.stations] * 5
        self.assertEqual(self.run_site("poll", "--no-flags", self.path("slow-line", "".join(lines)))[0], 0)
        self.assertEqual((self.router.heard, self.router.early), (10, 0))

    def test_a_survey(self):
        wanted = "HERE  device 77  Router  V  M\nHERE/5/01  device 11\nHERE/65534/0a0b0c  device 12\n"
        self.assertEqual(self.run_site("survey", "HERE"), (0, self.spelled(wanted), ""))
        self.assertEqual(self.first.asked, ["who-is"], "they are named, and not asked")
        found = self.run_site("survey", "HERE", "--json")[1]
        told = [(it["address"], it["device"]) for it in map(json.loads, found.splitlines())]
        self.assertEqual(told[1], (self.spelled("HERE/5/01"), 11))
        asked = len(self.router.asked)
        word = "127.0.0.1-1:" + self.names["HERE"].partition(":")[2]
        wanted = self.spelled("HERE  device 77  Router  V  M\n")
        self.assertEqual(self.run_site("survey", word)[1], wanted)
        self.assertNotIn("who-is", self.router.asked[asked:], "of a range nobody looks behind")
        rows = list(csv.reader(io.StringIO(self.run_site("survey", "HERE", "--csv")[1])))
        self.assertEqual(rows[2][:3], [self.spelled("HERE/5/01"), "11", ""])
        self.rows(
            """
            survey 11@HERE/5/01 => 0 HERE/5/01  device 11  S  S  S;  0:1  analog-input  T  42.25  -
            survey HERE/5/02 => 1 HERE/5/02  device -  timeout
            """
        )

    def test_a_survey_of_stations(self):
        status, out, _ = self.run_site("survey", "HERE", "--stations", *harness.LISTEN)
        lines = ["HERE  device 77  Router  V  M"]
        for route, instance, value in (("5/01", 11, "42.25"), ("65534/0a0b0c", 12, "50")):
            lines.append("HERE/%s  device %d  S  S  S" % (route, instance))
            lines.append("  0:1  analog-input  T  %s  -" % value)
        self.assertEqual((status, out), (0, self.spelled("\n".join(lines) + "\n")))
        self.assertEqual(self.router.early, 0)
        page = self.path("stations.html", "")
        self.assertEqual(self.run_site("survey", "HERE", "--stations", *harness.LISTEN, "--html", page)[0], 0)
        with open(page, encoding="utf-8") as file:
            self.assertIn(self.spelled("HERE/5/01</a>"), file.read())

    def naming_both(self, *words):
        """Surveys until both stations are listed: if they are not asked for, nobody waits for their I-Am."""
        for _ in range(9):
            out = self.run_site("survey", *words, "--json")[1]
            if out.count('/5/0') == 2:
                break
        return out

    def test_a_station_that_is_gone(self):
        """A station that is gone is reported for each way to ask for the stations behind the router."""
        for words in ["HERE"], ["HERE", "--stations", *harness.LISTEN], ["HERE/5/*", *harness.LISTEN]:
            self.router.stations = {"5/01": self.first, "5/02": self.second}
            before = self.path("stations.json", self.naming_both(*words))
            self.assertNotIn("since", self.run_site("survey", *words, "--since", before)[1])
            self.router.stations = {"5/01": self.first}
            status, out, _ = self.run_site("survey", *words, "--since", before, patience=harness.HURRIED)
            name = "" if words == ["HERE"] else " S"
            wanted = "HERE/5/02  device -  timeout\n  since: was device 12%s\n" % name
            self.assertEqual(status, 1)
            self.assertIn(self.spelled(wanted), out)
            self.assertEqual(out.count("since"), 1)

    def test_nobody_waits_for_stations_that_were_not_asked_for(self):
        """A Who-Is waits for half a minute here; the stations that have answered by the end are listed."""
        router = self.stand_in({}, kind=RouterStandIn)
        router.stations = {"5/07": StandIn(78, {})}
        begun = time.monotonic()
        _, out, _ = self.run_site("survey", "HERE", "--devices", "--apdu-timeout", "30000")
        self.assertLess(time.monotonic() - begun, 25)
        self.assertIn("/5/07  device 78", out)

    def test_a_search_keeps_the_deadline(self):
        begun = time.monotonic()
        words = ["survey", "--devices", "HERE", "--apdu-timeout", "20000", "--deadline", "1"]
        status, out, _ = self.run_site(*words)
        self.assertLess(time.monotonic() - begun, harness.at_load(8))
        lines = ["HERE  device 77  Router  V  M", "HERE/5/01  device 11"]
        lines += ["HERE/65534/0a0b0c  device 12", ""]
        self.assertEqual((status, out), (0, self.spelled("\n".join(lines))), "who was heard by then")

    def test_a_survey_of_a_router_that_is_no_device(self):
        self.router.values[8, 4194303, 75] = "silent"
        self.router.values[8, 77, 75] = "silent"
        # The reads are given up long after all have answered the Who-Is, also on a busy machine.
        found = self.run_site("survey", "HERE", "--apdu-timeout", "3000", "--apdu-retries", "0")
        lines = ["HERE  device -  timeout; device 77 answers a Who-Is, and no read"]
        lines += ["HERE/5/01  device 11", "HERE/65534/0a0b0c  device 12"]
        self.assertEqual(found[:2], (1, self.spelled("".join(it + "\n" for it in lines))))

    def test_an_old_station_is_asked_by_a_who_is(self):
        old = station(13, "42290000", knows_itself=False)
        self.router.stations["5/03"] = old
        self.rows("read 13@HERE/5/03 0 1 85 => 0 42.25")
        self.rows("survey --devices HERE/5/03 => 0 HERE/5/03  device 13  S  S  S")

    def written(self, *words, status=0, **more):
        found, out, err = self.run_site("write", "HERE/5/01", *words, **more)
        self.assertEqual((found, err), (status, ""))
        return out.splitlines()[3:]

    def test_a_write(self):
        lines = self.written("1", "1", "20", "--priority", "8")
        wanted = ["write 20 at priority 8: ok", "now: 20", "priority 8 (manual-operator): 20"]
        self.assertEqual(lines, [*wanted, "relinquish-default: 0"])
        self.assertEqual(self.first.written, [((1, 1, 85), real("41a00000"), 8)])
        lines = self.written("1", "1", "null", "--priority", "8")
        self.assertEqual(lines[0], "write null at priority 8: ok")
        self.assertEqual(self.written("40", "1", "Grüße")[:2], ['write "Grüße": ok', "now: Grüße"])
        self.assertEqual(self.second.written + self.router.written, [])

    def test_what_a_line_can_not_say(self):
        for text in "Room 5", "", "a\nwrite x", "a\tb", " ":
            found = self.run_site("write", "HERE/5/01", "40", "1", text)
            told = "bacsite: no text with a space, and no empty one, can be sent behind a router"
            self.assertEqual(found, (2, "", told + "; no write was sent\n"), repr(text))
        self.assertEqual(self.first.written, [])
        self.assertEqual(self.run_site("write", "HERE/5/01", "40", "1", "Room5", "--dry-run")[0], 0)
        self.assertEqual(self.first.written, [])

    def test_a_text_that_is_too_long(self):
        found = self.run_site("write", "HERE/5/01", "40", "1", "x" * 5000)
        self.assertEqual((found[0], self.first.written), (2, []))
        self.assertRegex(found[1].splitlines()[3], r"no write was sent: [a-z]+: line \d+: too long\Z")

    def test_how_a_write_ends(self):
        for mode, told, count in (
            ("refuse", "refused: error 2 40", 1),
            ("reject", "refused: reject 9", 1),
            ("abort", "outcome not known: the write may have been made (abort 0)", 1),
            ("silent", "outcome not known: the write may have been made (timeout)", 3),
        ):
            self.first.writes, self.first.written = mode, []
            patience = harness.HURRIED if mode == "silent" else self.patience
            line = self.written("1", "1", "20", "--priority", "8", status=1, patience=patience)[0]
            self.assertEqual(line, "write 20 at priority 8: " + told)
            self.assertEqual(len(self.first.written), count, "sent again after a time-out alone")

    def test_a_write_that_a_signal_ends(self):
        self.first.writes = "silent"
        words = "write HERE/5/01 1 1 20 --priority 8 --apdu-timeout 60000".split()
        with self.begun(*words) as process:
            while not self.first.written:
                pass
            process.send_signal(signal.SIGTERM)
            err = process.communicate(timeout=20)[1]
        self.assertIn(b"ended by a signal: the write may have been made", err)

    def test_a_journal(self):
        folder = self.world.folder + "/routed"
        os.mkdir(folder)
        self.rows("read HERE/5/01 0 1 85 --journal IN/routed => 0 42.25")
        (name,) = os.listdir(folder)
        self.assertEqual(name, self.spelled("HERE").replace(":", "_") + "_5_01-1.trace")
        with open(folder + "/" + name, encoding="ascii") as file:
            self.assertIn(self.spelled("\nread HERE/5/01 0 1 85\n"), file.read())

    def test_an_answer_of_another_station_is_none(self):
        self.router.stations = {"5/02": self.first}
        self.router.send_from = lambda route, reply, client: RouterStandIn.send_from(
            self.router, "5/03", reply, client
        )
        self.rows("read HERE/5/02 0 1 85 => 1 timeout (answered from HERE/5/03)")

    def test_an_unsigned_behind_a_router(self):
        self.first.values[0, 1, 85] = unsigned(42290000)
        self.rows("read HERE/5/01 0 1 85 => 1 no real: unsigned 42290000")


if __name__ == "__main__":
    unittest.main()
