"""Watched points: rows, gaps, the file, the page, and whose values they are."""

import csv
import errno
import glob
import json
import os
import re
import signal
import threading
import time
import unittest
import unittest.mock
from contextlib import suppress
from types import SimpleNamespace

import harness
from bacsite.controller import CALM, Controller, Pace
from bacsite.messages import Ended
from bacsite.page import MOST, Line, Sample, charts_page_of
from bacsite.parsing import duration_of, parser_of
from bacsite.points import Point, point_of
from bacsite.poll import Meaning, Meanings, Reading
from bacsite.standard import PropertyRef
from bacsite.streams import Journals, Rows, Failure
from bacsite.values import Kind, Value, Why, fault
from bacsite.values import NOTHING as NOTHING_READ
from bacsite.watch import COLUMNS, Live, Rounds, Row, Watch, _row, curve_of, with_gaps
from instant_devices import Course, QuickCalls
from stand_ins import StandIn, an_object, bits, enumerated, real, string, unsigned

A = "192.0.2.1:47808"
FIRST = b"\x0c\0\0\0\0\x19\x55"  # of an answer about the present value of 0:0
HEAD = "time,point,value,unit,state,flags,missing\n"
LAST = b"\x0c\0\0\0\xff"  # of an answer about 0:255
ROW = r"\d{4}-\d\d-\d\dT\d\d:\d\d:\d\d\.\d{3}Z"
NOTHING = "- - -"  # no unit, no state, no flags
ONCE = ["--apdu-timeout", "1000", "--apdu-retries", "0"]  # one who does not answer is asked once
DEGREES = {(0, 1, 117): enumerated(62), (0, 1, 111): bits("0000"), (0, 1, 77): string("Room")}


def data_of(page):
    """The data that the page draws."""
    return json.loads(re.search(r'id="data">(.*)</script>', page)[1])


class Watches(harness.SiteTest):
    patience = harness.PATIENT

    def watched(self, *words, **more):
        """The status, standard output without its times, and standard error."""
        every = "%.1f" % min(2, harness.at_load(0.5))
        status, out, err = self.run_site("watch", "--every", every, *words, **more)
        lines = [re.fullmatch(ROW + r"\t(.*)", line)[1] for line in out.splitlines()]
        return status, [line.replace("\t", " ") for line in lines], err

    def test_changes_are_printed_and_all_is_kept(self):
        values = {(0, 1, 85): [real("42290000")] * 3 + [real("40000000")], (4, 1, 85): enumerated(1), **DEGREES}
        values[(4, 1, 4)] = string("Running")
        device = self.stand_in(values)
        path, page = self.world.folder + "/kept.csv", self.world.folder + "/kept.html"
        points = self.path("watched", "t HERE 0 1 85\nf 77@HERE 4 1 85\n")
        words = [points, "--rounds", "5", "--csv", path, "--page", page]
        first = ["t 42.25 degrees-celsius - normal -", "f 1 - Running - -"]
        self.assertEqual(self.watched(*words), (0, [*first, "t 2 degrees-celsius - normal -"], ""))
        with open(path, encoding="utf-8") as file:
            head, *rows = file.read().splitlines()
        self.assertEqual(head + "\n", HEAD)
        self.assertEqual(
            [re.fullmatch(ROW + ",(.*)", row)[1] for row in rows],
            ["t,42.25,degrees-celsius,,normal,", "f,1,,Running,,"] * 3
            + ["t,2,degrees-celsius,,normal,", "f,1,,Running,,"] * 2,
        )
        self.assertEqual(len(set(device.ports)), 1, "one bacrun asks all the time")
        for what in (0, 1, 77), (0, 1, 117), (4, 1, 4):
            self.assertEqual(device.asked.count(what), 1, "names and units are asked for once")
        data = self.drawn(page)
        ((room,), (fan,)) = data["charts"]
        told = [(it["name"], it["label"], it["unit"], it["step"]) for it in (room, fan)]
        self.assertEqual(told, [("t", "Room", "degrees-celsius", False), ("f", "", "", True)])
        self.assertEqual([it[1:] for it in room["samples"]], [["42.25"]] * 2 + [["2"]] * 2)
        self.assertEqual([it[1:] for it in fan["samples"]], [["1", "Running"]] * 2)
        self.assertTrue(data["over"])
        self.assertEqual(self.watched(*words, "--all")[0], 0)
        earlier, *_ = room["samples"]
        again = self.drawn(page)["charts"][0][0]["samples"]
        self.assertEqual(again[:1], [earlier], "an earlier watch is drawn too")

    def drawn(self, page):
        with open(page, encoding="utf-8") as file:
            return data_of(file.read())

    def lines_of(self, path, least):
        """Waits until a file has this many lines, for at most a minute. Returns how many it has."""
        lines, until = 0, time.monotonic() + 60
        while lines < least and time.monotonic() < until:
            time.sleep(0.1)
            with suppress(FileNotFoundError), open(path, "rb") as file:
                lines = file.read().count(b"\n")
        return lines

    def test_the_file_is_read_as_any_other_table(self):
        odd = 'a, "b"\n=1'
        values = {(40, 1, 85): string(odd), (0, 1, 85): "silent"}
        self.stand_in(values)
        path = self.world.folder + "/odd.csv"
        points = self.path("odd", "text HERE 40 1 85\nnumber HERE 0 1 85\n")
        self.watched(points, "--rounds", "1", "--csv", path, *ONCE)
        with open(path, encoding="utf-8", newline="") as file:
            rows = list(csv.DictReader(file))
        self.assertEqual([list(it) for it in rows], [HEAD.strip().split(",")] * 2)
        self.assertEqual(rows[0]["value"], r'a, "b"\n=1')
        self.assertEqual((rows[1]["value"], rows[1]["missing"]), ("", "timeout"))

    def test_flags_and_states_as_they_change(self):
        flags = [bits("0000"), bits("1100"), bits("0010"), ("error", 2, 27)]
        values = {(13, 1, 85): [unsigned(1), unsigned(2)], (13, 1, 111): flags}
        values.update({(13, 1, 110, 1): string("Day"), (13, 1, 110, 2): string("Night")})
        device = self.stand_in(values)
        page = self.world.folder + "/flags.html"
        words = ["HERE", "13", "1", "85", "--rounds", "4", "--page", page]
        name = self.names["HERE"] + "_13_1_85 "
        fault = "- - - in-alarm, fault fault: 2 (Night)"
        wanted = ["1 - Day normal -", fault, "2 - Night overridden -", "2 - Night - -"]
        self.assertEqual(self.watched(*words), (0, [name + it for it in wanted], ""))
        self.assertEqual(device.asked.count((13, 1, 110, 2)), 1)
        told = [it[1:] for it in self.drawn(page)["charts"][0][0]["samples"]]
        night = [["", "fault: 2 (Night)", "in-alarm, fault"], ["2", "Night", "overridden"], ["2", "Night"]]
        self.assertEqual(told, [["1", "Day"], *night])
        device.asked.clear()
        self.watched(*words[:-2], "--no-flags")
        self.assertNotIn((13, 1, 111), device.asked)

    def test_points_between_which_a_plus_stands_have_one_chart(self):
        self.stand_in({(0, at, 85): real("42290000") for at in range(4)})
        page = self.world.folder + "/charts.html"
        points = self.path("four", "".join("p%d HERE 0 %d 85\n" % (at, at) for at in range(4)))
        rows = {
            (points,): [["p0"], ["p1"], ["p2"], ["p3"]],
            (points, "p2", "+", "p0"): [["p2", "p0"], ["p1"], ["p3"]],
            (points, "p2", "+", "p0", "p3", "+", "p1"): [["p2", "p0"], ["p3", "p1"]],
            (points, "p3", "+", "p1", "+", "p0"): [["p3", "p1", "p0"], ["p2"]],
        }
        for words, wanted in rows.items():
            self.assertEqual(self.watched(*words, "--rounds", "1", "--page", page)[0], 0)
            charts = self.drawn(page)["charts"]
            self.assertEqual([[it["name"] for it in chart] for chart in charts], wanted)
        words = "HERE 0 1 85 + HERE real 0 2 85 + 77@HERE 0 3 85".split()
        self.assertEqual(self.watched(*words, "--rounds", "1", "--page", page)[0], 0)
        (chart,) = self.drawn(page)["charts"]
        names = [it["name"].replace(self.names["HERE"], "HERE") for it in chart]
        self.assertEqual(names, ["HERE_0_1_85", "HERE_real_0_2_85", "77@HERE_0_3_85"])

    def test_a_gap_has_a_reason_and_another_port_follows(self):
        device = self.stand_in({(0, 1, 85): [real("42290000"), "silent", real("40000000")]})
        path = self.path("one", "p HERE 0 1 85\n")
        words = [path, "--rounds", "5", *ONCE]
        wanted = ["p 42.25 - - - -", "p - - - - timeout", "p 2 - - - -"]
        self.assertEqual(self.watched(*words)[1], wanted)
        self.assertEqual(len(set(device.ports)), 2)

    def test_an_old_answer_is_not_taken_for_a_new_one(self):
        """An answer comes a round later, when the number of its request is used again."""

        class Late(StandIn):
            seen = 0

            def send(self, reply, client):
                self.seen += reply[3:10] == FIRST
                if reply[3:10] != FIRST or self.seen != 2:
                    return super().send(reply, client)
                old = reply[:-5] + bytes.fromhex("bf8000003f")
                return threading.Timer(2.5, super().send, [old, client]).start()

        device = self.stand_in({(0, at, 85): real("42290000") for at in range(256)}, kind=Late)
        path = self.path("many", "".join("p%d HERE 0 %d 85\n" % (at, at) for at in range(256)))
        more = ["--every", "4", "--rounds", "3", *ONCE]
        found = self.watched(path, "--no-flags", *more)[1]
        wanted = ["p0 42.25 - - - -", "p0 - - - - timeout", "p0 42.25 - - - -"]
        self.assertEqual([it for it in found if it.startswith("p0 ")], wanted)

    def test_a_second_answer_is_not_taken_for_one_to_the_next_question(self):
        """A second answer comes when the number of its request is used again, after 256 others."""

        class Twice(StandIn):
            kept, seen = None, 0

            def send(self, reply, client):
                if self.kept:
                    super().send(*self.kept)
                    self.kept = None
                super().send(reply, client)
                self.seen += reply[3:10] == FIRST
                if reply[3:10] == FIRST and self.seen == 2:
                    self.second = [reply[:-5] + bytes.fromhex("bf8000003f"), client]
                if reply[3:8] == LAST and self.seen == 2:
                    self.kept = self.second

        device = self.stand_in({(0, at, 85): real("42290000") for at in range(256)}, kind=Twice)
        path = self.path("twice256", "".join("p%d HERE 0 %d 85\n" % (at, at) for at in range(256)))
        found = self.watched(path, "--no-flags", "--every", "2", "--rounds", "4")[1]
        self.assertEqual([it for it in found if not it.endswith(" 42.25 - - - -")], [])
        self.assertEqual(device.seen, 4)

    def test_an_error_of_another_point_is_not_taken_in_the_same_round(self):
        """An Error names no point. The request was given up, and the Error comes when its number is used again."""

        class Held(StandIn):
            kept = None

            def send(self, reply, client):
                if self.kept and self.kept[1] == client and self.kept[0][1:2] == reply[1:2]:
                    super().send(*self.kept)
                if reply[:1] == b"\x50" and reply[-1] == 27 and not self.kept:
                    self.kept = reply, client
                    return
                super().send(reply, client)

        values = {(0, at, 85): real("42290000") for at in range(300)}
        device = self.stand_in({**values, (0, 9, 85): ("error", 2, 27)}, kind=Held)
        path = self.path("held", "".join("p%d HERE 0 %d 85\n" % (at, at) for at in range(300)))
        more = ["--no-flags", "--rounds", "1", *ONCE]
        found = self.watched(path, *more)[1]
        odd = [it for it in found if not it.endswith(" 42.25 - - - -")]
        self.assertEqual(odd, [f"p9 {NOTHING} - timeout"])
        self.assertGreater(len(set(device.ports)), 1)

    def test_no_more_controllers_at_once_than_it_says(self):
        class Slow(StandIn):
            """Each waits until as many are asked as may be, and for one more that must not come."""

            now, most, wanted, changed = 0, 0, 2, threading.Condition()

            def send(self, reply, client):
                with Slow.changed:
                    Slow.now += 1
                    Slow.most = max(Slow.most, Slow.now)
                    Slow.changed.notify_all()
                    Slow.changed.wait_for(lambda: Slow.most >= Slow.wanted, 9)
                time.sleep(0.1)
                with Slow.changed:
                    Slow.now -= 1
                super().send(reply, client)

        devices = [self.stand_in({(0, 1, 85): real("42290000")}, kind=Slow) for _ in range(4)]
        points = self.path("slow", "".join("p%d %s 0 1 85\n" % (at, it.address) for at, it in enumerate(devices)))
        words = [points, "--rounds", "2", "--every", "1", "--all", "--apdu-timeout", "20000"]
        self.assertEqual(len(self.watched(*words, "--at-once", "2")[1]), 8)
        self.assertEqual(Slow.most, 2)
        self.assertEqual([len(set(it.ports)) for it in devices], [2] * 4, "one who is not asked has no bacrun")
        Slow.wanted = 4
        self.assertEqual(len(self.watched(*words)[1]), 8)
        self.assertEqual(Slow.most, 4)
        self.assertEqual([len(set(it.ports)) for it in devices], [3] * 4)

    def test_another_device_is_not_taken_for_it(self):
        me, other = an_object(8, 77), "another device: 8:78"
        values = {(8, 4194303, 75): [me, me, me, an_object(8, 78)], (0, 1, 85): [real("42290000"), real("40000000")]}
        self.stand_in(values)
        path = self.path("two", "p 77@HERE 0 1 85\n")
        self.assertEqual(
            self.watched(path, "--rounds", "3"),
            (1, ["p 42.25 - - - -", f"p {NOTHING} - at the end {other}", f"p {NOTHING} - {other}"], ""),
        )

    def test_another_name_and_unit_after_a_silence(self):
        """Another device may be there then; and what is missing is asked for again."""
        values = {(0, 1, 85): [real("42290000"), real("42290000"), "silent", real("42290000")]}
        values[(0, 1, 77)] = [("error", 0, 3), string("Room"), string("Hall")]
        values[(0, 1, 117)] = [enumerated(62), enumerated(64)]
        device = self.stand_in(values)
        page = self.world.folder + "/names.html"
        words = ["HERE", "0", "1", "85", "--no-flags", "--rounds", "4", "--page", page, *ONCE]
        found = [it.split(" ", 1)[1] for it in self.watched(*words)[1]]
        wanted = ["42.25 degrees-celsius - - -", f"{NOTHING} - timeout", "42.25 degrees-fahrenheit - - -"]
        self.assertEqual(found, wanted)
        self.assertEqual([device.asked.count((0, 1, it)) for it in (77, 117)], [3, 2])
        self.assertEqual(self.drawn(page)["charts"][0][0]["label"], "Hall")

    def test_the_value_of_a_point_with_a_fault_is_no_good_value(self):
        """The reason has the value, and the point counts as missing at the end, as in a poll."""
        self.stand_in({(0, 1, 85): real("42290000"), (0, 1, 111): bits("0100")})
        points, path = self.path("fault", "p HERE 0 1 85\n"), self.world.folder + "/fault.csv"
        status, out, _ = self.run_site("poll", points)
        self.assertEqual((status, out.split("\t")[1:4]), (1, ["p", "-", "fault: 42.25"]))
        status, (line,), _ = self.watched(points, "--rounds", "1", "--csv", path)
        self.assertEqual((status, line), (1, "p - - - fault fault: 42.25"))
        with open(path, encoding="utf-8") as file:
            (row,) = csv.DictReader(file)
        self.assertEqual([row[it] for it in ("value", "flags", "missing")], ["", "fault", "fault: 42.25"])

    def test_what_was_not_asked_is_a_gap(self):
        """A restart, with or without a page; a clock that was set back; a program that was stopped."""
        self.stand_in({(0, 1, 85): real("42290000")})
        points = self.path("gaps", "p HERE 0 1 85\n")
        for more in [], ["--page", self.world.folder + "/gaps.html"]:
            for at in "2020-01-01T00:00:00.000Z", "2035-01-01T00:00:00.000Z":
                path = self.path("gaps.csv", HEAD + at + ",p,1,,,,\n")
                words = ["watch", points, "--every", "5", "--rounds", "1", "--csv", path, *more]
                self.assertEqual(self.run_site(*words)[0], 0)
                with open(path, encoding="utf-8") as file:
                    _, _, gap, row = file.read().splitlines()
                self.assertEqual(gap, at.replace("00.000Z", "05.000Z") + ",p,,,,,not asked")
                self.assertTrue(row.endswith(",p,42.25,,,,"), row)
        path = self.world.folder + "/stopped.csv"
        process = self.begun("watch", points, "--every", "0.5", "--csv", path)
        lines = self.lines_of(path, 4)
        process.send_signal(signal.SIGSTOP)
        time.sleep(2.5)
        process.send_signal(signal.SIGCONT)
        self.lines_of(path, lines + 4)
        process.send_signal(signal.SIGTERM)
        self.assertEqual(process.communicate(timeout=30)[1], b"")
        with open(path, encoding="utf-8") as file:
            missing = [row["missing"] for row in csv.DictReader(file)]
        self.assertIn("not asked", missing)
        self.assertLess(missing.count("not asked"), len(missing) / 2)

    def test_a_thread_that_fails_ends_it(self):
        given = ["watch", "127.0.0.1", "0", "1", "85", "--tools", os.path.dirname(harness.TOOL)]
        words = parser_of(given).parsed(given)
        with unittest.mock.patch("bacsite.watch.Controller", side_effect=ZeroDivisionError):
            with self.assertRaises(ZeroDivisionError):
                words.work(words)

    def test_a_signal_leaves_all_that_came(self):
        self.stand_in({(0, 1, 85): real("42290000")})
        for number in harness.SIGNALS:
            path, page = self.world.folder + "/s%d.csv" % number, self.world.folder + "/s%d.html" % number
            process = self.begun("watch", "HERE", "0", "1", "85", "--every", "0.1", "--csv", path, "--page", page)
            self.lines_of(path, 6)
            process.send_signal(number)
            _, err = process.communicate(timeout=30)
            self.assertEqual((process.returncode, err), (0, b""))
            with open(path, encoding="utf-8") as file:
                text = file.read()
            self.assertTrue(text.endswith("42.25,,,,\n") and text.count("\n") > 5, text)
            with open(page, encoding="utf-8") as file:
                self.assertTrue(data_of(file.read())["over"])

    def test_wrong_words(self):
        self.path("other.csv", "a,b\n")
        self.path("two_points", "a DEV 0 5 85\nb DEV 0 35 85\n")
        self.path("bad", "p HERE 0 1\n")
        self.path("twice", "p DEV 0 5 85\np DEV 0 5 85\n")
        self.rows(
            """
            watch IN/bad => 2 !p: wanted: [INSTANCE@]ADDRESS [real|double|integer] TYPE INSTANCE PROPERTY [INDEX]
            watch IN/twice => 2 !two points have the name p
            watch IN/two_points nobody + a => 2 !no point of this name: nobody
            watch IN/two_points a + b + a => 2 !two charts of this name: a
            watch DEV 0 5 85 --for 0 => 2 !argument --for: no duration, such as 90s, 10m, 8h or 1d: 0; see bacsite..
            watch DEV 0 5 85 --for 5x => 2 !argument --for: no duration, such as 90s, 10m, 8h or 1d: 5x; see bacsite..
            watch DEV 0 5 85 --for 1001d => 2 !argument --for: no duration, such as 90s, 10m, 8h or 1d: 1001d; see..
            watch DEV 0 5 85 --csv IN/other.csv => 2 !a file of something else: IN/other.csv
            watch DEV 0 5 85 --csv /dev/null => 2 !no plain file: /dev/null
            watch DEV 0 5 85 --page /dev/null => 2 !no plain file: /dev/null
            watch DEV 0 5 85 --every 0 => 2 !not 0.1 to 86400 seconds: 0.0
            watch DEV 0 5 85 --every nan => 2 !not 0.1 to 86400 seconds: nan
            """
        )


class File(unittest.TestCase):
    def setUp(self):
        self.path = harness.tempfile.mkdtemp() + "/rows.csv"

    def text(self):
        with open(self.path, "rb") as file:
            return file.read().decode()

    def put(self, text):
        with open(self.path, "wb") as file:
            file.write(text.encode())

    def test_what_a_loss_of_power_leaves_is_taken_away(self):
        whole = HEAD + "1,p,21.5,,,,\n"
        for rest in ("2,p,21.5", "\0" * 5000, "2", "x" * 200000):
            self.put(whole + rest)
            rows = Rows(self.path, HEAD)
            rows.add(["3,p,1,,,,\n"])
            os.close(rows._file)
            self.assertEqual(self.text(), whole + "3,p,1,,,,\n")
        for text in ("", HEAD[:7]):
            self.put(text)
            os.close(Rows(self.path, HEAD)._file)
            self.assertEqual(self.text(), HEAD)

    def test_a_full_disk_takes_no_line_and_no_part_of_one(self):
        rows, write, room = Rows(self.path, HEAD), os.write, [20]

        def full(file, octets):
            if not room[0]:
                raise OSError(errno.ENOSPC, "No space left on device")
            done = write(file, octets[: room[0]])
            room[0] -= done
            return done

        with unittest.mock.patch("os.write", full):
            rows.add(["1,p,21.5,,,,\n"])
            self.assertEqual((rows.fault, self.text()), ("", HEAD + "1,p,21.5,,,,\n"))
            for _ in range(3):
                rows.add(["2,p,22.5,,,,\n"])
                self.assertEqual(self.text(), HEAD + "1,p,21.5,,,,\n")
            self.assertIn("No space left", rows.fault)
            room[0] = 1000
            rows.add([])
        os.close(rows._file)
        self.assertEqual((rows.fault, self.text()), ("", HEAD + "1,p,21.5,,,,\n" + "2,p,22.5,,,,\n" * 3))

    def test_a_part_of_a_line_that_stayed_is_taken_away_later(self):
        """Cutting the line off may fail too."""
        rows, write = Rows(self.path, HEAD), os.write
        fault = OSError(errno.EIO, "Input/output error")
        half = lambda file, octets: write(file, octets[:5]) if len(octets) > 5 else self.fail_with(fault)
        with unittest.mock.patch("os.write", half), unittest.mock.patch("os.ftruncate", side_effect=fault):
            rows.add(["1,p,21.5,,,,\n"])
        self.assertEqual(self.text()[: len(HEAD) + 5], HEAD + "1,p,2")
        rows.add(["2,p,1,,,,\n"])
        os.close(rows._file)
        self.assertEqual(self.text(), HEAD + "1,p,21.5,,,,\n2,p,1,,,,\n")

    def fail_with(self, fault):
        raise fault

    def test_no_more_is_read_than_is_asked_for(self):
        lines = ["%d,p,21.5,,,,\n" % at for at in range(1000)]
        self.put(HEAD + "".join(lines))
        rows = Rows(self.path, HEAD)
        for most in range(40, 60):
            told = [it[0] for it in rows.rows(most)]
            self.assertTrue(told and told == [str(at) for at in range(1000 - len(told), 1000)], told)
        self.assertEqual(len(list(rows.rows(1 << 20))), 1001)
        os.close(rows._file)

    def test_who_may_read_it(self):
        """The umask sets the permissions of a new file, and another one keeps its own."""
        for umask, mode in ((0o027, 0o640), (0o077, 0o604)):
            before = os.umask(umask)
            os.close(Rows(self.path, HEAD)._file)
            os.umask(before)
            self.assertEqual(os.stat(self.path).st_mode & 0o777, mode)
            os.chmod(self.path, 0o604)

    def test_two_do_not_write_to_one_file(self):
        rows = Rows(self.path, HEAD)
        with self.assertRaises(Failure):
            Rows(self.path, HEAD)
        os.close(rows._file)


class Charts(unittest.TestCase):
    def line(self, samples):
        line = Line(Point("p", ref=PropertyRef(0, 1, 85)))
        for it in samples:
            line.add(it)
        return line

    def test_samples_are_real_ones_with_all_extremes(self):
        made = [Sample(at, str(at * 7919 % 1000)) for at in range(40000)]
        made[12345], made[23456] = Sample(12345, "-5000"), Sample(23456, "", "timeout")
        kept = self.line(made).samples
        self.assertLessEqual(len(kept), MOST)
        self.assertTrue(set(kept) <= set(made))
        self.assertEqual(kept, sorted(kept))
        self.assertIn(made[12345], kept)
        self.assertIn(made[23456], kept)

    def test_a_run_has_its_ends_alone(self):
        made = [Sample(at, "1") for at in range(9)] + [Sample(9, "", "timeout")] * 3 + [Sample(12, "1")]
        self.assertEqual(self.line(made).samples, [made[0], made[8], made[9], made[9], made[12]])

    def test_no_more_than_the_page_can_take(self):
        made = [Sample(at, str(at % 3) if at % 2 else "", "timeout" * (1 - at % 2)) for at in range(50000)]
        self.assertLessEqual(len(self.line(made).samples), MOST)

    def test_all_data_of_a_page(self):
        """Empty texts at the end of a sample are left out; `normal` is not a flag that is set."""
        number, state = self.line([]), Line(Point("f", ref=PropertyRef(4, 1, 85)))
        number.label, number.unit = "Room", "percent"
        for it in (Sample(1, "2", "", "normal"), Sample(2, "", "timeout"), Sample(3, "2", "", "fault")):
            number.add(it)
        state.add(Sample(1, "1", "Running", "normal"))
        with unittest.mock.patch("time.time_ns", return_value=9_999_999):
            page = "".join(charts_page_of([[number, state], [number]], 1.5, False))
        first = {"name": "p", "label": "Room", "unit": "percent", "step": False}
        first["samples"] = [[1, "2"], [2, "", "timeout"], [3, "2", "", "fault"]]
        second = {"name": "f", "label": "", "unit": "", "step": True, "samples": [[1, "1", "Running"]]}
        charts = [[first, second], [first]]
        self.assertEqual(data_of(page), {"every": 1500, "made": 9, "over": False, "charts": charts})
        self.assertEqual(re.findall("<(?:title|h1)>(.*?)<", page), ["Course of BACnet points"] * 2)
        kinds = {(0, 85): False, (2, 85): False, (3, 85): True, (14, 85): True, (48, 85): True, (0, 512): True}
        found = {it: Line(Point("p", ref=PropertyRef(it[0], 1, it[1]))).is_step for it in kinds}
        self.assertEqual(found, kinds, "only points that are no integers have slopes")

    def test_texts_are_no_markup(self):
        line = Line(Point("</script><b>", ref=PropertyRef(40, 1, 85)))
        line.add(Sample(1, "</script><script>alert(1)</script>"))
        page = "".join(charts_page_of([[line]], 1.0, True))
        self.assertEqual(page.count("</script>"), 2)
        self.assertEqual(data_of(page)["charts"][0][0]["name"], "</script><b>")

    def test_a_flag_is_kept_however_short(self):
        made = [Sample(at, str(at * 7919 % 1000), flags="normal") for at in range(40000)]
        for at in 12345, 20001, 39999:
            made[at] = Sample(at, "500", flags="fault")
        self.assertEqual([it.at for it in self.line(made).samples if it.flags == "fault"], [12345, 20001, 39999])


class Times(unittest.TestCase):
    """When rounds begin, by a clock that goes on only while somebody waits or answers."""

    def rounds(self, words, **more):
        """The milliseconds of the rows, and `gap` in front of those that were not asked."""
        course, rows = Course(**more), []
        calls = QuickCalls({"127.0.0.1:47808": course})
        calls.processes.ended = course
        given = parser_of(["watch"]).parsed(["watch", "127.0.0.1", "0", "1", "85", "--no-flags", *words.split()])
        with unittest.mock.patch("bacsite.watch.time", course):
            rounds = Rounds(calls, given, [point_of("p", given.words)])
            while rounds.running:
                rows += rounds.taken()
        return " ".join("gap " * (it.fault == "not asked") + str(it.at) for it in rows)

    def test_as_often_and_as_long_as_the_words_say(self):
        for words, wanted in {
            "--rounds 3": "0 1000 2000",
            "--every 0.1 --rounds 4": "0 100 200 300",
            "--every 1.5 --for 3.9s": "0 1500 3000",
            "--every 1.5 --for 3s": "0 1500",
            "--every 1.5 --for 3.001": "0 1500 3000",
            "--for 1h1m --rounds 2": "0 1000",
            "--every 1800 --for 1h1m": "0 1800000 3600000",
        }.items():
            self.assertEqual(self.rounds(words), wanted, words)
        told = {"90": 90, "2.5s": 2.5, "10m": 600, "8h": 28800, "1d": 86400, "1h30m": 5400, "1d1s": 86401}
        self.assertEqual({it: duration_of(it) for it in told}, told)

    def test_rounds_do_not_drift_and_some_are_left_out(self):
        for words, takes, wanted in (
            ("--every 2 --rounds 4", [0.3] * 4, "0 2000 4000 6000"),
            ("--rounds 4", [0.9, 0, 0.999], "0 1000 2000 3000"),
            ("--rounds 4", [2.5], "0 3000 4000 5000"),
            ("--rounds 4", [0, 1.25, 0.5], "0 1000 3000 4000"),
            ("--for 5s", [3.5], "0 4000"),
            ("--every 0.5 --rounds 3", [3.75] * 3, "0 4000 8000"),
        ):
            self.assertEqual(self.rounds(words, takes=takes), wanted, (words, takes))

    def test_what_was_not_asked_for_more_than_three_rounds_is_a_gap(self):
        for words, waits, wanted in (
            ("--rounds 3", [0, 2.0], "0 3000 4000"),
            ("--rounds 3", [0, 2.001], "0 gap 1000 3001 4000"),
            ("--rounds 3", [9.0], "9000 10000 11000"),
            ("--every 2 --rounds 3", [0, 0, 4.5], "0 2000 gap 4000 8500"),
        ):
            self.assertEqual(self.rounds(words, waits=waits), wanted, (words, waits))


class Gaps(unittest.TestCase):
    """A machine that sleeps in the middle of a round, whose time is set, or that is slow."""

    def gaps(self, at, clock, is_late=False):
        point = Point("p", ref=PropertyRef(0, 1, 85))
        rows = with_gaps([Row(at, point, "1", clock=clock)], {"p": Row(1000, point, "1", clock=50)}, 100, is_late)
        return [it.at for it in rows if it.fault == "not asked"]

    def test_what_is_one(self):
        self.assertEqual(self.gaps(1351, 50), [1100], "it slept")
        self.assertEqual(self.gaps(500, 150), [1100], "its time was set back")
        self.assertEqual(self.gaps(1100, 150, is_late=True), [1100], "the program was stopped")

    def test_what_is_none(self):
        self.assertEqual(self.gaps(1300, 50), [])
        self.assertEqual(self.gaps(9000, 8050), [], "a slow round")
        point = Point("p", ref=PropertyRef(0, 1, 85))
        row = Row(5000, point, "1", clock=9)
        self.assertEqual(with_gaps([row], {}, 100, True), [row], "the first round")


class Curves(unittest.TestCase):
    """The last minute of a point in thirty bars, each of two seconds."""

    def curve(self, samples, until=60000, every=1.0):
        return curve_of([Sample(*it) for it in samples], until, 60, every)

    def test_it_is_as_high_as_the_values(self):
        ramp = [(at * 1000, str(at)) for at in range(0, 60)]
        self.assertEqual(self.curve(ramp), "▁▁▁▂▂▂▂▃▃▃▃▄▄▄▄▅▅▅▅▆▆▆▆▇▇▇▇███")

    def test_a_run_stands_between_its_ends(self):
        run = [(0, "1"), (29500, "1"), (30000, "2"), (59000, "2")]
        self.assertEqual(self.curve(run), "▁" * 15 + "█" * 15)

    def test_what_is_missing(self):
        samples = [(30000, "1"), (40000, "", "timeout"), (50000, "2")]
        self.assertEqual(self.curve(samples), " " * 15 + "▁" * 5 + "·" * 5 + "██" + " " * 3)
        self.assertEqual(self.curve([]), " " * COLUMNS)
        self.assertEqual(self.curve([(-5000, "3"), (30000, "3")]), "▁" * 17 + " " * 13)

    def test_the_latest_value_of_two_seconds(self):
        samples = [(0, "1"), (1000, "5"), (2000, "1"), (59000, "1")]
        self.assertEqual(self.curve(samples), "█" + "▁" * 29)

    def test_states_and_texts(self):
        self.assertEqual(self.curve([(0, "Day"), (30000, "Night"), (59000, "Night")]), "▁" * 15 + "█" * 15)


class Kept(unittest.TestCase):
    """What a watch keeps of a reading."""

    def test_rows(self):
        point, room = Point("p", ref=PropertyRef(0, 1, 85)), Meaning("Room", "percent", "Night")
        two, normal = Value(Kind.NUMBER, "2", "active"), Value(Kind.OTHER, "normal")
        alarm, bad = (Value(Kind.OTHER, it, bits=(it,)) for it in ("in-alarm", "fault"))
        for value, flags, wanted in (
            (two, normal, Row(5, point, "2", room, "normal")),
            (two, alarm, Row(5, point, "2", room, "in-alarm")),
            (two, NOTHING_READ, Row(5, point, "2", room, "")),
            (two, fault("abort 0"), Row(5, point, "2", room, "")),
            (two, bad, Row(5, point, "", Meaning("Room", "percent"), "fault", "fault: 2 (Night)")),
            (Value(Kind.TEXT, ""), normal, Row(5, point, '""', room, "normal")),
            (fault("timeout"), normal, Row(5, point, fault="timeout")),
        ):
            self.assertEqual(_row(5, Reading(point, value, "", flags), room), wanted)
        self.assertEqual(wanted.cells(), ["1970-01-01T00:00:00.005Z", "p", "", "", "", "", "timeout"])
        cells = ["1970-01-01T00:00:00.005Z", "p", "2", "percent", "Night", "x", "y"]
        self.assertEqual(Row(5, point, "2", room, "x", "y").cells(), cells)

    def test_what_values_mean(self):
        """Name, unit, and the object's or the standard's text of a state. What did not come is asked for again."""
        busy, refs = ("abort", 9), {name: PropertyRef(*it) for name, it in (
            ("room", (0, 1, 85)), ("about", (0, 1, 28)), ("usual", (0, 1, 104)), ("fan", (4, 1, 85)),
            ("door", (5, 1, 85)), ("mode", (13, 1, 85)), ("entry", (0, 1, 87, 8)), ("late", (1, 1, 85)))}
        values = {(0, 1, 77): string("Room"), (0, 1, 117): enumerated(62), (4, 1, 4): string("On")}
        values.update({(13, 1, 110, 2): string("Night"), (1, 1, 77): [busy, string("Late")], (1, 1, 117): "silent"})
        number = lambda text, meaning="": Value(Kind.NUMBER, text, meaning)
        rows = (
            ("room", number("21"), ("Room", "degrees-celsius", "")),
            ("room", fault("timeout"), ("Room", "degrees-celsius", "")),
            ("about", Value(Kind.TEXT, "x"), ("Room", "", "")),
            ("usual", number("5"), ("Room", "degrees-celsius", "")),
            ("entry", number("5"), ("Room", "", "")),
            ("fan", number("1", "active"), ("", "", "On")),
            ("fan", number("0", "inactive"), ("", "", "inactive")),
            ("door", number("1", "active"), ("", "", "active")),
            ("mode", number("2"), ("", "", "Night")),
            ("mode", number("3"), ("", "", "")),
        )
        calls = QuickCalls({A: values}, timeout=1)
        with Controller(calls, A) as controller:
            meanings, given = Meanings(controller), [(refs[name], value) for name, value, _ in rows]
            self.assertEqual(meanings.of(given), [it for _, _, it in rows])
            asked = [(0, 1, 77), (0, 1, 117), (4, 1, 77), (4, 1, 4), (4, 1, 46), (5, 1, 77), (5, 1, 4), (13, 1, 77)]
            asked += [(13, 1, 110, 2), (13, 1, 110, 3)]
            self.assertEqual([it[1:] for it in calls.asked], asked)
            self.assertEqual(meanings.of(given), [it for _, _, it in rows])
            self.assertEqual([it[1:] for it in calls.asked], asked, "each is asked for once")
            found = [meanings.of([(refs["late"], number("1"))]) for _ in range(2)]
        self.assertEqual(found, [[("", "", "")], [("Late", "", "")]])

    def test_a_name_and_a_unit_are_kept_while_they_are_missing(self):
        kept, point = Watch.__new__(Watch), Point("p", ref=PropertyRef(0, 1, 85))
        kept.lines, kept.latest = {"p": Line(point)}, {}
        told = []
        for name, unit in (("", ""), ("Room", "percent"), ("", ""), ("Hall", ""), ("", "no-units")):
            row = Row(7, point, "2", Meaning(name, unit, "Night"), "normal")
            self.assertIs(kept._noted(row), kept.latest["p"])
            told.append((kept.lines["p"].label, kept.lines["p"].unit))
        first, both = ("", ""), ("Room", "percent")
        self.assertEqual(told, [first, both, both, ("Hall", "percent"), ("Hall", "no-units")])
        kept._noted(Row(8, point, fault="timeout", flags="fault"))
        samples = kept.lines["p"].samples
        self.assertEqual((samples[0], samples[-1]), ((7, "2", "Night", "normal"), (8, "", "timeout", "fault")))


    def test_what_an_earlier_watch_has_kept(self):
        """Its times are in UTC, and a text that a spreadsheet would calculate has a quotation mark there."""
        path = harness.tempfile.mkdtemp() + "/earlier.csv"
        with open(path, "w", encoding="ascii") as file:
            file.write(HEAD + "1970-01-02T00:00:00.005Z,'=p,'-x,percent,'=Night,'2,\n")
        point = Point("=p", ref=PropertyRef(0, 1, 85))
        kept = Watch([point], [["=p"]], SimpleNamespace(csv=path, page="", every=1.0, all=True))
        os.close(kept.file._file)
        self.assertEqual(kept.latest, {"=p": Row(86400005, point, "-x", Meaning("", "percent", "=Night"), "'2")})
        self.assertEqual((kept.lines["=p"].unit, kept.earlier), ("percent", {"=p"}))

    def test_where_lines_are_written_in_place(self):
        """On a terminal that can, unless all values are to be printed."""
        for term, is_all, wanted in (("xterm", False, True), ("xterm", True, False), ("dumb", False, False)):
            words = SimpleNamespace(csv="", page="", every=1.0, all=is_all)
            with unittest.mock.patch("os.isatty", return_value=True):
                with unittest.mock.patch.dict(os.environ, TERM=term):
                    self.assertEqual(Watch([], [], words).live is not None, wanted)


class Faults(unittest.TestCase):
    def test_a_fault_of_a_file_is_told_once_and_its_end_too(self):
        kept, told = Watch.__new__(Watch), []
        again = "bacsite: the file of --%s is written again\n"
        wanted = ["bacsite: a\n", "bacsite: c\n", "bacsite: b\n", again % "csv", again % "page", "bacsite: a\n"]
        for live, before in ((None, []), (SimpleNamespace(clear=lambda: told.append("cleared")), ["cleared"])):
            kept.faults, kept.live = {}, live
            with unittest.mock.patch("bacsite.watch.show", told.append):
                for file, fault in zip(("csv", "page") * 6, ("", "", "a", "", "a", "c", "b", "c", "", "", "", "a")):
                    kept._tell(file, fault)
            self.assertEqual(told, [text for it in wanted for text in (*before, it)])
            told.clear()

    def test_how_a_watch_ends(self):
        for fault, lost, told in (("", 3, "3 lines are lost"), ("cannot write x", 0, "cannot write x"),
                                  ("cannot write x", 3, "cannot write x")):
            kept, added = Watch.__new__(Watch), []
            kept.words = SimpleNamespace(page=None)
            kept.file = SimpleNamespace(fault=fault, lost=lost, add=added.append)
            with self.assertRaises(Failure) as caught:
                kept.end()
            self.assertEqual((str(caught.exception), caught.exception.status), (told, 3))
            self.assertEqual(added, [[]] * bool(fault), "it is tried once more")
        good, bad = Row(1, Point("a"), "1"), Row(1, Point("b"), fault="timeout")
        for latest, status in (({}, 1), ({"a": good}, 0), ({"a": bad}, 1)):
            kept.file, kept.lines, kept.latest = None, {"a": None}, latest
            self.assertEqual(kept.end(), status)


class Lines(unittest.TestCase):
    """What a terminal gets, by a clock that stands still, a minute after 43200 s."""

    def line(self, name, *samples, label="", unit=""):
        line = Line(Point(name, ref=PropertyRef(0, 1, 85)))
        line.label, line.unit = label, unit
        for at, *more in samples:
            line.add(Sample((43200 + at) * 1000, *more))
        return line

    def shown(self, live, lines, size=(100, 24)):
        """The text that is written."""
        now, patch = (43200 + 60) * 10**9, unittest.mock.patch
        with patch("bacsite.watch.put") as put, patch("time.time_ns", return_value=now):
            with patch("shutil.get_terminal_size", return_value=os.terminal_size(size)):
                live.draw(lines)
        return "".join(it[0][0] for it in put.call_args_list)

    def test_cells(self):
        clock = time.strftime("%H:%M:%S", time.localtime(43259))
        for line, wanted in (
            (self.line("p"), ["", "p", " " * 30, "no value: nothing yet"]),
            (self.line("p", (59, "2"), label="Room", unit="percent"), [clock, "p Room", " " * 29 + "▁", "2 percent"]),
            (self.line("p", (0, "1"), (59, "2", "Night", "fault, overridden")),
             [clock, "p", "▁" * 29 + "█", "2 (Night) fault, overridden"]),
            (self.line("p", (58, "2"), (59, "", "timeout", "fault"), unit="percent"),
             [clock, "p", " " * 29 + "·", "no value: timeout"]),
            (self.line("p", (58, "2", "", "normal"), (59, "2", "", "normal")), [clock, "p", " " * 29 + "▁", "2"]),
        ):
            with unittest.mock.patch("time.time_ns", return_value=(43200 + 60) * 10**9):
                self.assertEqual(Live(1.0)._cells(line), wanted)

    def test_lines_are_written_again_in_place(self):
        clock, live = time.strftime("%H:%M:%S", time.localtime(43259)), Live(1.0)
        lines = [self.line("p%d" % at, (59, str(at))) for at in range(6)]
        rows = ["%s  p%d  %s  %d\x1b[K\n" % (clock, at, " " * 29 + "▁", at) for at in range(6)]
        self.assertEqual(self.shown(live, lines[:2]), "".join(rows[:2]) + "\x1b[J")
        self.assertEqual(self.shown(live, lines), "\x1b[2A\r" + "".join(rows) + "\x1b[J")
        more = "and 3 more points\x1b[K\n"
        self.assertEqual(self.shown(live, lines, (100, 5)), "\x1b[6A\r" + "".join(rows[:3]) + more + "\x1b[J")
        cut = "".join(row[:9] + "\x1b[K\n" for row in (*rows[:1], "and 5 more points"))
        self.assertEqual(self.shown(live, lines, (10, 2)), "\x1b[4A\r" + cut + "\x1b[J")
        told = []
        with unittest.mock.patch("bacsite.watch.put", told.append):
            live.clear()
            live.clear()
        self.assertEqual(told, ["\x1b[2A\r\x1b[J"])
        self.assertEqual(self.shown(live, lines[:1]), rows[0] + "\x1b[J")


class Terminal(harness.SiteTest):
    def test_one_line_for_each_point_is_written_in_place(self):
        self.stand_in({(0, 1, 85): [real("42290000"), real("40000000")], (0, 2, 85): "silent", **DEGREES})
        points = self.path("shown", "room HERE 0 1 85\nlost HERE 0 2 85\n")
        words = ["watch", points, "--every", "0.5", "--rounds", "3", *ONCE]
        status, text = self.on_a_terminal("24", *words)
        self.assertEqual(status, 1)
        shown = text.split("\x1b[J")
        self.assertEqual({it.count("\n") for it in shown}, {2, 0})
        self.assertTrue(all(it.startswith("\x1b[2A\r") for it in shown[1:-1]), shown)
        last = [re.sub(r"\x1b\[\w+", "", it).strip() for it in shown[-2].split("\n")]
        self.assertRegex(last[0], r"^\d\d:\d\d:\d\d  room Room +.*[▁█]+ +2 degrees-celsius$")
        self.assertRegex(last[1], r"^\d\d:\d\d:\d\d  lost +·+ *no value: timeout$")


class Journal(unittest.TestCase):
    def test_it_is_cut_into_files_of_a_size(self):
        folder = harness.tempfile.mkdtemp()
        whats = [PropertyRef(0, at, 85) for at in range(60)]
        calls = QuickCalls({"HERE": {tuple(it[:3]): real("42290000") for it in whats}}, window=4)
        calls.journals = Journals(folder)
        for _ in range(2):  # another program goes on with the next number
            with unittest.mock.patch("bacsite.streams.MOST_JOURNAL", 1000), Controller(calls, "HERE") as asking:
                for at in range(0, 60, 10):
                    self.assertFalse(any(it.reason for it in asking.ask_all(whats[at : at + 10])))
            calls.journals = Journals(folder)
        texts = [open(it, encoding="ascii").read() for it in glob.glob(folder + "/*.trace")]
        self.assertGreater(len(texts), 4)
        self.assertLess(max(map(len, texts)), 1000 + 10 * 100)
        for text in texts:
            self.assertEqual(text.count("# send 0 "), 1, "each begins a bacrun")
            self.assertEqual(text.count("# send "), text.count("# done "), "and no request is cut")
        self.assertEqual(sum(it.count("# done ") for it in texts), 120)


class Paces(unittest.TestCase):
    """A changed window and a changed patience go back to their first values."""

    def pace(self, *ends, window=8):
        pace = Pace(100, window)
        for seconds, sends, why in ends:
            pace.learn(Ended("value", b"", seconds, sends), why)
        return pace

    def settings(self, *ends, **more):
        pace = self.pace(*ends, **more)
        return pace.patience, pace.window

    def test_a_loss_and_its_end(self):
        lost, good = (0.15, 2, Why.NONE), (0.01, 1, Why.NONE)
        self.assertEqual(self.settings(lost), (300, 4))
        self.assertEqual(self.settings(lost, *[good] * (CALM - 1)), (300, 4))
        self.assertEqual(self.settings(lost, *[good] * CALM), (100, 8))

    def test_it_is_asked_twice_as_fast_each_time(self):
        busy, good = (0.01, 1, Why.BUSY), (0.01, 1, Why.NONE)
        self.assertEqual(self.settings(busy, busy, *[good] * CALM), (100, 4))
        self.assertEqual(self.settings(busy, busy, *[good] * 2 * CALM), (100, 8))
        self.assertEqual(self.settings(*[busy] * 9, window=5), (100, 1))
        self.assertEqual(self.settings(*[busy] * 9, *[good] * 9 * CALM, window=5), (100, 5))

    def test_one_who_stays_slow_keeps_its_time(self):
        lost, slow = (0.15, 2, Why.NONE), (0.15, 1, Why.NONE)
        self.assertEqual(self.settings(lost, *[slow] * 9 * CALM), (300, 4))

    def test_an_attempt_that_failed_is_made_later(self):
        busy, good = (0.01, 1, Why.BUSY), (0.01, 1, Why.NONE)
        tried = [busy, *[good] * CALM, busy]
        self.assertEqual(self.settings(*tried, *[good] * CALM), (100, 4))
        self.assertEqual(self.settings(*tried, *[good] * 2 * CALM), (100, 8))

    def test_a_silent_one_is_not_in_time(self):
        lost, silent, good = (0.01, 2, Why.NONE), (0.01, 1, Why.SILENT), (0.01, 1, Why.NONE)
        half = [good] * (CALM - 1)
        self.assertEqual(self.settings(lost, *half, silent, *half), (100, 4))


if __name__ == "__main__":
    unittest.main()
