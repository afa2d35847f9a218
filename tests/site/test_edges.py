"""Ends of ranges, and pairs of cases, without a test elsewhere: addresses, routers, surveys, dates, cells, charts."""

import contextlib
import os
import tempfile
import unittest
from types import SimpleNamespace
from unittest import mock

import harness  # noqa: F401  this sets the path to bacsite
from bacsite import points, survey
from bacsite.device import Bounds, Device, SiteObject, _Reader
from bacsite.page import Line, Sample
from bacsite.points import Point
from bacsite.session import Scan
from bacsite.standard import ObjectId, PropertyRef
from bacsite.streams import MOST_KEPT, Rows, Failure, harmless
from bacsite.survey import Earlier, Known
from bacsite.sweep import Station, Sweep
from bacsite.tools import Tools
from bacsite.values import shown
from instant_devices import QuickWhoIs

OLD, NEW = "192.0.2.7:47808", "192.0.2.9:47808"


class Edges(unittest.TestCase):
    @contextlib.contextmanager
    def surveys(self, devices):
        """Lets a survey find these devices."""
        with mock.patch.object(survey, "side_by_side", lambda *_: [devices]):
            yield

    def test_the_largest_range(self):
        found = points.targets(["10.0.0.0-10.0.255.255"])
        self.assertEqual((len(found), found[-1].address), (65536, "10.0.255.255:47808"))
        with self.assertRaises(Failure):
            points.targets(["10.0.0.0-10.1.0.0"])

    def test_a_question_ends_once_both_routers_are_complete(self):
        sweep = Sweep(None, [OLD + "/*", NEW + "/*"], Bounds(), [])
        stations = [Station(7, it.router + "/5/07") for it in sweep.reaches]
        for reach, station in zip(sweep.reaches, stations):
            reach.heard(station)
            reach.question()
        sweep.reaches[0].heard(stations[0])
        self.assertFalse(sweep._is_quiet())
        sweep.reaches[1].heard(stations[1])
        self.assertTrue(sweep._is_quiet())

    def test_the_successor_of_a_device_that_moved_is_new(self):
        for instance, changes in ((78, ["new"]), (None, [])):
            successor = Device(OLD, instance, changes=["was device 77"], gone=77)
            with self.surveys([successor, Device(NEW, 77)]):
                found = list(survey.Survey(None, Bounds(), Earlier({})).devices([]))
            self.assertEqual([(it.address, it.changes) for it in found], [(NEW, []), (OLD, changes)])

    def test_stations_stand_behind_the_addresses_of_ranges(self):
        targets = points.targets(["192.0.2.7-9", "192.0.2.1/*"])
        asked = [Device("192.0.2.1:47808/5/01", 3), Device(NEW, 2), Device(OLD, 1)]
        with self.surveys(asked):
            found = list(survey.Survey(None, Bounds(), Earlier()).devices(targets, in_order=True))
        self.assertEqual([it.instance for it in found], [1, 2, 3])

    def test_devices_are_shown_as_they_come(self):
        """In order with an earlier survey they wait: a device that moved may still come at its new address."""
        known = {OLD: Known(77, {}, "", {})}
        for in_order, earlier, wanted in ((False, {}, 1), (True, {}, 1), (False, known, 1), (True, known, 2)):
            asked = []
            groups = ([asked.append(it) or Device(it, at)] for at, it in enumerate((OLD, NEW)))
            with mock.patch.object(survey, "side_by_side", lambda *_, groups=groups: groups):
                first = next(survey.Survey(None, Bounds(), Earlier(earlier)).devices([], in_order))
            self.assertEqual((first.address, len(asked)), (OLD, wanted), (in_order, earlier))

    def test_what_was_not_read_has_not_changed(self):
        object_id = ObjectId(0, 1)
        known = Known(77, {"name": "D"}, "", {object_id: {"name": "T", "unit": "percent"}})
        for reasons, changes in ((["units: timeout"], []), ([], ["unit of 0:1 T was percent"])):
            objects = [SiteObject(*object_id, name="T", reasons=reasons)]
            device = Device(OLD, 77, "D", objects=objects, listed=[object_id])
            Earlier({OLD: known}).compare(device, Bounds())
            self.assertEqual(device.changes, changes)

    def test_the_last_day_of_a_month_has_its_day_of_the_week(self):
        for octets, text in (
            ("7c0a2004", "2024-10-last Thu"),
            ("7c0a2104", "2024-10-odd Thu"),
            ("7c0a1f04", "2024-10-31"),
        ):
            self.assertEqual(shown(bytes.fromhex("a4" + octets)), text)

    def test_numbers_are_no_formulas(self):
        for cell in ("-1e+30", "-1e-30", "-1e30", "-0.5"):
            self.assertEqual(harmless(cell), cell)
        for cell in ("-1e+", "-1e+3x", "+1", "-x", "=1", "@x"):
            self.assertEqual(harmless(cell), "'" + cell)

    def test_the_latest_samples_are_kept(self):
        line = Line(Point("p", ref=PropertyRef(0, 1, 85)))
        made = [Sample(at, str(at % 3) if at % 2 else "", "timeout" * (1 - at % 2)) for at in range(50000)]
        for it in made:
            line.add(it)
        self.assertTrue(line.samples[-3000:] == made[-3000:])

    def test_who_sends_anything_is_there(self):
        lines = ["# send 0 %s 81" % OLD, "data %s 810a00090100600109" % OLD, "# drop", "# timeout 0"]
        calls, found = Tools("none", 1000, 0, 8), []
        calls.start = lambda *_: QuickWhoIs(lines=lines)
        Scan(calls, [OLD]).run(lambda *it: found.append(it))
        self.assertEqual(found, [(OLD, "")])

    def test_a_list_may_grow_or_shrink(self):
        own = ObjectId(8, 77)
        now = SimpleNamespace(own=own, controller=SimpleNamespace(count=lambda ref: (2, "")))
        self.assertEqual(_Reader.changed(now, "", 2), [])
        for listed in (1, 3):
            told = ["object-list: %d listed, 2 at the end" % listed]
            self.assertEqual(_Reader.changed(now, "", listed), told)

    def test_latin_1_has_control_characters(self):
        self.assertEqual(shown(bytes.fromhex("740580e9c4")), '"\\x80éÄ"')

    def test_the_earliest_lines_are_lost(self):
        with tempfile.TemporaryDirectory() as folder:
            rows = Rows(folder + "/kept", "head\n")
            os.unlink(folder + "/kept")
            rows.add(["%d\n" % at for at in range(MOST_KEPT + 2)])
            rows.add(["last\n"])
        self.assertEqual((rows.lost, rows._waiting[0], rows._waiting[-1]), (3, b"3\n", b"last\n"))


if __name__ == "__main__":
    unittest.main()
