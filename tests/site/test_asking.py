"""How controllers are asked: how many requests at once, in which order, and when again."""

import json
import threading
import time
import unittest
import unittest.mock

import harness
from bacsite import points, survey, tools
from bacsite.controller import Controller
from bacsite.device import Bounds, Device, SiteObject, shortened
from bacsite.report import Columns, Counts, PollList
from bacsite.standard import PropertyRef, ObjectId
from bacsite.survey import Earlier, Known
from bacsite.values import Kind, Value, Why, why_of
from instant_devices import QuickCalls
from stand_ins import LateStandIn, StandIn, an_object, bits, enumerated, real, string, unsigned
from test_survey import sensors

A, B = "192.0.2.1:47808", "192.0.2.2:47808"
UNHURRIED = ["--apdu-timeout", "2000"]  # no answer is late on a busy machine


def device(instance, count=3):
    """A device with some analog inputs."""
    named = {(8, instance, number): string("D") for number in (70, 77, 121)}
    own = {(8, 4194303, 75): an_object(8, instance), **named}
    own[8, instance, 76] = an_object(8, instance) + sensors(count)[8, 77, 76]
    return {**sensors(count), **own, (8, instance, 76, 0): unsigned(count + 1)}


class Reasons(unittest.TestCase):
    def test_what_they_say(self):
        for reason, why in (
            ("", Why.NONE),
            ("timeout", Why.SILENT),
            ("error 0 3", Why.BUSY),
            ("error 0 31", Why.NO_OBJECT),
            ("error 1 31", Why.NO_OBJECT),
            ("error 2 32", Why.NO_PROPERTY),
            ("error 2 320", Why.OTHER),
            ("error 2 3", Why.OTHER),
            ("abort 3", Why.BUSY),
            ("abort 8", Why.BUSY),
            ("abort 9", Why.BUSY),
            ("abort 4", Why.TOO_LONG),
            ("abort 2", Why.OTHER),
            ("no number: NaN", Why.NO_NUMBER),
            ("timeout (the system refused to send it)", Why.SILENT),
            ("reject 9", Why.OTHER),
        ):
            self.assertIs(why_of(reason), why, reason)
        gone = {Why.SILENT, Why.NOT_ASKED, Why.TOO_LATE}
        self.assertEqual({it for it in Why if it.is_gone}, gone)
        self.assertEqual({it for it in Why if it.is_for_now}, {Why.BUSY, Why.STRANGE})


class Order(unittest.TestCase):
    """Tests with controllers that answer at once."""

    def surveyed(self, many, words=(A, B), in_order=False, bounds=Bounds()):
        targets = points.targets(words)
        found = list(survey.Survey(many, bounds, Earlier()).devices(targets, in_order))
        return [(it.address, it.instance, len(it.objects), it.reasons) for it in found]

    def test_as_they_are_ready_or_as_the_words_say(self):
        targets = points.targets([A, B])
        for in_order, wanted in ((False, [B, A]), (True, [A, B])):
            gate = threading.Event()
            many = QuickCalls({A: device(11), B: device(12)}, gates={A: gate})

            def opened():
                many.over[B].wait(60)
                gate.set()

            found = survey.Survey(many, Bounds(), Earlier()).devices(targets, in_order)
            if in_order:
                threading.Thread(target=opened, daemon=True).start()
            first = next(found)  # it is there before the other one may answer, if the order is not kept
            gate.set()
            self.assertEqual([it.address for it in [first, *found]], wanted)

    def test_one_that_fails_first_leaves_the_others(self):
        silent = {(8, 4194303, 75): "silent"}
        for in_order in False, True:
            many = QuickCalls({A: silent, B: device(12)}, at_once=1)
            found = self.surveyed(many, in_order=in_order)
            self.assertEqual(found, [(A, None, 0, ["timeout"]), (B, 12, 3, [])])
            counts = Counts(2)
            for it in survey.Survey(many, Bounds(), Earlier()).devices(points.targets([A, B])):
                counts.add(it)
            self.assertTrue(counts.missing)

    def test_a_window_changes_nothing_that_is_found(self):
        values = device(11, 40)
        values.update({(0, 3, 85): ("error", 2, 32), (0, 9, 77): ("error", 1, 31)})
        values.update({(0, 5, 117): [("abort", 9), enumerated(62)], (0, 7, 85): "silent"})
        found, asked = {}, {}
        for window in 1, 2, 4, 64:
            many = QuickCalls({A: {key: it[:] for key, it in values.items()}}, window, timeout=50, retries=1)
            targets = points.targets([A])
            (found[window],) = survey.Survey(many, Bounds(), Earlier()).devices(targets)
            found[window].asked, asked[window] = "", sorted(many.asked)
            self.assertLessEqual(many.most, window)
            self.assertTrue(many.most == window or window == 64, many.most)
        self.assertEqual(len(found[1].objects), 40)
        for window in found:
            self.assertEqual((found[window], asked[window]), (found[1], asked[1]), window)

    def test_an_object_that_is_unknown_is_asked_for_its_name_alone(self):
        many = QuickCalls({A: {**device(11), (0, 2, 77): ("error", 1, 31)}})
        self.surveyed(many, [A])
        self.assertEqual([it for it in many.asked if it[1:3] == (0, 2)], [(A, 0, 2, 77)])

    def test_who_says_to_be_no_device_is_none(self):
        many = QuickCalls({A: {**device(11), (8, 4194303, 75): an_object(0, 11)}})
        found = self.surveyed(many, [A])
        self.assertEqual(found, [(A, None, 0, ["no device: 0:11 (analog-input)"])])

    def test_so_many_reasons_are_told(self):
        self.assertEqual(shortened(list("abcd")), list("abcd"))
        self.assertEqual(shortened(list("abcdef")), ["a", "b", "c", "2 more such", "f"])

    def test_requests_are_counted(self):
        many = QuickCalls({A: device(11, 60)})
        self.surveyed(many, [A])
        # Identity, 3 texts, revision and list; 4 for each object; identity and count again.
        self.assertEqual((len(many.asked), many.count), (6 + 4 * 60 + 2, 6 + 4 * 60 + 2 + 1))
        begun = [words[:1] + words[3:] for words in many.begun]
        self.assertEqual([words[0] for words in many.begun], ["bacrun", "bacwi"])
        self.assertEqual(begun[0][-2:], ["--window", "1"])

    def test_who_else_is_there_is_asked_beside_the_rest(self):
        many = QuickCalls({A: device(11)})
        begun = []

        def start(words, until=0.0):
            begun.append((words[0], len(many.asked)))
            return QuickCalls.start(many, words, until)

        many.start = start
        self.surveyed(many, [A])
        self.assertEqual(begun, [("bacrun", 0), ("bacwi", 1)], "once it is known which device it is")

    def test_a_search_waits_for_whom_it_was_sent_to(self):
        lines = ["12 %s/5/01 480 3 9" % A, "11 %s 1476 3 9" % A, "", "12 %s/5/01 480 3 9" % A]
        many = QuickCalls({A: device(11)}, heard=lines)
        search = tools.Search(many, A + "/5/02", 1000, time.monotonic() + 9)
        search.wait_for(A, 5)
        self.assertEqual(many.search.lines, lines[2:], "what is behind its answer is not waited for")
        self.assertEqual(search.heard(), [(12, A + "/5/01"), (11, A)])
        self.assertEqual(many.begun, [["bacwi", "--mac", A, "--apdu-timeout", "1000"]])

    def asked(self, values, numbers, **more):
        """The analog inputs that are asked for in turn, and the reasons."""
        many = QuickCalls({A: {(0, at, 85): value for at, value in values.items()}}, **more)
        with Controller(many, A) as controller:
            found = controller.ask_all([PropertyRef(0, at, 85) for at in numbers])
        return [it[2] for it in many.asked], [it.reason for it in found]

    def test_in_turn(self):
        good, busy = real("42290000"), ("abort", 9)
        once = {1: [busy, good], 2: [busy, good], 3: good, 4: good}
        more = {"window": 4, "timeout": 1, "retries": 1}
        found = self.asked({**once, 9: good}, [9, 1, 2, 3, 4], **more)
        self.assertEqual(found, ([9, 1, 2, 3, 4, 1, 2], [""] * 5))
        found = self.asked({0: good, 1: [busy, good], 2: good}, range(3), timeout=1, retries=1)
        self.assertEqual(found, ([0, 1, 2, 1], [""] * 3), "the third waits in bacrun already")
        self.assertEqual(self.asked({1: good, 2: good}, [1, 2], taken=3), ([1, 2], ["", ""]))
        failed = ["bactool: bind failed"] * 2
        self.assertEqual(self.asked({}, [1, 2], taken=999), ([], failed))

    def test_what_still_waits_in_bacrun_was_not_asked(self):
        class Late(dict):
            """Values of a device; the time is up once one of them is asked for."""

            def get(self, *key):
                controller.deadline = 0.0
                return super().get(*key)

        refs = [PropertyRef(0, at, 85) for at in range(3)]
        many = QuickCalls({A: {(0, 9, 85): real("42290000")}})
        with Controller(many, A) as controller:
            self.assertEqual(controller.ask(PropertyRef(0, 9, 85)).reason, "")
            many.devices[A] = Late.fromkeys([it[:3] for it in refs], real("42290000"))
            found = [it.reason for it in controller.ask_all(refs)]
        self.assertEqual((found, controller.late), (["", "not asked", "not asked"], True))

    def test_one_who_loses_has_half_as_many_each_time(self):
        values = {(0, at, 85): real("42290000") for at in range(99)}
        many = QuickCalls({A: values}, 8, lost={(0, 20, 85), (0, 50, 85)})
        with Controller(many, A) as controller:
            controller.ask_all([PropertyRef(*it) for it in values])
        windows = [words[words.index("--window") + 1] for words in many.begun]
        self.assertEqual(windows, ["8", "4", "2"])

    def test_who_has_not_answered_has_one_request_at_a_time(self):
        good, gone = real("42290000"), "silent"
        for window in 1, 4:
            found = self.asked({}.fromkeys(range(4), gone), range(4), window=window)
            self.assertEqual(found, ([0], ["timeout", *["not asked"] * 3]))
            values = {0: good, 1: gone, 2: gone, 3: good, 4: good, 5: good, 6: good, 7: good}
            count, reasons_ = self.asked(values, range(8), window=window)
            self.assertEqual(len(count), {1: 3, 4: 6}[window])
            self.assertEqual(reasons_[:3], ["", "timeout", "timeout"])
            self.assertEqual(set(reasons_[len(count) :]), {"not asked"})

    def test_silent_twice_in_a_row_is_asked_no_more(self):
        for window in 1, 4:
            values = device(11, 80)
            gone = {(0, at, number): "silent" for at in range(33, 81) for number in (77, 85, 111, 117)}
            many = QuickCalls({A: {**values, **gone}}, window, timeout=50)
            (found,) = survey.Survey(many, Bounds(), Earlier()).devices(points.targets([A]))
            told = " of 80 objects not asked"
            self.assertEqual([it.split(" ", 1)[-1] for it in found.reasons], [told[1:], "timeout"])
            self.assertEqual(int(found.reasons[0].split()[0]), 80 - len(found.objects))
            self.assertNotIn("object-name: not asked", sum((it.reasons for it in found.objects), []))

    def test_elements_that_are_not_asked_are_counted(self):
        for window in 1, 4:
            elements = {(8, 11, 76, at): an_object(0, at) for at in range(1, 41)}
            elements.update({(8, 11, 76, at): "silent" for at in (5, 6)})
            values = {**device(11), **elements, (8, 11, 76, 0): unsigned(40), (8, 11, 76): ("abort", 4)}
            many = QuickCalls({A: values}, window)
            with Controller(many, A) as controller:
                found = controller.elements(99, PropertyRef(8, 11, 76))
            lost = ["element %d of 40: timeout" % at for at in (5, 6)]
            left = 40 - len(found.found) - found.lost
            self.assertEqual(found.reasons[:2], lost)
            self.assertEqual(found.reasons[-1], "%d of 40 elements not asked" % left)
            self.assertGreater(left, 30)

    def test_a_remark_of_several_lines(self):
        for text, shown in ((b"\x01" * 1400, 5604), (b"\x01" * 1019 + b"A", 4081), (b"\x01" * 1018, 4076)):
            values = {(0, 1, 28): string(text, 6), (0, 1, 77): string("next")}
            for window in 1, 2, 4:
                many = QuickCalls({A: values}, window)
                with Controller(many, A) as controller:
                    controller.ask(PropertyRef(0, 1, 77))
                    whats = [PropertyRef(0, 1, it) for it in (77, 28, 77, 77, 28)]
                    found = controller.values(whats)
                self.assertEqual([len(it.text) for it in found], [4, shown, 4, 4, shown])


class Lists(unittest.TestCase):
    def test_each_point_of_a_list_has_a_name_of_its_own(self):
        found, names_ = PollList(), []
        for address in "192.0.2.1:1", "192.0.2.2:1", "192.0.2.3:1":
            point = SiteObject(0, 5, "Room 1", Value(Kind.NUMBER, "1"))
            text = found.of(Device(address, 9, objects=[point]), Columns())
            names_ += [line.split()[0] for line in text.splitlines()[1:]]
        self.assertEqual(names_, ["9.Room_1", "9.Room_1.0.5", "9.Room_1.0.5'"])


class Changes(unittest.TestCase):
    def test_what_was_not_read_is_no_change(self):
        known = Known(9, {"name": "D", "vendor": "V", "model": "M"}, "1", {})
        device = Device(A, 9, vendor="V", model="M", reasons=["object-name: timeout"])
        self.assertEqual(self.changes(known, device), [])
        device.reasons = []
        self.assertEqual(self.changes(known, device), ["name was D"])
        known = known._replace(texts={"name": "", "vendor": "V", "model": "M"}, is_whole=True)
        device.name, device.objects = "D", [SiteObject(0, 1, "S", unit="percent")]
        known = known._replace(objects={ObjectId(0, 1): {"name": "S", "unit": ""}})
        self.assertEqual(self.changes(known, device), ["name was none", "unit of 0:1 S was none"])

    def changes(self, known, device, **bounds):
        Earlier({A: known}).compare(device, Bounds(**bounds))
        return device.changes

    def test_what_both_surveys_have_is_compared(self):
        """Surveys of different kinds: of all, of devices, of held objects, and of names alone."""
        texts = {"name": "D", "vendor": "V", "model": "M"}
        objects = {ObjectId(0, 1): {"name": "S", "unit": "", "description": "old", "high-limit": "30"}}
        whole = Known(9, texts, "1", objects)
        device = Device(A, 9, "D", "V", "M")
        device.objects = [SiteObject(0, 1, "S"), SiteObject(0, 2, "T")]
        self.assertEqual(self.changes(whole, device), ["new: 0:2 T"])
        for known in (whole._replace(is_whole=False), whole._replace(is_held=True)):
            self.assertEqual(self.changes(known, device), [])
        self.assertEqual(self.changes(whole._replace(is_named=True, texts={}), device), [])
        device.objects[0].settings = {"high-limit": "25"}
        told = ["description of 0:1 S was old", "high-limit of 0:1 S was 30", "new: 0:2 T"]
        self.assertEqual(self.changes(whole, device, details=True), told)
        device.objects[:] = [SiteObject(0, 1, "S", priorities=(8,))]
        held = whole._replace(is_held=True, objects={ObjectId(0, 1): {"name": "S", "unit": "", "priority": "3"}})
        told = ["priority of 0:1 S was 3"]
        self.assertEqual(self.changes(held, device, held=True), told)
        device.objects[:] = []
        device.listed = [ObjectId(0, 1)]
        told = ["has the value of its program: 0:1 S"]
        self.assertEqual(self.changes(held, device, held=True), told)
        self.assertEqual(self.changes(held, device, devices=True), [])
        device.objects[:], device.listed = [SiteObject(0, 1, "S", priorities=(3,)), SiteObject(0, 2, "T")], None
        told = ["no longer has the value of its program: 0:2 T"]
        self.assertEqual((self.changes(held, device, held=True), self.changes(held, device)), (told, []))
        device.is_named = True
        self.assertEqual(self.changes(whole._replace(texts={**texts, "name": "E"}), device), [])


class Earliers(unittest.TestCase):
    """What is taken from the line of an earlier survey."""

    def known(self, **more):
        told = {"address": A, "device": 9, "name": "D", "vendor": "V", "model": "M", "revision": "3", "reasons": []}
        sensor = {"type": 0, "instance": 1, "name": "S", "unit": "percent", "value": "5"}
        told.update(objects=[sensor], **more)
        (found,) = Earlier(dict([survey._known_of(json.dumps(told).encode())]))._devices.values()
        return found

    def test_its_parts(self):
        texts, facts = {"name": "D", "vendor": "V", "model": "M"}, {ObjectId(0, 1): {"name": "S", "unit": "percent"}}
        self.assertEqual(self.known(), Known(9, texts, "3", facts))
        both = {"held": True, "name_only": True, "devices": False}
        self.assertEqual(self.known(asked_for=both), Known(9, texts, "3", facts, True, True, True))
        for is_whole, more in ((False, {"asked_for": {"devices": True}}), (True, {"asked_for": {"devices": False}}),
                               (False, {"reasons": ["deadline", "object-list: element 2 of 3: timeout"]}),
                               (False, {"reasons": ["4 of 9 objects not asked"]}), (True, {"reasons": ["timeout"]}),
                               (False, {"asked_for": {"devices": False, "not_normal": True}})):
            self.assertEqual(self.known(**more).is_whole, is_whole, more)
        old = {"address": A, "device": "9", "name": "D", "objects": []}
        wanted = (A, Known(9, {"name": "D"}, "", {}, is_whole=False))
        self.assertEqual(survey._known_of(json.dumps(old).encode()), wanted, "of an early version")
        self.assertIsNone(survey._known_of(json.dumps({**old, "device": None}).encode()))
        told = {"name": "S", "unit": "", "held": "8", "description": "x", "settings": {"high-limit": "5"}}
        wanted = {"name": "S", "unit": "", "priority": "8", "description": "x", "high-limit": "5"}
        self.assertEqual(survey._facts(told), wanted)
        told["reasons"] = ["units: timeout", "priority-array: error 1 27", "high-limit: no real: 5"]
        self.assertEqual(survey._facts(told), {"name": "S", "description": "x"})

    def test_what_was_not_read_then_has_not_changed(self):
        """Neither a text of the device nor a fact of an object."""
        lost = {"type": 0, "instance": 1, "name": "", "unit": "", "reasons": ["object-name: timeout", "units: abort 9"]}
        told = {"address": A, "device": 9, "name": "D", "vendor": "", "model": "", "objects": [lost]}
        told["reasons"] = ["vendor-name: timeout"]
        device = Device(A, 9, "D", "V", "M", objects=[SiteObject(0, 1, "S", unit="percent")])
        for reasons, changes in ((told["reasons"], []), ([], ["vendor was none"])):
            line = json.dumps({**told, "reasons": reasons}).encode()
            Earlier(dict([survey._known_of(line)])).compare(device, Bounds())
            self.assertEqual(device.changes, [*changes, "model was none"])
        told["reasons"].append("object-name: timeout")
        earlier = Earlier(dict([survey._known_of(json.dumps(told).encode())]))
        device = Device(A, 8)
        earlier.compare(device, Bounds())
        self.assertEqual((earlier.names_at(A), device.changes), ({}, ["was device 9"]))

    def test_names_and_stations(self):
        names = {ObjectId(0, 1): {"name": "S", "unit": ""}, ObjectId(0, 2): {"name": "", "unit": ""}}
        known = {(9, "3"): {ObjectId(0, 1): "S"}}
        for reuses, revision, wanted in ((True, "3", known), (False, "3", {}), (True, "", {})):
            earlier = Earlier({A: Known(9, {}, revision, names)}, reuses)
            self.assertEqual((earlier.names_at(A), earlier.names_at(B), earlier.is_given), (wanted, {}, True))
        routes = ["", "/5/01", "/5/02", "/55/01", "/6/01"]
        earlier = Earlier({A + it: Known(9, {}, "", {}) for it in routes})
        for reaches, wanted in (([A + "/*"], routes[1:]), ([A + "/5/*"], routes[1:3]), ([B + "/*"], []), ([], []),
                                ([A + "/5/*", A + "/6/*"], [*routes[1:3], routes[4]])):
            self.assertEqual(earlier.stations_at(reaches), [A + it for it in wanted], reaches)
        self.assertFalse(Earlier().is_given)

    def test_where_a_device_was(self):
        """Another device is there; the device was elsewhere; it is new; or nothing is known."""
        texts = {"name": "D", "vendor": "V", "model": "M"}
        earlier = Earlier({A: Known(9, texts, "", {}), B: Known(8, {**texts, "name": ""}, "", {})})
        for address, instance, gone, changes in ((A, 9, None, []), (A, 7, 9, ["was device 9 D"]),
                                                 (A, None, 9, ["was device 9 D"]), (B, 9, 8, ["was device 8"]),
                                                 ("C", 9, None, [f"was at {A}"]), ("C", 5, None, ["new"]),
                                                 ("C", None, None, [])):
            device = Device(address, instance, "D", "V", "M")
            earlier.compare(device, Bounds())
            self.assertEqual((device.gone, device.changes), (gone, changes), (address, instance))
        device = Device("C", 5)
        Earlier().compare(device, Bounds())
        self.assertEqual(device.changes, [])


class PortNumbers(unittest.TestCase):
    def test_none_comes_again_soon(self):
        ports = tools.ports()
        found = [next(ports) for _ in range(16384)]
        self.assertEqual((len(set(found)), min(found), max(found)), (16384, 49152, 65535))

    def test_each_tool_has_the_next_one(self):
        calls, begun = tools.Tools("/x/bactool", 1000, 2, 4), []
        calls._ports = iter([65535, 49152, 49153])
        calls.processes.start = lambda *words: begun.append(words)
        calls.start(["bacwi", "--mac", A], 7.0)
        calls.session(["--apdu-retries", "0"], 4)
        calls.listener(47808, 9.0)
        calls.session(calls.times(500), 1, 5.0)
        bacrun = ["/x/bactool", "bacrun", "--port"]
        self.assertEqual(begun, [
            (["/x/bactool", "bacwi", "--port", "65535", "--mac", A], 7.0),
            ([*bacrun, "49152", "--apdu-retries", "0", "--window", "4"], float("inf")),
            ([*bacrun, "47808"], 9.0),
            ([*bacrun, "49153", "--apdu-timeout", "500", "--apdu-retries", "2", "--window", "1"], 5.0),
        ])
        self.assertEqual(calls.times(500, 0), ["--apdu-timeout", "500", "--apdu-retries", "0"])

    def test_programs_side_by_side_begin_far_apart(self):
        begins = []
        for process in range(700):
            with unittest.mock.patch("os.getpid", return_value=process):
                begins.append(next(tools.ports()))
        near = sorted(begins)
        gaps = [after - at for at, after in zip(near, [*near[1:], near[0] + 16384])]
        self.assertGreaterEqual(min(gaps), 8)


class Window(harness.SiteTest):
    """Tests over sockets."""

    def polled(self, device, count, *options):
        path = self.path("window", "".join("p HERE 0 %d 85\n" % at for at in range(count)))
        status, out, _ = self.run_site("poll", "--no-flags", *options, path)
        return status, [line.split("\t")[2] for line in out.splitlines()]

    def test_so_many_are_open(self):
        values = {(0, at, 85): real("42290000") for at in range(24)}
        device = self.stand_in(values, kind=LateStandIn, delay=0.1)
        begun = {}
        for window in "1", "4":
            del device.times[:]
            found = self.polled(device, 24, "--window", window, *UNHURRIED)
            self.assertEqual(found, (0, ["42.25"] * 24))
            begun[window] = device.times[-1] - device.times[0]
        self.assertGreater(begun["1"], 2.2)
        self.assertLess(begun["4"], 0.75 * begun["1"])

    def test_one_who_is_busy_has_fewer(self):
        values = {(0, at, 85): real("42290000") for at in range(40)}
        values[0, 2, 85] = [("abort", 9), real("42290000")]
        device = self.stand_in(values)
        found = self.polled(device, 40, "--window", "4", *UNHURRIED)
        self.assertEqual(found, (0, ["42.25"] * 40))
        self.assertEqual(len(set(device.ports)), 2, "a bacrun with a window of its own")
        self.assertEqual(device.asked.count((0, 2, 85)), 2)

    def test_one_who_loses_has_fewer(self):
        values = {(0, at, 85): real("42290000") for at in range(80)}
        device = self.stand_in(values, lose=40)
        self.assertEqual(self.polled(device, 80, "--window", "4"), (0, ["42.25"] * 80))
        self.assertGreater(len(set(device.ports)), 1)

    def test_each_bacrun_has_a_port_of_its_own(self):
        device = self.stand_in({(0, 1, 85): real("42290000")})
        for _ in range(3):
            self.rows("read HERE 0 1 85 => 0 42.25")
        self.assertEqual(len(set(device.ports)), 3)
        self.assertTrue(all(port >= 49152 for port in device.ports))

    def test_a_port_that_somebody_has_is_passed_over(self):
        tool = self.path("taken", "")
        self.path("tries", "")
        harness.os.mkdir(self.world.folder + "/busy")
        text = "#!/bin/sh\necho x >>%s\n[ $(wc -l <%s) -gt 3 ] && exec %s \"$@\"\n"
        text += "echo bactool: bind failed >&2; exit 3\n"
        path = self.path("busy/bactool", text % (tool, tool, harness.TOOL))
        harness.os.chmod(path, 0o755)
        self.rows("read --tools IN/busy DEV 0 5 85 => 0 72.3")

    def test_a_debugger_is_told_where_it_failed(self):
        env = {**harness.os.environ, "BACSITE_DEBUG": "1", "PYTHONPATH": ""}
        broken = self.path("broken.py", "import sys\nsys.path.insert(0, sys.argv[1])\n"
                           "from bacsite import main, parsing\nfound = parsing.COMMANDS\n"
                           "found['read'] = found['read']._replace(function='read.NONE')\n"
                           "sys.argv[1:] = ['read', 'x']\nmain.run()\n")
        for told in ({}, env):
            done = harness.subprocess.run([self.world.command[0], broken, harness.TOP + "/site"],
                                          stderr=-1, env=told or None, encoding="utf-8")
            self.assertEqual((done.returncode, "Traceback" in done.stderr), (3, bool(told)))


if __name__ == "__main__":
    unittest.main()
