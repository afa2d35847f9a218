"""Surveys: the printed values, the missing ones, and their order."""

import calendar
import csv
import io
import json
import re
import signal
import time
import unittest

import harness
from bacsite.report import csv_lines
from unusual_values import ODD_VALUES
from stand_ins import NAMED, NULL, StandIn, an_object, bits, enumerated, real, string, tagged, unsigned

HEAD = "address,device,device_name,vendor,model,type,instance,type_name,name,value,meaning,unit,flags,reason"


def listed(*objects):
    """The object list of device 77, for element by element."""
    found = {(8, 77, 76): ("abort", 4), (8, 77, 76, 0): unsigned(len(objects))}
    found.update({(8, 77, 76, at): an_object(*what) for at, what in enumerate(objects, 1)})
    return found


def sensors(count):
    """Analog inputs of device 77."""
    objects = [(0, at) for at in range(1, count + 1)]
    values = {(8, 77, 76): b"".join(an_object(*what) for what in objects)}
    for what in objects:
        values.update(
            {
                (*what, 77): string("S%d" % what[1]),
                (*what, 85): real("42290000"),
                (*what, 111): bits("0000"),
                (*what, 117): enumerated(62),
            }
        )
    return values


class RestartStandIn(StandIn):
    """A device that is silent for 1.5 s from its 40th request on."""

    lost, until = 0, None

    def reply(self, apdu):
        if len(self.asked) == 40 and self.until is None:
            self.until = time.monotonic() + 1.5
        if self.until and time.monotonic() < self.until:
            self.lost += 1
            return b""
        return super().reply(apdu)


class Survey(harness.SiteTest):
    def odd_device(self):
        objects = [(8, 77), (0, 1), (13, 2), (300, 1), (15, 1), (4, 1)]
        values = {
            **ODD_VALUES,
            **listed(*objects),
            (8, 77, 77): string('Dach "1", Süd'),
            (8, 77, 121): string("Maker"),
            (8, 77, 70): string("=M1"),
            (13, 2, 110, 2): string("Away"),
            (300, 1, 117): ("error", 1, 27),
            (4, 1, 4): string("Läuft"),
            (4, 1, 77): string("@Fan"),
        }
        return self.stand_in(values)

    def test_csv(self):
        self.odd_device()
        status, out, err = self.run_site(
            "survey", "--csv", "--sorted", "1000@DEV", "HERE", "DEAD", "7@ODD"
        )
        self.assertEqual((status, err, out.count("\n")), (1, "", 19))
        lines = out.splitlines()
        self.assertEqual(lines[0], HEAD)
        self.assertEqual(
            lines[1],
            self.spelled(
                "DEV,1000,Small device,Property tools,bacdev,0,5,analog-input,Outdoor "
                "temperature,72.3,,degrees-fahrenheit,normal,"
            ),
        )
        device = self.spelled('HERE,77,"Dach ""1"", Süd",Maker,\'=M1,')
        self.assertEqual(
            lines[12:17],
            [
                device + row
                for row in (
                    r'0,1,analog-input,"Öl,\x1b[2J",,,degrees-celsius,fault,present-value: no number: NaN',
                    r"13,2,multi-state-input,\u202eMode,2,Away,,,",
                    "300,1,,A|B,2,,,,units: error 1 27",
                    "15,1,notification-class,,,,,,object-name: error 2 32",
                    "4,1,binary-output,'@Fan,1,Läuft,,,",
                )
            ],
        )
        self.assertEqual(
            lines[17:],
            [
                self.spelled("DEAD,,,,,,,,,,,,,timeout"),
                self.spelled("ODD,,,,,,,,,,,,,another device: 8:77"),
            ],
        )

    def test_lines(self):
        self.odd_device()
        status, out, err = self.run_site("survey", "--sorted", "HERE", "DEAD")
        self.assertEqual((status, err), (1, ""))
        self.assertEqual(
            re.sub("  +", ";", out),
            self.spelled(
                r"""HERE;device 77;Dach "1", Süd;Maker;=M1
;0:1;analog-input;Öl,\x1b[2J;-;fault;present-value: no number: NaN
;13:2;multi-state-input;\u202eMode;2 (Away);-
;300:1;-;A|B;2;-;units: error 1 27
;15:1;notification-class;-;-;-;object-name: error 2 32
;4:1;binary-output;@Fan;1 (Läuft);-
DEAD;device -;timeout
"""
            ),
        )
        status, out, err = self.run_site("survey", "DEV")
        self.assertEqual(
            (status, err, out.count("\n"), out.count("  72.3 degrees-fahrenheit  ")), (0, "", 12, 1)
        )

    def test_json(self):
        self.odd_device()
        status, out, _ = self.run_site("survey", "--json", "--sorted", "HERE", "DEAD")
        device, dead = map(json.loads, out.splitlines())
        self.assertEqual(
            (status, device["device"], device["model"], device["reasons"]), (1, 77, "=M1", [])
        )
        self.assertEqual(
            [it["kind"] for it in device["objects"]],
            ["other", "number", "number", "other", "number"],
        )
        self.assertEqual(device["objects"][1]["meaning"], "Away")
        self.assertEqual(
            (dead["device"], dead["objects"], dead["reasons"]), (None, [], ["timeout"])
        )

    def test_formulas_and_numbers(self):
        rows = [
            [
                "=cmd|' /C calc'!A0",
                "@SUM(1)",
                "+1+1",
                "-1+1",
                "-5",
                "-0.25",
                "-1e-07",
                "- x",
                "",
                "a=b",
                "\tx",
            ]
        ]
        self.assertEqual(
            csv_lines(rows),
            "'=cmd|' /C calc'!A0,'@SUM(1),'+1+1,'-1+1,-5,-0.25,-1e-07,'- x,,a=b,'\tx\n",
        )

    def test_states(self):
        self.stand_in(
            {
                **NAMED,
                **listed((13, 1), (13, 2), (4, 1), (4, 2), (4, 3)),
                (13, 1, 85): unsigned(0),
                (13, 1, 110, 0): unsigned(3),
                (13, 2, 85): unsigned(2),
                (13, 2, 110, 2): string("On"),
                (4, 1, 85): enumerated(0),
                (4, 1, 46): string("Aus"),
                (4, 2, 85): enumerated(1),
                (4, 2, 4): string(""),
                (4, 3, 85): enumerated(2),
                **{(t, i, 77): string("N") for t in (4, 13) for i in (1, 2, 3)},
            }
        )
        out = self.run_site("survey", "--json", "HERE")[1]
        found = [(it["value"], it["meaning"], it["reasons"]) for it in json.loads(out)["objects"]]
        self.assertEqual(
            found,
            [
                ("", "", ["present-value: no state: 0"]),
                ("2", "On", []),
                ("0", "Aus", []),
                ("1", "active", []),
                ("", "", ["present-value: no state: 2"]),
            ],
        )

    def test_flags_that_cannot_be_read(self):
        for flags, told in (
            (unsigned(15), "no bits: unsigned 15"),
            (b"\x09\x01", "no bits: [0]X'01'"),
            (b"", "no bits: {}"),
            (bits("0000") * 2, "no bits: {B'0000', B'0000'}"),
            (bits("000"), "no four bits: B'000'"),
        ):
            self.stand_in({**NAMED, **sensors(1), (0, 1, 111): flags})
            status, out, _ = self.run_site("survey", "--json", "HERE")
            found = json.loads(out)["objects"][0]
            self.assertEqual(
                (status, found["flags"], found["reasons"]), (1, "", ["status-flags: " + told])
            )

    def test_objects_that_are_not_asked_are_counted(self):
        self.stand_in({**NAMED, **sensors(30), (0, 13, 117): "silent", (0, 14, 77): "silent"})
        status, out, _ = self.run_site("survey", "HERE")
        lines = out.splitlines()
        self.assertEqual((status, len(lines)), (1, 15))
        self.assertTrue(lines[0].endswith("16 of 30 objects not asked; timeout"), lines[0])

    def test_a_silent_device(self):
        self.stand_in({(8, 77, 77): "silent", (8, 77, 121): "silent"})
        why = "object-name: timeout; vendor-name: timeout; model-name: not asked; object-list: not asked; timeout"
        self.assertEqual(
            self.run_site("survey", "HERE")[:2], (1, self.spelled("HERE  device 77  %s\n" % why))
        )

    def test_one_lost_element_leaves_the_others(self):
        values = {**NAMED, **sensors(3), **listed((0, 1), (0, 2), (0, 3)), (8, 77, 76, 2): "silent"}
        self.stand_in(values)
        status, out, _ = self.run_site("survey", "HERE")
        self.assertEqual((status, re.findall(r"(?m)^  (\S+)", out)), (1, ["0:1", "0:3"]))
        self.assertIn("  object-list: element 2 of 3: timeout\n", out)

    def test_a_list_without_an_end_is_bounded(self):
        class Endless(dict):
            def get(self, key, other=None):
                return (
                    an_object(15, key[3])
                    if key[:3] == (8, 77, 76) and key[3:] > (0,)
                    else dict.get(self, key, other)
                )

        device = self.stand_in({})
        device.values = Endless(
            {**device.values, **NAMED, (8, 77, 76): ("abort", 1), (8, 77, 76, 0): unsigned(99999)}
        )
        status, out, _ = self.run_site("survey", "HERE", "--objects", "20")
        self.assertEqual((status, out.count("\n")), (1, 21))
        self.assertIn(
            "object-list: 99978 of 99999 elements not asked; 1 of 21 objects not asked\n", out
        )
        begun = time.monotonic()
        status, out, _ = self.run_site("survey", "HERE", "--deadline", "1")
        self.assertLess(time.monotonic() - begun, harness.at_load(20))
        self.assertRegex(
            out, r"of 99999 elements not asked; \d+ of \d+ objects not asked; deadline\n"
        )

    def test_a_number_of_objects_that_is_none(self):
        self.stand_in({**NAMED, (8, 77, 76): ("abort", 4), (8, 77, 76, 0): string("x")})
        out = self.run_site("survey", "HERE")[1]
        self.assertIn('object-list: number of elements: "x"\n', out)

    def test_objects_that_are_none(self):
        self.stand_in(
            {**NAMED, **sensors(1), (8, 77, 76): an_object(0, 1) + string("0:2") + unsigned(5)}
        )
        out = self.run_site("survey", "HERE")[1]
        self.assertIn('object-list: no object: "0:2"; object-list: no object: 5\n', out)
        self.assertEqual(out.count("\n"), 2)

    def test_two_devices_with_one_instance(self):
        first, second = self.stand_in(NAMED), self.stand_in({**NAMED, (8, 77, 76): b""})
        first.values[(8, 77, 76)] = b""
        status, out, _ = self.run_site("survey", "--sorted", first.address, second.address)
        wanted = "%s  device 77  D  V  M\n%s  device 77  D  V  M  same instance as %s\n"
        self.assertEqual(
            (status, out), (1, wanted % (first.address, second.address, first.address))
        )

    def test_two_instances_at_one_address(self):
        self.stand_in({**NAMED, (8, 77, 76): b""})
        wanted = "HERE  device 77  D  V  M\nHERE  device -  another device: 8:77\n"
        self.assertEqual(
            self.run_site("survey", "77@HERE", "1026@HERE")[:2], (1, self.spelled(wanted))
        )
        self.assertEqual(
            self.run_site("survey", "HERE", "77@HERE")[:2],
            (0, self.spelled(wanted.split("\n")[0] + "\n")),
        )

    def test_devices_alone(self):
        device = self.stand_in({**NAMED, **sensors(3)})
        self.assertEqual(
            self.run_site("survey", "--devices", "HERE")[:2],
            (0, self.spelled("HERE  device 77  D  V  M\n")),
        )
        self.assertNotIn((8, 77, 76), device.asked)

    def test_a_device_that_becomes_another_is_told(self):
        for words in [], ["--devices"]:
            own = [an_object(8, 77), an_object(8, 78)]
            self.stand_in({**NAMED, (8, 77, 76): own[0], (8, 4194303, 75): own})
            line = "HERE  device 77  D  V  M  at the end another device: 8:78\n"
            self.assertEqual(self.run_site("survey", "HERE", *words)[:2], (1, self.spelled(line)))

    def test_lists_that_are_cut_or_change(self):
        listed, three = sensors(3)[8, 77, 76], unsigned(3)
        for values, told in (
            ({(8, 77, 76, 0): three}, ""),
            ({(8, 77, 76, 0): ("error", 2, 42)}, ""),
            ({(8, 77, 76, 0): unsigned(4)}, "  object-list: 3 listed, 4 at the end"),
            ({(8, 77, 76): listed + an_object(8, 5)}, "  object-list: another device: 8:5"),
            ({(8, 77, 155): unsigned(9)}, ""),
            ({(8, 77, 155): [unsigned(9), unsigned(10)]}, "  database-revision: 9, 10 at the end"),
        ):
            self.stand_in({**NAMED, **sensors(3), **values})
            status, out, _ = self.run_site("survey", "HERE")
            wanted = (bool(told), self.spelled("HERE  device 77  D  V  M" + told))
            self.assertEqual((status, out.splitlines()[0]), wanted)

    def test_a_present_value_that_is_refused_is_told(self):
        values = {**NAMED, **sensors(1), (0, 1, 85): ("error", 2, 32), (300, 1, 77): string("Own")}
        values[8, 77, 76] += an_object(300, 1)
        self.stand_in(values)
        found = json.loads(self.run_site("survey", "HERE", "--json")[1])["objects"]
        self.assertEqual([it["reasons"] for it in found], [["present-value: error 2 32"], []])

    def commanded(self):
        """A device with an input, and outputs commanded by the program, manually, by an unknown one, or not at all."""
        values = {**NAMED, **sensors(1)}
        for at, array in (
            (1, b"\0" * 15 + real("42290000")),
            (2, b"\0" * 7 + real("42290000") + b"\0" * 8),
            (3, b"\0" * 2 + real("42290000") * 6 + b"\0" * 8),
            (4, ("error", 1, 27)),
            (5, ("error", 2, 32)),
        ):
            values[8, 77, 76] += an_object(1, at)
            values.update({(1, at, 77): string("Out"), (1, at, 85): real("42290000"), (1, at, 87): array})
        return self.stand_in(values)

    def test_what_is_held_by_hand(self):
        device = self.commanded()
        status, out, _ = self.run_site("survey", "HERE", "--held")
        wanted = """HERE;device 77;D;V;M
;1:2;analog-output;Out;42.25;-;8 (manual-operator)
;1:3;analog-output;Out;42.25;-;3
;1:4;analog-output;Out;42.25;-;-;priority-array: error 1 27
"""
        self.assertEqual((status, re.sub("  +", ";", out)), (1, self.spelled(wanted)))
        self.assertFalse([it for it in device.asked if it[:2] in ((0, 1), (1, 1)) and it[2] not in (87, 111)])
        rows = self.run_site("survey", "HERE", "--held", "--csv", "--window", "4")[1].splitlines()
        self.assertEqual(rows[0], HEAD.replace(",reason", ",held,reason"))
        self.assertTrue(rows[1].endswith(",42.25,,,,8 (manual-operator),"), rows[1])

    def test_what_does_not_have_the_value_of_its_program(self):
        """Priority arrays with constructed values (clause 21: PriorityValue), overridden, out of service."""
        moment = tagged(10, b"\x7c\x0a\x1f\x04") + tagged(11, b"\x0c\x1e\0\0")
        values = {**NAMED, **sensors(4), (0, 2, 111): bits("0010"), (0, 3, 111): bits("0001")}
        for at, array in (
            (1, NULL * 7 + b"\x1e" + moment + b"\x1f" + NULL * 8),
            (2, NULL * 16),
            (3, NULL * 2 + b"\x0e" + NULL + b"\x0f" + NULL * 3 + b"\x1e" + moment + b"\x1f" + NULL * 9),
            (4, NULL * 7 + b"\x1e" + moment),
            (5, NULL * 8 + b"\x1e" + moment + b"\x1f" + NULL * 7),
        ):
            values[8, 77, 76] += an_object(44, at)
            values.update({(44, at, 77): string("Moment"), (44, at, 85): moment, (44, at, 87): array})
        self.stand_in(values)
        status, out, _ = self.run_site("survey", "HERE", "--held")
        wanted = """HERE;device 77;D;V;M
;0:2;analog-input;S2;42.25 degrees-celsius;overridden;-
;0:3;analog-input;S3;42.25 degrees-celsius;out-of-service;-
;44:1;datetime-value;Moment;{2024-10-31, 12:30:00.00};-;8 (manual-operator)
;44:3;datetime-value;Moment;{2024-10-31, 12:30:00.00};-;3
;44:4;datetime-value;Moment;{2024-10-31, 12:30:00.00};-;-;priority-array: bad-ack
"""
        self.assertEqual((status, re.sub("  +", ";", out)), (1, self.spelled(wanted)))
        shown = ", ".join(["null"] * 7 + ["[1]{2024-10-31, 12:30:00.00}"] + ["null"] * 8)
        self.rows("read HERE 44 1 87 => 0 %s" % shown)
        names = [it.split()[0] for it in self.run_site("survey", "HERE", "--held", "--list")[1].splitlines()]
        self.assertEqual(names[1:3], ["77.S2", "77.S3"])

    def test_what_is_held_is_released_by_a_list(self):
        device = self.commanded()
        array = NULL * 4 + enumerated(1) * 2 + NULL + enumerated(1) + NULL * 8
        more = {(4, 6, 77): string("Fan # 1"), (4, 6, 79): enumerated(4), (4, 6, 85): enumerated(1)}
        more[4, 6, 87] = array
        device.values.update({**more, (4, 6, 104): enumerated(0), (1, 2, 79): enumerated(1)})
        device.values[8, 77, 76] += an_object(4, 6)
        device.values.update({(1, 3, 87): NULL * 16, (1, 4, 87): NULL * 16, (1, 2, 104): real("00000000")})
        status, out, _ = self.run_site("survey", "HERE", "--held", "--release")
        lines = ["77@HERE analog-output 2 null --priority 8  # Out"]
        lines += ["77@HERE binary-output 6 null --priority %d  # Fan # 1" % it for it in (5, 8)]
        lines += ["# binary-output 6: priority 6 is the device's own"]
        self.assertEqual((status, out), (0, self.spelled("\n".join(lines) + "\n")))
        self.assertEqual(device.written, [], "it writes nothing itself")
        device.commands[1, 2] = [NULL] * 7 + [real("42290000")] + [NULL] * 8
        device.commands[4, 6] = [NULL] * 4 + [enumerated(1)] * 2 + [NULL, enumerated(1)] + [NULL] * 8
        found = self.run_site("write-list", self.path("release", out))
        self.assertEqual(found[0], 0, found)
        wanted = [((1, 2, 85), NULL, 8), ((4, 6, 85), NULL, 5), ((4, 6, 85), NULL, 8)]
        self.assertEqual(device.written, wanted)
        self.rows("survey HERE --release => 2 !--release needs --held")

    def test_what_is_not_normal(self):
        values = {**NAMED, **sensors(4), (0, 2, 111): bits("1000"), (0, 3, 85): ("error", 2, 42)}
        self.stand_in(values)
        status, out, _ = self.run_site("survey", "HERE", "--not-normal")
        wanted = """HERE;device 77;D;V;M
;0:2;analog-input;S2;42.25 degrees-celsius;in-alarm
;0:3;analog-input;S3;-;normal;present-value: error 2 42
"""
        self.assertEqual((status, re.sub("  +", ";", out)), (1, self.spelled(wanted)))
        before = self.path("odd.json", self.run_site("survey", "HERE", "--not-normal", "--json")[1])
        out = self.run_site("survey", "HERE", "--since", before)[1]
        self.assertEqual((out.count("\n"), out.count("since")), (5, 0), "what was not shown is not new")

    def test_an_object_list_that_is_refused_is_read_element_by_element(self):
        """Silence, reject 1, aborts 0 and 9, and errors: after each, the elements of the array are read."""
        objects = [(8, 77), (0, 1), (0, 2), (0, 3)]
        errors = ("error", 2, 47), ("error", 5, 0), ("error", 2, 44)
        for refusal in ("silent", ("reject", 1), ("abort", 0), *errors):
            self.stand_in({**NAMED, **sensors(3), **listed(*objects), (8, 77, 76): refusal})
            status, out, _ = self.run_site("survey", "HERE")
            self.assertEqual((status, out.count("  analog-input  S")), (0, 3), (refusal, out))
        self.stand_in({**NAMED, (8, 77, 76): ("error", 2, 47)})
        self.rows("survey HERE => 1 HERE  device 77  D  V  M  object-list: error 2 47")

    def test_a_device_that_restarts_is_asked_again(self):
        """The device is silent for 1.5 s when a third of its objects was read."""
        objects = [(0, at) for at in range(1, 25)]
        device = self.stand_in({**NAMED, **sensors(24)}, kind=RestartStandIn)
        status, out, err = self.run_site("survey", "HERE", "--window", "16")
        self.assertEqual((status, err), (0, ""), out)
        rows = [line.split() for line in out.splitlines()[1:]]
        self.assertEqual([it[0] for it in rows], ["0:%d" % at for _, at in objects])
        self.assertEqual([it[3] for it in rows], ["42.25"] * 24)
        self.assertGreater(device.lost, 0)

    def test_what_a_device_says_of_itself(self):
        now = time.localtime(time.time() + 90)
        clock = {(8, 77, 56): bytes([0xA4, now.tm_year - 1900, now.tm_mon, now.tm_mday, now.tm_wday + 1])}
        clock[8, 77, 57] = bytes([0xB4, now.tm_hour, now.tm_min, now.tm_sec, 0])
        facts = {(8, 77, 44): string("2.1"), (8, 77, 12): string("7"), (8, 77, 112): enumerated(0)}
        self.stand_in({**NAMED, **facts, **clock, (8, 77, 139): unsigned(14)})
        out = self.run_site("survey", "HERE", "--devices")[1]
        told = "  firmware 2.1, software 7, status operational, protocol_revision 14, clock +"
        head, line = out.splitlines()
        self.assertEqual((head, line[: len(told)]), (self.spelled("HERE  device 77  D  V  M"), told))
        self.assertRegex(line[len(told) :], r"\A([67]\d|8\d|9[01]) s\Z")  # less what passed since, on a busy machine
        rows = list(csv.DictReader(io.StringIO(self.run_site("survey", "HERE", "--devices", "--csv")[1])))
        self.assertEqual((rows[0]["firmware"], rows[0]["status"]), ("2.1", "operational"))
        found = json.loads(self.run_site("survey", "HERE", "--devices", "--json")[1])
        self.assertEqual(found["protocol_revision"], "14")
        asked = {"devices": True, "held": False, "details": False, "objects": 5000, "deadline": 600}
        self.assertEqual(found["asked_for"], {**asked, "not_normal": False, "name_only": False})

    def test_details(self):
        more = {(0, 1, 28): string("On the roof"), (0, 1, 36): enumerated(3), (0, 1, 45): real("41f00000")}
        self.stand_in({**NAMED, **sensors(2), **more})
        rows = self.run_site("survey", "HERE", "--details", "--csv")[1].splitlines()
        self.assertEqual(rows[0], HEAD.replace(",reason", ",description,event_state,settings,reason"))
        self.assertTrue(rows[1].endswith(",normal,On the roof,above-the-high-limit,high-limit 30,"), rows[1])
        self.assertTrue(rows[2].endswith(",normal,,,,"), rows[2])

    def test_details_since_an_earlier_survey(self):
        """Limits, relinquish defaults, texts of states and descriptions."""
        values = {**NAMED, **sensors(1), (0, 1, 45): real("41f00000"), (0, 1, 28): string("Roof")}
        values.update({(1, 1, 77): string("Valve"), (1, 1, 85): real("00000000"), (1, 1, 104): real("00000000")})
        texts = string("Off") + string("On")
        values.update({(13, 1, 77): string("Mode"), (13, 1, 85): unsigned(1), (13, 1, 110): texts})
        values[13, 1, 110, 1] = string("Off")
        values[8, 77, 76] += an_object(1, 1) + an_object(13, 1)
        device = self.stand_in(values)
        before = self.path("details.json", self.run_site("survey", "HERE", "--details", "--json")[1])
        words = ["survey", "HERE", "--details", "--since", before]
        self.assertNotIn("since", self.run_site(*words)[1])
        device.values.update({(0, 1, 45): real("41c80000"), (0, 1, 28): string("Cellar")})
        device.values.update({(1, 1, 104): real("42480000"), (13, 1, 110): string("Off") + string("Auto")})
        told = ["description of 0:1 S1 was Roof", "high-limit of 0:1 S1 was 30"]
        told += ["relinquish-default of 1:1 Valve was 0", 'state-text of 13:1 Mode was {"Off", "On"}']
        out = self.run_site(*words)[1]
        self.assertEqual([it for it in out.splitlines() if "since" in it], ["  since: " + it for it in told])
        self.assertNotIn("since", self.run_site("survey", "HERE", "--since", before)[1], "not asked for now")

    def test_a_list_for_poll(self):
        more = {(15, 1, 77): string("None"), (0, 2, 77): string("S1"), (0, 3, 85): real("7fc00000")}
        values = {**NAMED, **sensors(3), **more}
        values[8, 77, 76] += an_object(15, 1)
        device = self.stand_in(values)
        text = self.run_site("survey", "HERE", "--list")[1]
        names = [line.split()[0] for line in text.splitlines()]
        self.assertEqual(names, ["#", "77.S1", "77.S1.0.2", "77.S3"])
        device.values.update({(0, 1, 77): string("S1.0.3"), (0, 3, 77): string("S1")})
        again = self.run_site("survey", "HERE", "--list")[1]
        names = [line.split()[0] for line in again.splitlines()]
        self.assertEqual(names, ["#", "77.S1.0.3", "77.S1", "77.S1.0.3'"])
        device.values.update({(0, 1, 77): string("S1"), (0, 3, 77): string("S3")})
        status, out, _ = self.run_site("poll", self.path("made", text))
        rows = [line.split("\t")[1:] for line in out.splitlines()]
        self.assertEqual((status, rows[0]), (1, ["77.S1", "42.25", "-", "-", "-"]))
        self.assertEqual((len(rows), rows[2]), (3, ["77.S3", "-", "no number: NaN", "-", "-"]))

    def test_since_an_earlier_survey(self):
        values = {**NAMED, **sensors(3), (8, 77, 155): unsigned(7)}
        device = self.stand_in(values)
        before = self.path("before.json", self.run_site("survey", "HERE", "--json")[1])
        del device.asked[:]
        status, out, _ = self.run_site("survey", "HERE", "--since", before, "--reuse-names")
        self.assertEqual((status, out.count("  S1 (not read)  "), out.count("since")), (0, 1, 0))
        self.assertFalse([it for it in device.asked if it[0] == 0 and it[2] == 77], "names are known")
        marks = [json.loads(self.run_site("survey", "HERE", "--json", *it)[1])["objects"][0].get("name_read")
                 for it in ([], ["--since", before], ["--since", before, "--reuse-names"])]
        self.assertEqual(marks, [None, None, False])
        rows = self.run_site("survey", "HERE", "--since", before, "--reuse-names", "--csv")[1].splitlines()
        self.assertTrue(rows[1].endswith(",normal,False,,"), rows[1])
        names = self.run_site("survey", "HERE", "--since", before, "--reuse-names", "--list")[1].splitlines()
        self.assertEqual(names[1], "# 3 names not read, but taken from an earlier survey")
        page = self.path("reused.html", "")
        self.run_site("survey", "HERE", "--since", before, "--reuse-names", "--html", page)
        with open(page, encoding="utf-8") as file:
            self.assertEqual(file.read().count("(not read)"), 3)
        device.values[0, 1, 77] = string("S9")
        out = self.run_site("survey", "HERE", "--since", before)[1]
        self.assertIn("since: name of 0:1 S9 was S1", out, "the revision is the same, and the name is read")
        device.values[0, 1, 77] = string("S1")
        self.rows("survey HERE --reuse-names => 2 !--reuse-names needs --since")
        device.values.update({(8, 77, 155): unsigned(8), (0, 2, 77): string("T2"), (8, 77, 77): string("E")})
        device.values.update({(0, 1, 117): enumerated(5), (0, 4, 77): string("S4"), (0, 4, 85): real("00000000")})
        device.values[8, 77, 76] = b"".join(an_object(0, at) for at in (1, 2, 4))
        out = self.run_site("survey", "HERE", "--since", before)[1]
        told = ["name was D", "gone: 0:3 S3", "unit of 0:1 S1 was degrees-celsius"]
        told += ["name of 0:2 T2 was S2", "new: 0:4 S4"]
        self.assertEqual(out.splitlines()[-5:], ["  since: " + it for it in told])
        out = self.run_site("survey", "HERE", "--since", before, "--reuse-names")[1]
        self.assertEqual(out.splitlines()[-5:], ["  since: " + it for it in told], "names of another revision are read")
        found = json.loads(self.run_site("survey", "HERE", "--since", before, "--json")[1])
        self.assertEqual(found["changes"], told)
        device.values.update({**listed((0, 1), (0, 2), (0, 3)), (8, 77, 76, 3): ("error", 2, 42)})
        out = self.run_site("survey", "HERE", "--since", before)[1]
        self.assertNotIn("gone", out, "an element is lost, and may be the one that was there")
        device.values[8, 4194303, 75] = "silent"
        device.reply = lambda apdu: b""
        word = "127.0.0.1-1:" + self.names["HERE"].split(":")[1]
        out = self.run_site("survey", word, "--since", before)[1]
        self.assertEqual(out, self.spelled("HERE  device -  timeout\n  since: was device 77 D\n"))
        self.rows("survey DEV --since IN/none => 3 !cannot read IN/none: No such file or directory")
        self.path("no.json", "[1]\n")
        self.rows("survey DEV --since IN/no.json => 2 !no survey by --json: IN/no.json")

    def test_an_ede_file(self):
        """The columns of layout 2.1, in their order."""
        values = {**NAMED, **sensors(1), (0, 1, 45): real("41f00000"), (0, 1, 59): real("41200000")}
        values.update({(0, 1, 28): string("Roof; north"), (1, 2, 77): string("Valve"), (1, 2, 85): real("00000000")})
        values.update({(1, 2, 104): real("42480000"), (1, 2, 69): real("00000000"), (1, 2, 65): real("42c80000")})
        values.update({(1, 2, 117): enumerated(999)})
        values[8, 77, 76] += an_object(1, 2)
        self.stand_in(values)
        path = self.path("site.csv", "")
        self.assertEqual(self.run_site("survey", "HERE", "--ede", path), (0, "", ""))
        with open(path, encoding="utf-8") as file:
            rows = list(csv.reader(file, delimiter=";"))
        self.assertEqual(rows[0], ["# Proposal_Engineering-Data-Exchange - B.I.G.-EU"])
        self.assertEqual((rows[5], len(rows[6]), len(rows[7])), (["VERSION_OF_LAYOUT", "2.1"], 17, 17))
        names = ["PROJECT_NAME", "VERSION_OF_REFERENCEFILE", "TIMESTAMP_OF_LAST_CHANGE", "AUTHOR_OF_LAST_CHANGE"]
        self.assertEqual([it[0] for it in rows[1:5]], names)
        made = calendar.timegm(time.strptime(rows[3][1], "%Y-%m-%dT%H:%M:%SZ"))
        self.assertLess(abs(time.time() - made), harness.at_load(20))
        heads = ["# keyname", "device obj.-instance", "object-name", "object-type", "object-instance"]
        self.assertEqual(rows[7][:5], heads)
        sensor = ["77_0_1", "77", "S1", "0", "1", "Roof; north", "", "", "", "N", "", "30", "10", "", "62", "", ""]
        valve = ["77_1_2", "77", "Valve", "1", "2", "", "50", "0", "100", "Y", "", "", "", "", "999", "", ""]
        self.assertEqual(rows[8:], [sensor, valve])
        self.rows("survey HERE --ede /dev/null => 2 !no plain file: /dev/null")

    def test_a_device_that_moved(self):
        device = self.stand_in({**NAMED, (8, 77, 76): b""})
        before = self.path("moved.json", self.run_site("survey", "HERE", "--json")[1])
        port = self.names["HERE"].split(":")[1]
        device.reply = lambda apdu: b""
        other = self.stand_in({**NAMED, (8, 77, 76): b""})
        for words in ["127.0.0.1-1:" + port, other.address], [other.address, "127.0.0.1-1:" + port, "--sorted"]:
            status, out, _ = self.run_site("survey", *words, "--since", before)
            wanted = "%s  device 77  D  V  M\n  since: was at 127.0.0.1:%s\n" % (other.address, port)
            self.assertEqual((status, out), (0, wanted))

    def test_who_is_ready_is_printed(self):
        self.stand_in({**NAMED, (8, 77, 76): b""})
        with self.begun("survey", "DEAD", "HERE", "--apdu-timeout", "20000") as process:
            first = process.stdout.readline().decode()
            self.assertEqual(first, self.spelled("HERE  device 77  D  V  M\n"))
            process.send_signal(signal.SIGINT)
            self.assertEqual(process.communicate(timeout=20), (b"", b""))
        self.assertEqual(process.returncode, -signal.SIGINT)

    def test_words(self):
        self.rows(
            """
            survey DEV nobody => 2 !no address: nobody
            survey => 2 !the following arguments are required: [INSTANCE@]ADDRESS; see bacsite survey --help
            survey 192.0.2.0/8 => 2 !no range of 1 to 65536 addresses: 192.0.2.0/8
            survey DEV --csv --json => 2 !argument --json: not allowed with argument --csv; see bacsite survey --help
            """
        )


if __name__ == "__main__":
    unittest.main()
