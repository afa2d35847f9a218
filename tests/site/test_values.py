"""Octets of values in readable form, and the values that a property may have."""

import random
import re
import struct
import unittest

import harness
from bacsite import standard
from bacsite.points import FORMS
from bacsite.standard import PropertyRef, form_of
from bacsite.values import Kind, fault, flags_of, value_of, values_of
from unusual_values import ODD, SHOWN_WEEK, WEEK
from stand_ins import an_object, bits, enumerated, real, string, tagged, unsigned

NUMBER, TEXT, OTHER, FAULT = Kind.NUMBER, Kind.TEXT, Kind.OTHER, Kind.FAULT
ANALOG, BINARY, MODE, VENDOR = (0, 1, 85), (4, 1, 85), (13, 1, 85), (300, 1, 85)
# Clause 21, BACnetWeekNDay: the odd months, each of the six kinds of weeks, Sunday.
WEEKS = b"".join(bytes([0x2B, 13, week, 7]) for week in range(1, 7))
DAYS_OF_WEEKS = ("1-7", "8-14", "15-21", "22-28", "29-31", "last 7")
SHOWN_WEEKS = ", ".join(f"month odd, days {it}, Sun" for it in DAYS_OF_WEEKS)
ODD_SHAPE = "[0]{1907-10-31}, [2]{}, [3]X'10'"


def double(number):
    return tagged(5, struct.pack(">d", number))


def date(octets):
    return tagged(10, bytes.fromhex(octets))


def time(octets):
    return tagged(11, bytes.fromhex(octets))


# The requested property, the octets of the answer, their kind, and their text.
ROWS = (
    (ANALOG, real("42290000"), NUMBER, "42.25"),
    (ANALOG, unsigned(72), FAULT, "no real: unsigned 72"),
    (ANALOG, unsigned(42290000), FAULT, "no real: unsigned 42290000"),
    (ANALOG, enumerated(40600000), FAULT, "no real: enumerated 40600000"),
    (ANALOG, string("n/a"), FAULT, 'no real: "n/a"'),
    (ANALOG, b"\0", FAULT, "no real: null"),
    (ANALOG, b"", FAULT, "no real: {}"),
    (ANALOG, real("42290000") * 2, FAULT, "no real: {42.25, 42.25}"),
    (ANALOG, b"\x11", FAULT, "no real: true"),
    (ANALOG, real("7f800000"), FAULT, "no number: Inf"),
    (ANALOG, double(20), FAULT, "no real: double 20"),
    (ANALOG, b"\x09\x05", FAULT, "no real: [0]X'05'"),
    (BINARY, enumerated(1), NUMBER, "1 (active)"),
    (BINARY, enumerated(0), NUMBER, "0 (inactive)"),
    (BINARY, unsigned(1), NUMBER, "1 (active)"),
    (BINARY, enumerated(2), FAULT, "no state: 2"),
    (BINARY, real("00000001"), FAULT, "no integer: real 1e-45"),
    (BINARY, b"\x11", FAULT, "no integer: true"),
    (MODE, unsigned(3), NUMBER, "3"),
    (MODE, unsigned(0), FAULT, "no state: 0"),
    (MODE, tagged(3, b"\xff"), FAULT, "no integer: signed -1"),
    ((13, 1, 74), tagged(3, b"\xfb"), FAULT, "no integer: signed -5"),
    ((13, 1, 74), tagged(3, b"\5"), NUMBER, "5"),
    (MODE, date("12345678"), FAULT, "no integer: D'12345678'"),
    (MODE, real("42480000"), FAULT, "no integer: real 50"),
    (VENDOR, real("40600000"), NUMBER, "3.5"),
    (VENDOR, unsigned(40600000), NUMBER, "40600000"),
    (VENDOR, double(20), NUMBER, "20"),
    (VENDOR, real("7fc00000"), FAULT, "no number: NaN"),
    (VENDOR, string("NaN"), TEXT, "NaN"),
    (VENDOR, unsigned(62), NUMBER, "62"),
    (VENDOR, string("62"), TEXT, "62"),
    (VENDOR, unsigned(1) + real("40600000"), OTHER, "{1, 3.5}"),
    (VENDOR, bits("01"), OTHER, "B'01'"),
    (VENDOR, tagged(6, b"\1\xff"), OTHER, "X'01ff'"),
    ((0, 1, 111), bits("0110"), OTHER, "B'0110' (fault, overridden)"),
    ((0, 1, 111), unsigned(15), FAULT, "no bits: unsigned 15"),
    ((0, 1, 111), b"\x0e\x0f", FAULT, "no bits: [0]{}"),
    ((0, 1, 111), bits("0000") * 2, FAULT, "no bits: {B'0000', B'0000'}"),
    ((0, 1, 111), b"", FAULT, "no bits: {}"),
    ((0, 1, 77), string('Room "5"'), TEXT, 'Room "5"'),
    ((0, 1, 77), unsigned(5), FAULT, "no text: unsigned 5"),
    ((0, 1, 117), enumerated(62), NUMBER, "62 (degrees-celsius)"),
    ((12, 1, 82), enumerated(98), NUMBER, "98 (percent)"),
    ((12, 1, 20), enumerated(62), NUMBER, "62 (degrees-celsius)"),
    ((0, 1, 35), bits("1001"), OTHER, "B'1001' (to-off-normal, bit 3)"),
    ((0, 1, 77), string(b"\0\0\0Z\0\0\0\xfc", 3), TEXT, "Zü"),
    ((0, 1, 77), string(b"\0Z\0\xfc", 4), TEXT, "Zü"),
    ((0, 1, 77), string(b"Z\xfc", 5), TEXT, "Zü"),
    ((0, 1, 77), string(b"\xfc", 0), TEXT, '"\\xfc"'),
    ((0, 1, 77), string("Rab", 1), TEXT, '1:"Rab"'),
    ((1, 1, 87), b"\0" + real("41a00000"), OTHER, "{null, 20}"),
    ((1, 1, 87), b"\0" + unsigned(20), FAULT, "no real: unsigned 20"),
    ((1, 1, 87, 2), b"\0", OTHER, "null"),
    ((1, 1, 87, 2), real("41a00000"), NUMBER, "20"),
    ((1, 1, 87, 0), unsigned(16), NUMBER, "16"),
    ((4, 1, 87), b"\0" + enumerated(1), OTHER, "{null, 1 (active)}"),
    ((44, 1, 85), date("7c0a1f04") + time("0c1e0000"), OTHER, "{2024-10-31, 12:30:00.00}"),
    ((44, 1, 85), date("7c0a1f04"), FAULT, "no date and time: 2024-10-31"),
    ((44, 1, 85), time("0c1e0000") + date("7c0a1f04"), FAULT, "no date: 12:30:00.00"),
    (
        (44, 1, 85),
        date("7c0a1f04") + time("0c1e0000") + unsigned(1),
        FAULT,
        "no date and time: {2024-10-31, 12:30:00.00, 1}",
    ),
    ((23, 1, 45), unsigned(12345678), NUMBER, "12345678"),
    ((23, 1, 45), real("42280000"), FAULT, "no integer: real 42"),
    ((46, 1, 45), double(20), NUMBER, "20"),
    ((45, 1, 85), tagged(3, b"\xfb"), NUMBER, "-5"),
    ((17, 1, 85), b"\0", OTHER, "null"),
    ((17, 1, 123), WEEK, OTHER, SHOWN_WEEK),
    ((17, 1, 123, 1), b"\x0e\x0f", OTHER, "[0]{}"),
    ((17, 1, 38), b"\x0e\x0c\7\x0a\x1f\4\x0f\x2e\x2f\x39\x10", OTHER, ODD_SHAPE),
    ((6, 1, 23), WEEKS, OTHER, SHOWN_WEEKS),
    ((6, 1, 23), b"\x2b\x01\x00\x07", OTHER, "[2]X'010007'"),
    ((8, 1, 76), an_object(8, 1) + an_object(0, 5), OTHER, "{8:1 (device), 0:5 (analog-input)}"),
    ((8, 1, 76), an_object(8, 1), OTHER, "8:1 (device)"),
    ((13, 1, 110), string("a") + string("b,c"), OTHER, '{"a", "b,c"}'),
    ((0, 1, 4194303), b"\xd1\x05", OTHER, "13:X'05'"),
    ((0, 1, 4194303), b"\x43\1\2\3" + unsigned(1), OTHER, "4:X'010203', 1"),
    ((8, 1, 56), date("7c0d1f04"), OTHER, "2024-odd-31 Thu"),
    ((8, 1, 56), date("ff0e22ff"), OTHER, "*-even-even"),
    ((8, 1, 56), date("7c0f1f04"), OTHER, "D'7c0f1f04'"),
    ((8, 1, 56), date("7c0a2304"), OTHER, "D'7c0a2304'"),
    ((8, 1, 57), time("18000000"), OTHER, "T'18000000'"),
    ((13, 1, 7), unsigned(1) + unsigned(2), OTHER, "{1, 2}"),
    ((39, 1, 7), bits("01") + bits("10"), OTHER, "{B'01', B'10'}"),
    ((0, 1, 45), real("41a00000"), NUMBER, "20"),
    ((0, 1, 81), b"\x11", OTHER, "true"),
    ((7, 1, 2), b"\x0e\x0f", OTHER, "[0]{}"),
    ((12, 1, 2), enumerated(1), NUMBER, "1 (reverse)"),
    ((0, 1, 81), unsigned(1), FAULT, "no boolean: unsigned 1"),
)


class Values(unittest.TestCase):
    def test_rows(self):
        for what, octets, kind, shown in ROWS:
            with self.subTest(what=what, octets=octets):
                value = value_of(octets, form_of(PropertyRef(*what)))
                self.assertEqual((value.kind, value.shown()), (kind, shown))
                self.assertEqual(value.number is not None, kind is NUMBER)
                self.assertEqual(value.fault, shown if kind is FAULT else "")

    def test_a_form_that_is_told(self):
        for octets, form, wanted in (
            (real("40600000"), "real", "3.5"),
            (unsigned(40600000), "real", "no real: unsigned 40600000"),
            (unsigned(40600000), "integer", "40600000"),
            (tagged(3, b"\xfb"), "integer", "-5"),
            (real("40600000"), "integer", "no integer: real 3.5"),
            (double(3.5), "double", "3.5"),
            (real("40600000"), "double", "no double: real 3.5"),
        ):
            self.assertEqual(value_of(octets, FORMS[form]).text, wanted)

    def test_any_octets_are_shown(self):
        dice, some = random.Random(135), b"\0\1\x0e\x0f\x3e\x3f\x21\x44\x75\x82\xff"
        for _ in range(4000):
            octets = bytes(dice.choice(some) for _ in range(1 + dice.randrange(9)))
            for what in ANALOG, VENDOR, (1, 1, 87), (44, 1, 85):
                value = value_of(octets, form_of(PropertyRef(*what)))
                self.assertTrue(value.shown().isprintable() and value.told(), msg=octets)

    def test_flags(self):
        for text, wanted in (
            ("0000", "normal"),
            ("1001", "in-alarm, out-of-service"),
            ("00000", None),
            ("", None),
        ):
            value = flags_of(value_of(bits(text) if text else b"\x81\0", form_of(PropertyRef(0, 1, 111))))
            self.assertEqual((value.text if not value.fault else None), wanted)
        self.assertEqual(flags_of(fault("timeout")).fault, "timeout")

    def test_each_of_a_list(self):
        form = form_of(PropertyRef(1, 1, 87, 1))
        found = values_of(b"\0" + real("7fc00000") + unsigned(1), form)
        wanted = ["null", "no number: NaN", "no real: unsigned 1"]
        self.assertEqual([it.text for it in found], wanted)
        self.assertEqual(values_of(b"", form), [])
        self.assertEqual(values_of(b"\x0e\x0f", form), [])

    def test_every_name_of_the_tables_is_there(self):
        with open(harness.TOP + "/site/bacsite/numbers.txt", encoding="utf-8") as file:
            text = file.read()
        for title, table in (
            ("Object types", standard.OBJECT_TYPES),
            ("Properties", standard.PROPERTIES),
            ("Units", standard.UNIT_NAMES),
        ):
            section = text.split("\n= " + title)[1].split("\n= ")[0]
            rows = re.findall(r"(?m)^(\d+) \| ([\w-]+)(?: \||$)", section)
            self.assertEqual({int(number): name for number, name in rows}, table)
        self.assertEqual(standard.MEANINGS["status-flags"][3], "out-of-service")
        self.assertEqual(standard.MEANINGS["reliability"][12], "communication-failure")


class Refusing(dict):
    """The values of a device that refuses every other property in this way, but has a name and a type."""

    def __init__(self, values, refusal):
        super().__init__(values)
        self.refusal = refusal

    def get(self, key, _=None):
        if key[-1] == 77:
            return ("error", 2, 32)
        return self[key] if key in self else self.refusal


class Devices(harness.SiteTest):
    def test_what_objects_have(self):
        for (kind, instance), has in ODD.items():
            told = [
                (number, standard.PROPERTIES.get(number, "-"), shown)
                for number, _, shown in sorted(has)
            ]
            bad = any(re.match("no [a-z]+: ", shown) for *_, shown in told)
            lines = "".join("%d %s %s\n" % row for row in told)
            with self.subTest(kind=kind):
                found = self.run_site("properties", "ODD", str(kind), str(instance))
                self.assertEqual(found, (int(bad), lines, ""))

    def test_read(self):
        self.rows(
            """
            read DEV 0 5 85 => 0 72.3
            read DEV analog-input 5 present-value => 0 72.3
            read DEV Analog-Input 5 Present-Value => 0 72.3
            read 1000@DEV 0 5 85 => 0 72.3
            read DEV 0 5 77 => 0 Outdoor temperature
            read DEV 0 5 units => 0 64 (degrees-fahrenheit)
            read DEV plain 4 4 85 => 0 0 (inactive)
            read DEV 1 1 87 0 => 0 16
            read DEV 1 1 87 16 => 0 null
            read DEV device 4194303 75 => 0 8:1000 (device)
            read 7@DEV 0 5 85 => 1 another device: 8:1000
            read DEV 0 99 85 => 1 error 1 31
            read DEAD 0 5 85 => 1 timeout
            read 7@DEAD 0 5 85 => 1 timeout
            read 255.255.255.255 0 5 85 => 1 timeout (the system refused to send it)
            read 127.0.0.1:0/5/07 0 5 85 => 1 timeout (the system refused to send it)
            read ODD 1 3 87 2 => 0 20
            read ODD real 300 1 85 => 0 2
            read ODD integer 300 1 85 => 1 no integer: real 2
            read ODD 300 1 85 => 0 2
            read ODD 0 1 85 => 1 no number: NaN
            read ODD double 300 1 85 => 1 no double: real 2
            read nobody.invalid 0 5 85 => 2 !no address: nobody.invalid
            read 127.0.0.256 0 5 85 => 2 !no address: 127.0.0.256
            read 0.0.0.0 0 5 85 => 2 !no address: 0.0.0.0
            read 127.0.0.1:65536 0 5 85 => 2 !no address: 127.0.0.1:65536
            read 127.0.0.1/5/7 0 5 85 => 2 !no address: 127.0.0.1/5/7
            read 127.0.0.1/0/07 0 5 85 => 2 !no address: 127.0.0.1/0/07
            read \x1b[2J 0 5 85 => 2 !no address: \\x1b[2J
            read DEV 0 5 => 2 !wanted: [INSTANCE@]ADDRESS [real|double|integer] TYPE INSTANCE PROPERTY [INDEX]
            read DEV 0 5 85 1 1 => 2 !wanted: [INSTANCE@]ADDRESS [real|double|integer] TYPE INSTANCE PROPERTY [INDEX]
            read DEV 0 5 pv => 2 !no property: pv; perhaps present-value or protocol-version
            read DEV AI 5 85 => 2 !no object type: AI; perhaps analog-input
            read DEV 0 5 presentvalue => 2 !no property: presentvalue; perhaps present-value or min-pres-value or..
            read DEV 1024 5 85 => 2 !no object type: 1024
            read DEV 0 4194304 85 => 2 !no instance: 4194304
            read DEV 0 5 85 -1 => 2 !no index: -1
            read DEV 0 5 85 -x => 2 !unrecognized arguments: -x; see bacsite --help; put a value like -x after --
            read --apdu-retries 10 DEV 0 5 85 => 2 !argument --apdu-retries: not 0 to 9: 10; see bacsite read --help
            read --tools /nowhere DEV 0 5 85 => 3 !no bactool in /nowhere
            read DEV 0 5 85 -x => 2 !unrecognized arguments: -x; see bacsite --help; put a value like -x after --
            bad => 2 !argument COMMAND: invalid choice: 'bad'..
            --version => 0 bacsite 0.4.0
            -V => 0 bacsite 0.4.0
            """
        )

    def test_properties(self):
        fan = (
            "36 event-state 0 (normal);75 object-identifier 4:4 (binary-output);77 object-name Fan"
        )
        self.rows(
            """
            properties DEV 4 4 --last 78 => 0 %s
            properties DEAD 0 5 => 1 77 object-name timeout
            properties DEV 0 99 => 1 77 object-name error 1 31
            properties DEV 0 => 2 !the following arguments are required: WORD; see bacsite properties --help
            properties 7@DEV 0 5 => 1 77 object-name another device: 8:1000
            """
            % fan
        )
        lines = self.run_site("properties", "DEV", "4", "4")[1].splitlines()
        self.assertEqual(lines[-1], "111 status-flags B'0000'")
        asked = self.world.odd.asked
        self.run_site("properties", "ODD", "0", "1")
        self.assertNotIn((0, 1, 0), asked, "what the list does not have is not asked for")

    def test_properties_of_a_device_that_refuses_unknown_numbers(self):
        """The property list is missing because of a reject, an abort or an error."""
        for refusal in ("reject", 9), ("abort", 0), ("error", 0, 25):
            device = self.stand_in({(0, 1, 85): real("42290000"), (0, 1, 103): ("error", 2, 27)})
            device.values = Refusing(device.values, refusal)
            status, out, _ = self.run_site("properties", "HERE", "0", "1", "--last", "110")
            self.assertEqual((status, out), (1, "85 present-value 42.25\n103 reliability error 2 27\n"))

    def test_properties_that_are_not_whole(self):
        silent = {(0, 1, number): "silent" for number in (103, 111)}
        listed = b"".join(b"\x91" + bytes([number]) for number in (85, 103, 111, 117))
        self.stand_in(
            {(0, 1, 371): listed, (0, 1, 85): b"\x21\x05", (0, 1, 75): b"\xc4\0\0\0\1", **silent}
        )
        wanted = "75 object-identifier 0:1 (analog-input)\n85 present-value no real: unsigned 5\n"
        wanted += "103 reliability timeout\n111 status-flags timeout\n1 of 7 properties not asked\n"
        status, out, _ = self.run_site("properties", "HERE", "0", "1")
        self.assertEqual((status, out), (1, wanted))


if __name__ == "__main__":
    unittest.main()
