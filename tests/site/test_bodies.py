"""Tests of values, bodies and headers: by the rows of docs/PROTOCOL.md, and of the tools' own tests."""
import unittest

from datagram_builders import CLIENT, DEVICE, datagrams, wrapped
from bacsite.bodies import error_body, read_ack, read_body, region_text, write_body
from bacsite.messages import message_of, outcome_of
from bacsite.standard import PropertyRef, form_of

VALUES = """
00 null
10 false
11 true
2100 0
21ff 255
220100 256
220005 5
2508ffffffffffffffff 18446744073709551615
31ff -1
3180 -128
32ff7f -129
444290999a 4290999a
55083ff0000000000000 3ff0000000000000
6201ff X'01ff'
60 X''
7200 hex 7200
7100 ""
720041 "A"
73005c22 "\\\\\\""
730080ff "\\x80\\xff"
720541 5:"A"
81 hex 81
820400 B'0000'
8204a0 B'1010'
8100 B''
8101 hex 8101
820900 hex 820900
9105 5
a47c0a1f04 D'7c0a1f04'
b40c1e0000 T'0c1e0000'
c4020004d2 8:1234
21052106 {5,6}
0e21050f hex 0e21050f
12 hex 12
d100 hex d100
65fd hex 65fd
f900 hex f900
2105ff hex 2105ff
6502ab00 X'ab00'
65fe0001ab X'ab'
65ff00000001ab X'ab'
65ffffffffab hex 65ffffffffab
7502003f "?"
"""


class Values(unittest.TestCase):
    def test_texts(self):
        for row in VALUES.splitlines():
            octets, _, text = row.strip().partition(" ")
            if octets:
                with self.subTest(octets=octets):
                    self.assertEqual(region_text(bytes.fromhex(octets)), text)
        self.assertEqual(region_text(b""), "{}")

    def test_bodies(self):
        rows = [
            (read_body, "0c000000051955", ((0, 5, 85), None, None)),
            (read_body, "0c00000005195529ff", ((0, 5, 85, 255), None, None)),
            (read_body, "0c000000051a0200", ((0, 5, 512), None, None)),
            (read_body, "0d04000000051955", ((0, 5, 85), None, None)),
            (read_body, "0c00000005", None),
            (read_body, "", None),
            (read_body, "0b0000051955", None),
            (read_body, "0c00000005195500", None),
            (read_body, "0c000000051d050000000055", None),
            (read_ack, "0c0000000519553e444290999a3f", ((0, 5, 85), "444290999a", None)),
            (read_ack, "0c0000000519553e3f", ((0, 5, 85), "", None)),
            (read_ack, "0c0000000519553e444290999a", None),
            (read_ack, "0c0000000519553e0e1f3f", None),
            (read_ack, "0c0000000519553ef9ff053f", None),
            (read_ack, "0c0000000519553ef9fe053f", ((0, 5, 85), "f9fe05", None)),
            (read_ack, "0c0000000519553e72003f3f", ((0, 5, 85), "72003f", None)),
            (read_ack, "0c0000000519553e0e3f0f3f", None),
            (read_ack, "0c0000000519553e0e21050fff03", ((0, 5, 85), "0e21050f", None)),
            (
                read_ack,
                "0c0000000519553e" + "0e" * 32 + "0f" * 32 + "3f",
                ((0, 5, 85), "0e" * 32 + "0f" * 32, None),
            ),
            (read_ack, "0c0000000519553e" + "0e" * 33 + "0f" * 33 + "3f", None),
            (write_body, "0c0040000119553e4441a000003f4908", ((1, 1, 85), "4441a00000", 8)),
            (write_body, "0c0040000119553e003f", ((1, 1, 85), "00", None)),
            (write_body, "0c0040000119553e003f4911", None),
            (write_body, "0c004000011955", None),
        ]
        for reads, octets, wanted in rows:
            with self.subTest(octets=octets):
                body = reads(bytes.fromhex(octets))
                found = body and (
                    tuple(body.ref.numbers()),
                    None if body.value is None else body.value.hex(),
                    body.priority,
                )
                self.assertEqual(found, wanted)

    def test_outcomes(self):
        rows = """
            20010f ok
            30010c0c0000000519553e444290999a3f value 4290999a
            30010c0c bad-ack
            30010c0c4b00000119553b0e393f bad-ack
            380100010c segmented
            50010c91029120 error 2 32
            50010c bad-error
            600109 reject 9
            710104 abort 4
            50010c9102 bad-error
            30010e00 answered
        """
        for row in rows.splitlines():
            octets, _, outcome = row.strip().partition(" ")
            if octets:
                with self.subTest(octets=octets):
                    message = message_of(datagrams([(0, DEVICE, CLIENT, wrapped(octets))])[0])
                    self.assertTrue(message.apdu.is_answer)
                    self.assertEqual(outcome_of(message.apdu), outcome)

    def test_error(self):
        self.assertEqual(error_body(bytes.fromhex("910291200000")), (2, 32))
        self.assertIsNone(error_body(bytes.fromhex("21029120")))


class Forms(unittest.TestCase):
    def test_forms(self):
        for what, tags, is_list in (
            ((13, 1, 7), (2,), True),
            ((13, 1, 7, 1), (2,), False),
            ((13, 1, 7, 0), (2,), False),
            ((3, 1, 6), (9,), False),
            ((0, 1, 22), (4,), False),
            ((45, 1, 22), (2,), False),
            ((45, 1, 25), (2,), False),
            ((45, 1, 65), (3,), False),
            ((48, 1, 25), (2,), False),
            ((46, 1, 25), (5,), False),
            ((1, 1, 87), (4, 0), True),
            ((1, 1, 87, 8), (4, 0), False),
        ):
            with self.subTest(what=what):
                form = form_of(PropertyRef(*what))
                self.assertEqual((form.tags, form.is_list), (tags, is_list))


class Headers(unittest.TestCase):
    def test_peers(self):
        rows = [
            ("810a000a0100200115", DEVICE, CLIENT, ""),
            ("810a000a010820010f", DEVICE, CLIENT, "a network header that is cut"),
            ("8104000f0a000001bac00100" + "20010f", "10.0.0.1:47808", CLIENT, ""),
            ("810a000d010800050107" + "20010f", DEVICE + "/5/07", CLIENT, ""),
            ("810a000e012000050107ff" + "20010f", DEVICE, CLIENT + "/5/07", ""),
            ("810a00140128000501070006020809ff" + "20010f", DEVICE + "/6/0809", CLIENT + "/5/07", ""),
            ("810b000c0120ffff00ff" + "1008", DEVICE, CLIENT + "/65535/*", ""),
            ("810a0007018000", DEVICE, CLIENT, "who-is-router-to-network"),
            ("810a000601" + "00", DEVICE, CLIENT, "an APDU that can't be read: none"),
            ("810a000701" + "0080", DEVICE, CLIENT, "an APDU that can't be read: 80"),
            ("810a00080200100a", DEVICE, CLIENT, "network version 02"),
            ("81000006" + "0000", DEVICE, CLIENT, "link function 0"),
            ("81040006" + "0000", DEVICE, CLIENT, "link function 4"),
            ("810a0004", DEVICE, CLIENT, "network version missing"),
        ]
        for octets, sender, receiver, words in rows:
            with self.subTest(octets=octets):
                message = message_of(datagrams([(0, DEVICE, CLIENT, octets)])[0])
                self.assertEqual(
                    (message.sender, message.receiver, message.words), (sender, receiver, words)
                )


if __name__ == "__main__":
    unittest.main()
