"""Tests of the requests and answers of other services, with the standard's examples of encoding and with cut bodies."""
import unittest

from datagram_builders import CLIENT, DEVICE, datagrams, wrapped
from bacsite.capture import lines
from bacsite.capture.lines import line_of
from bacsite.capture.talks import Pairing
from bacsite.messages import message_of
from test_talks import CHANGE

SEVERAL = "0c000000101e095509671f"  # present-value and reliability of analog-input 16
VALUES = "0c000000101e29554e444290999a4f29674e91004f1f"
ROWS = [
    (
        "0e",
        SEVERAL,
        "30010e" + VALUES,
        "read several: analog-input 16 present-value (0 16 85), analog-input 16 reliability (0 16 103): "
        "72.3, 0 (no-fault)",
    ),
    (
        "0e",
        "0c000000211e09550957190c1f0c000000321e09551f",
        "30010e0c000000211e29555e910291205f2957390c4e004f1f0c000000321e29554e4442f600004f1f",
        "read several: analog-input 33 present-value (0 33 85), analog-input 33 priority-array[12] "
        "(0 33 87 12), analog-input 50 present-value (0 50 85): "
        "error 2 32 (property, unknown-property), null, 123",
    ),
    ("0e", SEVERAL, "50010e91019102", "error 1 2"),
    ("0e", SEVERAL[:-2], "30010e" + VALUES[:-2], "service 14 (ReadPropertyMultiple): answered"),
    (
        "05",
        "09121c0000000a29013900",
        "200105",
        "subscribe to analog-input 10 (0 10) for ever, confirmed, process 18: ok",
    ),
    (
        "05",
        "09121c0000000a29003a012c",
        "200105",
        "subscribe to analog-input 10 (0 10) for 300 s, unconfirmed, process 18: ok",
    ),
    ("05", "09121c0000000a", "200105", "unsubscribe from analog-input 10 (0 10), process 18: ok"),
    ("05", "09121c000000", "200105", "service 5 (SubscribeCOV): ok"),
    (
        "01",
        CHANGE,
        "200101",
        "change at device 4: analog-input 10 present-value (0 10 85) = 65, "
        "analog-input 10 status-flags (0 10 111) = B'0000': ok",
    ),
    ("01", CHANGE[:-2], "200101", "service 1 (ConfirmedCOVNotification): ok"),
]


def line(service, body, answer):
    pairing = Pairing()
    steps = [(0, CLIENT, DEVICE, wrapped("000501" + service + body, "0104"))]
    for datagram in datagrams([*steps, (1, DEVICE, CLIENT, wrapped(answer))]):
        pairing.take(message_of(datagram))
    return line_of(next(iter(pairing.rest(0))))


class Lines(unittest.TestCase):
    def test_lines(self):
        for service, body, answer, told in ROWS:
            with self.subTest(told=told):
                self.assertIn(told, line(service, body, answer))

    def test_many_values_are_shortened(self):
        body = "0c000000011e" + "0955" * 20 + "1f"
        self.assertIn(", and 4 more: answered", line("0e", body, "30010e"))


class Bodies(unittest.TestCase):
    def test_every_cut_is_none(self):
        several = bytes.fromhex(VALUES)
        for reader, whole in (
            (lines.asked_for, bytes.fromhex(SEVERAL)),
            (lines.told_by, several),
            (lines.notice_of, bytes.fromhex(CHANGE)),
        ):
            self.assertIsNotNone(reader(whole))
            for length in range(len(whole)):
                with self.subTest(reader=reader, length=length):
                    self.assertIsNone(reader(whole[:length]))

    def test_a_closing_tag_alone_is_none(self):
        self.assertIsNone(lines.items_of(b"\x3f"))
        self.assertIsNone(lines.items_of(b"\x09\x12\x1f"))

    def test_what_is_none(self):
        for reader, octets in (
            (lines.asked_for, "0c000000101e1f"),
            (lines.asked_for, SEVERAL + "0c00000010"),
            (lines.asked_for, "0c000000101e19011f"),
            (lines.asked_for, "0c000000101e095519011902" + "1f"),
            (lines.asked_for, SEVERAL + "0c000000111e19011f"),
            (lines.told_by, "0c000000101e2955390139024e004f1f"),
            (lines.asked_for, "0c000000101e09553e3f1f"),
            (lines.asked_for, "1c000000101e09551f"),
            (lines.asked_for, "0b0000101e09551f"),
            (lines.told_by, "0c000000101e29551f"),
            (lines.told_by, "0c000000101e4e004f1f"),
            (lines.told_by, "0c000000101e29554900" + "1f"),
            (lines.notice_of, CHANGE.replace("2c0000000a", "2e0000000a2f"[:10])),
            (lines.subscription_of, "09121c0000000a2901390049005900"),
            (lines.subscription_of, "0e0f1c0000000a"),
        ):
            with self.subTest(octets=octets):
                self.assertIsNone(reader(bytes.fromhex(octets)))


if __name__ == "__main__":
    unittest.main()
