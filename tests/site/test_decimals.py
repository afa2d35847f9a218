"""Reals and Doubles as text: the octets are recovered, and no shorter text would recover them."""

import decimal
import math
import random
import struct
import unittest

import harness
from bacsite.decimals import encoded, octets_of, shortest
from bacsite.streams import Failure

CHANCE = random.Random(1)
EDGES = [
    "00000000",
    "80000000",
    "00000001",
    "80000001",
    "007fffff",
    "00800000",
    "7f7fffff",
    "ff7fffff",
]
POWERS = [struct.pack(">f", 2.0**power).hex() for power in range(-149, 128)]
DOUBLE_POWERS = [struct.pack(">d", 2.0**power).hex() for power in range(-1074, 1024, 7)]


def single(text):
    return struct.pack(">f", float(text)).hex()


def double(text):
    return struct.pack(">d", float(text)).hex()


def digits_of(text):
    return len(decimal.Decimal(text).normalize().as_tuple().digits)


def finite(octets):
    return math.isfinite(
        struct.unpack(">f" if len(octets) == 8 else ">d", bytes.fromhex(octets))[0]
    )


class Decimals(unittest.TestCase):
    def test_reals_come_back(self):
        chosen = ["%08x" % CHANCE.getrandbits(32) for _ in range(2000)]
        near = ["%08x" % (int(it, 16) + step) for it in POWERS for step in (-1, 1) if int(it, 16)]
        for octets in filter(finite, EDGES + POWERS + near + chosen):
            with self.subTest(octets=octets):
                self.assertEqual(single(shortest(octets)), octets)
                self.assertEqual(encoded(shortest(octets)), octets)

    def test_no_shorter_text_gives_a_real(self):
        chosen = ["%08x" % CHANCE.getrandbits(31) for _ in range(800)]
        for octets in filter(finite, EDGES[2:] + POWERS + chosen):
            exact = decimal.Decimal(struct.unpack(">f", bytes.fromhex(octets))[0])
            digits = digits_of(shortest(octets))
            for rounding in (decimal.ROUND_UP, decimal.ROUND_DOWN) if digits > 1 else ():
                shorter = decimal.Context(prec=digits - 1, rounding=rounding).create_decimal(exact)
                if abs(shorter) < decimal.Decimal("3.4028235e38"):
                    self.assertNotEqual(single(shorter), octets)

    def test_no_text_of_so_many_digits_is_nearer(self):
        for octets in filter(finite, ["%08x" % CHANCE.getrandbits(31) for _ in range(300)]):
            exact = decimal.Decimal(struct.unpack(">f", bytes.fromhex(octets))[0])
            found = decimal.Decimal(shortest(octets))
            step = decimal.Decimal(1).scaleb(found.adjusted() - digits_of(shortest(octets)) + 1)
            for other in (found - step, found + step):
                is_nearer = abs(other - exact) < abs(found - exact)
                self.assertFalse(is_nearer and single(other) == octets, msg=octets)

    def test_doubles_come_back(self):
        chosen = ["%016x" % CHANCE.getrandbits(64) for _ in range(5000)]
        for octets in filter(finite, DOUBLE_POWERS + chosen + ["7fefffffffffffff", "0" * 16]):
            with self.subTest(octets=octets):
                self.assertEqual(double(shortest(octets)), octets)
                self.assertEqual(encoded(shortest(octets), double=True), octets)

    def test_what_is_no_number(self):
        for octets, text in (
            ("7fc00000", "NaN"),
            ("ffc00001", "NaN"),
            ("7f800000", "Inf"),
            ("ff800000", "-Inf"),
            ("7ff8000000000000", "NaN"),
            ("fff0000000000000", "-Inf"),
        ):
            self.assertEqual(shortest(octets), text)

    def test_a_real_is_rounded_once(self):
        for word, octets in (
            ("1.000000059604644775390625", "3f800000"),  # the middle between two Reals
            ("1.000000059604644775390624999999", "3f800000"),
            ("1.000000059604644775390625000001", "3f800001"),
            ("-1.000000059604644775390625000001", "bf800001"),
            ("1.000000178813934326171875", "3f800002"),
            ("1.000000178813934326171874999999", "3f800001"),
            ("16777217", "4b800000"),
            ("16777217.000000000000000001", "4b800001"),
            ("0e999999999", "00000000"),
            ("-0E9", "80000000"),
            ("+2E+1", "41a00000"),
        ):
            with self.subTest(word=word):
                self.assertEqual(encoded(word), octets)

    def test_words_that_are_refused(self):
        for word in ("nan", "inf", "", "0x10", "٣", "1e", "1_0", "20,5", "--1", "1e39", "1e-60"):
            with self.subTest(word=word), self.assertRaises(Failure):
                encoded(word)

    def test_a_number_that_rounds_to_infinity_is_refused(self):
        self.assertEqual(encoded("3.4028235e38"), "7f7fffff")
        for word in ("3.4028236e38", "-3.4028236e38"):
            with self.assertRaises(Failure):
                encoded(word)
        with self.assertRaises(Failure):
            encoded("1e9999", double=True)

    def test_octets(self):
        self.assertEqual(octets_of(20), "41a00000")
        self.assertEqual(octets_of(20, double=True), "4034000000000000")


class Conversions(harness.SiteTest):
    def test_commands(self):
        self.rows(
            """
            real 4290999a => 0 72.3
            real 41a00000 => 0 20
            real 4b189680 => 0 10000000
            real 4B189681 => 0 10000001
            real c2c80000 => 0 -100
            real 80000000 => 0 -0
            real 49742408 => 0 1000000.5
            real ff800000 => 1 -Inf
            real 7f7fffff => 0 3.4028235e+38
            real 4034000000000000 => 0 20
            real {null,41a00000} => 0 {null, 20}
            real {41a00000,7f800000} => 1 {20, Inf}
            real 7fc00000 => 1 NaN
            real timeout => 2 !no Real: timeout
            real '' => 2 !no Real:..
            real 4290999 => 2 !no Real: 4290999
            real null,null => 2 !no Real: null,null
            real {41a00000 => 2 !no Real: {41a00000
            real {} => 2 !no Real: {}
            octets 20,5 => 2 !no number: '20,5'
            octets 20.5 => 0 41a40000
            octets -40 => 0 c2200000
            octets -.1 => 0 bdcccccd
            octets -1e30 => 0 f149f2ca
            octets -0 => 0 80000000
            octets 20 --double => 0 4034000000000000
            octets 1e39 => 2 !past the range: 1e39
            octets 1e-60 => 2 !past the range: 1e-60
            octets -3.4028236e38 => 2 !past the range: -3.4028236e38
            octets 1e9999 --double => 2 !past the range: 1e9999
            octets nan => 2 !no number: 'nan'
            octets '' => 2 !no number: ''
            octets 0x10 => 2 !no number: '0x10'
            octets ٣ => 2 !no number: '٣'
            """
        )


if __name__ == "__main__":
    unittest.main()
