"""Tries the reading of capture files."""
import io
import struct
import unittest

from datagram_builders import (
    CLIENT,
    DEVICE,
    block,
    enhanced,
    ether,
    interface,
    pcap,
    read_apdu,
    section,
    udp,
    wrapped,
)
from bacsite.capture.pcap import Damage, Packet, Passing, packets_of

OCTETS = bytes.fromhex(wrapped(read_apdu(1)))
INNER = udp(CLIENT, DEVICE, OCTETS)
TIME = 1767225600_123456789


def read(octets):
    """The packets of a file, and the damage."""
    packets = []
    try:
        for packet in packets_of(io.BytesIO(octets)):
            packets.append(packet)
    except Damage as damage:
        return packets, str(damage)
    return packets, ""


class Files(unittest.TestCase):
    def test_pcap(self):
        for order in "<>":
            for unit in 1, 1000:
                with self.subTest(order=order, unit=unit):
                    file = pcap([(TIME, INNER), (TIME + 5 * 10**9, b"")], 101, order, unit)
                    nanos = TIME // unit * unit
                    self.assertEqual(
                        read(file),
                        (
                            [
                                Packet(nanos, 101, 0, INNER),
                                Packet(nanos + 5 * 10**9, 101, 0, b""),
                            ],
                            "",
                        ),
                    )

    def test_the_upper_bits_of_the_link_type(self):
        """They say how long the check of a frame is."""
        (packet,), _ = read(pcap([(TIME, INNER)], 0x14000065))
        self.assertEqual((packet.link, packet.octets), (101, INNER))

    def test_pcapng(self):
        options = [
            ({}, 10**6),
            ({9: b"\x09"}, 10**9),
            ({9: b"\x03"}, 1000),
            ({9: b"\x94"}, 1 << 20),
        ]
        for order in "<>":
            for more, units in options:
                with self.subTest(order=order, units=units):
                    count = TIME * units // 10**9
                    file = section(order) + interface(order, 1) + interface(order, 101, more)
                    file += block(order, 5, bytes(12)) + enhanced(order, count, INNER, 1)
                    packets, damage = read(file)
                    self.assertEqual(damage, "")
                    self.assertEqual(
                        [(it.link, it.interface, it.octets) for it in packets], [(101, 1, INNER)]
                    )
                    self.assertLess(abs(packets[0].nanos - TIME), 2 * 10**9 // units + 1)

    def test_packets_without_a_time(self):
        for order in "<>":
            file = section(order) + interface(order, 101, kept=40) + interface(order, 1)
            short = block(order, 3, struct.pack(order + "I", 30) + INNER[:30])
            long = block(order, 3, struct.pack(order + "I", 99) + INNER[:40])
            packets, damage = read(file + short + enhanced(order, 5, b"abcd", 1) + long)
            found = [(it.nanos, it.link, it.octets) for it in packets]
            wanted = [(0, 101, INNER[:30]), (5000, 1, b"abcd"), (5000, 101, INNER[:40])]
            self.assertEqual((found, damage), (wanted, ""))
        packets, _ = read(section("<") + interface("<") + block("<", 3, b"\5\0\0\0hello"))
        self.assertEqual([it.octets for it in packets], [b"hello"])

    def test_offset_and_sections(self):
        file = (
            section("<")
            + interface("<", 101, {14: struct.pack("<q", 100)})
            + enhanced("<", 5_000_000, b"abc")
        )
        file += section(">") + interface(">", 1) + enhanced(">", 7_000_000, b"defg")
        self.assertEqual(
            read(file),
            ([Packet(105 * 10**9, 101, 0, b"abc"), Packet(7 * 10**9, 1, 0, b"defg")], ""),
        )

    def test_damage(self):
        two = pcap([(TIME, INNER), (TIME, INNER)])
        size = 16 + len(INNER)
        ng = section("<") + interface("<") + enhanced("<", 1, INNER) + enhanced("<", 2, INNER)
        at = len(ng) - len(enhanced("<", 2, INNER))
        rows = [
            (b"", 0, "neither pcap nor pcapng: it begins with nothing"),
            (b"PK\3\4 and more", 0, "neither pcap nor pcapng: it begins with 504b0304"),
            (two[:10], 0, "the file is cut at octet 10, within the header of the file"),
            (
                two[: 24 + size + 7],
                1,
                "the file is cut at octet %d, within packet 2 at octet %d"
                % (24 + size + 7, 24 + size),
            ),
            (
                two[:-1],
                1,
                "the file is cut at octet %d, within packet 2 at octet %d"
                % (len(two) - 1, 24 + size),
            ),
            (
                two[: 24 + size] + b"\xff" * 40,
                1,
                "packet 2 at octet %d has no header: %s" % (24 + size, "ff" * 16),
            ),
            (
                ng[:-1],
                1,
                "the file is cut at octet %d, within block 4 at octet %d" % (len(ng) - 1, at),
            ),
            (ng[:-4] + b"\0\0\0\0", 1, "block 4 at octet %d has two lengths" % at),
            (ng[:at] + block("<", 3, b"abc"), 1, "block 4 at octet %d holds fewer octets than it says: 6513249" % at),
            (ng[:at] + block("<", 3, b""), 1, "block 4 at octet %d is too short" % at),
            (
                section("<") + block("<", 3, bytes(8)),
                0,
                "block 2 at octet 28 is of the interface 0, which is not there",
            ),
            (ng[: at + 4] + b"\x0b\0\0\0", 1, "block 4 at octet %d has a length of 11 octets" % at),
            (ng[: at + 4] + b"\x0d\0\0\0", 1, "block 4 at octet %d has a length of 13 octets" % at),
            (
                ng[:at] + enhanced("<", 2, INNER, 3),
                1,
                "block 4 at octet %d names the interface 3, which is not there" % at,
            ),
            (
                ng[:at] + block("<", 6, struct.pack("<5I", 0, 0, 0, 99, 99)),
                1,
                "block 4 at octet %d holds fewer octets than it says: 99" % at,
            ),
            (ng[:at] + block("<", 6, b"abcd"), 1, "block 4 at octet %d is too short" % at),
            (
                section("<")[:8] + b"abcd" + bytes(16),
                0,
                "block 1 at octet 0 has no byte order: 61626364",
            ),
        ]
        for octets, count, damage in rows:
            with self.subTest(damage=damage):
                packets, said = read(octets)
                self.assertEqual((len(packets), said), (count, damage))

    def test_every_cut(self):
        """Nothing before a cut is lost, and each cut except those between packets is reported."""
        head, record = section(">") + interface(">"), enhanced(">", 1, INNER)
        files = [
            (pcap([(TIME, INNER)] * 3), {24 + at * (16 + len(INNER)) for at in range(3)}),
            (
                head + record * 3,
                {len(section(">")), *(len(head) + at * len(record) for at in range(3))},
            ),
        ]
        for file, between in files:
            whole, _ = read(file)
            for length in range(len(file)):
                packets, damage = read(file[:length])
                self.assertEqual(packets, whole[: len(packets)])
                self.assertEqual(not damage, length in between, length)


class Frames(unittest.TestCase):
    def found(self, *packets):
        passing = Passing()
        return list(passing.datagrams(packets)), dict(passing.counts)

    def test_links(self):
        rows = [
            (1, ether(INNER)),
            (1, ether(INNER, "81000005")),
            (1, ether(INNER, "88a8000581000006")),
            (1, ether(INNER, "9100000581000006")),
            (101, INNER),
            (101, INNER[:2] + b"\0\0" + INNER[4:]),  # no length yet: the network card fills it in
            (101, b"\x46\0" + struct.pack(">H", len(INNER) + 4) + INNER[4:20] + b"\1\1\1\0" + INNER[20:]),
            (12, INNER),
            (14, INNER),
            (228, INNER),
            (0, b"\2\0\0\0" + INNER),
            (0, b"\0\0\0\2" + INNER),
            (108, b"\0\0\0\2" + INNER),
            (113, bytes(14) + b"\x08\0" + INNER),
            (276, b"\x08\0" + bytes(18) + INNER),
            (113, bytes(14) + b"\x81\0\0\5\x08\0" + INNER),
        ]
        for link, octets in rows:
            with self.subTest(link=link, octets=octets.hex()):
                found, passed = self.found(Packet(TIME, link, 0, octets))
                self.assertEqual(
                    [(it.sender, it.receiver, it.octets) for it in found],
                    [(CLIENT, DEVICE, OCTETS)],
                )
                self.assertEqual(passed, {})

    def test_passed(self):
        tcp = bytearray(INNER)
        tcp[9] = 6
        rows = [
            (1, ether(b"", kind="0806"), "not IPv4"),
            (1, b"", "not IPv4"),
            (101, b"\x60" + bytes(60), "not IPv4"),
            (101, b"", "not IPv4"),
            (0, b"\x1e\0\0\0" + INNER, "not IPv4"),
            (147, INNER, "link type 147"),
            (101, bytes(tcp), "not UDP"),
            (101, udp(CLIENT, DEVICE, OCTETS, 0x2000), "fragments"),
            (101, udp(CLIENT, DEVICE, OCTETS, 0x00B9), "fragments"),
            (101, INNER[:24], "cut by the capture"),
            (101, udp(CLIENT, DEVICE, b"hello"), "UDP of something else"),
            (101, udp(CLIENT, DEVICE, OCTETS + b"\0"), "UDP of something else"),
            (101, udp(CLIENT, DEVICE, b"\x81\x20\0\4"), "UDP of something else"),
            (101, udp(CLIENT, DEVICE, b"\x82\x0a\0\4"), "UDP of something else"),
            (101, udp(CLIENT, DEVICE, b"\x81\x0a\0"), "UDP of something else"),
            (101, udp(CLIENT, DEVICE, b"\x81\x0d\0\4"), "UDP of something else"),
            (101, udp(CLIENT, DEVICE, b""), "UDP of something else"),
        ]
        for link, octets, why in rows:
            with self.subTest(why=why, octets=octets.hex()):
                self.assertEqual(self.found(Packet(TIME, link, 0, octets)), ([], {why: 1}))

    def test_cut(self):
        for lost in (1, 5):
            octets = INNER[:-lost]
            found, passed = self.found(Packet(TIME, 101, 0, octets), Packet(TIME, 101, 0, INNER))
            self.assertEqual([it.is_cut for it in found], [True, False])
            self.assertEqual((found[0].octets, passed), (OCTETS[:-lost], {}))
        short = bytearray(INNER + b"padding")
        short[2:4] = struct.pack(">H", len(INNER) - 3)
        (found,), passed = self.found(Packet(TIME, 101, 0, bytes(short)))
        self.assertEqual((found.octets, found.is_cut, passed), (OCTETS[:-3], True, {}), "what IP says is not exceeded")

    def test_copies(self):
        """A datagram on two interfaces is one and a copy; a second one on the same interface is not a copy."""
        second = 10**9
        packets = [
            Packet(0, 101, 0, INNER),
            Packet(5, 101, 1, INNER),
            Packet(9, 101, 0, INNER),
            Packet(2 * second, 101, 0, INNER),
            Packet(2 * second + 5, 101, 1, INNER),
        ]
        found, passed = self.found(*packets)
        self.assertEqual([it.nanos for it in found], [0, 9, 2 * second])
        self.assertEqual(passed, {"copies of another interface": 2})
        named = [
            Packet(at, 276, 0, b"\x08\0\0\0" + struct.pack(">I", at) + bytes(12) + INNER)
            for at in (1, 2)
        ]
        self.assertEqual(len(self.found(*named)[0]), 1)
        self.assertEqual(
            len(self.found(Packet(0, 101, 0, INNER), Packet(2 * second, 101, 1, INNER))[0]), 2
        )

    def test_what_is_kept_for_copies_is_bounded(self):
        passing, receiver = Passing(), "10.%d.%d.%d:1"
        ends = [receiver % (at >> 16, at >> 8 & 255, at & 255) for at in range(9000)]
        octets = bytes.fromhex(wrapped(read_apdu(1), "0104"))
        packets = [Packet(at * 10**6, 101, 0, udp(CLIENT, it, octets)) for at, it in enumerate(ends)]
        self.assertEqual(len(list(passing.datagrams(packets))), 9000)
        self.assertLess(len(passing.seen), 5100)


if __name__ == "__main__":
    unittest.main()
