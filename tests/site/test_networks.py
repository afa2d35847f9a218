"""Networks behind routers: a router broadcasts a Who-Is there, and the messages of routers are shown."""

import unittest

import harness
from datagram_builders import wrapped
from routers import StrictRouter
from stand_ins import StandIn, local_socket, string

from bacsite.capture.command import is_wanted
from bacsite.capture.lines import line_of, message_words
from bacsite.capture.talks import Pairing
from bacsite.device import Bounds
from bacsite.messages import Datagram, Refusals, message_of, network_message_of
from bacsite.sweep import EVERYONE, MOST_STATIONS, Reach, Station, Sweep, nearest, parts_of, station_of
from bacsite.values import Why, why_of

NAMED = {(8, 77, number): string("Router") for number in (70, 77, 121)}


class Networks(harness.SiteTest):
    patience = harness.PATIENT

    def setUp(self):
        super().setUp()
        self.router = self.stand_in(NAMED, kind=StrictRouter)
        names = {number: string("S") for number in (70, 77, 121)}
        at = {"5/%02x" % it: it for it in range(1, 6)}
        at["6/0a0b"] = 9
        self.router.stations = {
            name: StandIn(it, {(8, it, number): text for number, text in names.items()})
            for name, it in at.items()
        }

    def found(self, *words, status=0, counts=None):
        got, out, err = self.run_site("survey", *words, *harness.LISTEN)
        self.assertEqual(got, status, out + err)
        if counts:
            self.assertEqual(err, counts + "\n")
        lines = [line.split("  ") for line in out.splitlines()]
        return [(it[0].partition("/")[2], it[1], *it[2:]) for it in lines]

    def test_nobody_is_found_unasked(self):
        status, out, err = self.run_site("survey", "--devices", "HERE")
        wanted = self.spelled("HERE  device 77  Router  Router  Router\n")
        self.assertEqual((status, out, err), (0, wanted, ""))
        self.assertEqual([it for it in self.router.asked if it[0] == 65535], [], "no broadcast")

    def test_a_network(self):
        counts = "0 asked, 5 devices, 0 silent, 5 stations answered on 1 network"
        wanted = [("5/%02x" % it, "device %d" % it, "S", "S", "S") for it in range(1, 6)]
        self.assertEqual(self.found("--devices", "HERE/5/*", counts=counts), wanted)
        asked = [it for it in self.router.asked if len(it) == 2]
        self.assertEqual(asked, [(5, ""), (5, "09001902"), (5, "09031b3fffff")])

    def test_all_networks(self):
        names = [("5/%02x" % it, "device %d" % it) for it in range(1, 6)] + [("6/0a0b", "device 9")]
        wanted = [(*it, "S", "S", "S") for it in names]
        counts = "0 asked, 6 devices, 0 silent, 6 stations answered on 2 networks"
        self.assertEqual(self.found("--devices", "HERE/*", counts=counts), wanted)

    def test_stations_of_each_way_to_name_a_router(self):
        """An address, an instance before it, and a range find the same stations."""
        port = self.names["HERE"].split(":")[1]
        for word in "HERE", "77@HERE", "127.0.0.1-1:" + port, "127.0.0.1/32:" + port:
            counts = "1 asked, 7 devices, 0 silent, 6 stations answered on 2 networks"
            found = self.found("--devices", "--stations", word, counts=counts)
            self.assertEqual(found[0], ("", "device 77", "Router", "Router", "Router"), word)
            self.assertEqual([it[0] for it in found[1:]], [*("5/%02x" % it for it in range(1, 6)), "6/0a0b"])
        refused = "--stations needs the address of a router, not of a station"
        self.rows("survey --stations HERE/5/01 => 2 !" + refused)

    def test_stations_that_answer_one_after_another(self):
        """Stations of a token bus: the last of seven I-Ams comes 2.8 s after the request."""
        self.router.pause = 0.4
        names = {number: string("S") for number in (70, 77, 121)}
        at = {"5/%02x" % it: it for it in range(1, 8)}
        self.router.stations = {
            name: StandIn(it, {(8, it, number): text for number, text in names.items()})
            for name, it in at.items()
        }
        words = ["survey", "--devices", "--stations", "HERE", "--listen", "4", "--listen-port", "0"]
        status, out, err = self.run_site(*words)
        self.assertEqual((status, out.count("/5/")), (0, 7))
        self.assertEqual(err, "1 asked, 8 devices, 0 silent, 7 stations answered on 1 network\n")

    def test_stations_are_surveyed(self):
        (found,) = self.found("HERE/6/*", status=1)
        self.assertEqual(found[:5], ("6/0a0b", "device 9", "S", "S", "S"))

    def test_what_a_router_says(self):
        for says, told in (
            (b"\x03\x01", "reject-message-to-network 7: no route to that network (1)"),
            (b"\x04", "router-busy-to-network 7"),
        ):
            self.router.says = says
            (line,) = self.found("HERE/7/*", status=1)
            self.assertEqual(line, ("7/*", "device -", "%s; no station answers" % told))
            self.rows("read HERE/7/01 0 1 85 => 1 timeout (%s)" % told)

    def test_nobody_answers(self):
        self.router.stations = {}
        counts = "0 asked, 0 devices, 0 silent"
        found = self.found("HERE/7/*", status=1, counts=counts)
        self.assertEqual(found, [("7/*", "device -", "no station answers")])
        asked = [it for it in self.router.asked if len(it) == 2]
        self.assertEqual(asked, [(7, "")] * 2, "asked twice")

    def test_nothing_can_be_sent_to_a_router(self):
        (line,) = self.found("127.0.0.1:0/7/*", status=1)
        self.assertEqual(line[-1], "no station answers (the system refused to send it)")

    def test_two_routers(self):
        other = StrictRouter(78, {})
        other.stations = self.router.stations
        lines = self.found("--devices", "HERE/5/*", other.address + "/*", status=1)
        self.assertEqual(len(lines), 7)
        self.assertEqual(lines[-1][-1], "5 stations also behind " + self.names["HERE"])

    def test_another_router_answers(self):
        """The stations of a network answer from another port: they are listed, and not asked there."""
        with local_socket() as self.router.answers_from:
            other = "127.0.0.1:%d" % self.router.answers_from.getsockname()[1]
            told = "5 stations answered through %s; no station answers" % other
            self.assertEqual(self.found("HERE/5/*", status=1), [("5/*", "device -", told)])
            self.rows("read HERE/5/01 8 1 77 => 1 timeout (answered from %s/5/01)" % other)

    def test_one_that_was_lost_comes_later(self):
        lost = self.router.stations["5/03"]
        reply, count = lost.reply, []

        def once_lost(apdu):
            count.append(apdu)
            return b"" if len(count) == 1 else reply(apdu)

        lost.reply = once_lost
        self.assertEqual(len(self.found("--devices", "HERE/5/*")), 5)

    def test_one_that_answers_a_who_is_alone(self):
        station = self.router.stations["6/0a0b"]
        station.values[8, 4194303, 75] = station.values[8, 9, 75] = "silent"
        counts = "0 asked, 0 devices, 0 silent, 1 for another reason without a device, "
        counts += "1 station answered on 1 network"
        told = "timeout; device 9 answers a Who-Is, and no read"
        found = self.found("HERE/6/*", *harness.HURRIED, status=1, counts=counts)
        self.assertEqual(found, [("6/0a0b", "device -", *told.split("  "))])

    def test_a_port_that_is_taken(self):
        port = self.world.dead.getsockname()[1]
        words = ["survey", "--devices", "HERE/5/*", "--listen", "1", "--listen-port", str(port)]
        status, out, _ = self.run_site(*words)
        self.assertEqual(status, 1)
        self.assertIn("port %d is taken: answers by broadcast are not heard" % port, out)
        self.assertEqual(out.count("device"), 6)

    def test_words(self):
        self.rows(
            """
            survey HERE/0/* => 2 !no address: HERE/0/*
            survey HERE/65535/* => 2 !no address: HERE/65535/*
            survey 1@HERE/5/* => 2 !no address: 1@HERE/5/*
            read HERE/5/* 0 1 85 => 2 !no address: HERE/5/*
            """
        )


class Messages(unittest.TestCase):
    def test_words(self):
        """The message types of clause 6.2.4, and the reasons of clause 6.4.4."""
        for octets, words in (
            ("00", "who-is-router-to-network"),
            ("000005", "who-is-router-to-network 5"),
            ("0100050006", "i-am-router-to-network 5, 6"),
            ("02000507", "i-could-be-router-to-network 5"),
            ("03000005", "reject-message-to-network 5: another error (0)"),
            ("03010005", "reject-message-to-network 5: no route to that network (1)"),
            ("03020005", "reject-message-to-network 5: the router is busy (2)"),
            ("03030005", "reject-message-to-network 5: unknown network message (3)"),
            ("03040005", "reject-message-to-network 5: message too long for that network (4)"),
            ("03050005", "reject-message-to-network 5: security error (5)"),
            ("03060005", "reject-message-to-network 5: wrong length of the address (6)"),
            ("03090005", "reject-message-to-network 5: unknown reason (9)"),
            ("040005", "router-busy-to-network 5"),
            ("050005", "router-available-to-network 5"),
            ("0600", "initialize-routing-table"),
            ("0700", "initialize-routing-table-ack"),
            ("0800050a", "establish-connection-to-network 5"),
            ("090005", "disconnect-connection-to-network 5"),
            ("7f00", "network message 127"),
        ):
            self.assertEqual(network_message_of(bytes.fromhex(octets)).words, words)
        for octets in "", "03", "030100", "03010005ff", "0400", "01000500", "0200", "0900":
            self.assertIsNone(network_message_of(bytes.fromhex(octets)), octets)
        datagram = bytes.fromhex("810a000a018003010007")
        self.assertEqual(message_of(Datagram(0, "a", "b", datagram)).network.networks, (7,))

    def test_functions_of_the_link(self):
        """Annex J: of a message that was forwarded, the sender is who sent it first, and its port may be any."""
        who_is = "0120ffff00ff1008"
        for head, rest, wanted in (
            ("8104", "0a000009bac1" + who_is, ("10.0.0.9:47809", "Who-Is")),
            ("8109", who_is, ("10.0.0.1:2", "Who-Is")),
            ("810b", who_is, ("10.0.0.1:2", "Who-Is")),
            ("8100", "0000", ("10.0.0.1:2", "link function 0")),
        ):
            octets = bytes.fromhex("%s%04x%s" % (head, 4 + len(rest) // 2, rest))
            found = message_of(Datagram(0, "10.0.0.1:2", "10.0.0.255:2", octets))
            self.assertEqual((found.sender, message_words(found)), wanted)

    def test_refusals(self):
        refusals = Refusals()
        unknown = "reject-message-to-network 5: no route to that network (1)"
        for octets, told in (("03010005", unknown), ("040005", "router-busy-to-network 5"), ("050005", "")):
            refusals.heard(network_message_of(bytes.fromhex(octets)))
            self.assertEqual((refusals.of(5), refusals.of(6)), (told, ""))
        refusals.heard(network_message_of(b"\4"))
        self.assertEqual(refusals.of(6), "router-busy-to-network", "of all networks")
        refusals.heard(network_message_of(b"\5"))
        self.assertEqual(refusals.lines(), [], "all networks are available again")
        self.assertIs(why_of("timeout (router-busy-to-network)"), Why.SILENT)

    def test_in_a_capture(self):
        pairing = Pairing()
        request = "810a0016012400050101ff0005010c0c023fffff194d"
        for nanos, sender, receiver, octets in (
            (0, "10.0.0.9:1", "10.0.0.1:2", request),
            (10**7, "10.0.0.1:2", "10.0.0.9:1", "810a000a018003010005"),
            (2 * 10**7, "10.0.0.1:2", "10.0.0.8:1", "810a000a018003040005"),
            (3 * 10**7, "10.0.0.1:2", "10.0.0.9:1", "810a000a018003010006"),
        ):
            pairing.take(message_of(Datagram(nanos, sender, receiver, bytes.fromhex(octets))))
        entries = list(pairing.rest(10**10))
        for only, shown in ((None, [True] * 4), ("failed", [True] * 4), ("slow", [False] * 4)):
            self.assertEqual([is_wanted(it, only, 0) for it in entries], shown)
        talk, *others = map(line_of, entries)
        told = "no answer  reject-message-to-network 5: no route to that network (1)"
        self.assertTrue(talk.startswith("!") and talk.endswith(told), talk)
        pairing = Pairing()
        for at, sender, receiver, octets in (
            (0, "10.0.0.9:1", "10.0.0.1:2", request),
            (1, "10.0.0.1:2", "10.0.0.9:1", "810a000a018003010005"),
            (9, "10.0.0.1:2", "10.0.0.9:1", "810a001801080005010130010c0c02000007194d3e75020041" + "3f"),
        ):
            pairing.take(message_of(Datagram(at * 10**6, sender, receiver, bytes.fromhex(octets))))
        talk, _ = pairing.rest(10**10)
        self.assertEqual(line_of(talk).split("): ")[1], "A  9.00 ms", "a refusal explains nothing if an answer came")
        words = "reject-message-to-network 6: no route to that network (1)"
        self.assertTrue(others[-1].startswith("!") and others[-1].endswith(words), others[-1])

    def test_who_answers_through_another_router_is_shown_once(self):
        words = ["10.0.0.1:2/*", "10.0.0.2:2/*", "10.0.0.2:2/5/*", "10.0.0.3:2/5/*"]
        reaches = [Reach(it) for it in words]
        for address, wanted in (
            ("10.0.0.2:9/5/01", words[2:3]),
            ("10.0.0.2:9/6/01", words[1:2]),
            ("10.0.0.9:2/5/01", words[2:]),
            ("10.0.0.9:2/6/01", words[:1]),
        ):
            self.assertEqual([it.word for it in nearest(reaches, Station(1, address))], wanted)
        self.assertEqual(nearest(reaches[2:], Station(1, "10.0.0.2:9/6/01")), [])

    def test_stations_stand_by_their_networks(self):
        """By the numbers of these, by their addresses there, and by their instances."""
        stations = (9, "5/01"), (1, "5/0a"), (2, "5/0a"), (7, "40/01"), (3, "40/0203"), (4, "300/01")
        wanted = [Station(it, "10.0.0.1:2/" + route) for it, route in stations]
        sweep = Sweep(None, ["10.0.0.1:2/*"], Bounds(), [])
        for it in reversed(wanted):
            sweep.reaches[0].heard(it)
        self.assertEqual(sweep.stations(), wanted)

    def test_why_no_station_is_there(self):
        """A router that was not named as one may have none; but what it says is shown."""
        word, refusal = "10.0.0.1:2/*", network_message_of(bytes.fromhex("03010005"))
        none = ["no station answers"]
        for quiet, says, wanted in (([], [], none), ([word], [], []), ([word], [refusal], [refusal.words, *none])):
            sweep = Sweep(None, [word], Bounds(), quiet)
            for it in says:
                sweep.refusals["10.0.0.1:2"].heard(it)
            self.assertEqual(sweep.reasons_of(sweep.reaches[0], []), wanted)

    def test_what_a_station_says_of_itself(self):
        """An I-Am has a device, the longest APDU, the segmentation and the maker, and comes from behind a router."""
        device, more, route = "c402000007", "2201e091032105", "01080005010a"
        for apdu, head, is_one in (
            ("1000" + device + more, route, True),
            ("1000" + device + more[:-4], route, False),
            ("1000" + device + more + "2105", route, False),
            ("1000" + device, route, False),
            ("1000c400000007" + more, route, False),
            ("10002207d0" + more, route, False),
            ("1001" + device + more, route, False),
            ("3000" + device + more, route, False),
            ("1000" + device + more, "0100", False),
        ):
            message = message_of(Datagram(0, "10.0.0.1:2", "", bytes.fromhex(wrapped(apdu, head))))
            self.assertEqual(station_of(message), Station(7, "10.0.0.1:2/5/0a") if is_one else None, apdu + head)

    def test_no_more_stations_than_that(self):
        reach = Reach("10.0.0.1:2/5/*")
        reach.question()
        for number in range(MOST_STATIONS + 5):
            self.assertTrue(reach.heard(Station(number, "10.0.0.1:2/5/%04x" % number)))
        self.assertFalse(reach.heard(Station(1, "10.0.0.2:2/5/01")), "behind another router")
        self.assertFalse(reach.heard(Station(1, "10.0.0.1:2/6/01")), "in another network")
        self.assertEqual(len(reach.found), MOST_STATIONS)

    def test_all_that_were_known_have_answered(self):
        """Then nobody waits longer for the range."""
        reach, station = Reach("10.0.0.1:2/5/*"), Station(1, "10.0.0.1:2/5/01")
        reach.question()
        reach.heard(station)
        self.assertFalse(reach.is_complete, "nobody was known before")
        reach.end()
        reach.question()
        self.assertFalse(reach.is_complete, "nobody has answered")
        reach.heard(station)
        self.assertTrue(reach.is_complete)

    def test_parts(self):
        self.assertEqual(parts_of(EVERYONE, []), [EVERYONE])
        self.assertEqual(parts_of(EVERYONE, [7]), [EVERYONE])
        self.assertEqual(parts_of(EVERYONE, [0, 0]), [EVERYONE])
        self.assertEqual(parts_of((5, 9), [5, 9]), [(5, 8), (9, 9)])
        for count in range(2, 200, 7):
            known = sorted({it * it for it in range(count)})
            parts = parts_of(EVERYONE, known)
            self.assertEqual([it[0] for it in parts], [0, *(it[1] + 1 for it in parts[:-1])])
            self.assertEqual((parts[0][0], parts[-1][1]), EVERYONE)
            self.assertLessEqual(max(sum(low <= it <= high for it in known) for low, high in parts), 16)


if __name__ == "__main__":
    unittest.main()
