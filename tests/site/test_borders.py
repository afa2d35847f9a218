"""Each comparison with a number: at the number, and one step to each side. Nothing here needs the program."""

import io
import struct
import unittest
from types import SimpleNamespace
from unittest import mock

from datagram_builders import CLIENT, DEVICE, ack, block, datagrams, enhanced, exchange, interface, pcap, read_apdu
from datagram_builders import section, udp, wrapped
from bacsite import points, poll, standard
from bacsite.bodies import elements_of, region_text, write_body
from bacsite.capture.command import is_slow, marks_of
from bacsite.capture.lines import _who_is, line_of, millis
from bacsite.capture.pcap import Damage, Packet, Passed, Passing, datagram_of, packets_of
from bacsite.capture.talks import MILLI, Pairing, Talk
from bacsite.capture.trace import Choice, clients_of, settings_of, traced
from bacsite.controller import Controller, Pace
from bacsite.device import Bounds, Device, SiteObject, _Reader
from bacsite.messages import Datagram, Ended, message_of
from bacsite.page import _reasons
from bacsite.place import Place, _number, encode
from bacsite.points import Point
from bacsite.session import Session, _Open
from bacsite.standard import Form, ObjectId, PropertyRef, form_of
from bacsite.streams import Failure
from bacsite.survey import Earlier, Known
from bacsite.sweep import Reach, Station, Sweep, _within, parts_of
from bacsite.tools import BIND_FAILED, Outcome
from bacsite.values import Why, shown, value_of
from bacsite.watch import Row, Watch, _cut, watch, with_gaps
from instant_devices import QuickCalls, QuickWhoIs
from stand_ins import an_object, real, string, unsigned

A, B = "192.0.2.1:47808", "192.0.2.2:47808"


def talks_of(steps):
    """The talks of a capture, and the least waits of its clients."""
    pairing = Pairing()
    for datagram in datagrams(steps):
        pairing.take(message_of(datagram))
    found = [it for it in pairing.rest(datagram.nanos) if isinstance(it, Talk)]
    return found, pairing.gaps


def damage_of(octets):
    """How many packets a file has, and what is wrong with it."""
    found = []
    try:
        found.extend(packets_of(io.BytesIO(octets)))
    except Damage as damage:
        return len(found), str(damage)
    return len(found), ""


class Words(unittest.TestCase):
    def test_addresses(self):
        for reader, taken, refused in (
            (points.address_of, "4194302@10.0.0.1 10.0.0.1:65535 10.0.0.1:0 0.0.0.1 255.255.255.255 10.0.0.1/1/07",
             "4194303@10.0.0.1 10.0.0.1:65536 0.0.0.0 10.0.0.256 10.0.0.1/0/07 10.0.0.1/65535/07"),
            (points.network_at, "10.0.0.1/1/* 10.0.0.1/65534/*", "10.0.0.1/0/* 10.0.0.1/65535/*"),
        ):
            for word in taken.split():
                self.assertTrue(reader(word), word)
            for word in refused.split():
                with self.subTest(word=word), self.assertRaises(Failure):
                    reader(word)


class Octets(unittest.TestCase):
    def test_parameters_have_one_to_four_octets(self):
        for number, index, priority, is_one in (
            ("1955", "", "3908", True),
            ("1c00000055", "2c00000001", "3908", True),
            ("18", "", "", False),
            ("1d050000000055", "", "", False),
            ("1955", "28", "", False),
            ("1955", "2d050000000001", "", False),
            ("1955", "", "3900", False),
            ("1955", "", "3901", True),
            ("1955", "", "3910", True),
            ("1955", "", "3911", False),
        ):
            # An opening and a closing tag 3 round a Null, with a priority in the context tag 4.
            octets = "0c00400001" + number + index + "3e003f" + priority.replace("39", "49")
            self.assertEqual(write_body(bytes.fromhex(octets)) is not None, is_one, octets)

    def test_values(self):
        for octets, is_one in (("820780", True), ("820880", False), ("8100", True), ("8101", False), ("f000", True),
                               ("ff00", False), ("1f", False), ("11", True), ("12", False)):
            self.assertEqual(bool(elements_of(bytes.fromhex(octets))), is_one, octets)
        self.assertEqual(region_text(bytes.fromhex("7505001f207e7f")), '"\\x1f ~\\x7f"')

    def test_who_is(self):
        self.assertEqual(_who_is(bytes.fromhex("0901" + "1c00000002")), "Who-Is devices 1 to 2")
        for octets in "08" + "1902", "0d050000000001" + "1902", "1901" + "0902", "0901" + "2902":
            self.assertEqual(_who_is(bytes.fromhex(octets)), "")


class Times(unittest.TestCase):
    def test_spans(self):
        for nanos, told in ((0, "0.00"), (9_994_999, "9.99"), (9_995_000, "10.0"), (99_949_999, "99.9"),
                            (99_950_000, "100")):
            self.assertEqual(millis(nanos), told)

    def test_slow_ones(self):
        for took, is_so in ((999.999, False), (1000, True)):
            (talk,), _ = talks_of(exchange(0, took))
            self.assertEqual(is_slow(talk, 1000 * MILLI), is_so)
        (talk,), _ = talks_of(exchange(0, 1))
        self.assertEqual([*marks_of(talk, 1000 * MILLI)], ["answered"])

    def test_what_comes_again_at_once_is_a_copy(self):
        for again, copies, gaps in ((49.999, True, []), (50, False, [50 * MILLI])):
            (talk,), found = talks_of(exchange(0, None) + exchange(again, again + 1))
            self.assertEqual((", as copies" in line_of(talk), [*found.values()]), (copies, gaps))

    def test_late_answers(self):
        for answer, late in ((2050, None), (2050.001, 1_050_001_000)):
            (talk,), _ = talks_of(exchange(0, None) + exchange(1000, answer))
            self.assertEqual(talk.late, late)
        (talk,), _ = talks_of(exchange(0, None) + exchange(1000, None) + exchange(3000, 3000))
        self.assertEqual(talk.late, None)
        again = exchange(9000, None, 2) + exchange(13000, None, 2)  # and the clock is set back before the answer
        _, talk = talks_of(exchange(0, None) + exchange(1000, 1001) + again + exchange(9000, 12000, 2)[1:])[0]
        self.assertEqual((talk.late, talk.took), (3000 * MILLI, 3000 * MILLI))

    def test_answers_are_awaited_for_a_minute(self):
        for answer, count in ((60_000, 1), (60_000.001, 0)):
            (talk,), _ = talks_of(exchange(0, answer))
            self.assertEqual(len(talk.answers), count)
        for second, count in ((110_000, 2), (110_000.001, 1)):
            steps = exchange(0, 50_000) + [(second, DEVICE, CLIENT, wrapped(ack(1)))]
            (talk,), _ = talks_of(steps)
            self.assertEqual(len(talk.answers), count, "a second answer, a minute after the first")

    def test_a_request_that_is_open_at_the_end(self):
        for end, cut_off in ((2999.999, 2999.999), (3000, None)):
            talk, _ = talks_of(exchange(0, None) + exchange(end, None, 2))[0]
            self.assertEqual(talk.cut_off, cut_off and round(cut_off * MILLI))
        other = wrapped(read_apdu(1, "0c000000061955"), "0104")
        found, _ = talks_of(exchange(0, None) + [(1000, CLIENT, DEVICE, other)] + exchange(1500, None, 2))
        told = [it.cut_off for it in found]
        self.assertEqual(told, [None, 500 * MILLI, 0], "whose number is used again is not awaited")

    def test_numbers_that_go_round(self):
        for others, count in ((191, 1), (192, 2)):
            steps = [step for at in range(others) for step in exchange(1 + at, None, (257 - others + at) % 256)]
            found, _ = talks_of(exchange(0, None) + steps + exchange(200, None))
            self.assertEqual(sum(it.apdu.invoke == 1 for it in found), count)


class Files(unittest.TestCase):
    def test_a_file_that_is_cut(self):
        for octets, told in (
            (b"\xa1\xb2", "the file is cut at octet 2, within its first word"),
            (b"\xa1\xb2\xc3\xd4" + bytes(19), "the file is cut at octet 23, within the header of the file"),
            (pcap([(0, b"x")])[:-1], "the file is cut at octet 40, within packet 1 at octet 24"),
            (pcap([(0, b"x"), (0, b"y")])[:50], "the file is cut at octet 50, within packet 2 at octet 41"),
            (section("<")[:27], "the file is cut at octet 27, within block 1 at octet 0"),
            (section("<") + interface("<")[:5], "the file is cut at octet 33, within block 2 at octet 28"),
        ):
            self.assertEqual(damage_of(octets)[1], told)

    def test_records_of_a_pcap(self):
        for length, fraction, count in ((1 << 18, 999_999, 1), ((1 << 18) + 1, 0, 0), (0, 10**6, 0)):
            record = struct.pack("<IIII", 0, fraction, length, length) + bytes(length)
            found, damage = damage_of(pcap([]) + record)
            self.assertEqual((found, bool(damage)), (count, not count))

    def test_blocks_of_a_pcapng(self):
        head = section("<") + interface("<")
        with mock.patch("bacsite.capture.pcap.MOST", 64):
            for length, is_one in ((8, False), (12, True), (64, True), (68, False)):
                size = struct.pack("<I", length)
                _, damage = damage_of(head + struct.pack("<I", 99) + size + bytes(max(0, length - 12)) + size)
                self.assertEqual(not damage, is_one, length)
        for which, damage in ((0, ""), (1, "names the interface 1, which is not there")):
            found = damage_of(head + enhanced("<", 1, b"x", which))[1]
            self.assertTrue(found.endswith(damage) and bool(found) == bool(damage), found)
        self.assertEqual(damage_of(head + block("<", 6, bytes(20)))[1], "")

    def test_packets_that_are_cut(self):
        whole = udp(CLIENT, DEVICE, bytes.fromhex(wrapped(ack(1))))
        for length, why in ((19, "not IPv4"), (20, "cut by the capture"), (27, "cut by the capture")):
            with self.assertRaises(Passed) as caught:
                datagram_of(Packet(0, 101, 0, whole[:length]))
            self.assertEqual(str(caught.exception), why)

    def test_copies_come_within_a_second(self):
        octets = udp(CLIENT, DEVICE, bytes.fromhex(wrapped(ack(1))))
        for nanos, count in ((10**9 - 1, 1), (10**9, 2)):
            packets = [Packet(0, 101, 0, octets), Packet(nanos, 101, 1, octets)]
            self.assertEqual(len([*Passing().datagrams(packets)]), count)


class Requests(unittest.TestCase):
    def test_numbers_that_come_again_within_a_minute(self):
        for tickets, age, is_used_up in ((128, 0, False), (129, 0, True), (256, 59.9, True), (256, 60, False)):
            session = Session.__new__(Session)
            session._tickets, session._begun = tickets, 1000
            with mock.patch("time.monotonic", return_value=1000 + age):
                self.assertEqual(session.is_used_up, is_used_up, (tickets, age))

    def test_an_answer_may_still_come_to_what_was_sent_twice(self):
        for sends, how, is_owed in ((1, "done", False), (2, "done", True), (1, "timeout", True)):
            session = Session.__new__(Session)
            session.is_owed, session._latest, session._refusals = False, Datagram(0, "", "", b""), {}
            session._open = {7: _Open("192.0.2.7:47808")}
            session._open[7].sends = sends
            session._end(7, how, "ok")
            self.assertEqual(session.is_owed, is_owed, (sends, how))

    def test_a_bacrun_is_heard_for_some_time(self):
        lines = [f"data {A} 810a00090100600109", "# drop", "# wait 50", f"data {B} 810a00090100600109", "# wait 7"]
        process, put = QuickWhoIs(lines=lines), []
        process.put, session = put.append, Session(QuickCalls({}), process)
        found = [(session.hear(*it), sorted(session.peers)) for it in ((50,), (7, "who x\n"), (1,))]
        self.assertEqual(found, [(True, [A]), (True, [A, B]), (False, [A, B])])
        self.assertEqual(put, ["wait 50\n", "who x\nwait 7\n", "wait 1\n"])

    def test_a_journal_has_all_lines_of_a_bacrun_that_ended_well(self):
        for status, more in ((0, ["# end of the run"]), (1, []), (None, [])):
            calls, kept = QuickCalls({}), []
            journal = SimpleNamespace(add=kept.append, close=lambda kept=kept: kept.append("closed"))
            begun = lambda name, journal=journal, kept=kept: kept.append(name) or journal
            calls.journals = SimpleNamespace(begun=begun)
            process = QuickWhoIs(lines=["# send 0 x 00", "# timeout 0"])
            process.outcome = lambda status=status: Outcome(status, ["# end of the run"])
            session = Session(calls, process, "192.0.2.1:1")
            session.put("read x 0 5 85")
            self.assertEqual(session.ended().outcome, "timeout")
            session.close()
            self.assertEqual(kept, ["192.0.2.1:1", "# send 0 x 00", "# timeout 0", *more, "closed"])

    def test_an_answer_is_timed_from_the_first_send(self):
        """Each line of bacrun comes a second after the one before it."""
        sent, now = f"{A} 810a00110104000501000c0c000000051955", [0.0]
        for lines, seconds, sends in ((1, 2, 1), (2, 3, 2), (3, 4, 3)):
            process = QuickWhoIs(lines=[f"# send 0 {sent}"] * lines + [f"data {A} 810a", "# done 0 ok"])
            line = process.line
            process.line = lambda line=line: now.append(now.pop() + 1) or line()
            with mock.patch("bacsite.session.time", SimpleNamespace(monotonic=lambda: now[0])):
                session = Session(QuickCalls({}), process)
                session.put(f"read {A} 0 5 85")
                ended = session.ended()
            self.assertEqual((ended.seconds, ended.sends, session.is_owed), (seconds, sends, sends > 1))

    def test_a_request_that_is_never_sent(self):
        """A journal by hand of three requests that time out: one is refused each time, one at first, and one later."""
        peers = ["127.0.0.1:0", "255.255.255.255:47808", "10.0.0.1:47808"]
        sent = [f"{peer} 810a00110104000501{at:02x}0c0c000000051955" for at, peer in enumerate(peers)]
        lines = [f"# send {at} {it}" for at, it in enumerate(sent)]
        lines += [*lines, f"# unsent {sent[0]}", f"# unsent {sent[2]}", *(f"# timeout {at}" for at in range(3))]
        lines[3:3] = [f"# unsent {sent[0]}", f"# unsent {sent[1]}"]
        session = Session(QuickCalls({}), QuickWhoIs(lines=lines), window=3)
        for peer in peers:
            session.put(f"read {peer} 0 5 85")
        told = [session.ended().read(None) for _ in peers]
        self.assertEqual(told, ["timeout (the system refused to send it)", "timeout", "timeout"])
        self.assertEqual(session.refused, set(peers))

    def test_who_answers_from_another_address(self):
        """An answer has the number of the request, which is 5. Other texts and other numbers do not count."""
        sent, other = "810a00110104000505050c0c000000051955", "192.0.2.9:47808"
        told = f"timeout (answered from {other})"
        for apdu, peer, wanted in (
            (ack(5), other, told),
            ("50050c91029120", other, told),
            ("600509", other, told),
            ("710500", other, told),
            (ack(6), other, "timeout"),
            (ack(5), A, "timeout"),
            ("700500", other, "timeout"),
            ("0005050c0c000000051955", other, "timeout"),
            ("400501", other, "timeout"),
            ("1000c4020000072201e091032105", other, "timeout"),
        ):
            lines = [f"# send 0 {A} {sent}", f"data {peer} {wrapped(apdu)}", "# drop", "# timeout 0"]
            session = Session(QuickCalls({}), QuickWhoIs(lines=lines))
            session.put(f"read {A} 0 5 85")
            self.assertEqual((session.ended().read(None), session.is_owed), (wanted, True), apdu)

    def test_stations_that_are_kept(self):
        reach = Reach("192.0.2.7:47808/*")
        with mock.patch("bacsite.sweep.MOST_STATIONS", 2):
            for at in 1, 2, 3, 1:
                self.assertTrue(reach.heard(Station(at, f"192.0.2.7:47808/5/0{at}")))
        self.assertEqual(sorted(it.instance for it in reach.found), [1, 2])


    def test_elsewhere(self):
        sweep = Sweep(None, ["192.0.2.7:47808/*"], Bounds(), [])
        with mock.patch("bacsite.sweep.MOST_STATIONS", 2):
            for at in 1, 2, 3:
                i_am = "1000c4020000%02x2201e091032105" % at
                octets = bytes.fromhex(wrapped(i_am, "01080005010%d" % at))
                sweep._take(message_of(Datagram(0, "192.0.2.9:47808", "", octets)))
        self.assertEqual(sorted(it.instance for it in sweep.reaches[0].elsewhere), [1, 2])

    def test_a_port_that_is_taken(self):
        taken = f"port {points.PORT} is taken: answers by broadcast are not heard"
        for told, port, ports, faults in (("", points.PORT, [points.PORT], []),
                                          (BIND_FAILED, points.PORT, [points.PORT, 0], [taken]),
                                          (BIND_FAILED, 0, [0], [BIND_FAILED]), ("", 0, [0], [])):
            many, asked = QuickCalls({}), []
            ends = [QuickWhoIs(told), QuickWhoIs()]
            many.listener = lambda *it, ends=ends, asked=asked: asked.append(it) or ends.pop(0)
            sweep = Sweep(many, [A + "/*"], Bounds(listen_port=port, deadline=60), [])
            with mock.patch.object(Sweep, "_ask", return_value=False):
                with mock.patch("bacsite.tools.time", SimpleNamespace(monotonic=lambda: 43200)):
                    sweep.run()
            self.assertEqual((asked, sweep.faults), ([(it, 43260) for it in ports], faults), "until its deadline")

    def test_a_range_and_what_is_in_it(self):
        stations = {Station(at, "a/1/0%d" % at) for at in (4, 5, 6, 7, 8)}
        self.assertEqual(sorted(it.instance for it in _within((5, 7), stations)), [5, 6, 7])
        self.assertEqual((parts_of((0, 9), [3]), parts_of((0, 9), [3, 5])), ([(0, 9)], [(0, 4), (5, 9)]))

    def test_paces(self):
        for seconds, patience in ((1.0, 1000), (1.0015, 2002), (2.5, 4000)):
            pace = Pace(1000, 1)
            self.assertEqual(pace.learn(Ended("ok", seconds=seconds), Why.NONE), patience > 1000)
            self.assertEqual(pace.patience, patience)
        for count, seconds, window in ((255, 1.0, 2), (256, 1.0, 4), (256, 1.0015, 2)):
            pace = Pace(1000, 4)
            pace.learn(Ended("ok", sends=2), Why.NONE)
            for _ in range(count):
                pace.learn(Ended("ok", seconds=seconds), Why.NONE)
            self.assertEqual(pace.window, window)

    def test_after_a_failed_attempt_it_takes_twice_as_many_answers(self):
        pace, counts = Pace(1000, 2), []
        for held in (0, 0, 0, 1, 0):  # how many times as many answers as needed come before it fails again
            pace.learn(Ended("ok", sends=2), Why.NONE)
            count = 0
            while pace.window < 2 and count < 9999:
                pace.learn(Ended("ok"), Why.NONE)
                count += 1
            counts.append(count)
            for _ in range(held * count):
                pace.learn(Ended("ok"), Why.NONE)
        self.assertEqual(counts, [256, 512, 1024, 2048, 256])

    def test_lists_that_are_too_long(self):
        values = {(8, 1, 76, 0): unsigned(4), **{(8, 1, 76, at): an_object(0, at) for at in range(1, 5)}}
        for most, whole, count, reasons in ((4, True, 4, 0), (3, True, 0, 1), (3, False, 3, 1), (4, False, 4, 0)):
            with Controller(QuickCalls({A: values}), A) as controller:
                found = controller.elements(most, PropertyRef(8, 1, 76), whole)
            self.assertEqual((len(found.found), len(found.reasons)), (count, reasons))

    def test_numbers_of_a_property_list(self):
        listed = b"".join(map(unsigned, (0, 4194303, 4194304)))
        with Controller(QuickCalls({A: {(0, 1, 371): listed}}), A) as controller:
            self.assertEqual(poll._numbers(controller, ObjectId(0, 1)), [0, 75, 77, 79, 4194303])
        with Controller(QuickCalls({A: {(0, 1, 371): unsigned(85) + string("x")}}), A) as controller:
            self.assertIsNone(poll._numbers(controller, ObjectId(0, 1)), "a list of other things is none")

    def test_the_last_property_that_is_tried(self):
        many = QuickCalls({A: {(0, 1, 77): string("T"), (0, 1, 85): real("42290000")}})
        with Controller(many, A) as controller:
            self.assertEqual([*poll._values(controller, Point("", A, None, PropertyRef(0, 1, 85)), 84)], [77])
            self.assertEqual([*poll._values(controller, Point("", A, None, PropertyRef(0, 1, 85)), 85)], [77, 85])

    def test_an_object_list_that_was_empty(self):
        now = SimpleNamespace(own=ObjectId(8, 77), controller=SimpleNamespace(count=lambda ref: (2, "")))
        self.assertEqual(_Reader.changed(now, "", 0), ["object-list: 0 listed, 2 at the end"])
        self.assertEqual(_Reader.changed(now, "", -1), [])


class Values(unittest.TestCase):
    def test_times(self):
        for word in "0:00 23:59 23:59:59 23:59:59.99".split():
            self.assertTrue(encode(word, standard.TIME), word)
        for word in "24:00 12:60 12:30:60 12:30:05.100".split():
            with self.subTest(word=word), self.assertRaises(Failure):
                encode(word, standard.TIME)

    def test_states_that_are_named(self):
        for count, is_told in ((0, False), (1, True), (20, True), (21, False)):
            texts = {at: f"s{at}" for at in range(1, count + 1)}
            with self.assertRaises(Failure) as caught:
                _number(Place(A, PropertyRef(19, 7, 85), True, texts=texts), "x", "unsigned")
            self.assertEqual("; it has " in str(caught.exception), is_told, count)

    def test_dates(self):
        for octets, text in (("7c010104", "2024-01-01"), ("7c0c1f02", "2024-12-31"), ("7c000102", "D'7c000102'"),
                             ("7c010002", "D'7c010002'"), ("7c0c2002", "2024-12-last Tue"),
                             ("7c0d1f02", "2024-odd-31 Tue")):
            self.assertEqual(shown(bytes.fromhex("a4" + octets)), text)
        for octets, text in (("00000000", "00:00:00.00"), ("173b3b63", "23:59:59.99"), ("18000000", "T'18000000'")):
            self.assertEqual(shown(bytes.fromhex("b4" + octets)), text)

    def test_states_of_a_form(self):
        for octets, told in (("9100", "0"), ("9101", "1"), ("9102", "no state: 2")):
            self.assertEqual(value_of(bytes.fromhex(octets), form_of(PropertyRef(3, 1, 85))).text, told)
        for octets, told in (("3100", "0"), ("31ff", "no integer: signed -1")):
            self.assertEqual(value_of(bytes.fromhex(octets), Form((standard.UNSIGNED,))).text, told)

    def test_headers_that_are_cut(self):
        for octets, told in (("810a000501", "a network header that is cut"),
                             ("810a00080120ffff", "a network header that is cut"),
                             ("810a00060100", "an APDU that can't be read: none")):
            self.assertEqual(message_of(Datagram(0, A, A, bytes.fromhex(octets))).words, told)

    def test_nothing_is_missing(self):
        device = Device(A, 1, objects=[SiteObject(0, 1)])
        self.assertEqual(_reasons(device), "")
        device.objects[0].reasons = ["units: timeout"]
        self.assertEqual(_reasons(device), "something of 1 of its objects")

    def test_lines_are_cut(self):
        self.assertEqual([_cut("abc", it) for it in (5, 4, 3)], ["abc", "abc", "ab"])


class Told(unittest.TestCase):
    def test_lines_of_a_script(self):
        peer = "127.0.0.10:47808"
        for more, is_whole in ((0, True), (1, False)):  # `data`, the peer, and 3978 digits have 4000 characters
            answer = "810a%04x0100" % (1989 + more) + ack(1) + "00" * (1983 + more - len(ack(1)) // 2)
            steps = exchange(0, None, to=peer) + [(1, peer, CLIENT, answer)]
            lines = [*traced([message_of(it) for it in datagrams(steps)], Choice(), None, None)]
            self.assertEqual(f"data {peer} {answer}" in lines, is_whole)
            self.assertEqual(any(it.endswith(" a datagram of 1990 octets") for it in lines), not is_whole)

    def test_settings_that_are_not_given(self):
        """A script has at most 255 retries, as bactrace; and its head names at most four ports of the client."""
        for sends, settings in ((1, (3000, 3)), (2, (100, 1)), (256, (100, 255)), (300, (100, 255))):
            talk = SimpleNamespace(sends=[at * 100 * MILLI for at in range(sends)])
            self.assertEqual(settings_of([talk], None, None), settings)
        for count in 1, 4, 5:
            clients = ["127.0.0.1:5000%d" % at for at in range(count)]
            steps = [step for at, it in enumerate(clients) for step in exchange(at, None, at, of=it)]
            lines = [*traced([message_of(it) for it in datagrams(steps)], Choice(), None, None)]
            told = f"# {count} request{'s' * (count > 1)} of {', '.join(clients[:4])}"
            self.assertEqual(lines[:2], [told, "client 3000 3 0"])

    def test_the_usual_client_is_proposed(self):
        one, other = "192.0.2.20:50000", "192.0.2.21:50000"
        steps = [step for at, of in enumerate((one, other, other)) for step in exchange(at, None, at, of=of)]
        with self.assertRaises(Failure) as caught:
            clients_of([message_of(it) for it in datagrams(steps)], Choice())
        self.assertEqual(str(caught.exception), "2 clients: choose one with --client, like 192.0.2.21")
        self.assertEqual(clients_of([message_of(it) for it in datagrams(steps[:1])], Choice()), {one})

    def test_a_text_that_was_not_read_has_not_changed(self):
        known = Known(77, {"name": "D", "model": "M"}, "", {})
        for model, reasons, changes in (("M", [], []), ("N", ["x"], ["model was M"]), ("", ["x"], []),
                                        ("", [], ["model was M"])):
            device = Device(A, 77, "D", model=model, reasons=reasons)
            Earlier({A: known}).compare(device, Bounds())
            self.assertEqual(device.changes, changes, (model, reasons))


class Watches(unittest.TestCase):
    def test_a_page_is_made_every_five_seconds_or_once_a_round(self):
        for every, times in ((0.2, [0, 5, 59.9]), (60, [0, 60])):
            kept, made = Watch.__new__(Watch), []
            kept.words, kept.lines, kept.charts = SimpleNamespace(page="x", every=every), {}, []
            kept.faults, kept.live, kept.drawn = {}, None, 0.0
            for now in (0, 4.9, 5, 9.9, 59.9, 60):
                with mock.patch("bacsite.watch.replace_file", side_effect=lambda *_, now=now: made.append(now)):
                    with mock.patch("time.monotonic", return_value=1000 + now):
                        kept.draw(False)
            self.assertEqual(made, times)

    def test_seconds_of_a_round(self):
        for every, why in ((0.09, "not 0.1"), (0.1, "no plain file"), (86400, "no plain file"), (86400.5, "not 0.1")):
            words = SimpleNamespace(words=[A, "0", "1", "85"], every=every, page="/dev")
            with self.assertRaises(Failure) as caught:
                watch(words)
            self.assertEqual(str(caught.exception)[: len(why)], why)

    def test_gaps(self):
        point = Point("p")
        for jump, count in ((300, 1), (301, 2), (-300, 1), (-301, 2)):
            rows = with_gaps([Row(5000 + jump, point, clock=5000)], {"p": Row(0, point, clock=0)}, 100, False)
            self.assertEqual(len(rows), count, jump)


if __name__ == "__main__":
    unittest.main()
