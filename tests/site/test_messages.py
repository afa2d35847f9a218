"""Whole texts that a person reads: why a word is refused, what a watch shows, and the heads of tables and pages."""

import json
import os
import unittest
from contextlib import ExitStack
from unittest import mock

import harness
from datagram_builders import CLIENT, DEVICE, ack, datagrams, ether, exchange, pcap, udp, wrapped
from bacsite.capture.trace import request_line
from bacsite.messages import message_of
from bacsite.page import page_of
from bacsite.device import FACTS, Bounds, Device, SiteObject
from bacsite.parsing import parser_of
from bacsite.report import Columns, Counts, PollList, as_csv, as_json, as_lines, survey
from bacsite.values import NOTHING, Kind, Value
from stand_ins import enumerated, real, string, tagged

A = "192.0.2.1:47808"
PARTS = ("put", "Survey", "Tools", "earlier_of")  # of a survey that finds nobody
UNKNOWN = {(300, 1, 77): string("Own"), (300, 1, 79): enumerated(300), (300, 1, 85): tagged(10, b"\x7c\x0a\x1f\x04")}
TWO = {(0, 1, 77): string("A"), (0, 1, 79): enumerated(0), (0, 1, 85): real("42290000")}


class Refused(harness.SiteTest):
    def test_words_of_a_value(self):
        self.stand_in(UNKNOWN)
        rows = ""
        for word, type_, told in (
            ("1", "boolean", "neither true nor false: 1"),
            ("12", "bits", "no bits, as 0101: 12"),
            ("abc", "octets", "no octets in hexadecimal digits, as 01ff: abc"),
            ("zz", "octets", "no octets in hexadecimal digits, as 01ff: zz"),
            ("2024-13-01", "date", "no date, as 2024-10-31: 2024-13-01"),
            ("2155-01-01", "date", "no date of 1900 to 2154: 2155-01-01"),
            ("1899-12-31", "date", "no date of 1900 to 2154: 1899-12-31"),
            ("24:00", "time", "no time, as 12:30 or 12:30:05.00: 24:00"),
            ("12:60", "time", "no time, as 12:30 or 12:30:05.00: 12:60"),
            ("12:30:60", "time", "no time, as 12:30 or 12:30:05.00: 12:30:60"),
            ("noon", "time", "no time, as 12:30 or 12:30:05.00: noon"),
            ("0-5", "object", "no object, as 0:5 or analog-input:5: 0-5"),
            ("x", "real", "no number: 'x'"),
            ("1e39", "real", "past the range: 1e39"),
            ("1.5", "unsigned", "no number and no state: 1.5"),
            ("18446744073709551616", "unsigned", "past the range: 18446744073709551616"),
            ("4294967296", "enumerated", "past the range: 4294967296"),
            ("9223372036854775808", "signed", "past the range: 9223372036854775808"),
        ):
            rows += "write HERE 300 1 %s --type %s => 2 !%s; no write was sent\n" % (word, type_, told)
        self.rows(rows)

    def test_addresses_and_numbers(self):
        self.rows(
            """
            read 4194303@192.0.2.1 0 5 85 => 2 !no device instance: 4194303@192.0.2.1
            read 192.0.2.256 0 5 85 => 2 !no address: 192.0.2.256
            survey 192.0.2.1/0/* => 2 !no address: 192.0.2.1/0/*
            survey 192.0.2.1-256 => 2 !no range of addresses: 192.0.2.1-256
            survey 192.0.2.9-1 => 2 !no range of 1 to 65536 addresses: 192.0.2.9-1
            survey 10.0.0.0/8 => 2 !no range of 1 to 65536 addresses: 10.0.0.0/8
            survey 192.0.2.1/5/07 --stations => 2 !--stations needs the address of a router, not of a station
            survey 192.0.2.1 --reuse-names => 2 !--reuse-names needs --since
            survey 192.0.2.1 --release => 2 !--release needs --held
            survey 192.0.2.1 --since IN/bacsite => 2 !no survey by --json: IN/bacsite
            watch 192.0.2.1 0 5 85 --every 0.05 => 2 !not 0.1 to 86400 seconds: 0.05
            watch 192.0.2.1 0 5 85 --page /dev/null => 2 !no plain file: /dev/null
            check -w 9:1 192.0.2.1 0 5 85 => 3 BACNET UNKNOWN - no range: 9:1
            real 1 => 2 !no Real: 1
            octets x => 2 !no number: 'x'
            """
        )

    def test_a_dry_run_says_how_far_it_was(self):
        self.stand_in({**TWO, (0, 1, 69): real("00000000")})
        path = self.path("dry", "HERE 0 1 5\nHERE 0 1 -5\n")
        status, out, err = self.run_site("write-list", "--dry-run", path)
        told = "bacsite: line 2: 0:1 analog-input takes 0 and more, not -5; no write was sent"
        self.assertEqual((status, err), (2, told + "; 1 of 2 lines checked before\n"))
        self.assertIn("write 5: checked, no write was sent\n", out)


class Watched(harness.SiteTest):
    def shown(self, lines, *words):
        """What a watch shows on a terminal of this height."""
        _, text = self.on_a_terminal(lines, "watch", *words)
        return text.replace("\x1b[K", "").replace("\r\n", "\n")

    def test_points_without_a_value_or_without_room(self):
        fast = self.stand_in(TWO).address
        slow = self.stand_in(TWO, delay=1.5).address
        text = "".join("%s %s 0 1 85\n" % it for it in (("a", fast), ("b", fast), ("slow", slow)))
        told = self.shown("4", self.path("tall", text), "--every", "0.5", "--rounds", "2", "--apdu-timeout", "5000")
        self.assertIn("and 1 more points\n", told)
        told = self.shown("24", self.path("tall", text), "--every", "0.5", "--rounds", "2", "--apdu-timeout", "5000")
        self.assertIn("nothing yet\n", told)

    def test_two_programs_do_not_write_to_one_file(self):
        self.stand_in(TWO)
        path = self.world.folder + "/both.csv"
        words = ["watch", "HERE", "0", "1", "85", "--every", "0.2", "--csv", path]
        with self.begun(*words) as process:
            process.stdout.readline()
            found = self.run_site(*words, "--rounds", "1")
            os.unlink(path)
            told = process.stderr.readline().decode()
            process.terminate()
            process.communicate(timeout=30)
        self.assertEqual(found, (3, "", "bacsite: another program writes to %s\n" % path))
        self.assertEqual(told, "bacsite: cannot write %s: it was taken away\n" % path)


class Captured(harness.SiteTest):
    def test_a_summary_counts_all_that_is_no_request(self):
        cut, hello = (DEVICE, CLIENT, "810a00060180"), (CLIENT, DEVICE, wrapped("1008"))
        steps = [*exchange(0, 1), (2, DEVICE, CLIENT, wrapped(ack(1))), (3, *cut), (4, *hello)]
        records = [(at * 10**6, ether(udp(here, there, bytes.fromhex(it)))) for at, here, there, it in steps]
        records += [(5 * 10**6, ether(udp(CLIENT, DEVICE, b"other"))), (6 * 10**6, ether(b"", kind="0806"))]
        status, out, err = self.run_site("capture", self.path("all.pcap", pcap(records, 1)), "--summary")
        lines = out.splitlines()
        self.assertEqual((status, err, len(lines)), (0, "", 6))
        self.assertEqual(lines[0], "1 request of 1 client to 1 device: 1 answered, 0 refused, 0 unanswered")
        self.assertEqual(lines[1], "of these 1 answered twice")
        passed = "passed over: UDP of something else 1, not IPv4 1"
        self.assertEqual(lines[4:], ["also seen: Who-Is 1, other messages 1", passed])
        out = self.run_site("capture", self.path("all.pcap", pcap(records, 1)))[1].splitlines()
        self.assertEqual(out[0].split("  ")[-1], "SECOND answer 1.00 ms after the first")
        self.assertEqual(out[1].split("  ")[-1], "a network message that is cut")

    def test_why_a_script_lacks_a_request(self):
        for apdu, peer, told in (
            ("0005010c0c00", DEVICE, "its body can't be read"),
            ("0005010c0c000000051c00400000", DEVICE, "bactrace takes no such property"),
            ("0005010c0c000000051955", DEVICE + "/65535/01", "bactrace takes no such route"),
            ("0005010f0c0040000119553e603f", DEVICE, "a script can't have this value: null stands for it"),
            ("0005010f0c0040000119553e443f800000" + "3f", DEVICE, ""),
        ):
            message = message_of(datagrams([(0, CLIENT, peer, wrapped(apdu))])[0])
            with self.subTest(apdu=apdu):
                self.assertEqual(request_line(message.apdu, message.receiver)[1], told)


class Forms(unittest.TestCase):
    """A device with all that a survey may ask for, in each form."""

    def setUp(self):
        fan = SiteObject(4, 1, "Fan", Value(Kind.NUMBER, "1", "active"), "Runs", flags=("fault", "in-alarm"))
        fan.name_read, fan.priorities, fan.description, fan.event_state = False, (3, 8), "Roof", "fault"
        fan.settings, fan.reasons = {"inactive-text": "Stops", "active-text": "Runs"}, ["units: busy", "timeout"]
        self.device = Device(A, 77, "D", "V", "M", "7", [fan, SiteObject(300, 2, "X")])
        self.device.reasons, self.device.changes = ["object-list: busy", "deadline"], ["new: 0:1", "gone: 0:2"]
        self.device.facts, self.device.asked = {"firmware": "1", "status": "operational"}, "noon"
        self.bounds = Bounds(9, 60, False, True, True)
        more = ("held", "description", "event_state", "settings", "name_read")
        self.all = Columns(more, True, (*FACTS, "clock"), self.bounds)

    def test_lines(self):
        self.assertEqual(as_lines(self.device, self.all), f"""\
{A}  device 77  D  V  M  object-list: busy; deadline
  firmware 1, status operational
  4:1    binary-output  Fan (not read)  1 (Runs)  fault, in-alarm  3  Roof  fault  \
inactive-text Stops, active-text Runs  units: busy; timeout
  300:2  -              X               -         -                -  -     -      -
  since: new: 0:1
  since: gone: 0:2
""")
        self.assertEqual(as_lines(Device(A, reasons=["timeout"]), Columns()), f"{A}  device -  timeout\n")
        room = SiteObject(0, 5, "Room", Value(Kind.NUMBER, "21"), unit="percent", flags=())
        told = f"{A}  device 7\n  0:5  analog-input  Room  21 percent  normal\n"
        self.assertEqual(as_lines(Device(A, 7, objects=[room]), Columns()), told)

    def test_csv(self):
        heads = "address,device,device_name,vendor,model,firmware,software,status,protocol_revision,clock,type,"
        heads += "instance,type_name,name,value,meaning,unit,flags,held,description,event_state,settings,name_read,"
        heads += "change,reason"
        self.assertEqual(",".join(self.all.names), heads)
        self.assertEqual(as_csv(self.device, self.all), f"""\
{A},77,D,V,M,1,,operational,,,4,1,binary-output,Fan,1,Runs,,"fault, in-alarm",3,Roof,fault,\
"inactive-text Stops, active-text Runs",False,,units: busy; timeout
{A},77,D,V,M,1,,operational,,,300,2,,X,,,,,,,,,True,,
{A},77,D,V,M,1,,operational,,,,,,,,,,,,,,,,new: 0:1; gone: 0:2,object-list: busy; deadline
""")
        found = [as_csv(Device(A, at, reasons=why), Columns()) for at, why in ((None, ["timeout"]), (7, []))]
        self.assertEqual(found, [f"{A},,,,,,,,,,,,,timeout\n", f"{A},7,,,,,,,,,,,,\n"])
        changed = Device(A, 7, objects=[SiteObject(0, 5, "Room")], changes=["new: 0:5 Room"])
        told = f"{A},7,,,,0,5,analog-input,Room,,,,,,\n{A},7,,,,,,,,,,,,new: 0:5 Room,\n"
        self.assertEqual(as_csv(changed, Columns(changes=True)), told)

    def test_columns_that_were_asked_for(self):
        """The head of the table for the options of a survey."""
        details, facts = ",description,event_state,settings", ",firmware,software,status,protocol_revision,clock"
        for words, own, more in (
            ("", "", ""),
            ("--devices", facts, ""),
            ("--details --held", "", ",held" + details),
            ("--since x --reuse-names", "", ",name_read,change"),
            ("--since x --devices --held --details --reuse-names", facts, ",held" + details + ",name_read,change"),
        ):
            given = parser_of(["survey"]).parsed(["survey", A, "--csv", *words.split()])
            with ExitStack() as stack:
                put, made, *_ = (stack.enter_context(mock.patch("bacsite.report." + it)) for it in PARTS)
                made.return_value.devices.return_value = []
                self.assertEqual(survey(given), 1, "nobody was found")
            head = f"address,device,device_name,vendor,model{own},type,instance,type_name,name,value,meaning,unit,flags"
            self.assertEqual(put.call_args_list, [mock.call(f"{head}{more},reason\n")])

    def test_json(self):
        fan = {"type": 4, "instance": 1, "type_name": "binary-output", "name": "Fan", "value": "1", "meaning": "Runs"}
        fan.update(unit="", flags="fault, in-alarm", kind="number", reasons=["units: busy", "timeout"])
        more = {"held": "3", "description": "Roof", "event_state": "fault", "name_read": False}
        more["settings"] = {"inactive-text": "Stops", "active-text": "Runs"}
        own = {"type": 300, "instance": 2, "type_name": "", "name": "X", "value": "", "meaning": "", "unit": ""}
        own.update(flags="", kind="other", reasons=[])
        lacks = {"held": "", "description": "", "event_state": "", "name_read": True, "settings": {}}
        wanted = {"address": A, "device": 77, "name": "D", "vendor": "V", "model": "M", "revision": "7"}
        wanted.update(asked="noon", reasons=["object-list: busy", "deadline"], firmware="1", status="operational")
        asked_for = {"devices": False, "held": True, "details": True, "objects": 9, "deadline": 60, "name_only": False}
        asked_for["not_normal"] = False
        changes = {"changes": ["new: 0:1", "gone: 0:2"]}
        for columns, objects, added in ((self.all, [{**fan, **more}, {**own, **lacks}], changes),
                                        (Columns(bounds=self.bounds), [fan, own], {})):
            found = json.loads(as_json(self.device, columns))
            self.assertEqual(found, {**wanted, "asked_for": asked_for, "objects": objects, **added})

    def test_a_list_for_poll(self):
        fan, own = self.device.objects
        own.value, fan.value = Value(Kind.TEXT, "a"), NOTHING
        for object_type, name, why in ((0, "Two  words", ["present-value: timeout"]), (0, "Gone", ["units: timeout"]),
                                       (2, "", ["present-value: busy"])):
            self.device.objects.append(SiteObject(object_type, 5, name, reasons=why))
        self.assertEqual(PollList().of(self.device, self.all), f"""\
# {A}  device 77  D  object-list: busy  deadline
# 1 name not read, but taken from an earlier survey
77.X 77@{A} 300 2 present-value
77.Two_words 77@{A} analog-input 5 present-value
77.analog-value 77@{A} analog-value 5 present-value
""")
        self.assertEqual(PollList().of(Device(A, reasons=["timeout"]), self.all), f"# {A}  timeout\n")

    def test_counts(self):
        for devices, told, missing in (
            ([], "3 asked, 0 devices, 0 silent", False),
            ([Device(A, 7)], "3 asked, 1 device, 0 silent", False),
            ([Device(A, reasons=["timeout"])], "3 asked, 0 devices, 1 silent", True),
            ([Device(A, 7, reasons=["timeout"])], "3 asked, 1 device, 0 silent", True),
            ([Device(A, reasons=["timeout"], hidden=True)], "3 asked, 0 devices, 1 silent", False),
            ([Device(A, reasons=["timeout"], hidden=True, changes=["was 7"])], "3 asked, 0 devices, 1 silent", True),
            ([Device(A, reasons=["busy"])],
             "3 asked, 0 devices, 0 silent, 1 for another reason without a device", True),
            ([Device(A + "/5/*", reasons=["x"])], "3 asked, 0 devices, 0 silent", True),
            ([Device(A + "/5/01", 7), Device(A + "/5/01", 8), Device(A + "/6/01", 9)],
             "3 asked, 3 devices, 0 silent, 2 stations answered on 2 networks", False),
            ([Device(A + "/5/01", 7), Device(A + "/5/02", reasons=["timeout"])],
             "3 asked, 1 device, 1 silent, 1 station answered on 1 network", True),
            ([Device(A, 7, objects=[SiteObject(0, 1, reasons=["units: busy"])])], "3 asked, 1 device, 0 silent", True),
        ):
            counts = Counts(3)
            for it in devices:
                counts.add(it)
            self.assertEqual((counts.line(), counts.missing), (told + "\n", missing))


class Heads(harness.SiteTest):
    def test_a_page_counts_whole_objects(self):
        """A survey's page says how many objects have everything that was asked for."""
        objects = [SiteObject(0, 1, "A"), SiteObject(0, 2, "B", reasons=["present-value: timeout"])]
        page = "".join(page_of([Device("192.0.2.7:47808", 7, objects=objects)], "now"))
        self.assertIn("<title>Survey of BACnet/IP devices</title>", page)
        self.assertIn("<dd>2, 1 of them with all that was asked for</dd>", page)
        self.assertIn("1 device, 0 of them silent; 2 objects, 1 of them with a flag set or something missing", page)
        self.assertIn("something of 1 of its objects", page)

    def test_the_columns_of_an_ede_file(self):
        """Those of the working group's sheet, as far as its tools read them."""
        self.stand_in({})
        path = self.world.folder + "/heads.csv"
        self.run_site("survey", "HERE", "--ede", path)
        with open(path, encoding="utf-8-sig") as file:
            heads = next(line for line in file if line.startswith("# keyname"))
        wanted = "# keyname;device obj.-instance;object-name;object-type;object-instance;description;"
        wanted += "present-value-default;min-present-value;max-present-value;settable;supports COV;hi-limit;low-limit;"
        wanted += "state-text-reference;unit-code;vendor-specific-addres;notification-class"
        self.assertEqual(heads.rstrip("\r\n;"), wanted)


if __name__ == "__main__":
    unittest.main()
