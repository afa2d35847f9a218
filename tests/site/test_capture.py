"""The command capture: samples as tshark and bactrace read them, and its words."""

import json
import os
import subprocess
import unittest

from datagram_builders import CLIENT, DEVICE, ether, exchange, pcap, udp, wrapped
from harness import SiteTest
from test_trace import ends_of, printed
from tshark import compared

SAMPLES = os.path.join(os.path.dirname(os.path.abspath(__file__)), "samples")


def file_of(steps):
    """A capture of steps."""
    return pcap(
        [
            (round(at * 10**6), ether(udp(sender, receiver, bytes.fromhex(octets))))
            for at, sender, receiver, octets in steps
        ],
        1,
    )


class Samples(SiteTest):
    def told(self, name, *words):
        return self.run_site("capture", os.path.join(SAMPLES, name), *words)

    def test_datagrams_are_those_of_tshark(self):
        path = os.path.join(SAMPLES, "odd.pcap")
        with open(path + ".tshark", encoding="ascii") as lines:
            text = lines.read()
        self.assertEqual(compared(path, text), (114, 27, []))
        last = text.rstrip("\n").rpartition("\n")
        for other, told in ((last[0], (113, 27, 0)), (text.replace(";12;", ";13;", 1), (113, 27, 1))):
            agree, lost, differ = compared(path, other)
            self.assertEqual((agree, lost, len(differ)), told)

    def test_ends_are_those_of_bactrace(self):
        for client in ("127.0.0.20", "127.0.0.21", "127.0.0.22", "127.0.0.1"):
            told = self.told("odd.pcap", "--json", "--client", client)[1].splitlines()
            talks = [it for it in map(json.loads, told) if it.get("service") in (12, 15)]
            script = self.told("odd.pcap", "--trace", "--client", client)[1].splitlines()
            late = [it.split()[2][:-1] for it in script if "its time is up" in it]
            ends = ends_of(printed(script))
            self.assertEqual(sorted(ends), list(range(len(talks))))
            for ticket, talk in enumerate(talks):
                outcome = "timeout" if str(ticket) in late else talk["outcome"]
                with self.subTest(client=client, talk=talk["what"]):
                    self.assertEqual(ends[ticket], outcome.replace("no answer", "timeout"))

    def test_pcapng(self):
        """Two interfaces have recorded each datagram: one is shown, the other is a copy."""
        status, text, _ = self.told("tools-two.pcapng")
        lines = text.split("\n\n")[0].splitlines()
        self.assertEqual((status, len(lines), len(set(lines))), (1, 10, 10))
        self.assertIn("copies of another interface", text)


class Command(SiteTest):
    def told(self, steps, *words):
        """The status, standard output, and standard error."""
        octets = steps if isinstance(steps, bytes) else file_of(sorted(steps))
        return self.run_site("capture", self.path("some.pcap", octets), *words)

    def test_status(self):
        good, bad = file_of(exchange(0, 1)), file_of(exchange(0, 1, 1, "600109"))
        files = (good, bad, good[:-1], b"")
        for word, wanted in ("--summary", [0, 1, 3, 3]), ("--json", [0, 1, 3, 3]), ("--trace", [0, 0, 3, 3]):
            self.assertEqual([self.told(it, word)[0] for it in files], wanted, word)
        _, text, said = self.told(good[:-1])
        self.assertIn("read analog-input 5 present-value (0 5 85): no answer", text)
        cut = "bacsite: the file is cut at octet %d, within packet 2 at octet 100\n" % (
            len(good) - 1
        )
        self.assertEqual(said, cut)
        summary = json.loads(self.told(good[:-1], "--json")[1].splitlines()[-1])
        self.assertEqual((summary["packets"], summary["damage"]), (1, cut[9:-1]))
        status, _, said = self.run_site("capture", "IN/none.pcap")
        self.assertEqual((status, said[:22]), (3, "bacsite: cannot read /"))

    def test_standard_input(self):
        with open(self.path("some.pcap", file_of(exchange(0, 1))), "rb") as file:
            command = [*self.world.command, "capture", "-", "--summary"]
            done = subprocess.run(command, stdin=file, stdout=subprocess.PIPE)
        self.assertEqual((done.returncode, done.stdout[:10]), (0, b"1 request "))

    def test_a_snap_length_of_60(self):
        octets = [ether(udp(one, two, bytes.fromhex(it))) for _, one, two, it in exchange(0, 1)]
        cut = pcap([(at * 10**6, it[:60]) for at, it in enumerate(octets)], 1)
        status, text, _ = self.told(cut)
        self.assertIn("(0 5 85): answered, cut by the capture  1.00 ms\n", text)
        told = "cut by the capture: 1 datagram, told by their first octets\n"
        self.assertEqual((status, text[-len(told) :]), (0, told))
        self.assertEqual(json.loads(self.told(cut, "--json")[1].splitlines()[-1])["cut"], 1)
        self.assertIn("a datagram that the capture has cut", self.told(cut, "--trace")[1])
        self.assertNotIn("\ndata ", self.told(cut, "--trace")[1])

    def test_trace(self):
        said = "bacsite: no read or write of 127.0.0.7 to any\n"
        found = self.told(exchange(0, 1), "--trace", "--client", "127.0.0.7")
        self.assertEqual(found, (2, "", said))
        lines = self.told(exchange(0, 1), "--trace", "--timeout", "70", "--retries", "1")[1]
        self.assertIn("\nclient 70 1 0\n", lines)

    def test_words_that_do_not_go_together(self):
        self.path("one.pcap", file_of(exchange(0, 1)))
        self.rows(
            """
            capture IN/one.pcap --trace --json => 2 !a script has no --json and no --only
            capture IN/one.pcap --trace --only slow => 2 !a script has no --json and no --only
            capture IN/one.pcap --timeout 5 => 2 !--timeout and --retries are for --trace
            capture IN/one.pcap --retries 0 => 2 !--timeout and --retries are for --trace
            capture IN/one.pcap --summary --trace => 2 !argument --trace: not allowed with argument --summary; see..
            """
        )
        found = self.run_site("capture", "-", before=lambda: os.close(0))
        self.assertEqual(found, (3, "", "bacsite: cannot read standard input: it is closed\n"))

    def test_summary(self):
        steps = exchange(0, 1) + exchange(10, 11, 2, "600209") + exchange(20, None, 3)
        summary = """\
4 requests of 1 client to 1 device: 2 answered, 1 refused, 1 unanswered
of these 2 failed
device           requests  answered  refused  unanswered  sent again  slow  median ms  longest ms
127.0.0.1:47808  4         2         1        1           0           0     1.00       2.00
"""
        self.assertEqual(self.told(steps + exchange(9000, 9002, 4), "--summary")[1], summary)

    def test_summary_of_several(self):
        """The device with the most failures comes first; answers to nothing are counted."""
        steps = exchange(0, 1) + exchange(10, 11, 2, "600209", to="127.0.0.9:47808")
        steps += [(20, DEVICE, CLIENT, wrapped("20090f"))]
        text = self.told(steps, "--summary")[1]
        devices = [it.split(" ")[0] for it in text.splitlines()[3:5]]
        self.assertEqual(devices, ["127.0.0.9:47808", DEVICE])
        self.assertIn("\nalso seen: answers to nothing seen 1\n", text)

    def test_only(self):
        steps = exchange(0, 1) + exchange(10, 11, 2, "600209") + exchange(20, 1500, 3)
        for words, numbers in (("failed", ["2"]), ("slow", ["3"]), ("slow --slow 1", ["1", "2", "3"])):
            lines = self.told(steps, "--only", *words.split())[1].split("\n\n")[0].splitlines()
            self.assertEqual([it.split("  #")[1][:1] for it in lines], numbers)

    def test_what_is_no_capture(self):
        for words in ([], ["--summary"], ["--trace"]):
            status, out, said = self.run_site("capture", "/etc/passwd", *words)
            self.assertEqual((status, out, said[:33]), (3, "", "bacsite: neither pcap nor pcapng:"))

    def test_a_station_behind_a_router_is_chosen(self):
        """As the summary prints it, 192.0.2.40:47808/77/0a, or in capital letters."""
        request = "810a00160124004d010aff0005010c0c023fffff194d"
        other = "810a0016012400%02x0102ff0005020c0c023fffff194d" % 77
        steps = [(0, "10.0.0.9:1", "192.0.2.40:47808", request), (1, "10.0.0.9:1", "192.0.2.40:47808", other)]
        text = self.told(steps, "--device", "192.0.2.40:47808/77/0A", "--summary")[1]
        self.assertEqual(text.splitlines()[0], "1 request of 1 client to 1 device: 0 answered, 0 refused, 1 unanswered")
        self.assertIn("192.0.2.40:47808/77/0a", text)

    def test_choice(self):
        steps = exchange(0, 1) + exchange(2, 3, of="127.0.0.2:50000")
        steps += exchange(4, 5, 2, to="127.0.0.9:47808")
        rows = [("127.0.0.1", None, 2), ("127.0.0.2:50000", None, 1), (None, "127.0.0.9", 1)]
        for client, device, count in rows:
            words = ["--client", client] if client else ["--device", device]
            self.assertEqual(self.told(steps, *words)[1].split(" ")[0:1], [""])
            text = self.told(steps, *words, "--summary")[1]
            self.assertEqual(text[:9], "%d request" % count)
        other = [(6, "127.0.0.3:47808", "127.0.0.1:50000", wrapped("1008"))]
        for words, count in (
            (["--client", "127.0.0.1"], 3),
            (["--client", "127.0.0.1", "--device", "127.0.0.3"], 1),
            (["--client", "127.0.0.1", "--device", "127.0.0.9"], 1),
        ):
            text = self.told(steps + other, *words)[1].split("\n\n")[0]
            self.assertEqual(len(text.splitlines()), count, words)
        for words, told in (
            (("--client", "127.0.0.4"), "127.0.0.4 and any"),
            (("--client", "127.0.0.l", "--json"), "127.0.0.l and any"),
            (("--device", "127.0.0.1:4780"), "any and 127.0.0.1:4780"),
        ):
            found = self.told(steps, *words)
            self.assertEqual(found, (2, "", "bacsite: nothing between %s\n" % told))

    def test_json(self):
        rows = [json.loads(it) for it in self.told(exchange(0, 1), "--json")[1].splitlines()]
        self.assertEqual([it["kind"] for it in rows], ["talk", "summary"])
        self.assertEqual(rows[0]["shown"], "72.3")
        self.assertEqual(rows[1]["all"]["answered"], 1)
        empty = wrapped("0005010f0c0000000a19553e71003f", "0104")
        rows = self.told([(0, CLIENT, DEVICE, empty), *exchange(1, 2, 2)], "--json")[1].splitlines()
        self.assertEqual([json.loads(it)["written"] for it in rows[:2]], ["", None])


if __name__ == "__main__":
    unittest.main()
