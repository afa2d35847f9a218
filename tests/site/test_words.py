"""The words for what is asked: addresses, ranges of addresses, points, and lists of points."""

import io
import subprocess
import sys
import unittest
from importlib import import_module
from unittest import mock

import harness
import bacsite
from bacsite import parsing, points
from bacsite.standard import PropertyRef
from bacsite.streams import Failure, clean, put, table, width


class Addresses(unittest.TestCase):
    def test_one(self):
        for word, wanted in (
            ("192.0.2.7", (None, "192.0.2.7:47808")),
            ("192.0.2.7:47809", (None, "192.0.2.7:47809")),
            ("1234@192.0.2.7", (1234, "192.0.2.7:47808")),
            ("0@10.0.0.1:0", (0, "10.0.0.1:0")),
            ("010.0.0.1", (None, "10.0.0.1:47808")),
            ("192.0.2.7/5/07", (None, "192.0.2.7:47808/5/07")),
            ("9@192.0.2.7:9/065/0A0b0C", (9, "192.0.2.7:9/65/0a0b0c")),
        ):
            self.assertEqual(points.address_of(word), wanted)
        for word in (
            "",
            "1.2.3",
            "1.2.3.4.5",
            "0x7f.0.2.31",
            "0x7f000001",
            "ahu.1",
            "ahu.0x1f:47808",
            "1.2.3.256",
            "1.2.3.4:65536",
            "12345678@1.2.3.4",
            "1.2.3.4:",
            "1.2.3.4 ",
            "1.2.3.4/5",
            "1.2.3.4/5/",
            "1.2.3.4/0/07",
            "1.2.3.4/65535/07",
            "1.2.3.4/5/7",
            "1.2.3.4/5/0102030405060708",
            "/5/07",
            "1.2.3.4/5/07:47808",
            "1.2.3.4/5/07/1",
            "-1@1.2.3.4",
            "::1",
            "4194303@1.2.3.4",
        ):
            with self.subTest(word=word), self.assertRaises(Failure):
                points.address_of(word)

    def test_a_host_name_is_looked_up_once(self):
        found = [(None, None, None, "", ("192.0.2.9", 0))]
        with mock.patch("socket.getaddrinfo", return_value=found) as lookup:
            self.assertEqual(points.address_of("7@ahu.example:47809"), (7, "192.0.2.9:47809"))
            self.assertEqual(points.address_of("ahu.example"), (None, "192.0.2.9:47808"))
            self.assertEqual(points.address_of("ahu.example/5/01"), (None, "192.0.2.9:47808/5/01"))
            self.assertEqual(points.address_of("192.0.2.7"), (None, "192.0.2.7:47808"))
            for word in "0x7f.0.2.31 0x7f000001 1.2.3.0X4 a.0x 0177.1 127.1 a.9. 7:80".split():
                with self.subTest(word=word), self.assertRaises(Failure):
                    points.address_of(word)
        self.assertEqual(lookup.call_count, 1)
        with mock.patch("socket.getaddrinfo", side_effect=OSError) as lookup:
            for word in ("no.example", "8@no.example", "no.example:99999", "a b", "no/example"):
                with self.subTest(word=word), self.assertRaises(Failure):
                    points.address_of(word)
        self.assertEqual(lookup.call_count, 1)

    def test_ranges(self):
        def hosts(*given):
            return [it.address.split(":")[0] for it in points.targets(given)]

        self.assertEqual(hosts("192.0.2.0/30"), ["192.0.2.1", "192.0.2.2"])
        self.assertEqual(hosts("192.0.2.7/32"), ["192.0.2.7"])
        self.assertEqual(len(hosts("192.0.2.0/24")), 254)
        self.assertEqual(
            hosts("192.0.2.254-192.0.3.1"), ["192.0.2.254", "192.0.2.255", "192.0.3.0", "192.0.3.1"]
        )
        self.assertEqual(hosts("192.0.2.1-3"), ["192.0.2.1", "192.0.2.2", "192.0.2.3"])
        target = points.targets(["192.0.2.1-2:47809"])[1]
        self.assertEqual(target, ("192.0.2.2:47809", (None,), True))
        for word in (
            "192.0.2.3-1",
            "192.0.2.1-256",
            "192.0.2.0/33",
            "10.0.0.0/8",
            "7@192.0.2.1-2",
            "192.0.2-9",
            "192.0.2.1-",
            "10.0.0.0-11.0.0.0",
        ):
            with self.subTest(word=word), self.assertRaises(Failure):
                points.targets([word])

    def test_targets_stand_once(self):
        found = points.targets(
            ["77@192.0.2.1", "1026@192.0.2.1", "77@192.0.2.1", "192.0.2.0/30"]
        )
        self.assertEqual(found[0], ("192.0.2.1:47808", (77, 1026), False))
        self.assertEqual(found[1:], [("192.0.2.2:47808", (None,), True)])
        networks = points.targets(["192.0.2.1/5/*", "192.0.2.1:47808/05/*", "192.0.2.1/*"])
        self.assertEqual([it.address for it in networks], ["192.0.2.1:47808/5/*", "192.0.2.1:47808/*"])
        named = points.targets(["192.0.2.0/30", "5@192.0.2.2"])
        self.assertEqual(named[1], ("192.0.2.2:47808", (5,), False))


class Points(unittest.TestCase):
    def test_hints(self):
        for reader, word, hint in (
            (points.object_type, "AI", "perhaps analog-input"),
            (points.object_type, "analog_input", "perhaps analog-input"),
            (points.property_number, "pv", "perhaps present-value"),
            (points.property_number, "presnt-value", "perhaps present-value"),
            (points.instance, "five", ""),
        ):
            with self.assertRaises(Failure) as caught:
                reader(word)
            self.assertIn(hint, str(caught.exception))
        self.assertEqual(points.object_type("Analog-INPUT"), 0)

    def test_numbers_have_limits(self):
        for reader, most in (
            (points.object_type, 1023),
            (points.instance, 4194303),
            (points.property_number, 4194303),
            (points.index, 4294967295),
        ):
            self.assertEqual(reader(str(most)), most)
            for word in (str(most + 1), "-1", "", "1.5", "٣", "99999999999"):
                with self.subTest(word=word), self.assertRaises(Failure):
                    reader(word)

    def test_a_list_on_standard_input(self):
        stdin = io.TextIOWrapper(io.BytesIO(b"\xef\xbb\xbfa 192.0.2.7 0 5 85\r\n# b\n\n c x\n"))
        with mock.patch("sys.stdin", stdin):
            found = points.points_of("-")
        self.assertEqual(
            [(it.name, it.address, it.ref) for it in found],
            [("a", "192.0.2.7:47808", PropertyRef(0, 5, 85)), ("c", "", points.Point("").ref)],
        )
        self.assertTrue(found[1].fault.startswith("wanted: "))
        with mock.patch("sys.stdin", None), self.assertRaises(Failure):
            points.points_of("-")


class Texts(unittest.TestCase):
    def test_clean(self):
        self.assertEqual(clean("Öl\x1b[2J\n\u202e"), "Öl\\x1b[2J\\n\\u202e")

    def test_times_are_those_of_utc(self):
        code = "from bacsite.streams import stamp; print(stamp(0), stamp(86399))"
        told = subprocess.run(
            [sys.executable, "-c", code],
            cwd=harness.TOP + "/site",
            env={"TZ": "EST5"},
            stdout=subprocess.PIPE,
        )
        self.assertEqual(told.stdout, b"1970-01-01T00:00:00Z 1970-01-01T23:59:59Z\n")

    def test_what_is_written_in_parts_is_written_whole(self):
        written = []

        def some(_, octets):
            written.append(octets[:3])
            return len(octets[:3])

        with mock.patch("os.write", some):
            put("0123456789\n")
        self.assertEqual(b"".join(written), b"0123456789\n")

    def test_columns_hold_wide_texts(self):
        self.assertEqual([width(it) for it in ("abc", "温度", "e\u0301", "")], [3, 4, 1, 0])
        rows = [["0:1", "温度", "x"], ["0:22", "", "y"], ["0:3", "a" * 50, ""]]
        self.assertEqual(
            table(rows),
            ["0:1   温度" + " " * 46 + "  x", "0:22  -" + " " * 49 + "  y", "0:3   " + "a" * 50],
        )


class Words(unittest.TestCase):
    def test_every_command_is_in_the_table(self):
        found = parsing.COMMANDS
        self.assertEqual(len(found) - len({command.function for command in found.values()}), 0)
        for name, command in found.items():
            module, _, function = command.function.rpartition(".")
            self.assertTrue(callable(getattr(import_module("bacsite." + module), function)), msg=name)
            parser = parsing.parser_of([name])
            self.assertIn(command.summary[:20], parser.format_help())
        self.assertEqual(
            sorted(it for it, command in found.items() if not command.at_once),
            ["capture", "octets", "real"],
        )

    def given(self, line):
        """What the words of a command mean, by their names; without those that all commands have."""
        words = line.split(" ")
        found = vars(parsing.parser_of(words).parsed(words))
        return {name: it for name, it in found.items() if name not in ("command", "work", "journal")}

    def test_what_is_meant_without_options(self):
        """The values that the manual page names."""
        asking = {"tools": None, "apdu_timeout": 1000, "apdu_retries": 2, "window": 1, "at_once": 32}
        flags = "csv json list release sorted devices details held not_normal stations silent".split()
        flags = dict.fromkeys(flags, False)
        flags.update(reuse_names=False, html=None, ede=None, since=None, address=["a"], at_once=128)
        point, both = {"words": ["a", "0", "5", "85"], "no_flags": False}, {"list": "l", "no_flags": False}
        for line, wanted in (
            ("survey a", {**asking, **flags, "objects": 5000, "deadline": 600, "listen": 10, "listen_port": 47808}),
            ("read a 0 5 85", {**asking, **point}),
            ("properties a 0 5", {**asking, "words": ["a", "0", "5"], "last": 512}),
            ("poll l", {**asking, **both, "sorted": False}),
            ("watch a 0 5 85", {**asking, **point, "at_once": 256, "every": 1.0, "rounds": None, "for": None,
                                "all": False, "csv": None, "page": None}),
            ("check a 0 5 85", {**asking, **point, "hostname": None, "warning": "", "critical": "", "timeout": None}),
            ("prometheus l f", {**asking, **both, "file": "f"}),
            ("write a 0 5 7", {**asking, "address": "a", "object_type": "0", "instance": "5", "value": "7",
                               "priority": None, "property": "present-value", "index": None, "type": None,
                               "dry_run": False}),
            ("write-list l", {**asking, "list": "l", "dry_run": False}),
            ("capture f", {"file": "f", "summary": False, "trace": False, "json": False, "only": None, "slow": 1000,
                           "client": None, "device": None, "timeout": None, "retries": None}),
            ("real 41a40000", {"octets": "41a40000"}),
            ("octets 20", {"number": "20", "double": False}),
        ):
            self.assertEqual(self.given(line), wanted, line)

    def test_numbers_of_options_have_limits(self):
        for line, option, least, most in (
            ("read a 0 5 85", "--apdu-timeout", 1, 60000),
            ("read a 0 5 85", "--apdu-retries", 0, 9),
            ("read a 0 5 85", "--at-once", 1, 256),
            ("read a 0 5 85", "--window", 1, 64),
            ("survey a", "--listen", 1, 600),
            ("survey a", "--listen-port", 0, 65535),
            ("survey a", "--objects", 1, 999999),
            ("survey a", "--deadline", 1, 999999),
            ("properties a 0 5", "--last", 0, 4194303),
            ("watch l", "--rounds", 1, 999999999),
            ("check a 0 5 85", "--timeout", 1, 999999),
            ("write a 0 5 7", "--priority", 1, 16),
            ("capture f", "--slow", 0, 999999),
            ("capture f", "--timeout", 1, 60000),
            ("capture f", "--retries", 0, 255),
        ):
            name = option[2:].replace("-", "_")
            self.assertEqual([self.given(f"{line} {option} {it}")[name] for it in (least, most)], [least, most])
            for word in (str(least - 1), str(most + 1), "1.5", "x"):
                with self.assertRaises(Failure) as caught:
                    self.given(f"{line} {option}={word}")
                told, command = str(caught.exception), line.split(" ")[0]
                option_ = "-t/--timeout" if command == "check" else option
                wanted = f"argument {option_}: not {least} to {most}: {word}; see bacsite {command} --help"
                self.assertEqual((told, caught.exception.status), (wanted, 2))

    def test_the_help_has_limits_and_usual_values(self):
        for command, told in (
            ("read", "--apdu-retries COUNT how often to send a request again, 0 to 9; 2 by default"),
            ("read", "--at-once COUNT how many controllers to ask at the same time, 1 to 256; 32 by default, 128 for "),
            ("read", "WORD [INSTANCE@]ADDRESS [real|double|integer] TYPE INSTANCE PROPERTY [INDEX] options:"),
            ("survey", "--listen-port PORT hear stations at this port (0: any), 0 to 65535; 47808 by default"),
            ("capture", "--slow MILLISECONDS how long a request takes to be slow, 0 to 999999; 1000 by default"),
            ("capture", "It prints the requests of a capture file and their answers. "),
            ("write", "as for a vendor's own property: boolean, unsigned, signed, real, double, octets, text, bits, "),
            ("watch", "--for DURATION stop after this time, such as 90s, 10m, 8h or 1d --all "),
        ):
            with mock.patch("bacsite.parsing.put") as shown, self.assertRaises(SystemExit) as caught:
                parsing.parser_of([command]).parsed([command, "--help"])
            self.assertEqual(caught.exception.code, 0)
            self.assertIn(told, " ".join(shown.call_args[0][0].split()))

    def test_words_that_begin_as_negative_numbers_are_whole(self):
        words = parsing.parser_of([]).parsed(["prometheus", "-5.list", "-1.prom"])
        self.assertEqual((words.list, words.file), ("-5.list", "-1.prom"))
        with self.assertRaises(Failure) as caught:
            parsing.parser_of([]).parsed(["read", "--journal", "-5", "192.0.2.7", "0", "5", "85"])
        self.assertEqual((str(caught.exception), caught.exception.status), ("no folder: -5", 3))

    def test_a_survey_has_one_form(self):
        """So has a capture."""
        forms = ("--csv", "--json", "--list", "--release", "--html x", "--ede x")
        for command, options in (("survey a", forms), ("capture f", ("--summary", "--trace"))):
            for one in options:
                self.assertTrue(self.given(f"{command} {one}")[one[2:].split()[0]])
                for other in set(options) - {one}:
                    with self.assertRaises(Failure) as caught:
                        self.given(f"{command} {one} {other}")
                    told = "argument %s: not allowed with argument %s; " % (other.split()[0], one.split()[0])
                    self.assertEqual(str(caught.exception)[: len(told)], told)

    def test_who_has_put_two_dashes_is_not_told_to(self):
        told = "argument --priority: not 1 to 16: 17; see bacsite write --help"
        for words, hint in (("-- -x", ""), ("-x", "; put a value like -x after --")):
            with self.assertRaises(Failure) as caught:
                parsing.parser_of(["write"]).parsed(["write", "a", "0", "5", "--priority", "17", *words.split()])
            self.assertEqual(str(caught.exception), told + hint)

    def test_the_version_is_that_of_the_program(self):
        told = subprocess.run(
            [harness.TOOL, "--help"], stdout=subprocess.PIPE, encoding="utf-8"
        ).stdout
        self.assertTrue(told.startswith("bactool %s:" % bacsite.VERSION), told)


if __name__ == "__main__":
    unittest.main()
