"""The program as a whole: its streams, signals and environment, and the one file that is built."""

import ast
import glob
import os
import pty
import re
import select
import shutil
import signal
import subprocess
import sys
import tempfile
import threading
import time
import unittest
from concurrent.futures import ThreadPoolExecutor
from contextlib import suppress

import harness
import bacsite
from bacsite.tools import NotBegun, Processes
from stand_ins import StandIn, enumerated, local_socket, real, string

# The names of modules at the front of each line of the package's text.
LINES = re.findall(r"(?m)^    ([a-z_/]+(?:, [a-z_/]+)*)", bacsite.__doc__)
MODULES = [name for line in LINES for name in line.split(", ")]
WRITING_FAILED = (3, "bacsite: writing failed\n")


LONG = str(20000 + os.getpid() % 40000)  # milliseconds; a word that no other run of the tests has


def imported(name, node):
    """Returns the modules of the package that an import in a module names."""
    inner = "capture/" if name.startswith("capture/") and node.level == 1 else ""
    if node.module:
        return {inner + node.module}
    folder = f"{harness.TOP}/site/bacsite/{inner}"
    there = [it.name for it in node.names if os.path.isfile(f"{folder}{it.name}.py")]
    return {inner + it for it in there}


def left_running(word):
    """Returns the processes that have this word, except those that end within two seconds."""
    for _ in range(40):
        found = still_running(word)
        time.sleep(0.05 * bool(found))
    return found


def still_running(word):
    """Returns the processes that have this word."""
    found = []
    for name in filter(str.isdigit, os.listdir("/proc")):
        with suppress(OSError), open("/proc/" + name + "/cmdline", "rb") as file:
            if word.encode() in file.read().split(b"\0"):
                found.append(name)
    return found


def surroundings(folder):
    """The environments in which everything must be the same."""
    base = {"PATH": os.environ["PATH"]}
    comma = {**base, "LC_ALL": "de_DE.UTF-8", "LOCPATH": folder}
    plain = {
        **base,
        "LC_ALL": "C",
        "PYTHONCOERCECLOCALE": "0",
        "PYTHONUTF8": "0",
        "PYTHONIOENCODING": "ascii",
    }
    if shutil.which("localedef"):
        subprocess.run(
            ["localedef", "-i", "de_DE", "-f", "UTF-8", folder + "/de_DE.UTF-8"],
            stderr=subprocess.DEVNULL,
        )
    ask = "import locale; locale.setlocale(locale.LC_ALL, ''); print(locale.localeconv()['decimal_point'])"
    told = subprocess.run(
        [sys.executable, "-c", ask], env=comma, stdout=subprocess.PIPE, stderr=subprocess.DEVNULL
    )
    made = [comma] if told.stdout == b",\n" else []
    return [{}, {**base, "LC_ALL": "C"}, {**base, "LC_ALL": "xx_XX.UTF-8"}, plain] + made


class Surroundings(harness.SiteTest):
    def test_all_is_the_same(self):
        self.stand_in({(0, 1, 77): string("Zürich")})
        self.path("Öl.list", "Öl HERE 0 1 77\n")
        for env in surroundings(self.world.folder):
            self.rows(
                """
                check -w 60:80 -c 50:90 DEV 0 5 85 => 0 BACNET OK - 72.3 | value=72.3;60:80;50:90
                check -c 72.35: DEV 0 5 85 => 2 BACNET CRITICAL - 72.3 | value=72.3;~:;72.35:
                check -c 72.3:72.3 DEV 0 5 85 => 0 BACNET OK - 72.3 | value=72.3;~:;72.3:72.3
                check -c -10:-5.5 ODD 45 1 85 => 2 BACNET CRITICAL - -5 | value=-5;~:;-10:-5.5
                check -c ~:72 ODD 46 1 85 => 2 BACNET CRITICAL - 72.3 | value=72.3;~:;~:72
                check -c -5:5 DEV 4 4 85 => 0 BACNET OK - 0 (inactive) | value=0;~:;-5:5
                check HERE 0 1 77 => 3 BACNET UNKNOWN - no number: Zürich
                real 4290999a => 0 72.3
                check -c 1,5: DEV 0 5 85 => 3 BACNET UNKNOWN - no range: 1,5:
                octets 20,5 => 2 !no number: '20,5'
                """,
                env=env,
            )
            status, out, err = self.world.run("poll", self.world.folder + "/Öl.list", env=env)
            self.assertEqual((status, out[20:], err), (0, "\tÖl\tZürich\t-\t-\t-\n", ""))
        for words in (
            (b"read", b"\xff", b"0", b"5", b"85"),
            (b"survey", b"\xff"),
            (b"real", b"\xff"),
        ):
            done = subprocess.run(
                [*self.world.command, *words], stderr=subprocess.PIPE, env={"LC_ALL": "C"}
            )
            self.assertEqual(
                (done.returncode, done.stderr[:9], done.stderr.count(b"\n")), (2, b"bacsite: ", 1)
            )


class Running(unittest.TestCase):
    def test_lines_that_came_together(self):
        words = ["sh", "-c", "printf 'a\nb\nc'; exec sleep 9"]
        process = Processes().start(words, time.monotonic() + 20)
        self.assertEqual((process.line(), process.is_ready(0), process.line()), ("a", True, "b"))
        self.assertFalse(process.is_ready(0.05))
        process.kill()
        self.assertEqual(process.outcome().lines, ["c"])

    def test_a_line_is_waited_for_until_the_time_is_up(self):
        processes, begun = Processes(), time.monotonic()
        process = processes.start(["sh", "-c", "sleep 0.3; echo a; exec sleep 9"], begun + 5)
        for seconds in 0.1, 5.1:
            threading.Timer(seconds, processes.end_late).start()
        self.assertEqual((process.line(), process.line()), ("a", None))
        self.assertGreater(time.monotonic() - begun, 5)
        self.assertIsNone(process.outcome().status)

    def test_none_begins_once_all_are_ended(self):
        processes = Processes()
        processes.end()
        with self.assertRaises(NotBegun):
            processes.start(["true"])


class HeldStandIn(StandIn):
    """A device that answers once it may."""

    may_answer = threading.Event()

    def reply(self, apdu):
        self.may_answer.wait(60)
        return super().reply(apdu)


class Streams(harness.SiteTest):
    def test_full_and_closed_streams(self):
        words = ("read", "DEV", "0", "5", "85")
        with open("/dev/full", "w", encoding="utf-8") as full:
            for asked in (
                words,
                ("check", *words[1:]),
                ("real", "4290999a"),
                ("--help",),
                ("check", "--help"),
                ("-V",),
            ):
                self.assertEqual(self.run_site(*asked, stdout=full)[::2], WRITING_FAILED, asked)
        for closed in 0, 2:
            self.assertEqual(
                self.run_site(*words, before=lambda: os.close(closed)), (0, "72.3\n", "")
            )
        nobody = self.stand_in({})
        for command in "read", "check":
            found = self.run_site(command, "HERE", *words[2:], before=lambda: os.close(1))
            self.assertEqual(found[::2], WRITING_FAILED)
        self.assertEqual(nobody.asked, [])

    def test_a_reader_who_goes_away_ends_it_silently_and_at_once(self):
        (out, into), begun = os.pipe(), time.monotonic()
        os.close(out)
        words = ("survey", "DEV", "DEAD", "--apdu-timeout", "20000")
        self.assertEqual(self.run_site(*words, stdout=into)[::2], (3, ""))
        self.assertEqual(self.run_site("real", "4290999a", stdout=into)[::2], (3, ""))
        os.close(into)
        self.assertLess(time.monotonic() - begun, harness.at_load(15))

    def test_a_terminal_is_told_how_far_it_is(self):
        terminal, side = pty.openpty()
        slow = self.stand_in({(0, 1, 85): real("42290000")}, kind=HeldStandIn)
        words = ["read", "--no-flags", slow.address, "0", "1", "85", "--apdu-timeout", "20000"]
        wanted, shown = b"\r0 of 1 done, 1 calls ", b""
        with subprocess.Popen([*self.world.command, *words], stdout=subprocess.PIPE, stderr=side) as process:
            while wanted not in shown and select.select([terminal], [], [], harness.at_load(20))[0]:
                shown += os.read(terminal, 9999)
            slow.may_answer.set()
            self.assertEqual(process.communicate()[0], b"42.25\n")
        self.assertIn(wanted, shown)
        os.close(side)
        os.close(terminal)


class Signals(harness.SiteTest):
    def ended(self, number, words):
        with local_socket() as dead:
            dead.settimeout(harness.at_load(30))
            here = "127.0.0.1:%d" % dead.getsockname()[1]
            path = self.path("some-%s" % here, "p %s 0 1 85" % here)
            command, *rest = words.replace("LIST", path).replace("HERE", here).split()
            process = self.begun(command, "--apdu-timeout", LONG, *rest)
            dead.recv(99)
            process.send_signal(number)
            begun = time.monotonic()
            out, err = process.communicate(timeout=harness.at_load(30))
            return process.returncode, out, err, time.monotonic() - begun < harness.at_load(6)

    def test_they_end_it_at_once(self):
        folder = self.world.folder
        commands = (
            "survey HERE",
            "check HERE 0 1 85",
            "properties HERE 0 1",
            "poll LIST",
            "write HERE 0 1 5",
            "prometheus LIST %s/s.prom" % folder,
        )
        ends = [(number, words) for number in harness.SIGNALS for words in commands]
        with ThreadPoolExecutor(6) as pool:
            for (number, words), found in zip(ends, pool.map(lambda it: self.ended(*it), ends)):
                self.assertEqual(found, (-number, b"", b"", True), words)
        self.assertEqual(left_running(LONG), [])
        self.assertEqual([name for name in os.listdir(folder) if "s.prom" in name], [])

    def test_they_end_a_write(self):
        """bacwp, which prints nothing meanwhile, would not notice that its reader is gone."""
        values = {(0, 1, 77): string("A"), (0, 1, 79): enumerated(0), (0, 1, 85): real("42290000")}
        device = self.stand_in(values, writes="silent")
        for number in harness.SIGNALS:
            device.written.clear()
            with self.begun("write", "HERE", "0", "1", "5", "--apdu-timeout", LONG) as process:
                while not device.written:
                    self.assertIsNone(process.poll())
                process.send_signal(number)
            self.assertEqual((process.returncode, left_running(LONG)), (-number, []))

    def test_those_of_a_terminal_reach_no_tool(self):
        slow = self.stand_in({(0, 1, 85): real("42290000")}, delay=1)
        words = ["read", slow.address, "0", "1", "85", "--apdu-timeout", "9000"]
        with subprocess.Popen([*self.world.command, *words], stdout=subprocess.PIPE) as process:
            while not slow.asked:
                time.sleep(0.01)
            tools = []
            for path in glob.glob("/proc/%d/task/*/children" % process.pid):
                with open(path, encoding="ascii") as file:
                    tools += map(int, file.read().split())
            self.assertEqual([os.getsid(it) for it in tools], tools)
            self.assertEqual((len(tools), process.communicate()[0]), (1, b"42.25\n"))

    def test_one_that_is_ignored_stays_so(self):
        slow = self.stand_in({(0, 1, 85): real("42290000")}, delay=1)
        process = subprocess.Popen(
            [*self.world.command, "read", slow.address, "0", "1", "85", "--apdu-timeout", "9000"],
            stdout=subprocess.PIPE,
            preexec_fn=lambda: signal.signal(signal.SIGHUP, signal.SIG_IGN),
        )
        while not slow.asked:
            time.sleep(0.01)
        process.send_signal(signal.SIGHUP)
        self.assertEqual((process.communicate(timeout=harness.at_load(30))[0], process.returncode), (b"42.25\n", 0))


class OneFile(harness.SiteTest):
    def test_the_same_octets_each_time(self):
        found = set()
        with tempfile.TemporaryDirectory() as folder:
            tree = folder + "/tree"
            shutil.copytree(harness.TOP + "/site", tree + "/site")
            shutil.copytree(harness.TOP + "/packaging", tree + "/packaging")
            os.makedirs(tree + "/site/bacsite/__pycache__", exist_ok=True)
            for top in (harness.TOP, tree):
                time.sleep(2.1 * bool(found))  # an archive has times in steps of two seconds
                words = [sys.executable, top + "/packaging/onefile.py", folder + "/made"]
                subprocess.run(words, check=True)
                with open(folder + "/made", "rb") as file:
                    found.add(file.read())
                self.assertEqual(os.stat(folder + "/made").st_mode & 0o777, 0o755)
        self.assertEqual(len(found), 1)

    def test_it_runs_from_the_tree_and_alone(self):
        env = {"PATH": self.world.folder}
        for program in (harness.TOP + "/site/bacsite", self.world.folder + "/bacsite"):
            words = [
                self.world.command[0],
                "-I",
                program,
                "read",
                self.names["DEV"],
                "0",
                "5",
                "85",
            ]
            done = subprocess.run(words, stdout=subprocess.PIPE, cwd="/", env=env)
            self.assertEqual(done.stdout, b"72.3\n")
        os.mkdir(self.world.folder + "/other")
        os.chmod(self.path("other/bactool", "#!/bin/sh\necho 42290000\n"), 0o755)
        words = [*self.world.command, "read", self.names["DEV"], "0", "5", "85"]
        env = {"PATH": self.world.folder + "/other:" + os.environ["PATH"]}
        alone = shutil.copy(self.world.folder + "/bacsite", self.world.folder + "/other/alone")
        none = [self.world.command[0], alone, "read", "DEV", "0", "5", "85", "--tools", "/nowhere"]
        for given, told in (
            (none, b"no bactool in /nowhere\n"),
            (none[:-2], b"no bactool in PATH nor beside bacsite; --tools FOLDER says where it is\n"),
        ):
            os.rename(self.world.folder + "/other/bactool", self.world.folder + "/other/hidden")
            given[3] = self.names["DEV"]
            done = subprocess.run(given, stderr=subprocess.PIPE, env={"PATH": "/nowhere"})
            self.assertEqual((done.returncode, done.stderr), (3, b"bacsite: " + told))
            os.rename(self.world.folder + "/other/hidden", self.world.folder + "/other/bactool")
        done = subprocess.run(words, stdout=subprocess.PIPE, env=env)
        self.assertEqual(done.stdout, b"72.3\n", "the one beside it comes before those of PATH")
        done = subprocess.run(
            [self.world.command[0], "-m", "bacsite", "-V"],
            stdout=subprocess.PIPE,
            cwd=harness.TOP + "/site",
        )
        self.assertTrue(re.fullmatch(rb"bacsite [0-9.]+\n", done.stdout))

    def test_modules_rest_on_those_below(self):
        """The package lists its modules from below: each imports only from those above it in the list."""
        below = []
        for name in MODULES:
            path = f"{harness.TOP}/site/bacsite/{name}.py"
            with open(path, encoding="utf-8") as file:
                found = ast.walk(ast.parse(file.read()))
            for node in found:
                if isinstance(node, ast.ImportFrom) and node.level:
                    self.assertLessEqual(imported(name, node), set(below), name)
            below.append(name)
        there = glob.glob(harness.TOP + "/site/bacsite/**/*.py", recursive=True)
        names = {os.path.relpath(it, harness.TOP + "/site/bacsite")[:-3] for it in there}
        self.assertEqual(names - set(below), {"__init__", "__main__", "capture/__init__"})


class Language(unittest.TestCase):
    def test_its_sources_are_python_3_8(self):
        """Checked by the grammar of that version; mypy has its own list of later names."""
        paths = glob.glob(harness.TOP + "/site/bacsite/**/*.py", recursive=True)
        self.assertEqual(len(paths), len(MODULES) + 3)  # __main__, and an __init__ of each of two packages
        for path in paths:
            with open(path, encoding="utf-8") as file:
                ast.parse(file.read(), path, feature_version=(3, 8))
        for later in "match a:\n    case 1:\n        pass", "try:\n    pass\nexcept* ValueError:\n    pass":
            with self.assertRaises(SyntaxError):
                ast.parse(later, feature_version=(3, 8))


if __name__ == "__main__":
    unittest.main()
