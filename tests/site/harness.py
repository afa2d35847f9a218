"""Shared parts of the tests of bacsite: the program as it is installed, devices, and rows.

BACTOOL names the program that bacsite runs, and PYTHON another Python to run bacsite. A row has words, `=>`, the status
and standard output; `;` ends a line. If there is a `!`, standard output is empty and standard error is the text after
it; `..` at its end stands for more text. In a row DEV is the address of a bacdev (1000), `ODD` that of a stand-in (77),
HERE that of the latest stand-in, DEAD one where nobody is; IN is a folder, and '' is an empty word.
"""

import atexit
import math
import os
import pty
import re
import shutil
import signal
import subprocess
import sys
import tempfile
import time
import unittest
from concurrent.futures import ThreadPoolExecutor
from contextlib import suppress

from unusual_values import ODD_VALUES
from stand_ins import StandIn, local_socket

TOP = os.path.realpath(os.path.dirname(os.path.abspath(__file__)) + "/../..")
TOOL = os.path.realpath(os.environ.get("BACTOOL", TOP + "/crates/bactool/out/bactool"))
sys.path.insert(0, TOP + "/site")
SIGNALS = (signal.SIGINT, signal.SIGHUP, signal.SIGTERM)
ROWS = []  # the rows that were run, which run.py counts
atexit.register(lambda: ROWS and print(len(ROWS), "rows"))


def at_load(seconds):
    """This many seconds, or more if each processor has more than one process to run."""
    return seconds * max(1.0, os.getloadavg()[0] / (os.cpu_count() or 1))


PATIENT = ["--apdu-timeout", "5000"]  # whoever answers does it by then, however busy the machine is
HURRIED = ["--apdu-timeout", str(min(900, round(at_load(300))))]  # for tests of those who do not answer
LISTENED = str(min(4, math.ceil(at_load(1))))  # seconds
LISTEN = ["--listen", LISTENED, "--listen-port", "0"]  # another test may have the usual port
SILENCES = ("timeout", "not asked", "silent")  # a row with these waits for somebody who does not answer


def has_port(process, port):
    """Whether this process has a UDP socket at this port."""
    with open(f"/proc/{process}/net/udp", encoding="ascii") as table:
        rows = [row.split() for row in table]
    sockets = {f"socket:[{row[9]}]" for row in rows if row[1].endswith(f":{port:04X}")}
    with os.scandir(f"/proc/{process}/fd") as files:
        return any(os.readlink(it.path) in sockets for it in files)


class World:
    """The devices that all tests use; they are made once."""

    made = None

    def __init__(self):
        self.folder = tempfile.mkdtemp()
        os.symlink(TOOL, self.folder + "/bactool")
        subprocess.run(
            [sys.executable, TOP + "/packaging/onefile.py", "--compiled", self.folder + "/bacsite"], check=True
        )
        # -S: without installed packages, since bacsite needs none
        self.command = [os.environ.get("PYTHON", sys.executable), "-S", self.folder + "/bacsite"]
        self.odd, self.dead = StandIn(77, ODD_VALUES), local_socket()
        try:
            self.meet()
        except BaseException:
            self.close()
            raise

    def begin(self):
        """Begins the device at a free port, and returns the port; another program may take it first."""
        for _ in range(5):
            with local_socket() as found:
                port = found.getsockname()[1]
            self.device = subprocess.Popen([TOOL, "bacdev", "1000", "--port", str(port)])
            most = time.monotonic() + at_load(2)
            while self.device.poll() is None:
                with suppress(OSError):  # it has just ended
                    if time.monotonic() > most or has_port(self.device.pid, port):
                        return str(port)
                time.sleep(0.01)
        raise OSError("bacdev has no port")

    def meet(self):
        """Begins the device, and waits until it answers."""
        port = self.begin()
        dead = "127.0.0.1:%d" % self.dead.getsockname()[1]
        self.names = {
            "IN": self.folder,
            "ODD": self.odd.address,
            "DEAD": dead,
            "DEV": "127.0.0.1:" + port,
        }
        for _ in range(20):
            if self.run("read", self.names["DEV"], "0", "5", "85")[0] == 0:
                break
        else:
            raise OSError("bacdev does not answer")

    def run(self, *words, stdin=None, stdout=subprocess.PIPE, env=None, before=None, patience=HURRIED):
        """The status, standard output and standard error of a call."""
        asks = words[0] not in ("real", "octets", "capture") and not words[0].startswith("-")
        done = subprocess.run(
            [*self.command, words[0], *(patience if asks else []), *words[1:]],
            input=stdin,
            stdout=stdout,
            env=env,
            stderr=subprocess.PIPE,
            preexec_fn=before,
            timeout=at_load(90),
            encoding="utf-8",
        )
        return done.returncode, done.stdout, done.stderr

    def close(self):
        self.device.kill()
        self.device.wait()
        shutil.rmtree(self.folder)


def world():
    """The devices; those that are left are ended when Python ends."""
    if World.made is None:
        World.made = World()
        atexit.register(World.made.close)
    return World.made


class SiteTest(unittest.TestCase):
    """A test that runs the program."""

    maxDiff = None
    patience = HURRIED

    def setUp(self):
        self.world = world()
        self.names = dict(self.world.names)

    def run_site(self, *words, **more):
        return self.world.run(*map(self.spelled, words), **{"patience": self.patience, **more})

    def on_a_terminal(self, height, *words):
        """The status of the program on a terminal of this height, and what it shows there."""
        ours, theirs = pty.openpty()
        env = {**os.environ, "TERM": "xterm", "COLUMNS": "100", "LINES": height}
        done = subprocess.run([*self.world.command, *words], stdout=theirs, env=env, timeout=at_load(60))
        os.close(theirs)
        text = b""
        with suppress(OSError):
            while True:
                text += os.read(ours, 65536)
        os.close(ours)
        return done.returncode, text.decode()

    def begun(self, *words, **more):
        """The running program: its streams are pipes, and signals end it."""
        return subprocess.Popen(
            [*self.world.command, *map(self.spelled, words)],
            stdout=subprocess.PIPE,
            stderr=subprocess.PIPE,
            preexec_fn=lambda: [signal.signal(it, signal.SIG_DFL) for it in SIGNALS],
            **more,
        )

    def stand_in(self, values, kind=StandIn, **more):
        """A stand-in, whose address is HERE."""
        found = kind(more.pop("instance", 77), values, **more)
        self.names["HERE"] = found.address
        return found

    def spelled(self, text):
        return re.sub(r"\b(%s)\b" % "|".join(self.names), lambda it: self.names[it[0]], text)

    def path(self, name, text):
        """The path of a new file with this text."""
        with open(os.path.join(self.world.folder, name), "wb") as file:
            file.write(text if isinstance(text, bytes) else self.spelled(text).encode())
        return os.path.join(self.world.folder, name)

    def rows(self, text, **more):
        """Runs the rows at the same time; each line is a row."""
        rows = [line.strip() for line in text.split("\n") if line.strip()]
        ROWS.extend(rows)
        with ThreadPoolExecutor(6) as pool:
            for row, wanted, found in pool.map(lambda row: self.came(row, **more), rows):
                with self.subTest(row=row):
                    self.assertEqual(found, wanted)

    def came(self, row, **more):
        words, _, wanted = self.spelled(row + " ").partition(" => ")
        wanted = wanted[:-1] if wanted[1:] != " " else wanted
        given = ["" if word == "''" else word for word in words.strip().split(" ")]
        waits = given[0] == "survey" or any(it in wanted for it in SILENCES)
        patience = HURRIED if waits else PATIENT
        status, out, err = self.world.run(*given, patience=patience, **more)
        if wanted[2:3] == "!" and err[:9] + err[-1:] == "bacsite: \n":
            told = err[9:-1]
            if wanted.endswith(".."):
                told = err[9 : 4 + len(wanted)] + ".." * (len(told) > len(wanted) - 5)
            return row, wanted, "%d !%s" % (status, told) + out
        return row, wanted, "%d %s" % (status, out.rstrip("\n").replace("\n", ";")) + err
