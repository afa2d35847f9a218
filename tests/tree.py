"""Functions that scripts share: the places of tree and program, the texts of files, their comparison, the crates, and
the machine with its ports. Usage: python3 tests/tree.py COMMAND.., which runs a command with a free port after its
words.
"""
import contextlib
import fcntl
import functools
import glob
import os
import pathlib
import re
import shutil
import signal
import socket
import subprocess
import sys
import tempfile
import time

TOP = os.path.dirname(os.path.dirname(os.path.abspath(__file__)))
PROGRAM = os.environ.get("BACTOOL", TOP + "/crates/bactool/out/bactool")
TOOLS = ["bacrp", "bacwp", "bacwi", "bacdev", "bacrun", "bactrace"]
HELD = []  # locks of the ports that this process was given
SCRIPT = os.path.relpath(sys.argv[0], TOP)
COMPARED, WRONG = [], []  # the number of comparisons of a script, and the differences


def text_of(path):
    return pathlib.Path(TOP, path).read_text(encoding="utf-8")


def files(*places):
    """The files at these places, as the shell writes them, in order; `**` is any folder below."""
    return sorted(file for place in places for file in glob.glob(place, recursive=True) if os.path.isfile(file))


def sections_of(path):
    """Yields the head of each section of a table, after `= `, and its lines without empty ones and comments."""
    for section in re.split(r"(?m)^= ", text_of(path))[1:]:
        head, *lines = section.splitlines()
        yield head, [line for line in lines if line and line[0] != "#"]


def table_of(path):
    """The form of all tables: after a line `= HEAD` each line is a row of cells, except comments and empty lines. ` | `
    separates the cells; in a row with ` || ` only that does. Returns each head with its rows."""
    cells = lambda line: line.split(" || " if " || " in line else " | ")
    return [(head, [cells(line) for line in lines]) for head, lines in sections_of(path)]


def write(path, text):
    os.makedirs(os.path.dirname(path), exist_ok=True)
    pathlib.Path(path).write_text(text, encoding="utf-8")


def all_crates():
    """The crates of crates.txt, in its order, each with the crates and libraries that it uses."""
    lines = (line.partition(":") for line in text_of("crates.txt").splitlines() if ":" in line and line[0] != "#")
    return {name.split()[0]: below.split() for name, _, below in lines}


def crates_below():
    """Each crate of the repository with the crates that it depends on, and itself."""
    below = {}
    for name, parts in all_crates().items():
        below[name] = {name}.union(*(below.get(it, set()) for it in parts))
    return below


def ran(*words, **how):
    """Runs a command, and returns its result with its output and errors."""
    how = {"stdin": subprocess.DEVNULL, "stdout": subprocess.PIPE, "stderr": subprocess.STDOUT, "cwd": TOP, **how}
    return subprocess.run(words, text=True, errors="replace", check=False, **how)


@functools.lru_cache(maxsize=None)  # not `cache`, which Python 3.8 does not have
def shown(*words):
    """Returns the output of a command, as on a wide terminal."""
    return ran(*words, env={**os.environ, "COLUMNS": "200"}, stderr=None).stdout


def same(what, one, other):
    """Notes that two values were compared, and any difference."""
    COMPARED.append(what)
    if one != other:
        WRONG.append(f"{what}: {one!r}, not {other!r}"[:600])


def is_like(text, wanted):
    """Returns whether the whole text is the wanted one, in which `..` is any text."""
    return bool(re.fullmatch(re.escape(wanted).replace(r"\.\.", ".*"), text, re.S))


def follow(rows, values, **how):
    """Runs rows: a line of the shell, its status, and all that it prints; `..` is any text, a name its value."""
    for line, status, text in rows:
        done = ran("sh", "-c", line, **how)
        for name, value in values.items():
            text = text.replace(name, value)
        same(f"status of {line} ({done.stdout.strip()[-200:]})", done.returncode, int(status))
        same(f"{line} prints {done.stdout[-200:]}, for {text}", is_like(done.stdout, text), True)


def plain(text):
    """A text on one line, without the marks of pages and documents."""
    text = re.sub(r"(?m)^\.(?:\\\".*$|[A-Z][a-z] )?", "", text)
    return re.sub(r" ([.,;:])", r"\1", " ".join(re.sub(r"[`*]|\\&|\bFl Fl |\bFl (?=[a-z]\b)", "", text).split()))


def says(document, sentence):
    """Notes a sentence that a document must have, however its lines break, and whether it is missing."""
    COMPARED.append(sentence)
    if not sentence or plain(sentence).lower() not in plain(text_of(document)).lower():
        WRONG.append(f"{document} does not say: {sentence}")


def verdict(well):
    """Returns the status of a script that compares texts: it fails if none was compared."""
    nothing = [] if COMPARED else ["nothing was compared"]
    return well_or([*nothing, *(f"not as it is to be: {it}" for it in WRONG)], f"{len(COMPARED)} {well}")


def well_or(differences, well):
    """Returns the status of a script: it prints the differences, or after its path that all is well."""
    print("\n".join(differences) or f"{SCRIPT}: {well}")
    return 1 if differences else 0


def status_of(wrong, tried, told):
    """Prints the failures and what was tried. Returns the status of a script: it fails if nothing was tried."""
    print("".join(f"{it}\n" for it in wrong) + f"{SCRIPT}: {told}")
    return 1 if wrong or not tried else 0


def copy_sources(room):
    """Copies the proved sources of the tree to a folder, without the kept proofs."""
    for name in ("crates.txt", "HANDLES"):
        shutil.copy(f"{TOP}/{name}", room)
    for crate in os.listdir(f"{TOP}/crates"):
        copy_crate(crate, f"{room}/crates/{crate}")


def copy_crate(crate, room):
    for part in {"src", "specs", "proofs"}.intersection(os.listdir(f"{TOP}/crates/{crate}")):
        shutil.copytree(f"{TOP}/crates/{crate}/{part}", f"{room}/{part}")


def put_tools(program, room):
    """Puts links to the program into a folder, one for each of its names, and bacsite, as in a folder of the PATH."""
    os.makedirs(room, exist_ok=True)
    for name in ("bactool", *TOOLS):
        os.symlink(program, f"{room}/{name}")
    subprocess.run([f"{TOP}/packaging/onefile.py", "--compiled", f"{room}/bacsite"], check=True)


def left_out(*tools):
    """Returns whether one of these tools is not installed, and prints it."""
    if missing := [tool for tool in tools if not shutil.which(tool)]:
        print(f"{SCRIPT}: {', '.join(missing)}: not installed, left out")
    return bool(missing)


def failing_library(room):
    """Makes a library of fault_injection.c in a folder. Returns None, and prints a note, if there is no cc."""
    if left_out("cc"):
        return None
    library, source = f"{room}/fault_injection.so", f"{TOP}/tests/program/fault_injection.c"
    subprocess.run(["cc", "-O1", "-shared", "-fPIC", "-o", library, source], check=True)
    return library


class Job(contextlib.AbstractContextManager):
    """A running command, in its own group of processes, which ends with a `with`. Its output goes to a file."""

    def __init__(self, command, log, **how):
        self.log = log
        with open(log, "w", encoding="utf-8") as file:
            how = {"stdin": subprocess.DEVNULL, "stdout": file, "stderr": file, "start_new_session": True, **how}
            self.process = subprocess.Popen(command, **how)

    def said(self):
        return pathlib.Path(self.log).read_text(encoding="utf-8", errors="replace")

    def has_ended(self):
        return self.process.poll() is not None

    def stop(self, *_):
        """Ends the processes of the group that are still there."""
        for number in (signal.SIGTERM, signal.SIGKILL):
            with contextlib.suppress(ProcessLookupError, subprocess.TimeoutExpired):
                os.killpg(self.process.pid, number)
                self.process.wait(30)

    __exit__ = stop


def end_by_signals(main):
    """Exits with the status of a call with the script's words. Signals stop it like ^C, unless nohup ignores them."""
    for number in (signal.SIGTERM, signal.SIGHUP):
        if signal.getsignal(number) != signal.SIG_IGN:
            signal.signal(number, signal.default_int_handler)
    try:
        sys.exit(main(sys.argv[1:]))
    except KeyboardInterrupt:
        print("stopped", flush=True)
        sys.exit(130)


def processors():
    return len(os.sched_getaffinity(0))


def local_socket(peer=None, patience=None):
    """Returns a UDP socket at a free port of 127.0.0.1, if given with a peer's port, and the seconds for a receive."""
    it = socket.socket(socket.AF_INET, socket.SOCK_DGRAM)
    it.bind(("127.0.0.1", 0))
    it.settimeout(patience)
    if peer:
        it.connect(("127.0.0.1", peer))
    return it


def framed(apdu, network=b"\x01\x00"):
    """A datagram with this header of the network layer, and this APDU."""
    return b"\x81\x0a" + (4 + len(network + apdu)).to_bytes(2, "big") + network + apdu


def free_port(first=20000):
    """Returns the first UDP port from here that no socket has; until this process ends no other call returns it. From
    20000 on there are ports that Linux gives to no socket by itself."""
    for port in range(first, 65536):
        lock = open(f"{tempfile.gettempdir()}/bactool-port-{port}-{os.getuid()}", "a", encoding="utf-8")
        with contextlib.suppress(BlockingIOError):
            fcntl.flock(lock, fcntl.LOCK_EX | fcntl.LOCK_NB)
            if not is_taken(port):
                HELD.append(lock)
                return port
        lock.close()
    sys.exit(f"no UDP port from {first} on is free")


def is_taken(port):
    """Returns whether a UDP socket of this machine has this port, for IPv4 or IPv6."""
    tables = "".join(text_of(path) for path in ("/proc/net/udp", "/proc/net/udp6") if os.path.exists(path))
    return bool(re.search(rf"(?m)^ *\d+: [0-9A-F]+:{int(port):04X} ", tables))


@contextlib.contextmanager
def device(*words, program=(PROGRAM,), **how):
    """A bacdev with instance 1234, at a free port: its process, and the port. At the end it is killed."""
    port = free_port()
    with subprocess.Popen([*program, "bacdev", "1234", "--port", str(port), *words], **how) as process:
        try:
            if not any(is_taken(port) or time.sleep(0.01) for _ in range(1000)):
                sys.exit(f"no socket at port {port}: {' '.join(process.args)}")
            yield process, port
        finally:
            process.kill()


def resident(process):
    """Returns the greatest memory of a process so far, in kilobytes."""
    return int(re.search(r"VmHWM:\s+(\d+)", text_of(f"/proc/{process.pid}/status"))[1])


def free_memory():
    """Returns the octets that programs can use without swapping."""
    return 1024 * int(re.search(r"MemAvailable:\s+(\d+)", text_of("/proc/meminfo"))[1])


if __name__ == "__main__":
    PORT = str(free_port(47808))
    os.set_inheritable(HELD[0].fileno(), True)  # it is held until the command has ended
    os.execvp(sys.argv[1], [*sys.argv[1:], PORT])
