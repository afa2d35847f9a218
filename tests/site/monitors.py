#!/usr/bin/env python3
"""Lets real monitoring read the output of bacsite: promtool, node_exporter and Nagios, each if it is installed.

Usage: tests/site/monitors.py, once the program is built; monitors.txt has the requests and the expected results.
promtool checks a file of `bacsite prometheus`, and node_exporter serves it: each served sample is compared. Nagios runs
`bacsite check` with the command that docs/GUIDE.md defines, and its status file is compared.
"""
import getpass
import grp
import os
import re
import subprocess
import sys
import tempfile
import time
import urllib.request

sys.path.insert(0, sys.path[0] + "/..")
from stand_ins import StandIn, bits, local_socket, real, string, unsigned
from tree import PROGRAM, Job, device, left_out, put_tools, ran, same, sections_of, text_of, verdict

MOST_SECONDS = 60
CORE = """\
log_file={room}/log
cfg_file={room}/objects.cfg
object_cache_file={room}/objects.cache
status_file={room}/status.dat
status_update_interval=1
lock_file={room}/lock
command_file={room}/commands
query_socket={room}/queries
temp_file={room}/temporary
temp_path={room}
check_result_path={room}
nagios_user={user}
nagios_group={group}
interval_length=1
service_inter_check_delay_method=n
retain_state_information=0
enable_notifications=0
check_for_updates=0
"""
ALWAYS = """
define timeperiod {
    timeperiod_name  always
    alias            always
    sunday           00:00-24:00
    monday           00:00-24:00
    tuesday          00:00-24:00
    wednesday        00:00-24:00
    thursday         00:00-24:00
    friday           00:00-24:00
    saturday         00:00-24:00
}
define command {
    command_name  notify
    command_line  /bin/true
}
define contact {
    contact_name                   nobody
    host_notification_period       always
    service_notification_period    always
    host_notification_commands     notify
    service_notification_commands  notify
}
"""
SERVICE = """
define host {{
    host_name           {name}
    address             {address}
    max_check_attempts  1
    check_period        always
}}
define service {{
    host_name           {name}
    service_description {name}
    check_command       check_bacnet!{words}
    max_check_attempts  1
    check_interval      1000
    retry_interval      1000
    check_period        always
}}
"""


def other_device():
    """A device whose text of a state has characters with a meaning in monitoring, and a letter that is not ASCII."""
    values = {(0, 1, 85): real("42290000"), (0, 1, 111): bits("0100"), (0, 2, 85): real("c1a40000")}
    values.update({(0, 2, 111): bits("1001"), (13, 1, 85): unsigned(2), (13, 1, 111): bits("0010")})
    return StandIn(77, {**values, (13, 1, 110, 2): string('Büro | "Nacht"')})


def comes(found):
    """The result of a function once it has one; None after a minute without a result."""
    until = time.monotonic() + MOST_SECONDS
    while time.monotonic() < until:
        if result := found():
            return result
        time.sleep(0.1)
    return None


def served(room):
    """The samples that node_exporter serves from the files in a folder."""
    words = ["prometheus-node-exporter", "--collector.disable-defaults", "--collector.textfile"]
    words += [f"--collector.textfile.directory={room}", "--web.listen-address=127.0.0.1:0"]
    exporter = Job(words, f"{room}/exporter.log")
    try:
        place = comes(lambda: re.search(r'"Listening on" address=(\S+)', exporter.said()))
        with urllib.request.urlopen(f"http://{place[1]}/metrics", timeout=MOST_SECONDS) as answer:
            return answer.read().decode()
    finally:
        exporter.stop()


def unquoted(label):
    """Returns the text of a label, without the backslashes in front of quotes and backslashes."""
    return re.sub(r"\\(.)", r"\1", label)


def samples_in(text):
    """The samples of bacsite, and those of node_exporter about the file: the name, the labels and the number of
    each."""
    for name, labels, number in re.findall(r"(?m)^(bacnet_\w+|node_textfile_scrape_error)(?:\{(.*)\})? (\S+)$", text):
        pairs = sorted(re.findall(r'(\w+)="((?:[^"\\]|\\.)*)"', labels))
        told = " ".join(f"{label}={unquoted(it)}" for label, it in pairs if it)  # it adds empty ones
        yield f"{name} | {told or '-'} | {float(number)!r}"


def prometheus(room, points, wanted):
    """Writes the points to a file, which promtool checks and node_exporter serves."""
    os.mkdir(f"{room}/files")
    path = f"{room}/files/bacnet.prom"
    done = ran(f"{room}/bacsite", "prometheus", "-", path, input="\n".join(points), stdin=None)
    same("bacsite prometheus", (done.returncode, done.stdout), (1, ""))
    if not left_out("promtool"):
        with open(path, encoding="utf-8") as file:
            told = ran("promtool", "check", "metrics", stdin=file)
        same("promtool", (told.returncode, told.stdout), (0, ""))
    if not left_out("prometheus-node-exporter"):
        text = served(f"{room}/files")
        found = sorted(samples_in(text))
        for at, sample in enumerate(sorted(wanted)):
            same("a sample", found[at : at + 1], [sample])
        same("samples", len(found), len(wanted))
        age = re.findall(r'node_textfile_mtime_seconds\{file="(.*)"\} (\S+)', text)
        same("the age of the file", [(it, abs(float(at) - time.time()) < 999) for it, at in age], [(path, True)])


def services_in(path):
    """The status file's entry for each checked service, by name. The file may not exist yet."""
    text = text_of(path) if os.path.exists(path) else ""
    for block in re.findall(r"(?ms)^servicestatus \{$(.*?)^\t\}$", text):
        found = dict(re.findall(r"(?m)^\t(\w+)=(.*)$", block))
        if found["has_been_checked"] == "1":
            yield found["service_description"], found


def all_of(count, pairs):
    """The pairs as a dictionary, once there are this many."""
    found = dict(pairs)
    return found if len(found) == count else None


def nagios(room, rows):
    """Lets Nagios run `bacsite check` for each row."""
    command = re.search(r"(?m)^define command \{\n(?:    .*\n)+\}$", text_of("docs/GUIDE.md"))[0]
    text = command.replace("/usr/local/bin/", f"{room}/")
    same("paths in the command of the guide", text.count(f" {room}/bacsite check "), 1)
    text += ALWAYS + "".join(SERVICE.format(name=it[0], address=it[1], words=it[2]) for it in rows)
    core = CORE.format(room=room, user=getpass.getuser(), group=grp.getgrgid(os.getgid()).gr_name)
    for name, it in (("objects.cfg", text), ("nagios.cfg", core)):
        with open(f"{room}/{name}", "w", encoding="utf-8") as file:
            file.write(it)
    checked = ran("nagios4", "-v", f"{room}/nagios.cfg")
    same("nagios4 -v: " + "".join(re.findall("(?m)^Error: .*$", checked.stdout)), checked.returncode, 0)
    job = Job(["nagios4", f"{room}/nagios.cfg"], f"{room}/nagios.out")
    try:
        found = comes(lambda: all_of(len(rows), services_in(f"{room}/status.dat"))) or {}
    finally:
        job.stop()
    for name, _, _, *wanted in rows:
        it = found.get(name, {})
        same(name, [it.get(key) or "-" for key in ("current_state", "plugin_output", "performance_data")], wanted)


def main():
    other, nobody = other_device(), local_socket()
    with tempfile.TemporaryDirectory() as room, device(stderr=subprocess.DEVNULL) as (_, port):
        os.chmod(room, 0o755)
        put_tools(os.path.realpath(PROGRAM), room)
        names = {"DEVICE": f"127.0.0.1:{port}", "OTHER": other.address, "NOBODY": "%s:%d" % nobody.getsockname()}
        spelled = lambda line: re.sub("|".join(names), lambda it: names[it[0]], line)
        tables = {head: [spelled(it) for it in lines] for head, lines in sections_of("tests/site/monitors.txt")}
        prometheus(room, tables["points"], tables["samples"])
        if not left_out("nagios4"):
            nagios(room, [line.split(" | ") for line in tables["services"]])
    return verdict("things are as monitoring has to show them")


sys.exit(main())
