#!/usr/bin/env python3
"""Compares manual pages, documents and the help with the programs: what lists.txt and facts.txt name is measured, and
the commands of the pages, of README.md and of the help are run. Usage: tests/package/pages.py PROGRAM [PART ..]; a PART
is a function that `main` names.
"""
import contextlib
import os
import re
import struct
import subprocess
import sys
import tempfile

sys.path[:0] = [os.path.dirname(__file__) + "/..", os.path.dirname(__file__) + "/../../man"]
import tables
from tree import TOOLS, TOP, WRONG, device, files, free_port, is_like, left_out, plain, put_tools, ran, same, says
from tree import shown, table_of, text_of, verdict, write
from bacsite import points
from bacsite.streams import Failure

PROGRAM = os.path.realpath(sys.argv[1])
ROOM = tempfile.TemporaryDirectory()
SETTINGS = {
    **os.environ,  # with DEV, the address of the small device
    "PATH": f"{ROOM.name}:{os.environ['PATH']}",
    "ROOM": ROOM.name,
    "SILENT": "--mac 127.0.0.1:9 --apdu-timeout 20 --apdu-retries 0",
}
HELP = dict(table_of("tests/package/help.txt"))
SECTIONS = {title: rows[1:] for title, _, _, rows in tables.sections()}
TITLES = [*dict(HELP["Wireshark"]), "Types of a value"]
NUMBERS = {f"{title.split()[0]} {row[1]}": row[0] for title in TITLES for row in SECTIONS[title]}
COUNTS, NO_ADDRESSES, OTHER_OPTIONS, PAGES = (words.split() for _, words in HELP["words"])


def help_of(*words):
    return shown(PROGRAM, *words, "--help")


def run(line):
    done = ran("sh", "-c", line, env=SETTINGS, timeout=300, stderr=subprocess.DEVNULL)
    return done.returncode, done.stdout


def below(place, heading):
    """The text below a heading of a file, up to the next one; the whole text without a heading, or of a command."""
    text = run(place)[1] if " " in place else text_of(place)
    if " " in place or not heading:
        return text
    found = re.search(rf"(?ms)^(?:#+|\.S[hs]) {re.escape(heading)}\n(.*?)(?=^#+ |^\.S[hs] |\Z)", text)
    return found[1] if found else ""


def lists():
    """The places of each section of lists.txt have the same list, which is not empty."""
    for head, rows in table_of("tests/package/lists.txt"):
        what, _, needed = head.partition(" if ")
        first, *others = (listed(*row) for row in rows) if not left_out(*needed.split()) else [[]]
        for (place, *_), names in zip(rows[1:], others):
            same(f"{what}, {place}", names, first or ["something"])


def listed(place, heading, pattern, without="$^"):
    there = re.finditer(pattern, re.sub(without, "", below(place, heading)), re.M)
    texts = (" ".join(" ".join(it.groups()).lower().split()) for it in there)
    return sorted({name for text in texts for name in text.split(", ")})


def made_pages():
    for path, text in tables.made(PROGRAM):
        same(f"{path} is as man/tables.py makes it", text_of(path) == text, True)


def numbers_of_help():
    """Each number of the tools' help stands with two words beside it in a page or a document, or in help.txt."""
    words = lambda text: re.findall(r"\w+(?:[.:]\w+)*|--?\w[\w-]*", plain(text.replace("\\", "")).lower())
    threes = lambda it: set(zip(it, it[1:], it[2:]))
    only_here = " ".join(line for line, in HELP["numbers that no page or document has"])
    places = [only_here, *map(text_of, files(*(f"{TOP}/{it}" for it in ("man/*.[17]", "docs/*.md", "*.md"))))]
    known = {it for text in places for it in threes(words(re.sub(r"\b(Li|Ar|Ns|Ql|Pq) |\|", "", text)))}
    for tool in ("", *TOOLS):
        told = words(re.sub(r"(?m)^  bactool .*|Status:? \d|; \d(?= )", "", help_of(*tool.split())))
        for at in (at for at, word in enumerate(told) if word.isdigit()):
            near = told[max(0, at - 2) : at + 3]
            same(f"the help of {tool or 'bactool'}: {' '.join(near)}", bool(threes(near) & known), True)


def numbers_of_tags():
    """The page of bacwp has each number that the help has of a tag."""
    numbers = lambda text: {*re.findall(r"\b[0-9a-f]*[0-9][0-9a-f]*(?:[.:]\d+)*\b", plain(re.sub('".*?"', "", text)))}
    page = dict(re.findall(r"(?ms)^\.It (\d+)  [A-Z][\w ]*\n(.*?)(?=^\.(?:It|El))", text_of("man/bacwp.1")))
    for tag, told in re.findall(r"(?m)^ *(\d+)  [A-Z][\w ]*?  +(.*)$", help_of("bacwp")):
        same(f"the numbers of tag {tag} that the page lacks", numbers(told) - numbers(page.get(tag, "")), set())


def wireshark():
    """The names of numbers are those of Wireshark, which has its own list of the standard's. Units have no field, so it
    gets a property 117 with each number."""
    if left_out("tshark", "text2pcap"):
        return
    fields = shown("sh", "-c", "tshark -G values 2>/dev/null | grep -a bacapp")
    theirs = {title: re.findall(rf"(?m)^V\tbacapp\.{name}\t(\d+)\t(.*)$", fields) for title, name in HELP["Wireshark"]}
    octets = (f"0000 81 0a 00 14 01 00 30 01 0c 0c 00 00 00 05 19 75 3e 91 {it:02x} 3f\n" for it in range(255))
    command = "text2pcap -q -u 47808,47808 - - | tshark -r - -V"
    units = ran("sh", "-c", command, input="".join(octets), stdin=None).stdout
    theirs["Units"] = [(number, name) for name, number in re.findall(r"(?m)^    units: *(.*) \((\d+)\)$", units)]
    for title, found in theirs.items():
        spelled = {number: name.lower() for number, name in found}
        for pattern, name in HELP["how Wireshark spells a name"]:
            spelled = {number: re.sub(pattern, name, it) for number, it in spelled.items()}
        rows = {row[0]: row[1] for row in SECTIONS[title] if row[0].isdigit()}
        same(f"what Wireshark calls {title}", [*rows.items()], [(number, spelled.get(number)) for number in rows])


def known(rows):
    """The number that a pattern finds in a file or in the output of a command, by name, and small ones in words. Rows
    of one name find the same number. It is a variable of the commands after it."""
    found = {}
    for name, place, pattern in rows:
        there = re.findall(pattern, below(place, ""), re.M)
        same(f"how often {place} has {pattern}", bool(there), True)
        if name in found and there:
            same(f"{name} by {place}", int(there[0]), found[name])
        found[name] = int((there or [0])[0])
        SETTINGS[name.replace(" ", "_")] = str(found[name])
    words = {f"{name} in words": COUNTS[it] for name, it in found.items() if it < len(COUNTS)}
    return {**NUMBERS, **found, **words}


def facts():
    """The measured numbers are in the documents, by the rows of facts.txt."""
    table = table_of("tests/package/facts.txt")
    rows = dict(table)
    same("sections of facts.txt", len(rows), len(table))
    statuses = [(what, f"({line}) >/dev/null; echo $?", r"^(\d+)$") for what, line in rows.pop("Statuses")]
    measured = known([*rows.pop("Numbers"), *statuses])
    for document, row in ((document, row) for document, said in rows.items() for row in said):
        if len(row) == 3:
            heading, pattern, value = row
            found = {*re.findall(pattern, plain(below(document, heading)))} or {"nothing"}
            same(f"{document}, {heading}: {pattern}", sorted(found), [value.format_map(measured)])
        else:  # a sentence, which may have the sign between cells
            says(document, " | ".join(row).format_map(measured))


def properties():
    """The values of the device's properties in the rules are those that it has."""
    rules = text_of("docs/PROTOCOL.md").partition("\nThe device has these properties")[2].partition("\n## ")[0]
    found = dict(re.findall(r"(?m)^(\d+) \S+ (\d+)(?: \(.*\))?$", run("bacsite properties $DEV 8 1234 --last 160")[1]))
    for named, value in re.findall(r"(?m)^\| (\S.*\)) \| (.*) \|$", rules):
        numbers = [found[it] for it in re.findall(r"\((\d+)\)", named) if it in found]
        same(f"the value of {named}", re.findall(r"\d+", value), numbers)


def tools_of_readme():
    """Each command of README's table prints the lines of its row; `..` is any text."""
    table = text_of("README.md").partition("\n## The tools\n")[2].partition("\n## ")[0]
    for command, cell in re.findall(r"(?m)^\| `(?!bacdev).*?` \| [^|]* \| `([^`]*)` \| (.*) \|$", table):
        status, said = run(command.replace("192.0.2.7", "$DEV").replace("\\|", "|"))
        lines = re.findall("`([^`]*)`", cell.replace("192.0.2.7:47808", SETTINGS["DEV"]))
        there = [any(is_like(line, it) for line in said.splitlines()) for it in lines]
        same(f"README.md: {command}: {said.strip()}", (status, there), (0, [True] * len(lines)))


def examples():
    """The commands in the pages are run, and print what the pages show."""
    for path in files(f"{TOP}/man/*.[17]"):
        text = text_of(path).replace("\\", "").replace("/var/lib/prometheus/node-exporter", ROOM.name)
        text = text.replace("/usr/local/share/doc/bactool/examples", f"{TOP}/examples")
        text = re.sub(r"(192\.0\.2|127\.0\.0)\.[0-9](:[0-9]+)?", SETTINGS["DEV"], text)
        text = "".join(re.findall(r"(?ms)^\.Sh (?:COMMANDS|EXAMPLES)\n(.*?)(?=^\.Sh |\Z)", text))
        for command, printed in re.findall(r"(?m)^\$ (.*[^&\n])\n((?:[^.$\n].*\n)*)", text):
            if command.startswith("cat "):
                write(f"{ROOM.name}/{command[4:]}", printed)
            status, said = run(f"cd {ROOM.name}; {command}")
            same(f"{path}: {command}", (status, said if printed else ""), (0, printed))


def examples_of_help():
    """The examples of the help have the descriptions of help.txt. Each prints what is there, and nothing else would
    do."""
    run("cd $ROOM; echo read 192.0.2.7 0 5 85 | tee session.trace | sed s/192.0.2.7/$DEV/ >requests")
    shown_by = lambda tool: re.findall(r"(?m)^  bactool (.*)\n((?:      .*\n)*)", help_of(*tool.split()))
    shows = [(tool or "bactool", *it) for tool in ("", *TOOLS) for it in shown_by(tool)]
    rows = HELP["the examples of the help"]
    same("how many examples the help has", len(shows), len(rows))
    for (of, command, described, wanted), (tool, it, said) in zip(rows, shows):
        octets = re.findall(r"\b(?=\d*[a-f])[0-9a-f]{8}\b", f"{command} {described}")
        reals = {it: round(struct.unpack(">f", bytes.fromhex(it))[0], 4) for it in octets}
        told = described.format(*command.split(), reals=reals, **NUMBERS)
        same(f"the help of {tool}: an example", (tool, it, plain(said)), (of, command, told))
        line = f"bactool {command} ".replace("192.0.2.7", SETTINGS["DEV"])
        line = f"timeout 1 {line} --port {free_port()}; test $? = 124" if "bacdev" in line else line
        status, told = run(f"exec 2>&1; cd {ROOM.name}; {line}" + "; cat journal" * ("> journal" in line))
        same(f"{command}: its status", status, 0)
        same(f"{command} prints {told!r}", bool(re.fullmatch(wanted, told)), True)
        same(f"{command}: what it could print too", [it for it in other_texts(told) if re.fullmatch(wanted, it)], [])


def other_texts(text):
    """Other texts: each has other digits, or other letters, in one word of the last line that is not an address."""
    for found in re.finditer(r"(?<!\S)\w[^\s.:]*(?!\S)(?=.*\n\Z)", text):
        word = re.sub(r"\d", lambda digit: str(9 - int(digit[0])), found[0])
        yield text[: found.start()] + (word if word != found[0] else word.swapcase()) + text[found.end() :]


def is_address(word):
    with contextlib.suppress(Failure):
        return bool(points.targets([word]))
    return False


def addresses_and_options():
    """Addresses of the pages are such, options are those of a tool, and a word after one is one of its choices."""
    words = [word for _, tools in tables.programs(PROGRAM) for *_, words in tools for word in words]
    choices = {name: word.choices for word in words for name in word.names}
    for page in [*PAGES, *files(f"{TOP}/man/*.[17]")]:
        text = re.sub(r"(?ms)^```.*?^```$", "", text_of(page)).replace("\\", "")
        for word in sorted({*re.findall(r"(?<![\w.])(?:\d+\.){3}\d+(?:/\d+/(?:\*|[0-9a-f]+)|/\*|[-/:]\d+)?", text)}):
            same(f"{page}: {word} is an address, or several", is_address(word), word not in NO_ADDRESSES)
        for option in sorted({*re.findall(r"(?:(?<![\w-])--|\bFl Fl )([a-z][a-z-]+)", text)}):
            same(f"{page}: --{option} is an option", f"--{option}" in [*choices, *OTHER_OPTIONS], True)
        for option, value in re.findall(r"`(--[a-z-]+) ([a-z]+)`", text):
            same(f"{page}: {option} {value}", value in (choices.get(option) or [value]), True)


def main(names):
    every = made_pages, lists, facts, properties, examples, tools_of_readme, examples_of_help, numbers_of_help
    every += numbers_of_tags, addresses_and_options, wireshark
    parts = {it.__name__: it for it in every}
    put_tools(PROGRAM, ROOM.name)
    with device(program=[PROGRAM]) as (_, port):
        SETTINGS["DEV"] = f"127.0.0.1:{port}"
        for name in names or parts:
            count = len(WRONG)
            parts[name]()
            WRONG[count:] = [f"{name}: {it}" for it in WRONG[count:]]
    return verdict("texts of pages, documents and the help say what is so")


sys.exit(main(sys.argv[2:]))
