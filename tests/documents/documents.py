#!/usr/bin/env python3
"""Compares the documents with the tree and with one another, as the docstring of each check says: a function without
parameters that yields differences. Usage: tests/documents/documents.py [numbers], which writes numbers.txt again.
"""
import ast
import collections
import functools
import gc
import glob
import inspect
import os
import pathlib
import re
import sys
import textwrap

sys.path[:0] = [os.path.dirname(__file__) + "/..", os.path.dirname(__file__) + "/../site"]
import bacsite_faults
import tree
from program.rows import LETTERS
from sources import OF_PROGRAM, PATTERNS, code_of
from tree import TOP, all_crates, plain, ran, sections_of, table_of, well_or, write
from weak_tests import asserted, cases, walked, weak

text_of, files = map(functools.lru_cache(maxsize=None), (tree.text_of, tree.files))  # each is read once
SOURCES = ["crates/*/src/**/*.rt", "crates/*/specs/**/*.antt", "crates/*/proofs/**/*.antt"]
WORDS = {name: {*words.split()} for name, words in PATTERNS["words"]}
PATHS, COUNTED, LISTED, NUMBERS_AND_CODES = (re.compile(pattern) for _, pattern in PATTERNS["in documents"])
OF_OTHERS = "rt |rattle |man |bacsite |crontab|system"  # how commands begin that no file of the tree has
NUMBERS, PINS = "tests/documents/numbers.txt", "tests/documents/pins.txt"
UNREAD = []  # the files of Python that it cannot read


@functools.lru_cache(maxsize=None)
def sections(document):
    parts = re.split(r"^#+ (.*)$", text_of(document), flags=re.M)
    return dict(zip(parts[1::2], parts[2::2]))


def tables(text):
    """The rows of the tables of a text: the cells of each with the headings of their columns."""
    for table in re.findall(r"(?m)(?:^\|.*\n?)+", text):
        lines = (line for line in table.splitlines() if not set(line) <= set("|-"))
        head, *rows = ([cell.strip() for cell in re.split(r"(?<!\\)\|", line)[1:-1]] for line in lines)
        yield from (dict(zip(head, row)) for row in rows)


def names(text):
    return re.findall(r"`([^`]+)`", text)


def names_below(section, head):
    return {name for row in tables(section) for name in names(row[head])}


def prose(document):
    return re.sub(r"(?ms)^```.*?^```$", "", text_of(document))


def on_one_line(text):
    return " ".join(text.split())


def compare(what, said, there):
    yield from (f"{what}: {name} is not in docs/CODE.md" for name in sorted(there - said))
    yield from (f"{what}: docs/CODE.md names {name}, which is not there" for name in sorted(said - there))


def map_of_crates():
    """Each crate has a row, and is in the drawing below the crates that it depends on."""
    below, section = all_crates(), sections("docs/CODE.md")["The crates"]
    drawn = re.search(r"```\n(.*?)```", section, re.S)[1].splitlines()
    line_of = {name: number for number, line in enumerate(drawn) for name in line.split()}
    yield from compare("the table of crates", names_below(section, "Crate"), {*below})
    yield from compare("the drawing", {*line_of}, {*below})
    for crate, lower in ((crate, lower) for crate in below for lower in below[crate] if lower in below):
        if line_of.get(lower, -1) >= line_of.get(crate, len(drawn)):
            yield f"the drawing: {crate} rests on {lower}, which is not on a line above it"


def map_beside_the_crates():
    """Each other folder and file at the top is named, and each file of the folders in which all are."""
    there = {name + "/" if os.path.isdir(name) else name for name in os.listdir(".")} - WORDS["well known"]
    rows = [*tables(sections("docs/CODE.md")["Beside the crates"])]
    told = {name: row["What it has"] for row in rows for name in names(row["Folder or file"])}
    yield from compare("beside the crates", {name for name in told if "/" not in name.rstrip("/")}, there)
    for folder in sorted(it for place in WORDS["each file is named"] for it in glob.glob(place)):
        said = {name for name in names(told.get(folder, "")) if re.fullmatch(r"[\w-]+\.\w+", name)}
        yield from compare(folder, said, {os.path.basename(file) for file in files(f"{folder}*")})


def weights():
    """The table of weights adds up."""
    lines = re.findall(r"(?m)^\| (.*?) \| (\d.*) \|$", sections("docs/CODE.md")["What a crate weighs"])
    rows = {name: [int(it.replace(",", "")) for it in cells.split(" | ")] for name, cells in lines}
    said = [rows.pop("all"), rows.pop("without `bac_run`")]
    sums = [sum(column) for column in zip(*rows.values())]
    if said != [sums, [one - run for one, run in zip(sums, rows["`bac_run`"])]]:
        yield "docs/CODE.md: the weights of the crates do not add up"


def scripts_are_run():
    """Each script of tests/ that can be run is run by a target of make, or is marked `by hand` in the map."""
    runs = text_of("tests/documents/targets.txt") + text_of("tests/suite.py")
    rows = tables(sections("docs/CODE.md")["Beside the crates"])
    by_hand = {name for row in rows for name in names(row["What it has"].partition("by hand")[2])}
    for file in files("tests/*/*"):
        if os.access(file, os.X_OK) and os.path.basename(file) not in by_hand and file not in runs:
            yield f"{file}: no target of make runs it, and docs/CODE.md does not say `by hand`"


def targets():
    """A section of targets.txt has the commands of a target, or a whole file. The program is made from all sources."""
    made = lambda *words: ran("make", "-rsB", "--old-file=kit", *words, env={"PATH": os.environ["PATH"]}).stdout
    for name, wanted in sections_of("tests/documents/targets.txt"):
        runs = (text_of(name) if os.path.isfile(name) else made("-n", name)).splitlines()
        if runs != wanted:
            yield f"make {name}: {' '.join({*runs} ^ {*wanted}) or 'its order'}: not as targets.txt has it"
    if {*made("--eval=sources: ; @echo $(SOURCES)", "sources").split()} != {*files(*SOURCES), "crates.txt"}:
        yield "Makefile: SOURCES are not all that the program is made of"


def what_tries_nothing():
    """Functions next to tests are called; and each fault of bacsite_faults.txt has a place."""
    for place, pattern in PATTERNS["functions beside tests"]:
        texts = "".join(map(text_of, files(place)))
        words = collections.Counter(re.findall(r"\w+", texts))
        lost = (name for name in re.findall(pattern, texts, re.M) if words[name] == 1)
        yield from (f"{place}: {name} is no test, and nothing calls it" for name in lost)
    for path, _, old, _ in bacsite_faults.faults():
        if not os.path.isfile(path) or text_of(path).count(old) != 1:
            yield f"tests/site/bacsite_faults.txt: {path} does not have once: {old}"


@functools.lru_cache(maxsize=None)
def nodes_of(file):
    """The nodes of a file of Python; none if Python cannot read it, which is a difference."""
    try:
        whole = ast.parse(text_of(file), file)
        compile(whole, file, "exec")
    except SyntaxError as fault:
        UNREAD.append(f"{file}: {fault}")
        return []
    return walked(whole, [])


def what_is_not_there():
    """Each path that a file of the tree names is there, and each name that a script brings in from one of its own."""
    every = {*files("*", "[!co]*/**/*.*", "completions/*", *SOURCES, "crates/*/mutants/*")}
    for file in every - WORDS["with paths that are missing"]:
        paths = {*PATHS.findall(pathlib.Path(file).read_text("utf-8", "replace"))}
        yield from (f"{file}: {path} is not there" for path in sorted(paths) if not os.path.exists(path))
        for node in nodes_of(file) if file.endswith(".py") else ():
            if isinstance(node, ast.ImportFrom) and not node.level:
                path = node.module.replace(".", "/") + ".py"
                there = files(f"{os.path.dirname(file)}/{path}", f"site/{path}", f"tests/{path}")
                lost = [it.name for it in node.names if there and it.name not in names_of_python(there[0])]
                yield from (f"{file}:{node.lineno}: {node.module} has no {name}" for name in lost)


@functools.lru_cache(maxsize=None)
def names_of_python(file):
    """The names that a file of Python gives to anything, and those that it brings in."""
    stored = {it.id for it in nodes_of(file) if isinstance(it, ast.Name) and isinstance(it.ctx, ast.Store)}
    named = (it for it in nodes_of(file) if getattr(it, "name", None))
    return stored | {getattr(it, "asname", None) or it.name for it in named}


def counts_are_told():
    """TESTS says of each script how much it compares, as counts.txt has it, whose last section is counted here."""
    told, name, counts = {}, "", dict(table_of("tests/documents/counts.txt"))
    for row in tables(sections("docs/TESTS.md")["What is tried"]):
        for name in names(row["Script"]) or [name]:
            told[name] = told.get(name, []) + re.findall(r"\d+", row["How many"].replace(",", ""))
    for name, numbers in (row for rows in counts.values() for row in rows):
        lost = {it for it in numbers.split() if name in told and it.isdigit()} - {"0", *told.get(name, [])}
        yield from (f"docs/TESTS.md does not say that {name} counts {it}" for it in sorted(lost))
    for name, numbers in counts["counted here"]:
        code = "".join(map(code_of, files(f"crates/{name}/src/**/*.rt")))
        there = asserted(code) if code else str(sum(len(rows) for _, rows in sections_of(name)))
        if there != numbers:
            yield f"{name} has {there} rows, or assertions and comparisons, and counts.txt {numbers}"


def what_must_not_be_there():
    """Nothing of the tree matches the patterns of what must not be in code, and in texts, but by a group `other`; and
    no test in Python is weak (weak_tests.py)."""
    for file in files("tests/**/*.py", "bench/*.py"):
        yield from (f"{file}:{line}: {why}" for line, why in weak(nodes_of(file)))
    for section, read in (("not in code", code_of), ("not in a text", text_of)):
        for what, places, pattern in PATTERNS[section]:
            for file in files(*places.split()):
                found = re.finditer(pattern, read(file), re.M)
                yield from (f"{file}: {what}: {on_one_line(it[0])}" for it in found if it.lastgroup != "other")


def examples_of_libraries():
    """The box in the head of a library is in its examples, and the calls in it are in bac_uses."""
    uses = [on_one_line(text_of(file)) for file in files("crates/bac_uses/src/*.rt")]
    for file in files("crates/*/src/lib.rt"):
        examples = [on_one_line(text_of(it)) for it in files(file.replace("lib.rt", "examples.rt"))]
        for kind, shown in re.findall(r"^//! ```(text|rust)\n(.*?)^//! ```$", text_of(file), re.M | re.S):
            shown = re.sub(r"(?m)^//!" + r"(?: *//.*)?" * (kind == "text"), "", shown)
            parts = [shown] if kind == "rust" else re.split(r"(?=\bensures )", shown)[1:]
            places = uses if kind == "rust" else examples
            if not parts or not all(any(on_one_line(part) in place for place in places) for part in parts):
                yield f"{file}: what it shows is not in its examples.rt, nor its calls in bac_uses"


def names_of_sources():
    """Each name that the sources define, and the clauses of each function."""
    known, clauses = {*os.listdir("crates"), *WORDS["of std"]}, {}
    for place, pattern in PATTERNS["definitions"]:
        for file in files(place):
            found = re.finditer(pattern, code_of(file), re.M)
            known.update([os.path.splitext(os.path.basename(file))[0], *(it[1] or it[2] for it in found)])
    for part in (part for file in files(SOURCES[0]) for part in re.split(r"\bfn (?=\w)", code_of(file))[1:]):
        clauses.setdefault(re.match(r"\w+", part)[0], set()).update(re.findall(r"\bensures (\w+) *\{", part))
    return known, clauses


def names_of_documents():
    """What a document has in backquotes is there, as the head of names.txt says."""
    known, clauses = names_of_sources()
    every = files(*SOURCES, *WORDS["with texts of documents"])
    texts = "\n".join(map(text_of, sorted({*every} - WORDS["with paths that are missing"])))
    paths = files("*", "[!oc]*/**", "completions/*", "crates/*/[!o]*/**", ".ci/*")  # without what was built
    there, folders = {it.split("/")[-1] for it in paths}, {it.split("/")[-2] + "/" for it in paths if "/" in it}
    documents = dict(sections_of("tests/documents/names.txt"))
    lost = sorted({*files("*.md", "docs/*.md")} - {*documents, "CHANGELOG.md"})
    yield from (f"tests/documents/names.txt has no section {it}" for it in lost)
    for document, lines in documents.items():
        text, others = prose(document), {*" ".join(lines).split()}
        laws = {name for laws in re.findall(r"laws? ((?:`\w+`(?:, | and )?)+)", text) for name in names(laws)}
        yield from (f"{document}: no law {name} stands in the code" for name in sorted(laws - {*clauses}))
        for function, clause in re.findall(r"`(?:\w+::)?(\w+)`, `(\w+)`", text):
            if function in clauses and clause not in clauses and clause not in clauses[function]:
                yield f"{document}: {function} has no clause {clause}"
        kinds = {
            r"([A-Za-z_]\w+)": ("in the sources", {*known, *others}),
            r"(?:\w+::)+([A-Za-z_]\w+)": ("in the sources", clauses),
            r"(?:[\w/.-]+/)?([\w-]+\.[a-z]+)": ("in the tree", {*there, *others}),
            "(?:[a-z]+/)*([a-z]+/)": ("in the tree", folders),
            rf"((?!{OF_OTHERS})[a-z]+(?:[ -][a-z]+)+)": ("in the tree", texts),
        }
        for pattern, (where, found) in kinds.items():
            lost = sorted(name for name in {*re.findall(f"`{pattern}`", text)} if name not in found)
            yield from (f"{document}: nothing {where} is {name}" for name in lost)


def what_stands_twice():
    """README.md shows the rule as specs/ has it, and in its box what the guide does, whose commands are run. It names
    each crate of the program, and the functions that PROOFS lists as trusted."""
    readme, proved = text_of("README.md"), sections("README.md")["What is proved"]
    boxes = re.findall(r"^```(\w*)\n(.*?)^```$", readme, re.M | re.S)
    cases = r"(?m)^  (?:due|end|sends_within|sends) [^:\n]*=.*\n(?: {6}.*\n)*"
    rule = "".join(re.findall(cases, text_of("crates/bac_tsm/specs/Lookahead.antt")))
    if ("", textwrap.dedent(rule)) not in boxes:
        yield "README.md: it does not show the rule as crates/bac_tsm/specs/Lookahead.antt has it"
    guide = text_of("docs/GUIDE.md").splitlines()
    shown = "".join(box for kind, box in boxes if kind == "console").splitlines() or ["of a run"]
    yield from (f"README.md: docs/GUIDE.md has no line {line}" for line in shown if line not in [*guide, ".."])
    for crate in sorted(names_below(proved, "Crate") ^ {*OF_PROGRAM}):
        yield f"README.md: the crate {crate} is in one place alone, its table or crates.txt"
    trusted = names_below(sections("docs/PROOFS.md")["What is trusted of the system"], "Function")
    said = {*names(proved.partition("**Trusted**")[2])}
    yield from (f"README.md: it does not say that {name} is trusted" for name in sorted(trusted - said))


def functions_without_a_contract():
    """PROOFS names and counts the functions without a contract. A function of a trait's impl has the trait's
    contract."""
    every, bare, alone, section = 0, 0, set(), sections("docs/PROOFS.md")["Functions without a clause"]
    part = re.compile(r"(?ms)^(impl\b[^{]*|\}$)|\bfn (\w+)(.*?)(?=\bfn \w|^impl\b|^\}$|\Z)")
    for crate, file in ((it.split("/")[1], it) for it in files(SOURCES[0])):
        owner = ""
        for block, name, text in part.findall(code_of(file)) if crate in OF_PROGRAM else ():
            owner = block or owner
            every += bool(name)
            if name and not re.search(r"^\s*ensures\b", text, re.M):
                bare += 1
                of_type = "".join(f"{it}::" for it in re.findall(r"^impl(?:<.*?>)? (\w+)", owner, re.S))
                alone.update([(crate, of_type + name)] if " for " not in owner else [])
    told = {(*names(row["Crate"]), *names(row["Function"])) for row in tables(section)}
    for crate, name in sorted(told ^ alone):
        yield f"docs/PROOFS.md: {crate}: {name} has a contract, or is missing there"
    if f"{bare} of the {every} functions" not in section:
        yield f"docs/PROOFS.md: {bare} of the {every} functions have no clause of their own"


def public_names_without_a_law():
    """Each public constant, and the clone and the `==` of each public type, has a law."""
    for crate in OF_PROGRAM:
        text = "\n".join(map(text_of, files(f"crates/{crate}/src/**/*.rt")))
        laws = "\n".join(re.findall(r"(?ms)^pub fn [^{]*?\bensures.*?^\{\}$", text))
        other = {new: old for old, new in re.findall(r"\b(\w+) as (\w+)", text)}
        said = {(other.get(name, name), what) for name, what in re.findall(r"⟦<(\w+)\S* as (\w+)>⟧", laws)}
        derived = re.findall(r"(?m)^#\[derive\((.*?)\)\]\n(?:#\[.*\]\n)*pub (?:struct|enum) (\w+)", text)
        kinds = {(name, what) for whats, name in derived for what in whats.split(", ")}
        kinds |= {(name, what) for what, name in re.findall(r"(?m)^impl(?:<.*?>)? (\w+) for (\w+)", text)}
        bare = {name for name, what in kinds - said if what in ("Clone", "PartialEq")}
        bare |= {it for it in re.findall(r"(?m)^ *pub const (\w+):", text) if not re.search(rf"\b{it} ≡", laws)}
        yield from (f"crates/{crate}: no law says what {it} is, or its clone or `==`" for it in sorted(bare))


def pins(path):
    """Each heading of pins.txt, the key below it, and the files and texts below the key."""
    for heading, lines in sections_of(path):
        for block in re.split(r"\n(?! )", "\n".join(lines)):
            key, *places = block.split("\n")
            yield heading, key, [place.strip().split(": ", 1) for place in places]


def rows_of_rules():
    parts = sections("docs/PROTOCOL.md")
    return [(heading, " | ".join(row.values())) for heading, section in parts.items() for row in tables(section)]


def rows_are_read_back():
    """Each row and item of the rules is in pins.txt, once. A text there also has each number of three digits or more,
    or a number next to it, in decimal or as octets."""
    rows, named, parts = rows_of_rules(), set(), sections("docs/PROTOCOL.md")
    for heading, key, places in pins(PINS):
        key, arrow, said = key.partition(" => ")
        mine = [row for it, row in rows if it == heading and (row + " | ").startswith(key + " | ")]
        if len(mine) > 1 or not mine and key not in on_one_line(parts.get(heading, "")):
            yield f"{heading}: {key}: it stands {len(mine)} times in docs/PROTOCOL.md"
        if arrow and mine and (" ".join(NUMBERS_AND_CODES.findall(mine[0][len(key) :])) or "none") != said:
            yield f"{heading}: {key}: its numbers and codes are not {said}"
        if not places:
            yield f"{heading}: {key}: nothing is named that reads it back"
        named.add((heading, mine[0] if mine else key))
        texts = re.sub(r"(?<=\d)[,_](?=\d)", "", " ".join(text for _, text in places)).lower()
        texts = re.sub(r"\b[pqmva]\b", lambda letter: LETTERS[letter[0].upper()], texts)
        row = re.sub(r"(?<=\d),(?=\d)", "", (mine or [key])[0])
        for number in map(int, re.findall(r"(?<![\d.])\d{3,20}(?!\d)", row)):
            if not any(form in texts for n in (number - 1, number, number + 1) for form in (str(n), f"{n:02x}")):
                yield f"{heading}: {key}: nothing that is named has the number {number}"
        for file, text in places:
            file = file if "/" in file else f"tests/program/rows/{file}"
            if not os.path.isfile(file) or on_one_line(text) not in on_one_line(text_of(file)):
                yield f"{heading}: {key}: {file} has no {text}"
    for heading, row in rows:
        if (heading, row) not in named:
            yield f"{heading}: nothing in pins.txt reads this row back: {row[:100]}"
    for heading, section in parts.items():
        for item in map(on_one_line, re.findall(r"(?m)^(?:-|\d+\.) (.*(?:\n  +.*)*)", section)):
            if not any(key in item for it, key in named if it == heading):
                yield f"{heading}: nothing in pins.txt reads back a text of the item: {item[:100]}"


def numbers_between_words(document):
    """What numbers.txt has of a document, except its names. The rows of the rules are left out, because they are read
    back elsewhere."""
    if document.endswith(".py"):
        return cases(nodes_of(document))
    left_out = r"(?m)^ *\d+\. " + r"|^\|[^\n]*$" * (document == "docs/PROTOCOL.md")
    text = re.sub(left_out, "", text_of(document)).replace("\\", "")
    text = plain(re.sub(r"\b(?:It|Li|Ql|Ta|Ar|Ns|Fl|Sy)\b", "", text)).lower()
    words = ["", *re.findall(r"[\w.:/,-]*\w", text), ""]
    there = (at for at, it in enumerate(words) if COUNTED.fullmatch(it) and words[at + 1] != "lines")  # of lists
    return {" ".join(words[at - 1 : at + 2]).strip() for at in there}.union(LISTED.findall(text))


def names_with_counts(document):
    """How often a document has each name in backquotes, and a page each word that is marked as one of a command."""
    marked = r"(?m)^\.?(?:(?:It|Op|Ql|Pq|Ta|No) +)*(?:Li|Ar|Fl|Xr|Sy|Ql) +(.*)$"
    words = marked if document[-2] == "." else r"`([^`\n]+)`"
    found = (it.strip() for it in re.findall(words, re.sub(r"(?ms)^```.*?^```$|;", "", text_of(document))))
    return {f"{count}x {it}" for it, count in collections.Counter(found).items() if document[-3:] != ".py"}


def numbers_in_one_place(path):
    """What numbers.txt must have of each document: its names with their counts, and the numbers that stand between
    their two words in no other document."""
    said = {document: numbers_between_words(document) for document, _ in sections_of(path)}
    for document, mine in said.items():
        others = (said[it] for it in said if it != document and ".py" not in (it[-3:], document[-3:]))
        yield document, mine.difference(*others) | names_with_counts(document)


def numbers_stand_twice():
    """Each number stands between the same words in another document or page, or in numbers.txt."""
    listed = {document: {*"; ".join(lines).split("; ")} - {""} for document, lines in sections_of(NUMBERS)}
    lost = {*files("man/*.1", "docs/*.md", "tests/site/test_*.py"), "README.md"} - {*listed, "docs/NUMBERS.md"}
    yield from (f"{NUMBERS} has no section {it}" for it in sorted(lost))
    for document, alone in numbers_in_one_place(NUMBERS):
        lost = sorted(alone ^ listed[document])
        yield from (f"{document}: `{it}` stands there or in {NUMBERS} alone" for it in lost)


def rows_of_tables():
    """What a table says of a tool, a command or an option has more words of its page than of another one's."""
    told, words = {}, lambda text: {*re.findall(r"\b[a-z]{3,5}", text.lower())} - WORDS["in most texts"]
    entries = r"(?m)^\.(?:Nm (.*)\n\.Nd (.*)|(?:Ss|It Fl) (?:Fl )?([a-z-]+).*\n((?:(?!\.It|\.El|\.Bd|\.\\).*\n)*))"
    for tool, said, name, text in re.findall(entries, "".join(map(text_of, files("man/bac*.1")))):
        for key in (tool or name, f"bacsite {name}", f"--{name}"):
            told[key] = told.get(key, set()) | words(said + text)
    for table in re.findall(r"(?m)(?:^\|.*\n)+", text_of("README.md") + text_of("docs/GUIDE.md")):
        rows = ([*row.values()][:2] for row in tables(table))
        names = lambda it: {*re.findall(r"`((?:bacsite )?[a-z-]+)", it)} & {*told}
        named = [(names(it), what) for it, what in rows if it[:1] == "`"]
        for mine, what in named:
            fits = {it: len(words(what) & told[it]) for others, _ in named for it in others}
            if mine and max(fits[it] for it in mine) < max(fits.values()):
                yield f"README.md or docs/GUIDE.md: not of {min(mine)}: {what}"


def write_numbers():
    text = text_of(NUMBERS).partition("\n= ")[0]
    for document, alone in [*numbers_in_one_place(NUMBERS)]:
        told = "; ".join(sorted(it.replace(" ", "\0") for it in alone))
        lines = textwrap.wrap(told, 120, break_on_hyphens=False, break_long_words=False)
        text += f"\n= {document}\n" + "".join(line.strip(";").replace("\0", " ") + "\n" for line in lines)
    write(NUMBERS, text)


def links():
    """Links lead to files that a package has, and each has a word of the place, or is one of patterns.txt."""
    documents = files("*.md", "docs/**/*.md")
    there = {"LICENSE", *documents, *glob.glob("docs/*.png"), *glob.glob("examples/*")}
    anchor_of = lambda head: re.sub(r"[^\w\- ]", "", head.lower()).replace(" ", "-")
    words = lambda it: {*re.findall(r"\b[a-z]{4}", it.lower())}
    others, said = {*map(tuple, PATTERNS["links in other words"])}, set()
    for file in documents:
        for text, link in re.findall(r"\[([^][]+)\]\(([^)\s]+)\)", prose(file)):
            path, _, anchor = link.partition("#")
            target = os.path.normpath(os.path.join(os.path.dirname(file), path)) if path else file
            anchors = {"", *map(anchor_of, sections(target) if target in documents else ())}
            if "://" not in link and (target not in there or anchor not in anchors):
                yield f"{file}: {link} leads nowhere"
            said.add((on_one_line(text), link))
            is_known = target.startswith("docs/reading/") or (on_one_line(text), link) in others
            if not words(text) & words(link) and not is_known:
                yield f"{file}: [{text}] has no word of {link}"
    yield from (f"patterns.txt: no document has the link {text} | {link}" for text, link in sorted(others - said))


def main():
    os.chdir(TOP)
    gc.disable()  # which would take longer than all else, for so many nodes of Python
    if sys.argv[1:] == ["numbers"]:
        return write_numbers()
    checks = [it for it in globals().values() if inspect.isgeneratorfunction(it) and not it.__code__.co_argcount]
    differences = [f"{check.__name__}: {difference}" for check in checks for difference in check()] + UNREAD
    count, others = len(rows_of_rules()), len([*pins(PINS)]) - len(rows_of_rules())
    well = f"{count} rows of docs/PROTOCOL.md are read back, and {others} other texts"
    return well_or(differences, f"{well}; the documents agree with the tree")


sys.exit(main())
