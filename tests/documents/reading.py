#!/usr/bin/env python3
"""What to read to believe a promise: docs/reading/, made from the sources with sources.py. pages.txt is its first page,
in whose table a row has a page's file, its title, and the calls whose lists it has; `*` stands for each public call of
the crate that is on no page before. And docs/API.txt, the public signatures; and must-fail/ of each crate, whose edits
are in mutants/ in the form of all mutants.

Usage: tests/documents/reading.py [--write]: compares these files, and the sizes in README.md, with the tree; reports
what its checks find, as their docstrings say; and exits with status 1 if there is anything. With --write it writes
these files anew (make reading), and CHANGELOG.md must name a changed signature.
"""
import collections
import difflib
import functools
import gc
import os
import re
import sys
import textwrap

sys.path[:0] = [os.path.dirname(__file__) + "/..", os.path.dirname(__file__) + "/../bodies"]
from edits import entries_of, must_fail
from sources import CLAUSE, CRATES, OF_PROGRAM, SOURCES, SPECS, TOKEN, USE, Declared, Definition, Item
from sources import closed, code_of, defined, parts_of, public_calls, read_tree, uses_in
from tree import SCRIPT, TOP, files, table_of, text_of, well_or, write

FOLDER, SIGNATURES, EDITS = "docs/reading", "docs/API.txt", "crates/*/must-fail"
SIZE = r"\[([\d,]+) lines\]\(docs/reading/(\w+)\.md\)"  # as in README.md
PROBLEMS = []


def size(items):
    return sum(item.lines for item in items)


def columns(text):
    return textwrap.fill(text, 120, subsequent_indent="  ", break_long_words=False, break_on_hyphens=False)


def listed(items):
    """The lines of a list: each file, in the order in which it is first needed, and the items of it from top to
    bottom."""
    for file in dict.fromkeys(item.file for item in items):
        there = sorted((item for item in items if item.file is file), key=lambda item: item.place)
        names = ", ".join(f"`{item.name}`" for item in there)
        yield columns(f"- **{file.path[len('crates/'):]}** ({size(there)}): {names}")


def page_of(title, calls):
    items, kept = closed(calls.values()), closed(calls.values(), kept=True)
    lines = [f"# {title}", "", "How to read this page is said on [the first one](README.md).", ""]
    lines += ["| Call | Definitions | Lines |", "|---|---|---|"]
    lists = {f"`{name}`": closed([call]) for name, call in calls.items()}
    for name, found in [*lists.items(), *([("together", items)] if len(calls) > 1 else [])]:
        lines.append(f"| {name} | {len(found)} | {size(found)} |")
    in_turn = dict.fromkeys(item for found in lists.values() for item in found)
    lines += ["", *listed(in_turn), "", "What the libraries add:", ""]
    outside = {}
    for module, name in (need for item in items for need in item.needs if not isinstance(need, Item)):
        outside.setdefault(module, set()).add(f"`{name}`")
    lines += [columns(f"- {module}: {', '.join(sorted(names))}") for module, names in sorted(outside.items())]
    if len(kept) > len(items):
        lines += ["", "What types keep to themselves, which no promise needs:", ""]
        lines += listed([item for item in kept if item not in items])
    return "\n".join(lines) + "\n", items


def pages():
    """The text of each page by its path, and the lines of each page by its name."""
    texts, sizes, index = {}, {}, text_of("tests/documents/pages.txt")
    calls = ((f"{crate}::{name}", call) for crate in OF_PROGRAM for name, call in public_calls(crate)[0].items())
    every = {name: call for name, call in calls if call.clauses}
    rest = dict(every)
    for row, page, title, names in re.findall(r"(?m)^((\w+) \| (.*) \| (.*))$", index):
        calls, shown = {}, []
        for name in names.split(", "):
            found = [one for one in rest if one.startswith(name[:-1])] if name.endswith("*") else [name]
            if not found or not {*found} <= {*every}:
                PROBLEMS.append(f"the page {page} is to have {name}, which is no public call")
            calls.update({one: every[one] for one in found if one in every})
            other = "" if len(found) == sum(one.startswith(name[:-1]) for one in every) else "other "
            shown.append(f"the {other}public calls of `{name[:-3]}`" if name.endswith("*") else f"`{name}`")
            rest = {one: call for one, call in rest.items() if one not in found}
        texts[f"{FOLDER}/{page}.md"], items = page_of(title, calls)
        sizes[page] = size(items)
        count = len({item.file for item in items})
        cells = f"[{title}]({page}.md) | {', '.join(shown)} | {len(items)} | {sizes[page]} | {count}"
        index = index.replace(row, f"| {cells} |")
    PROBLEMS.extend(f"{name} stands on no page of {FOLDER}" for name in rest)
    texts[f"{FOLDER}/README.md"] = index
    return texts, sizes


def one_line(text):
    """A signature on one line, without the line breaks of rt fmt."""
    text = re.sub(r"([(<\[]) ", r"\1", re.sub(r"\s+", " ", text).strip())
    text = re.sub(r",? ([)>\]])", r"\1", text)
    return re.sub(r",? *\}", " }", re.sub(r"\{ *", "{ ", text))


def signature(code, start):
    """From here to the end of the signature: its clauses, its body, or only a semicolon."""
    return one_line(re.split(r"\n *(?:requires|ensures)\b|\s*\{|;\s*\n", code[start:], maxsplit=1)[0])


def type_lines(item):
    """A type with its public parts: the cases of an enum, the fields of a struct, the methods of a trait."""
    start, end = next(iter(item.file.blocks(0, item.place, len(item.file.code))))
    block = item.file.code[start:end]
    if item.kind in ("const", "static", "type"):
        yield f"{item.kind} {block.split(item.kind, 1)[1].partition(' =' if item.kind == 'const' else ';')[0].strip()}"
        return
    head, opening, body = block.partition("{")
    if item.kind == "enum":
        head = f"{head}{{{body.rstrip()[:-1]}}}"
    elif item.kind == "struct" and opening:
        fields = ", ".join(re.findall(r"(?m)^    pub (?!ghost)(\w+: .*),$", body))
        head = f"{head}{{{fields}}}" if fields else head
    yield one_line(head.rstrip(";\n ")) + traits_of(item)
    if item.kind == "trait":
        for found in re.finditer(r"(?m)^    (?:unsafe |const )*fn ", body):
            yield f"    {item.name}: {signature(body, found.start())}"
        for found in re.findall(r"(?m)^    (type .*);$", body):
            yield f"    {item.name}: {found}"


def traits_of(item):
    """The traits that the attributes before a type derive; those of `impl` blocks have lines of their own."""
    before = text_of(item.file.path)[: item.place].rstrip("\n").split("\n\n")[-1]
    traits = sorted(name for found in re.findall(r"#\[derive\((.*?)\)\]", before) for name in found.split(", "))
    return f" (derives {', '.join(traits)})" if traits else ""


def passed_on(crate, top):
    """The names of other crates that a crate passes on, one line for each crate."""
    others = {}
    for parts in (top.uses[name] for name in top.passed):
        if parts[0] in CRATES and parts[0] != crate:
            others.setdefault(parts[0], []).append(parts[-1])
    return [f"use {other}::{{ {', '.join(sorted(names))} }}" for other, names in sorted(others.items())]


def lines_of(crate):
    calls, types = public_calls(crate)
    types = sorted((it for it in types if it.file.crate == crate), key=lambda it: it.name)
    owners, sources = {it.name for it in types}, [it for it in SOURCES.values() if it.crate == crate]
    yield from passed_on(crate, SOURCES[f"crates/{crate}/src/lib.rt"])
    for item in types:
        yield from type_lines(item)
    heads = (re.findall(r"(?m)^(impl(?:<.*?> | )\S.*? for (\w+).*?) \{", source.code) for source in sources)
    yield from sorted({one_line(head) for found in heads for head, owner in found if owner in owners})
    for name, item in sorted(calls.items()):
        if item.kind == "call" and "::" not in name.removeprefix("laws::"):
            module = name.rpartition("::")[0]
            yield (f"{module}: " if module else "") + signature(item.file.code, item.place)
    methods = ((owner, it) for source in sources for owner, it in source.methods if owner in owners)
    public = (it for it in methods if it[1].kind == "call" and re.match(r"\s*pub ", it[1].file.code[it[1].place :]))
    yield from sorted(f"{owner}: {signature(item.file.code, item.place)}" for owner, item in public)


def api():
    """The whole text of docs/API.txt. For each crate it has the functions, types, traits and constants that src/lib.rt
    names, with the methods and the traits of the types; names from another crate are only listed."""
    parts = [text_of("tests/documents/api.txt")]
    for crate in (it for it in OF_PROGRAM if f"crates/{it}/src/lib.rt" in SOURCES):
        lines = (f"    {line}" for line in lines_of(crate))
        parts.append(re.sub(r"\bpub (?:const )?(?=\w)", "", "\n".join([crate, *lines, ""])))
    return "\n".join(parts)


def compare(texts):
    """The files that this script makes, or has a part of, and that are not as it makes them."""
    there, readme = {*files(f"{FOLDER}/*", f"{EDITS}/*")}, text_of("README.md")
    yield from (f"{path} is not made by this script" for path in sorted(there - {*texts}))
    for path, text in texts.items():
        now, then = text.splitlines(), text_of(path).splitlines() if os.path.exists(path) else []
        differ = [line[1:] for line in [*difflib.unified_diff(then, now, n=0)][2:] if line[0] != "@"]
        yield from (f"{path} differs from the tree: {line.strip()[:100]}" for line in differ[:9])
    named = {*re.findall(r"docs/reading/(\w+)\.md", readme), "client", "device", "program"} - {"README"}
    lost = sorted(named - {page for _, page in re.findall(SIZE, readme)})
    yield from (f"README.md: it does not tell the lines of {page}, on one line" for page in lost)


def rooms():
    """Definitions in the wrong folder: those that no public clause needs belong in Inner, and no others."""
    public = map(public_calls, OF_PROGRAM)
    needed = closed([item for calls, types in public for item in (*calls.values(), *types)], kept=True)
    for specs in SPECS.values():
        for item in specs.items.values() if specs.crate in OF_PROGRAM else ():
            is_inner = "/specs/Inner/" in specs.path
            if is_inner and item in needed:
                yield f"{specs.path}: {item.name} is needed by a public clause, so it belongs outside Inner"
            elif not is_inner and item not in needed:
                yield f"{specs.path}: {item.name} belongs in Inner, since no public clause needs it"


def said_by(calls):
    """The text of each clause of these calls, with the definitions that it names, and those made for examples that it
    uses."""
    for call in calls:
        yield from said_of(call)


@functools.lru_cache(maxsize=None)
def said_of(call):
    every = []
    for clause in call.clauses:
        said = [it for it in call.file.said_in([clause]) if isinstance(it, Item)]
        for item in said:
            if item.file.path.endswith("/Inner/Examples.antt"):
                said.extend(it for it in item.needs if isinstance(it, Item) and it not in said)
        every.append((clause[1].strip("{} \n"), {it for it in said if isinstance(it, Definition)}))
    return every


def of_files(name):
    return [it for path, file in SOURCES.items() if name in path for it in file.items.values()]


@functools.lru_cache(maxsize=None)
def named():
    """The definitions that laws and public clauses name, in order."""
    calls = [call for crate in OF_PROGRAM for call in public_calls(crate)[0].values()]
    calls += [it for name in ("/laws.rt", "/theorems.rt", "/comparing.rt") for it in of_files(name)]
    return sorted(set().union(*(said for _, said in said_by(calls))), key=lambda it: (it.file.path, it.place))


def kind_of(item):
    return re.split(r":(?=\s)", item.head)[-1].replace("where", "").strip()


def is_relation(item):
    given = " ".join([*item.around, item.head])
    return kind_of(item).endswith("Type 0") and bool(re.search(r"[({→]", given))


@functools.lru_cache(maxsize=None)
def as_premise(item):
    """A pattern of clauses that deny this relation, or conclude something from it."""
    return re.compile(rf"→ ⊥$|→ {item.name}\b[^→]*→")


def unheld():
    """The definitions that laws and public clauses name without an example. A relation needs one clause that states it,
    and one that denies it; a number needs one clause; anything else must be in a clause that computes."""
    clauses = [*said_by(of_files("/examples.rt"))]
    holds = set().union(*(said for text, said in clauses if not text.endswith("→ ⊥")))
    computed = {*closed(holds)}
    for item in named():
        kind, of = kind_of(item), item.file.said(item.file.names, item.head)[0]
        is_view = not is_relation(item) and (kind == "Type 0" or of and isinstance(of[0], Declared))
        if is_view:
            continue
        if item not in (holds if kind == "ℕ" or is_relation(item) else computed):
            yield f"{item.file.path}: no example says {item.name}"
        if is_relation(item) and not any(item in said and as_premise(item).search(text) for text, said in clauses):
            yield f"{item.file.path}: no example refuses anything by {item.name}"


def says(record, what):
    """Whether this field of a record states something: with a sign, or a relation of std, of this repository or of a
    parameter."""
    head, given = what.split()[0], " ".join([*record.around, record.head])
    item = record.file.meant(record.file.names, head)
    of_parameter = re.search(rf"(?<![\w']){re.escape(head)} : [^)}}]*→ Type 0", given)
    is_ours = isinstance(item, Definition) and is_relation(item)
    return is_ours or of_parameter or re.search(r"[≡≢≤<↔→×⊎∥]|^(If|On|All)[A-Z]", what)


def fields_of(record):
    """The names of the fields that state something in a record of this relation."""
    found = (re.match(r"\s*(?:pub )?(\S+) :\s(.*)", part, re.S).groups() for part in record.parts)
    return [name for name, what in found if says(record, what)]


def unrefused():
    """The fields without an example, of the records that laws and public clauses name. A row of fields.txt has the
    crate, the record, the field, and its example, or why there is none."""
    rows = [(crate, *row) for crate, rows in table_of("tests/documents/fields.txt") for row in rows]
    examples, times = {row[:3]: (*row[3:], "")[:2] for row in rows}, collections.Counter(row[:3] for row in rows)
    wrong, clauses = [f"tests/documents/fields.txt: {' '.join(it)} twice" for it in times if times[it] > 1], {}
    for call in of_files("/examples.rt"):
        for found, name in zip(said_of(call), call.titles):
            clauses.setdefault((call.file.crate, name), []).append(found)
    for record in (it for it in named() if it.kind == "record" and is_relation(it)):
        crate, used = record.file.crate, set()
        for field in fields_of(record):
            example, reason = examples.pop((crate, record.name, field), ("", ""))
            found = clauses.get((crate, example), [])
            is_so = any(record in said and as_premise(record).search(text) for text, said in found)
            if example in used or not (reason or is_so):
                wrong.append(f"{record.file.path}: {record.name}: no example of its own refuses by {field}")
            used |= {example} - {""}
    return [*wrong, *(f"tests/documents/fields.txt: {' '.join(it)}: there is no such field" for it in examples)]


def unused_or_gone():
    """The imported names of a file that it does not use, or that do not exist."""
    for path in files("crates/*/src/**/*.rt", "crates/*/specs/**/*.antt", "crates/*/proofs/**/*.antt"):
        for uses, text in used_and_said(code_of(path), path.endswith(".rt")):
            said = names_in(text)
            for module, name, here, public in uses_in(uses):
                if not public and here != "*" and not {*parts_of(here)} <= said:
                    yield f"{path} brings in what it doesn't say: {here}"
                if name and module in SPECS and not defined(module, name):
                    yield f"{path} brings in {name}, which {module} hasn't"


def used_and_said(code, is_rust):
    """The use lines of a file, and the text in which their names must be: in src/ the clauses of the same block."""
    if not is_rust:
        return [(code, USE.sub("", code))]
    uses = lambda margin, text: "\n".join(re.findall(rf"(?m)^{margin}ghost use [^;]*;", text))
    clauses = lambda text: " ".join(found[3] for found in CLAUSE.finditer(text))
    blocks = re.split(r"(?m)^(?=\S)", code)
    inner = ((found, clauses(block)) for block in blocks if (found := uses(" +", block)))
    return [(uses("", code), clauses(code)), *inner]


def names_in(text):
    """Each token of a text, and the text before its dot."""
    tokens = {*TOKEN.findall(text)}
    tokens |= {part for token in tokens if "." in token for part in (token.partition(".")[0], token.rstrip("."))}
    return tokens | {">>="} if "do" in tokens else tokens


def main(arguments):
    os.chdir(TOP)
    gc.disable()  # nothing is left before the end
    read_tree()
    texts, sizes = pages()
    told = f"{len(texts)} pages of {FOLDER} agree with the tree"
    size_of = lambda lines, page: f"[{sizes[page]:,} lines](docs/reading/{page}.md)" if page in sizes else lines
    readme = re.sub(SIZE, lambda found: size_of(found[0], found[2]), text_of("README.md"))
    texts.update({"README.md": readme, SIGNATURES: api()})
    for crate, entry in ((crate, entry) for crate in CRATES for entry in entries_of(crate) if must_fail(entry)):
        texts[EDITS.replace("*", crate) + f"/{entry.name}.edit"] = "\n".join([*must_fail(entry), ""])
    if arguments == ["--write"]:
        for path in files(f"{FOLDER}/*", f"{EDITS}/*"):
            os.remove(path)
        for path, text in texts.items():
            write(f"{TOP}/{path}", text)
    else:
        checks = (compare, texts), (rooms,), (unheld,), (unrefused,), (unused_or_gone,)
        PROBLEMS.extend(f"{check.__name__}: {it}" for check, *given in checks for it in check(*given))
    crates = len(re.findall(r"(?m)^\w+$", texts[SIGNATURES]))
    return well_or(PROBLEMS, f"{told}\n{SCRIPT}: {crates} crates in {SIGNATURES} agree with the tree")


sys.exit(main(sys.argv[1:]))
