#!/usr/bin/env python3
"""Makes the pages of numbers, and the generated parts of the other manual pages: the options of the SYNOPSIS and the
entries of each list below the comment `of --help` are made from the help, which is what bactool prints, or the parser
of bacsite has. The order of the entries stays, and so does the text of an entry below its comment `by hand`. A new
entry is put at the end of the last list. Usage: man/tables.py PROGRAM
"""
import collections
import os
import re
import sys
import textwrap

sys.path[:0] = [os.path.dirname(__file__) + "/../tests", os.path.dirname(__file__) + "/../site"]
from bacsite import parsing
from tree import TOOLS, TOP, sections_of, shown, text_of, write

CALLED = {"mac": "address", "apdu-timeout": "milliseconds", "apdu-retries": "count", "window": "count"}
LIST = r'(?ms)^\.\\" of --help[^\n]*\n\.Bl .*?^\.El\n'
LINKED = '\n.\\" of --help, without what bacrp(1) lists\n'
ENTRY = r'(?m)^\.It (.*)\n(?:(?!\.It |\.El|\.\\").*\n)*(\.\\" by hand\n(?:(?!\.It |\.El).*\n)*)?'


# An argument or an option: the names of an option, the name of its value, its help, and more.
FIELDS = "names value text choices required repeated"
Word = collections.namedtuple("Word", FIELDS, defaults=([], "", "", (), False, False))


def sections():
    """Each section: its title, how many columns a heading of its list joins (0: a table), its text, and its rows."""
    for head, lines in sections_of("site/bacsite/numbers.txt"):
        text = " ".join(line[2:] for line in lines if line.startswith(": "))
        joins = int((re.findall(r"list (\d)", head) or [0])[0])
        yield head.split(" | ")[0], joins, text, [line.split(" | ") for line in lines if not line.startswith(": ")]


def folded(text, width):
    return textwrap.fill(text, width, break_long_words=False, break_on_hyphens=False) + "\n" if text else ""


def sentences(text):
    """The lines of a text on the page. Each sentence begins a line."""
    return "".join(folded(sentence, 78) for sentence in re.split(r"(?<=\.) ", plain(text)))


def plain(text):
    """A text without anything that `man` would treat as markup."""
    return text.replace("-", r"\-").replace("'", r"\(aq").replace('"', r"\(dq") + r"\&" * (text == "No.")


def on_page(title, joins, text, rows):
    if joins:
        lines = [f".It Sy {plain(' '.join(row[:joins]))}\n{sentences(' '.join(row[joins:]))}" for row in rows[1:]]
        head = "-tag -width 4n"
    else:
        line = lambda row, mark: f".It{mark}{f' Ta{mark}'.join(map(plain, row))}\n"
        lines = [line(rows[0], " Sy "), *(line(row, " ") for row in rows[1:])]
        head = "-column " + " ".join([*("0" * max(map(len, column)) for column in list(zip(*rows))[:-1]), "Ds"])
    return f".Ss {plain(title)}\n{sentences(text)}.Bl {head}\n{''.join(lines)}.El\n"


def in_document(title, _, text, rows):
    lines = [f"| {' | '.join(row)} |\n" for row in rows]
    lines.insert(1, "|---" * len(rows[0]) + "|\n")
    return f"## {title}\n\n" + (folded(text, 120) + "\n" if text else "") + "".join(lines)


def words_of_tool(program, name):
    """The arguments and options that a tool prints with its help."""
    text = shown(program, name, "--help")
    usage = re.search(r"(?m)^Usage: .*$", text)[0]
    blocks = "\n".join(re.findall(r"(?m)^(?:Arguments|Options):\n((?:.+\n)+)", text))
    entry = r"(?m)^ {2,6}(?=\S)(?:-h, )?(--\S+)? ?(?:[<[]([a-z -]+)[]>](\.*))?\s+(.*(?:\n {8,}.*)*)"
    for option, value, dots, what in re.findall(entry, blocks):
        required = f"<{value}>" in usage
        yield Word([option] * bool(option), value, " ".join(what.split()), (), required, bool(dots))


def words_of_parser(parser):
    for it in parser._actions:
        value = it.metavar or (it.dest.upper() if it.option_strings and not it.choices else it.dest)
        value = "" if it.nargs == 0 else it.help if value == "WORD" else value
        choices = tuple(it.choices or ()) if it.option_strings else ()
        yield Word(it.option_strings, value, it.help or "", choices, it.required, it.nargs == "+")


def programs(program):
    """The names of each program, and its tools or commands: each with its name, its help, and its words. The first one
    is the program itself."""
    *tools, of_help = re.findall(r"(?m)^  ([a-z]+)  +([A-Z].*)$", shown(program, "--help"))
    made_of = [(*it, [*words_of_tool(program, it[0])]) for it in tools] + [(*of_help, [Word(value="tool")])]
    yield ["bactool", *TOOLS], [("bactool", "", [Word(value="COMMAND"), Word(["--help"], text="Print help")]), *made_of]
    parser = parsing.parser_of([])
    below = parser._actions[-1].choices.items()
    made_of = [(name, parsing.COMMANDS[name].summary, [*words_of_parser(it)]) for name, it in below]
    yield ["bacsite"], [("bacsite", "", [*words_of_parser(parser)]), *made_of]


def marked(names, it):
    """An option or a word in the markup of a page, with the given names."""
    value = f"Ar {CALLED.get(it.value.lower(), it.value.lower())}" if it.value else ""
    value = f"Cm {' | '.join(it.choices)}" if it.choices and it.value.islower() else value
    flags = ["Fl " * (len(name) - len(name.lstrip("-"))) + name.lstrip("-") for name in names]
    return " , ".join(f"{flag} {value}".strip() for flag in flags or [""])


def entry_of(it, by_hand=""):
    return f".It {marked(it.names, it)}\n{sentences(it.text[:1].upper() + it.text[1:] + '.')}{by_hand}"


def part_of(path, part, words, linked=()):
    """A part of a page, with the entries of its lists made anew, except for words that it links to another page."""
    left = {marked(it.names, it): it for it in words}

    def entry(found):
        it = left.pop(found[1], None)
        if not it and found[2]:
            sys.exit(f"{path}: help has no such word any more, and the page has a text by hand: {found[1]}")
        return entry_of(it, found[2] or "") if it else ""

    part = re.sub(LIST, lambda found: re.sub(ENTRY, entry, found[0]), part)
    new = "".join(entry_of(it) for it in left.values() if LINKED not in part or it not in linked)
    if not new:
        return part
    if not re.search(LIST, part):
        sys.exit(f"{path}: no list `of --help` for: {', '.join(left)}")
    end = [it.end() for it in re.finditer(LIST, part)][-1] - len(".El\n")
    return part[:end] + new + part[end:]


def usage_of(words):
    return "".join(f".{'Op ' * (not it.required)}{marked(it.names[:1], it)}{' ...' * it.repeated}\n" for it in words)


def page_of_tool(path, words, linked):
    words = [it for it in words if "--help" not in it.names]
    usage = ".Nm\n" + usage_of(sorted(words, key=lambda it: bool(it.names)))
    page = re.sub(r"(?ms)^(\.Sh SYNOPSIS\n).*?(?=^\.Sh )", lambda found: found[1] + usage, text_of(path))
    return re.sub(r"(?ms)^\.Sh DESCRIPTION\n.*?(?=^\.Sh )", lambda found: part_of(path, found[0], words, linked), page)


def page_of_bacsite(path, tools):
    """The page of bacsite. The arguments of a command stay in the SYNOPSIS unchanged, since they are explained in one
    place."""
    common = [tuple(names.split()) for names, *_ in parsing.ASKING.lines]
    usage, page = text_of(path).split(".Sh DESCRIPTION\n")
    for name, _, words in tools:
        own = [it for it in words if it.names and "--help" not in it.names and tuple(it.names) not in common]
        asks = ".Op Ar option ...\n" * any(tuple(it.names) in common for it in words)
        place = rf"(?m)^(\.Nm\n\.Cm {name}\n)(?:\.Op (?:Fl|Ar option).*\n)*"
        usage = re.sub(place, lambda found: found[1] + asks + usage_of(own), usage)
        place = rf"(?ms)^\.Ss {name}\n.*?(?=^\.S[hs] )"
        page = re.sub(place, lambda found: part_of(path, found[0], own), page)
    shared = [it for it in tools[0][2] if tuple(it.names) in common]
    page = re.sub(r"(?ms)^\.Sh OPTIONS\n.*?(?=^\.Sh )", lambda found: part_of(path, found[0], shared), page)
    return f"{usage}.Sh DESCRIPTION\n{page}"


def made(program):
    """The path and the text of each generated page."""
    page = "".join(on_page(*part) for part in sections())
    yield "man/bactool-numbers.7", text_of("man/numbers.page").replace("@sections@\n", page)
    document = "\n".join(in_document(*part) for part in sections())
    yield "docs/NUMBERS.md", text_of("man/numbers.text").replace("@sections@\n", document)
    (_, tools), (_, site) = programs(program)
    words_of = {name: words for name, _, words in tools}
    for name in TOOLS[:-1]:
        yield f"man/{name}.1", page_of_tool(f"man/{name}.1", words_of[name], words_of["bacrp"])
    yield "man/bacsite.1", page_of_bacsite("man/bacsite.1", site[1:])


if __name__ == "__main__":
    for file_name, made_text in made(sys.argv[1]):
        write(f"{TOP}/{file_name}", made_text)
