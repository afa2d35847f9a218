#!/usr/bin/env python3
"""Makes the completions of bactool and bacsite for bash, zsh and fish, from their help, site/bacsite/numbers.txt, and a
template for each shell. The template finds the kind of the word at the cursor from the words before it; bash and zsh
share walk.sh for that. Usage: completions/make.py PROGRAM FOLDER, where PROGRAM is bactool. The folder gets the files.
"""
import os
import re
import sys

sys.path.insert(0, sys.path[0] + "/../man")
import tables


def quoted(text, quote=r"'\''"):
    return "'" + text.replace("'", quote) + "'"


# For each shell: the name of a file, an arm of a switch, how a list is set, and a word that is offered with its text.
SHELLS = {
    "bash": ("{}.bash", "{}) {} ;;", "{}=({})", lambda word, text: word),
    "zsh": ("_{}", "{}) {} ;;", "{}=({})", lambda word, text: quoted(f"{word}:" + text.replace(":", r"\:"))),
    "fish": ("{}.fish", "case {}; {}", "set {} {}", lambda word, text: word + r"\t" + quoted(text, r"\'")),
}


# The kinds of the words for a value; `-` is a word without suggestions. Before `..` the last two kinds repeat.
KINDS = {"FILE": "FILE", "file": "FILE", "list": "FILE", "FOLDER": "FOLDER", "PROPERTY": "NAME", "": ""}
KINDS.update({"TYPE": "NAME", "tool": "TOOL", "COMMAND": "COMMAND", "tag value": "TAG - .."})


def kinds_of(it):
    """The kinds of the words of an argument or of an option's value; choices with `/` between them are one kind."""
    return "/".join(it.choices) or KINDS.get(it.value, "- NAME NAME .." if " TYPE " in it.value else "-")


class Tool:
    """A tool or a command. Each of its options has its name, the kind of its value, and a text."""

    def __init__(self, name, text, words):
        kinds = " ".join(kinds_of(it) for it in words if not it.names)
        self.name, self.text = name, text
        self.repeats, self.kinds = int(kinds.endswith("..")), kinds.replace("..", "").split()
        short = lambda it: re.split(r"; | \[", it.text)[0]
        self.options = [(name, kinds_of(it), short(it)) for it in words for name in it.names]


def words_of_kinds(tools):
    numbers = {title: rows[1:] for title, _, _, rows in tables.sections()}
    found = {"COMMAND": {tool.name: tool.text for tool in tools[1:]}}
    found["TOOL"] = {name: text for name, text in found["COMMAND"].items() if name != "help"}
    found["TAG"] = {row[0]: f"{row[1]}, like {row[3]}" for row in numbers["Types of a value"]}
    found["NAME"] = {row[1]: "object type" for row in numbers["Object types"]}
    found["NAME"].update((row[1], "property") for row in numbers["Properties"])
    used = {kind for tool in tools for kind in [*tool.kinds, *(kind for _, kind, _ in tool.options)]}
    found.update((kind, dict.fromkeys(kind.split("/"), "")) for kind in sorted(used) if "/" in kind)
    return {kind: words for kind, words in found.items() if kind in used}


def arms(shell, tools, words):
    """Returns the arms of a template's switches: the words of a tool, the options with a value, the words of a kind."""
    _, arm, listed, entry = SHELLS[shell]
    put = lambda name, entries: listed.format(name, " ".join(entries))
    own = lambda it: [put("kinds", it.kinds), put("options", [entry(name, text) for name, _, text in it.options])]
    values = [(f'"no {it.name} {name}"', kind) for it in tools for name, kind, _ in it.options if kind]
    offered = {kind: [entry(word, text) for word, text in there.items()] for kind, there in words.items()}
    return {
        "tools": [arm.format(it.name, "; ".join([*own(it), put("repeats", [str(it.repeats)])])) for it in tools],
        "values": [arm.format(option, put("value", [kind])) for option, kind in values],
        "kinds": [arm.format(kind, put("offered", entries)) for kind, entries in offered.items()],
    }


def filled(template, places):
    """The template with each place filled. Lines that are only a place keep its margin."""
    for place, lines in places.items():
        template = re.sub(rf"(?m)^( *)@{place}@$", lambda at: "\n".join(at[1] + line for line in lines), template)
        template = template.replace(f"@{place}@", " ".join(lines))
    return template


def main(program, folder):
    walk = tables.text_of("completions/walk.sh").splitlines()
    for names, made_of in tables.programs(os.path.realpath(program)):
        tools = [Tool(*it) for it in made_of]
        for shell, (file_name, *_) in SHELLS.items():
            places = {"walk": walk, **arms(shell, tools, words_of_kinds(tools)), "names": names, "program": names[:1]}
            text = filled(tables.text_of(f"completions/template.{shell}"), places)
            tables.write(f"{folder}/{file_name.format(names[0])}", text)


main(*sys.argv[1:]) if len(sys.argv) == 3 else sys.exit(__doc__)
