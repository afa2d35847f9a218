"""The definitions of the sources, and how definitions, types, traits, constants and calls refer to one another, by the
grammar of patterns.txt. The layout is rt fmt's. Lines are counted without comments, blank lines and attributes.
"""
import functools
import re

from tree import all_crates, crates_below, files, table_of, text_of

CRATES = all_crates()
OF_PROGRAM = [crate for crate in CRATES if crate in crates_below()["bactool"]]
OUTSIDE = {"std", "core"}.union(*CRATES.values()) - {*CRATES}
SPECS = {}  # the file of each module of specs/
SOURCES = {}  # the files of src/, by their paths
RUST = {}  # the definitions of src/, by crate and name
MEMBERS = {}  # the ghost members of impl blocks, by type, trait and name

PATTERNS = dict(table_of("tests/documents/patterns.txt"))
NO_CODE = {ending: re.compile(pattern) for ending, pattern in PATTERNS["no code"]}
TOKEN, LABEL, BINDER, USE, GROUP, DEFINITION, ITEM, IMPL = (re.compile(pattern) for _, pattern in PATTERNS["grammar"])
STD, CONSTRUCTORS = (names.split() for _, names in PATTERNS["names of the languages"])
# A clause or a ghost member, and the proof after it.
BRACES = functools.reduce(lambda inner, _: rf"\{{(?:[^{{}}]|{inner})*\}}", range(5), r"\{[^{}]*\}")
CLAUSE = re.compile(rf"\b(requires|ensures|ghost)\*?(?: (?!use\b)(\w+))?\s*[:=]?\s*({BRACES}(?:\s*by\s*{BRACES})?)")


def blank(pattern, text):
    return pattern.sub(lambda found: "\n".join(" " * len(line) for line in found[0].split("\n")), text)


@functools.lru_cache(maxsize=None)
def code_of(path):
    """The text of a file without comments, and in src/ without strings and attributes."""
    return blank(NO_CODE[path.rpartition(".")[2]], text_of(path))


def leaves(path):
    """The single paths of a `use`."""
    each = lambda found: ", ".join(found[1] + one.strip() for one in found[2].split(",") if one.strip())
    while "{" in path and (found := GROUP.subn(each, path))[1]:
        path = found[0]
    return [one.strip() for one in path.split(",")]


@functools.lru_cache(maxsize=None)
def uses_in(code):
    """Returns what `use` lines import: a module, a name of it or None, the name here, and whether it is passed on."""
    found = []
    for public, path, group, alias in USE.findall(code):
        for leaf in leaves(f"{path}.{group}") if group else ():
            there, _, here = leaf.removeprefix("Rattle.").partition(" as ")
            module, _, name = there.rpartition(".")
            found.append((module, name, here or name, bool(public)))
        if not group:
            found.append((path, None, alias or path.rpartition(".")[2], bool(public)))
    return found


def parts_of(name):
    """Returns the parts of an operator, such as `if◌then◌else◌`; of another name only the name."""
    return [part for part in name.split("◌") if part.strip()]


def brought_in(code):
    """The module and the name there of each imported name, and of each part of an operator."""
    names = {here: (module, name) for module, name, here, _ in uses_in(code)}
    return {**{part: names[here] for here in names for part in parts_of(here)}, **names}


class Item:
    """A definition of a file."""

    kept = ()  # the clauses of an invariant

    def __init__(self, file, name, kind, start, end):
        self.file, self.name, self.kind, self.place, self.lines = file, name, kind, start, file.lines_in(start, end)

    @functools.cached_property
    def needs(self):
        """The other items that it uses, and the names from outside, with their modules."""
        return [it for it in dict.fromkeys(self.says()) if it is not self]


class Definition(Item):
    """A definition of specs/: the parameters around it, its head, and its cases, fields or constructors."""

    def __init__(self, file, name, kind, start, end, around, head, parts):
        super().__init__(file, name, kind or "definition", start, end)
        self.around, self.head, self.parts = around, head, parts

    def says(self):
        bound = set()
        for text in [*self.around, self.head]:
            said, bound = self.file.said(self.file.names, text, bound=bound)
            yield from said
        for part in self.parts:
            left, right = re.split(r"\s[:=]\s", part, maxsplit=1)
            pattern = left.partition(self.name)[2] or left if self.kind == "definition" else ""
            yield from self.file.said(self.file.names, right, pattern, bound)[0]


class Declared(Item):
    """The declarations of src/. Each clause, also of a model or an invariant, has its text and the names imported
    there."""

    def __init__(self, file, name, kind, start, end, names, around=""):
        super().__init__(file, name, kind, start, end)
        self.text = around + CLAUSE.sub("", re.sub(r"\bghost use [^;]*;", "", file.code[start:end]))
        found, names = [*CLAUSE.finditer(file.code, start, end)], {**file.names, **names}
        self.clauses, self.titles = [(names, it[3]) for it in found], [it[2] for it in found]
        self.shown, self.kept, self.public = [], [], True
        if kind == "enum":
            self.text = re.sub(r"([{,]\s*)[A-Z]\w*", r"\1", self.text)

    def says(self):
        return [*self.file.said_in(self.clauses), *self.file.types(self.text), *self.file.said_in(self.shown)]


class File:
    """A file of specs/ or src/, with its definitions, and the names that it imports."""

    def __init__(self, crate, path):
        self.crate, self.path, self.code = crate, path, code_of(path)
        self.items, self.known, self.names = {}, {}, {}

    def lines_in(self, start, end):
        return sum(map(bool, map(str.strip, self.code[start:end].split("\n"))))

    def blocks(self, depth, start, end):
        """The start and the end of each block of lines between two places whose first line has this indent."""
        margin = " " * depth
        block = re.compile(rf"(?m)^{margin}[^\s)}}\]>].*\n(?:{margin}(?: .*|[)}}\]>{{].*|where)\n| *\n)*")
        return [found.span() for found in block.finditer(self.code, start, end)]

    def meant(self, names, token):
        """Returns the item that a token of a term stands for, with these imported names."""
        head, _, rest = token.partition(".")
        if found := names.get(head) or names.get(token):
            return defined(found[0], found[1] or rest.partition(".")[0])
        return self.known.get(head)

    def said(self, names, text, pattern="", bound=()):
        """Returns the items that a term uses, after a pattern; and the names that are bound in it."""
        binders = TOKEN.findall(" ".join([pattern, *("".join(found) for found in BINDER.findall(text))]))
        bound = {*bound, *(it for it in binders if it[0].islower() and "." not in it and it not in CONSTRUCTORS)}
        tokens = [token.rstrip(".") or token for token in TOKEN.findall(f"{pattern} {LABEL.sub('', text)}")]
        tokens += [">>="] if "do" in tokens else []
        free = (token for token in tokens if token not in bound and token.partition(".")[0] not in bound)
        return [it for it in (self.meant(names, token) for token in free) if it], bound


class Specs(File):
    def __init__(self, crate, path):
        super().__init__(crate, path)
        self.module = path[len("crates/") : -len(".antt")].replace("/", ".").removesuffix(".Lib")
        passed = [it for it in uses_in(self.code) if it[3]]
        self.passed = {here: (module, name) for module, name, here, _ in passed if name}
        self.whole = [f"{self.module}.{module[:-2]}" for module, name, *_ in passed if not name]
        self.names = brought_in(self.code)
        if not path.endswith(("specs/Lib.antt", "specs/Inner.antt")):  # which only pass on
            self.read(0, 0, len(self.code), [])

    def read(self, depth, start, end, around):
        """Reads the definitions between two places with this indent, with the parameters around them."""
        item = None
        for first, last in self.blocks(depth, start, end):
            block = self.code[first:last]
            if module := re.match(r" *module _ (.*?)where$", block, re.S | re.M):
                self.read(depth + 2, first + module.end(), last, [*around, module[1]])
            elif item and re.search(r"\s[:=]\s", block)[0].strip() == "=":
                item.parts.append(block)
                item.lines += self.lines_in(first, last)
            elif not USE.match(block) and not re.match(" *infix", block):
                kind, name = DEFINITION.match(block).groups()
                begins = [first, *(it for it, _ in self.blocks(depth + 2, first, last) if kind), last]
                head, *parts = (self.code[one:next] for one, next in zip(begins, begins[1:]))
                head = head[DEFINITION.match(block).end() :]
                item = self.items[name] = Definition(self, name, kind, first, last, around, head, parts)
                constructors = [part.split()[0] for part in parts if kind == "data"]
                self.known.update(dict.fromkeys([*constructors, *parts_of(name), name], item))

    def find(self, name):
        """Returns the item of this name, which the file has or passes on, perhaps with a whole module."""
        if name in self.known:
            return self.known[name]
        passed = (SPECS[module].find(name) for module in self.whole)
        return defined(*self.passed[name]) if name in self.passed else next(filter(None, passed), None)


class Source(File):
    """A file of src/, with the methods and the ghost members of its impl blocks."""

    def __init__(self, crate, path):
        super().__init__(crate, path)
        self.names = brought_in("\n".join(re.findall(r"(?m)^ghost use [^;]*;", self.code)))
        self.uses, self.passed, self.methods, self.members = {}, [], [], []
        for start, end in self.blocks(0, 0, len(self.code)):
            item = ITEM.match(self.code, start, end)
            public, kind, name = item.groups() if item else (None, None, None)
            if kind == "use":
                self.use(public, re.search(r"use (.*?);", self.code[start:end], re.S)[1])
            elif kind == "impl":
                self.impl(start, end)
            elif kind == "fn":
                self.add(self.call(name, start, end, {}), public)
            elif kind and kind != "ghost":
                self.add(Declared(self, name, kind, start, end, brought_in(self.code[start:end])), public)

    def add(self, item, public):
        item.public = bool(public)
        self.items[item.name] = RUST[self.crate, item.name] = item

    def use(self, public, path):
        for leaf in leaves(path):
            whole, _, alias = leaf.partition(" as ")
            parts = whole.removesuffix("::self").split("::")
            self.uses[alias or parts[-1]] = parts
            self.passed += [alias or parts[-1]] if public else []

    def call(self, name, start, end, names, around=""):
        body = blank(CLAUSE, self.code[start:end]).find("{")
        return Declared(self, name, "call", start, start + body if body >= 0 else end, names, around)

    def impl(self, start, end):
        head = self.code[start:end].partition("{")[0]
        trait, owner = re.fullmatch(r"impl(?:<.*?> | )(?:(\S.*?) for )?(\w+).*", head, re.S).groups()
        names = brought_in(self.code[start:end])
        for first, last in self.blocks(4, start + len(head), end):
            public, kind, name = ITEM.match(self.code, first, last).groups()
            if kind == "fn":
                item = self.call(f"{owner}::{name}", first, last, names, head)
                item.public = bool(public or trait)
                self.methods.append((owner, item))
            elif kind == "ghost" and name != "use":
                self.members.append((owner, trait, Declared(self, name, "member", first, last, names)))

    def link(self):
        """Adds to each type its `impl Model`, and separately its invariant; other members are items of their own."""
        for owner, trait, member in self.members:
            item = self.find(owner)
            if trait == "Model" and isinstance(item, Item):
                (item.kept if member.name == "invariant" else item.shown).extend(member.clauses)
                item.lines += member.lines if member.name != "invariant" else 0
            else:
                MEMBERS[owner, trait, member.name] = member
                member.name = f"{owner}: {member.name}"
                self.methods.append((owner, member))

    def find(self, path):
        """Returns the item of a path, or a crate outside and the name there; None for a variable."""
        head, *rest = path.split("::")
        parts = [*self.uses.get(head, [head]), *rest]
        if head in self.items:
            return self.items[head]
        if parts[0] in OUTSIDE:
            return parts[0], parts[-1]
        if parts[0][0].islower():
            return in_crate(parts[0], parts[1:]) if parts[0] in CRATES else in_crate(self.crate, parts)
        return ("std", head) if head in STD else None

    def types(self, text):
        return filter(None, map(self.find, re.findall(r"(?<![\w:.'])(?:\w+::)*[A-Z]\w*", text)))

    def meant(self, names, token):
        head = token.partition(".")[0]
        return super().meant(names, token) or (self.find(head) if head[:1].isupper() else None)

    def said_in(self, clauses):
        for names, text in clauses:
            for of, *member in IMPL.findall(text):
                yield from filter(None, [MEMBERS.get(tuple(member))])
                yield from self.types(of)
            yield from self.said(names, re.sub("⟦.*?⟧", "", text))[0]


def defined(module, name):
    """Returns the item of a module with this name, or the module outside and the name; None if there is none."""
    crate, _, inner = module.partition(".")
    if crate not in CRATES:
        return f"{crate}: {inner.removeprefix('specs.')}", name
    if ".declared" in module:  # a type of src/, also by its variants and views, or a constant
        *_, last = (part for part in module.split(".") if part not in ("TheVariants", "TheViews"))
        return in_crate(crate, [name if last == "TheConstants" else last])
    return SPECS[module].find(name) if module in SPECS else None


def in_crate(crate, parts):
    """Returns the item that a path leads to in a crate, perhaps through a `pub use`."""
    for part in reversed(parts):
        if (crate, part) in RUST:
            return RUST[crate, part]
    top = SOURCES.get(f"crates/{crate}/src/lib.rt")
    return top.find("::".join(parts)) if top and parts and parts[0] in top.passed else None


def read_tree():
    for crate in CRATES:
        for path in files(f"crates/{crate}/specs/**/*.antt"):
            file = Specs(crate, path)
            SPECS[file.module] = file
        for path in files(f"crates/{crate}/src/**/*.rt"):
            SOURCES[path] = Source(crate, path)
    for source in SOURCES.values():
        source.link()


def public_calls(crate):
    """The public functions of a crate, and the methods and members of its public types, by name; of a program all
    functions."""
    of_crate = [source for source in SOURCES.values() if source.crate == crate]
    top = next(source for source in of_crate if source.path.endswith(("/src/lib.rt", "/src/main.rt")))
    shown = {name: item for name, item in top.items.items() if item.public or top.path.endswith("main.rt")}
    shown.update((name, item) for name in top.passed if isinstance(item := top.find(name), Item))
    for module in re.findall(r"(?m)^pub mod (\w+);", top.code):
        items = SOURCES[f"crates/{crate}/src/{module}.rt"].items
        shown.update((f"{module}::{name}", item) for name, item in items.items() if item.public)
    types = {item for item in shown.values() if item.kind != "call"}
    calls = {name: item for name, item in shown.items() if item not in types and item.file.crate == crate}
    for source in of_crate:
        for owner, item in source.methods:
            if item.public and source.find(owner) in types:
                calls.setdefault(item.name, item)
    return calls, types


def closed(roots, kept=False):
    """Returns these items and all that they need, breadth first; with the invariants of types, if asked for."""
    found = dict.fromkeys(roots)
    rest = list(found)  # which grows during the loop
    for item in rest:
        for need in [*item.needs, *(item.file.said_in(item.kept) if kept and item.kept else ())]:
            if isinstance(need, Item) and need not in found:
                found[need] = None
                rest.append(need)
    return found
