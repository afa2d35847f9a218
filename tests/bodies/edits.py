"""Reads mutants, and judges what a check says of them. A mutant is an entry of crates/CRATE/mutants/FILE.edits, which
has those of src/FILE.rt: a line `[NAME]` and the lines below it. CONTRIBUTING.md (A mutant) explains the lines `file:`,
`in:`, `old:`, `new:`, `body:`, `clause:`, `goal:`, `control:`, `at:`, `by:`, `survivor:` and `must-fail:`, and what is
tried instead of the function, or with it.
"""
import collections
import functools
import os
import re

import tree
import controls
from tree import TOP as ROOT

text_of = functools.cache(tree.text_of)
HEAD, IMPL, CLAUSE, TACTIC, GHOSTS, METHOD, BRINGS = controls.PATTERNS["edits.py"]
ANSWERS = ("Proof.antt", "Invariants.antt", "Answers.antt")
INVARIANT = "invariant"  # in a line `clause:`: the body is refused by no clause but by this


# A function of a file. Its lines, counted from 0: that of its head, where its body begins, the last, and the one after
# which a copy is put, or 0. Its name, NAME or TYPE::NAME, the same as a check writes it, and a pattern of what a check
# calls it; whether a function that it calls calls it; the head of an `impl` that a copy needs, or ""; its trait, as a
# check names it, or ""; the lines before the body, with comments and attributes; the text between the body's brackets.
FIELDS = "first body last behind name shown checked symbols in_cycle impl trait head text"
Function = collections.namedtuple("Function", FIELDS)


@functools.cache
def functions_of(crate, path, source):
    """The functions of a file of a crate. It ends at the first line that is a bracket with its indent."""
    lines, found, block, ghosts, in_cycle = source.split("\n"), [], "", [], False
    for first, line in enumerate(lines):
        block, ghosts = (line, []) if re.match(r"\S", line) else (block, ghosts)
        ghosts += [line] * line.startswith("    ghost ")
        in_cycle, head = in_cycle or "#[cycle(" in line, HEAD.match(line)
        if not head:
            continue
        indent, name = head.groups()
        ends = (at for at in range(first, len(lines)) if lines[at] in (indent + "}", indent + "{}"))
        last = first if line.endswith("}") else next(ends, first)
        body = next((at for at in range(first, last + 1) if re.match(rf"{indent}(\S.*)?{{(.*}})?$", lines[at])), last)
        start = next((at for at in range(first, 0, -1) if re.search(r"^ *$|^(?! *//).*[{};]$", lines[at - 1])), 0)
        owner = IMPL.match(block)
        trait, given, kind = owner.groups() if owner else ("", "", "")
        behind, impl = 0 if indent and (trait or not owner) else last, ""
        above = [*lines[start:body], *gives(ghosts, line)]
        is_copied = trait and block.endswith("{") and file_of(crate, kind)  # not an `impl` of a type of another crate
        if is_copied and any(re.match(" *ensures", it) for it in above):
            behind, uses = lines.index("}", last), [it for it in ghosts if it.startswith("    ghost use ")]
            impl = "\n".join([block.replace(f"{trait}{given or ''} for ", "", 1), *uses])
        of_trait = f"{trait}{words_of(given)}" if trait else ""
        in_impl = rf"(\w+::)*(fn::)?{kind}(\+\w+)*{trait or ''}({words_of(given)})?::"
        place = in_impl if owner else "::".join([*module_of(path), "(fn::)?"])
        symbols = re.compile(f"{crate}::{place}{name}(::.+)?$")
        text = "\n".join(lines[body + 1 : last]) if last > body else line.partition("{")[2]
        shown = f"{kind}::{name}" if kind else name
        checked = f"{kind}{applied(crate, kind, block)}::{name}" if kind else name
        of = first, body, last, behind, name, shown, checked, symbols, in_cycle, impl, of_trait, above, text
        found.append(Function(*of))
        in_cycle = False
    return found


def applied(crate, kind, block):
    """Returns what a check writes after the type's name if this `impl` leaves its last arguments out, or ""."""
    given = re.search(rf"\b{kind}<([^<>]*)>", block)
    home = sources_of(crate).get(file_of(crate, kind), "")
    declared = re.search(rf"(?m)^pub (?:struct|enum) {kind}<([^{{;]*)>", home)
    leaves_out = given and declared and given[1].count(",") < declared[1].count(",")
    return f"+{words_of(given[1])}" if leaves_out else ""


def gives(ghosts, head):
    """The head of a `from` with one line, in an `impl` with these lines, with a clause for its result."""
    found = re.search(r"(?m)^    ghost from_gives = \{ λ (\w+) (\w+)\. (.*) \};$", "\n".join(ghosts))
    given = re.match(r"    fn from\((\w\w+): .*\{$", head)
    if not (found and given):
        return []
    named = {found[1]: given[1], found[2]: "result"}
    made = re.sub(r"[\w-]+", lambda it: named.get(it[0], it[0]), found[3])
    return [head[:-2], f"        ensures {{ {made} }}"]


def words_of(given):
    """How a check names the arguments of a trait."""
    return "".join(it[0].upper() + it[1:] for it in re.findall(r"(?<!')\b\w+", given or ""))


def module_of(path):
    """The parts of the module's name of a file of src/."""
    return [it for it in path[len("src/") : -len(".rt")].split("/") if it not in ("lib", "main")]


def home_of(crate, path, kind):
    """Returns the place of this file in the names of a check, in parts: its module, or that of the type of a method."""
    return [*module_of(file_of(crate, kind) or path), kind] if kind else module_of(path)


def file_of(crate, kind):
    """The file of a crate that declares this type, or "" if none does."""
    declares = re.compile(rf"(?m)^(?:pub(?:\([^)]*\))? )?(?:struct|enum) {kind}\b")
    return next((it for it, text in sources_of(crate).items() if declares.search(text)), "")


@functools.cache
def sources_of(crate):
    home = f"{ROOT}/crates/{crate}"
    return {os.path.relpath(it, home): text_of(it) for it in tree.files(f"{home}/src/**/*.rt")}


def function_of(crate, path, name):
    found = functions_of(crate, path, sources_of(crate).get(path, ""))
    return next((it for it in found if it.name == name), None)


@functools.cache
def answered(crate):
    """The parts of a crate that have answers, by the names that a check has for them."""
    home = f"{ROOT}/crates/{crate}/proofs"
    found = (it for it in tree.files(f"{home}/**/*.antt") if os.path.basename(it) in ANSWERS)
    return sorted({"::".join([crate, *os.path.relpath(os.path.dirname(it), home).split("/")]) for it in found})


def names_in(text):
    """Returns the words of this text, each with the two before it, with those in quotes and comments."""
    said = ["", "", *re.findall(r"\w+|::|\S", text)]
    return {(said[at - 2] * (said[at - 1] in (".", "::")), *said[at - 1 : at + 1]) for at in range(2, len(said))}


@functools.cache
def calls_in(crate):
    """The names of a crate's functions, each with those in the bodies of functions with that name."""
    found = collections.defaultdict(set)
    for path, text in sources_of(crate).items():
        for it in functions_of(crate, path, text):
            found[it.name] |= set(re.findall(r"\w+", it.text))
    return {name: words & found.keys() for name, words in found.items()}


def reached(crate, name):
    found = {name}
    while more := set().union(*(calls_in(crate)[it] for it in found)) - found:
        found |= more
    return found


# A copy of a function with an edit in it: its file, the line before it, its text, its name.
Copy = collections.namedtuple("Copy", "path behind text name")


class Pair(collections.namedtuple("Pair", "path within old new")):
    """The old and the new text of an edit: the first after the head of a function, or the only one of the file."""

    def around(self, text):
        """Returns the text before the old text, and the text after it, or () if the old text is not there once."""
        head = re.search(rf"\bfn {self.within}\b" if self.within else "", text)
        if not self.old or not head or not (self.within or text.count(self.old) == 1):
            return ()
        before, found, after = text[head.end() :].partition(self.old)
        return (text[: head.end()] + before, after) if found else ()


Entry = collections.namedtuple("Entry", "file name text")  # where it stands, its name, its lines


def entries_in(file, source):
    """The entries of a file of mutants/, for this source."""
    head, *rest = re.split(r"(?m)^\[(\w+)\]$", text_of(file))
    named = zip(rest[::2], rest[1::2])
    return [Entry(file, "", head)] * bool(head.strip()) + [Entry(file, it, f"{source}\n{text}") for it, text in named]


def entries_of(crate):
    home = f"{ROOT}/crates/{crate}/mutants"
    for file in tree.files(f"{home}/**/*.edits"):
        yield from entries_in(file, f"file: src/{os.path.relpath(file, home)[: -len('.edits')]}.rt")


def must_fail(entry):
    """The lines of an entry that `rt must-fail` reads, if it has a line `must-fail:`; otherwise none."""
    lines = entry.text.split("\n")
    return [it for it in lines if it.startswith(("file: ", "old: ", "new:"))] if "must-fail:" in lines else []


# The parts of an entry that are tried: the mutant; its control; the control with one of its branches emptied, by their
# numbers; the control of an `impl` with the mutant's ghost clauses; the mutant, and the original, with a contract which
# says that the clause is false; and the mutant, and the original's call, with a contract which says that no such
# arguments exist.
WRONG, CONTROL, EMPTIED, GHOST = "", "control", "emptied control", "ghost clause alone"
REFUTED, RIGHT_REFUTED, NEVER, UNMET = "refuted", "right one refuted", "never called", "right one never called"
OF_VALUES = REFUTED, RIGHT_REFUTED, NEVER, UNMET  # those of an `at:`
# How a body is refused, or that it is proved; and how it is shown to be wrong.
KINDS = ["clause", "safety", "step", PROVED := "PROVED", "bad"]
BY_VALUES, BY_PROOF, BY_CONTROL = SHOWN = ["by values", "by a proof", "by a control"]
SURVIVOR, REFUSED_ONLY = "survivors", "refused and not shown"


def kind_of(goal):
    return "step" if goal.startswith("loop") else "clause" if goal.startswith(("returns", "invariant_of")) else "safety"


class Body:
    """A mutant, or another part of its entry, maybe with a text of its own, and the result of trying it."""

    def __init__(self, crate, entry, part=WRONG, own=""):
        self.crate, self.entry, self.part = crate, entry, part
        self.name = f"{crate}/{entry.name}{part and f' ({part})'}"
        said, self.pairs, self.functions, self.is_wide, self.of, self.copy = {}, [], [], False, None, None
        for line in entry.text.split("\n"):
            word, _, text = line.partition(":")
            said[word] = text.removeprefix(" ")
            if word in (("control",) if part.startswith((CONTROL, EMPTIED, GHOST)) else ("new", "body")):
                of = None if "old" in said else function_of(crate, said["file"], said.get("in"))
                given = iter(GHOSTS.findall(said["new"]) if part == GHOST else ())
                new = own or GHOSTS.sub(lambda it, given=given: next(given, it[0]), said[word])
                self.pairs.append(Pair(said["file"], said.get("in"), of.text if of else said.get("old", ""), new))
        self.has_control, self.calls_right, self.condition = CONTROL in said, "body" in said, said.get("at", "")
        self.wrong, self.by = said.get("body", said.get("new", "")), said.get("by", "")
        self.survivor, self.promised = said.get("survivor", ""), said.get("clause", "").split()
        self.goals = said["goal"].split(", ") if "goal" in said and part in (WRONG, CONTROL) else []
        if part in (RIGHT_REFUTED, UNMET):
            path, within = self.pairs[0][:2]
            of = function_of(crate, path, within)
            lines, call = (it.strip() for it in of.text.split("\n")), controls.call_of(of.head)
            right = " ".join(it for it in lines if not it.startswith("//"))
            call = "Self::" * ("::" in of.shown and not call.startswith("self.")) + call
            self.pairs = [Pair(path, within, of.text, right if part == RIGHT_REFUTED else call)]
        # only ever tried as a copy, and without the answers of its function
        self.is_apart = self.calls_right or part in OF_VALUES or part.startswith(EMPTIED)
        names = (it.strip("`,.") for it in self.survivor.split())
        self.test = next((it for it in names if "/" in it and os.path.isfile(f"{ROOT}/{it}")), "")
        place, _, name = self.by.rpartition("::")
        self.law = function_of(crate, f"src/{place}.rt", name)
        self.is_unfit = next(self.faults(), "")
        self.beside, self.kind, self.why, self.tries = {}, "", [], int(bool(self.way_back))  # it is tried alone

    def faults(self):
        """Why this edit cannot be tried with the present code. Notes the functions that it touches."""
        if not self.entry.name:
            yield "it begins with no line `[NAME]`"
        if not self.pairs:
            yield "it has no `new:`"
        texts = sources = sources_of(self.crate)
        for pair in self.pairs:
            path, _, old, new = pair
            around = pair.around(texts.get(path, ""))
            if not around:
                yield f"old text does not stand once in {path}"
            line = (around[0] + old).count("\n")
            within = [it for it in functions_of(self.crate, path, texts[path]) if it.first <= line <= it.last][-1:]
            if pair.within and [it.name for it in within] != [pair.within]:
                yield f"old text doesn't stand in {pair.within} of {path}"
            has_ghost = "ghost " in (old if re.search(r"\bimpl\b", new) else old + new)
            if old == new or has_ghost or (within and line < within[0].body):
                yield f"it changes nothing, or a contract, in {path}"
            if re.search(r"_again_\d", new):
                yield "it calls what is tried beside it"
            self.functions += [(path, it) for it in within]
            self.is_wide = self.is_wide or not within
            texts = {**texts, path: new.join(around)}
        self.of = None if self.is_wide else self.functions[0][1]
        if must_fail(self.entry) and any(sources[it.path].count(it.old) != 1 for it in self.pairs):
            yield "it has a `must-fail:`, and its `old:` is not in the file once, as `rt must-fail` needs it"
        if self.is_wide and not (self.law and self.law.body == self.law.last > self.law.first):
            yield "it is outside a function: its `by:` has to name a law that refuses it"
        if not self.is_wide and len(self.pairs) > 1:
            yield "it has more than one `new:`"
        if self.survivor and (self.calls_right or not self.test):
            yield "its `survivor:` names no test that refuses it, or is of a `body:`, which calls the right one"
        if self.calls_right and not self.of.behind:
            yield "it calls a function beside which it may not stand"
        if self.condition and not (self.of and self.pairs[0].within and len(self.promised or self.clauses()) == 1):
            yield "it has an `at:`, and not `in:` and one clause that it is to leave false"
        is_alone = not self.is_wide and self.is_beside() and not self.answers()
        if self.promised and not (self.is_wide or is_alone):
            yield "it has a `clause:`, and its function has answers, or it may call that"
        if self.goals and (INVARIANT in self.promised or not (self.has_control and is_alone)):
            yield "it has a `goal:`, and no control, or answers, or is not tried beside its function"
        if not set(self.promised) <= {*self.clauses(), INVARIANT}:
            yield "its `clause:` names what is not ensured"

    @functools.cached_property
    def way_back(self):
        """Returns the names of all functions through which its new words may call the changed function."""
        if self.is_wide or self.is_apart or not self.of:
            return set()
        old, new = (names_in(it) for it in self.pairs[0][2:])
        more = {it for *_, it in new - old} & calls_in(self.crate).keys()
        return set().union(*(it for it in (reached(self.crate, name) for name in more) if self.of.name in it))

    def applied(self, texts):
        """These texts with the edit in them, or None if another edit is in the way."""
        for it in self.pairs:
            around = it.around(texts.get(it.path) or sources_of(self.crate)[it.path])
            if not around:
                return None
            texts = {**texts, it.path: it.new.join(around)}
        return texts

    def head(self):
        """The lines before the body of its function, or of its law: those before the clauses, then each clause, with
        its kind and its name."""
        parts = [("", "", [])]
        for line in (self.law if self.is_wide else self.of).head:
            if begins := CLAUSE.match(line):
                parts.append((begins[1], begins[2] or "", []))
            parts[-1][2].append(line)
        return parts

    def clauses(self):
        """The names of the `ensures` clauses of its function, or of the law that refuses it, in order."""
        return [name for kind, name, _ in self.head() if kind == "ensures"]

    def is_beside(self):
        """Whether this edit is tried as a copy next to its function."""
        return bool(self.of.behind) and (self.is_apart or not self.way_back)

    def answers(self):
        """Returns the name of the function's answers, in parts, if this edit is tried with them; otherwise nothing."""
        found = () if self.is_apart else filter(self.of.symbols.match, answered(self.crate))
        return next((it.split("::")[1:] for it in found), [])

    def named(self, word):
        """What is named behind this word, `using` or `unfolding`, in the `#[tactic(..)]` of its function."""
        given = TACTIC.search("\n".join((self.law if self.is_wide else self.of).head))
        found = re.search(rf"\b{word}\(([^()]*)\)", given[1] if given else "")
        names = re.findall(r"[\w:]+", found[1]) if found else ()
        return [f"Rattle.{re.sub(r'^crate(?=:)', self.crate, it).replace('::', '.')}" for it in names]

    def place(self):
        """Returns the place, in parts, of the law, or of the copy, by which this edit is judged."""
        if self.is_wide:
            return self.by.split("::")
        return [*home_of(self.crate, self.pairs[0].path, self.of.shown.rpartition("::")[0]), self.copy.name]

    def promises(self, promised):
        """The head of its function with only these of its `ensures` clauses."""
        return [line for kind, name, lines in self.head() if kind != "ensures" or name in promised for line in lines]

    def refutation(self):
        """The head of its function with the condition of `at:`, and with its clause stated to be false."""
        kept = [re.sub(r"^( *requires) \{", r"\1 given {", line) for line in self.promises([])]
        more = [] if self.condition == "always" else [f"    requires at_which {{ {self.condition} }}"]
        names = self.promised or self.clauses()
        [clause] = (" ".join(lines) for kind, name, lines in self.head() if kind == "ensures" and name in names)
        clause = re.search(r"\{ *(.*?) *\}[^}]*$", clause)[1]
        false = "⊥" if self.part in (NEVER, UNMET) else f"({clause}) → ⊥"
        return [*kept, *more, f"    ensures {{ {false} }}"]

    def stand_beside(self, number):
        """Puts this edit into a copy of its function, with this number in its name, if it is tried in a copy."""
        if self.is_unfit or self.is_wide or not self.is_beside():
            return
        path, of = self.functions[0]
        # the empty branch of a control is taken, whatever is ensured
        head = self.promises([] if self.part.startswith(EMPTIED) else self.promised or self.clauses())
        head = self.refutation() if self.part in OF_VALUES else head
        name, lines = f"{of.name}_again_{number}", self.applied({})[path].split("\n")
        fewer = self.pairs[0].old.count("\n")  # the text of a body is one line
        begin, *rest = lines[of.body : of.last + 1 - fewer]
        begin = f"    {begin[begin.index('{') :]}" if of.impl and HEAD.match(begin) else begin  # after its clause
        text = "\n".join(it for it in [*head, begin, *rest] if "#[cycle(" not in it)
        text = re.sub(rf"(?m)^([^/\n]*\bfn ){of.name}\b", rf"\1{name}", text, count=1)
        self.copy = Copy(path, of.behind, f"\n{of.impl}\n{text}\n}}" if of.impl else f"\n{text}", name)

    def touches(self, symbol):
        """Whether a check judges this edit by the function that it calls so."""
        if self.is_wide:
            return symbol in [f"{self.crate}::{it}" for it in (self.brought() if self.part == GHOST else [self.by])]
        return bool(re.search(rf"::{self.copy.name}(::|$)" if self.copy else self.of.symbols, symbol))

    def stands_in(self, path, of):
        """Whether the edit is tried in this function of a file, or the function is on a way back to that one."""
        own = [(file, it.symbols) for file, it in self.functions]
        return of.name == self.copy.name if self.copy else (path, of.symbols) in own or of.name in self.way_back

    def brought(self):
        """The methods that it adds to types, as a check names them."""
        found = ((it.path, *method) for it in self.pairs for method in METHOD.findall(it.new))
        return ["::".join([*module_of(path), kind + trait, name]) for path, trait, kind, name in found]

    def asked(self):
        """What a check is to judge: a copy; a law, with methods that the edit adds; a function, or a module."""
        if self.copy:
            return [self.copy.name]
        if self.is_wide:
            return [self.by] * (self.part != GHOST) + self.brought()
        path, of = self.functions[0]
        kind = of.shown.rpartition("::")[0]
        if of.trait:
            return ["::".join([*home_of(self.crate, path, kind)[:-1], kind + of.trait, of.name])]
        if not of.behind:
            return ["::".join(module_of(path)) or of.shown]
        return [of.checked if "::" in of.checked else "::".join([*module_of(path), of.name])]

    def may_be_spoilt(self):
        """Whether a fault may be added as the body's answer: if the body must be refused, not by an invariant, which
        the fault hides, and only once."""
        is_right = self.part in (CONTROL, REFUTED, GHOST) or self.survivor or INVARIANT in self.promised
        return not (self.tries or is_right) and bool(self.copy or self.is_wide)

    def opens(self, goal):
        """Whether this edit may leave this goal open; if a law judges it, only goals of the clauses that it names."""
        clause = re.search(r"-clause-(\w+)", goal)
        if not (self.is_wide and self.promised) or self.part == GHOST:
            return True
        return clause[1] in self.promised if clause else len(self.clauses()) == 1

    def judge(self, rows):
        """Judges how the functions of this edit are refused. If only a callee refuses it, it stays without a kind."""
        mine = [row for symbol, row in rows.items() if self.touches(symbol)]
        found = [it for row in mine for it in row["found"] if self.opens(it[1])]
        self.why, self.tries = sorted({told for _, told in found}), self.tries + 1
        is_proved = lambda row: row["verdict"] == "proved" or (self.part and row["calls"])
        if found:
            self.kind = min((kind for kind, _ in found), key=KINDS.index)
        elif mine and (all(map(is_proved, mine)) or (self.is_wide and all(row["found"] for row in mine))):
            self.kind = PROVED  # other edits may leave open other clauses of a law
        elif self.tries > 1:
            self.kind, self.why = "bad", ["no contract was tried: " + "; ".join(row["verdict"] for row in mine)]
        names = lambda goals: {it.split(" ")[0] for it in goals}
        if self.part == WRONG and self.goals and found and names(self.why) != names(self.goals):
            self.kind, self.why = "bad", [f"its `goal:` names other goals than {'; '.join(self.why)}"]

    def is_well(self):
        is_right = self.part in (CONTROL, REFUTED) or bool(self.survivor)
        return self.part.startswith(EMPTIED) or (self.kind != "bad" and is_right == (self.kind == PROVED))

    def proved(self):
        return {part for part, it in self.beside.items() if it.kind == PROVED}

    def shown(self):
        """How this body is shown to be wrong, if it is."""
        if self.kind == PROVED:
            return SURVIVOR
        at_values = any(it.endswith(" false") and kind_of(it) == self.kind for it in self.why)
        if self.kind in ("clause", "safety") and at_values and not self.brings():
            return BY_VALUES
        if self.proved().intersection(OF_VALUES) == {REFUTED}:
            return BY_PROOF
        return BY_CONTROL if CONTROL in self.proved() and self.kind != "bad" and not self.idle() else REFUSED_ONLY

    def idle(self):
        """Why its control shows nothing, or ""."""
        if GHOST in self.proved():
            return "its ghost clause alone is refused"
        if CONTROL not in self.beside or self.is_wide:
            return ""
        is_never_taken = any(it.startswith(EMPTIED) for it in self.proved())
        return "a branch of its control is never taken" if is_never_taken else controls.fault(*self.three())

    def three(self):
        """The old text or the call of the original, the mutant, and its control, if it has one."""
        control = self.beside.get(CONTROL)
        old = controls.call_of(self.of.head) if self.calls_right else self.pairs[0].old
        return old, self.wrong, control.pairs[0].new if control else ""

    def told(self):
        """How this body is shown to be wrong, and any doubt that a reader has to settle."""
        shown, doubt = self.shown(), ""
        if shown == BY_CONTROL and not self.is_wide:
            doubt = controls.doubt(*self.three())
        if shown == BY_VALUES and not self.is_wide:
            called = ", ".join(controls.calls_more(*self.three()[:2]))
            doubt = called and f"the tool can't tell whether the clauses of {called} say enough"
        return f"{shown}{doubt and f' ({doubt})'}"

    def brings(self):
        """Returns whether this body adds a loop or a closure that the old text does not have."""
        count = lambda text: len(BRINGS.findall(text))
        return any(count(it.new) > (0 if self.calls_right else count(it.old)) for it in self.pairs)

    def opened(self):
        """The clauses that this body leaves open, as in clauses_of. A goal without a name counts for each of them."""
        named = [re.search(r"-clause-(\w+)", goal) for goal in self.why if kind_of(goal) == "clause"]
        names = {name for it in named for name in ([it[1]] if it else self.promised or self.clauses())}
        return {(path, of.shown, name or "") for path, of in self.functions for name in names}
