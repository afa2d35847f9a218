#!/usr/bin/env python3
"""Tries mutants of functions, many in one check, and reports how the prover refuses each.

CONTRIBUTING.md (A mutant) says how a mutant is written, and what shows that it is wrong. The bodies of a round are in
one copy of the crate, where other functions have stubs for bodies (stubs.py). A body is put beside its function, with
the same contract, and the same answers if it needs them; a body of a `from` also gets what its `impl` gives for its
contract. A body that can't be put there is tried in place of its function: one of another method with the contract of a
trait, or one that may call back. The wrong ones have a round of their own, because their callers would be refused too.
So have edits of constants and types, which a law refuses, but not their controls. A body that only a callee refuses is
tried again alone. A check has several rounds. All that no edit touches must be proved. The status is 0 if each body is
refused and shown wrong, and each control and each known survivor is proved. Bodies that no longer fit the code are all
named before any check.
"""
import argparse
import collections
import concurrent.futures
import functools
import os
import re
import resource
import shutil
import sys
import tempfile
import time

sys.path.insert(0, os.path.dirname(__file__) + "/..")
import controls
from edits import CONTROL, EMPTIED, GHOST, GHOSTS, OF_VALUES, PROVED, REFUSED_ONLY, ROOT, SHOWN, SURVIVOR, WRONG
from edits import Body, entries_of, functions_of, kind_of, sources_of
from stubs import FAULTS, PLACE, put_answers, put_searches, put_stubs
from tree import all_crates, copy_crate, crates_below, end_by_signals, files, free_memory, processors, ran, text_of
from tree import write

CHECK_MEMORY = 3000000000  # octets of memory that a check takes
SAMPLE = 5
LARGEST, TOGETHER = 320, 6  # bodies of a round, and copies of a crate in a check
NOTE, ANSWER, VERDICT, REFUSED = controls.PATTERNS["mutants.py"]


def rows_of(said, crate):
    """The result of a check for each function: its verdict, how it is refused, and whether a callee is not proved."""
    rows, found, answers = {}, [], []
    for line in said.split("\n"):
        note, answer, verdict = NOTE.match(line), ANSWER.match(line), VERDICT.match(line)
        if note:
            how = "false" if "goal is false" in note[2] else "limit" if "gave up" in note[2] else "open"
            found.append((kind_of(note[1]), f"{note[1]} {how}"))
        elif answer and not (PLACE in line and answer[2] in FAULTS):
            answers.append((f"{crate}::" + answer[1].replace("/", "::"), answer[2] or "", answer[3]))
        elif verdict and PLACE not in line:
            # If there are many goals, some are named only here.
            named = re.search(r"did not prove ((?:`\S+`(?:, )?)+)", verdict[3])
            told = {it.split(" ")[0] for _, it in found}
            goals = re.findall(r"`(\S+?)`", named[1] if named else "")
            found += [(kind_of(it), f"{it} open") for it in goals if it not in told]
            calls = bool(re.search("it (calls|passes)", verdict[3]))
            rows[verdict[1]] = {"verdict": verdict[2] + verdict[3], "found": found, "calls": calls}
            found = []
    for symbol, goal, text in answers if rows else ():
        row = rows.setdefault(symbol, {"verdict": "not proved", "found": [], "calls": False})
        is_searched = goal and re.match(r"`(search|grind|omega)`", text)
        row["found"].append((kind_of(goal), f"{goal} open") if is_searched else ("step", f"{goal}: {text[:80]}"))
    return rows


def library(tree, crate):
    return f"{os.path.abspath(tree)}/crates/{crate}/out/rlib/{crate}.rlib"


def command(crate, tree):
    """The words of a check, as `rt check` has them, with the libraries of the crates below in this tree."""
    kit = os.path.realpath(shutil.which("rt")).removesuffix("/bin/rt")
    ours = {it: library(tree, it) for it in crates_below()[crate] - {crate}}
    root = "main" if os.path.isfile(f"{ROOT}/crates/{crate}/src/main.rt") else "lib"
    words = [f"{kit}/bin/rattle", "check", "--crate-name", crate, f"src/{root}.rt"]
    words += [f"--extern={it}={ours.get(it, f'{kit}/rlibs/{it}.rlib')}" for it in ("std", *all_crates()[crate])]
    words += [f"-Ldependency={it}" for it in (f"{kit}/rlibs", *map(os.path.dirname, ours.values()))]
    return [*words, f"--antt-project={kit}/rattle/logic/antt-project.json", f"--logic-built={kit}/logic_built"]


def said_of(over, copies):
    """What a check says of each of these copies of crates: a crate, a call that writes it into a folder, and functions
    that are asked for. All but the first are libraries with names of their own, so that what they use is loaded once
    for all. The crates below are taken from this tree."""
    words, names = command(copies[0][0], over), []
    kit = words[0].removesuffix("/bin/rattle")
    with tempfile.TemporaryDirectory(prefix="wrong-bodies-") as here:
        for at, (crate, put, asked) in enumerate(copies):
            names.append(name := f"{crate}_{at}" if at else crate)
            put(f"{here}/{name}")
            if at:
                for it in files(f"{here}/{name}/**/*.*"):
                    write(it, re.sub(rf"\b{crate}\b", name, text_of(it)))
                more = [it for it in command(crate, over) if it.startswith(("--extern=", "-L"))]
                used = ",".join(["core", *(it.split("=")[1] for it in more if it.startswith("--extern="))])
                words = [*words, *(it for it in more if it not in words), f"--lib={name}:{used}=../{name}/src/lib.rt"]
                asked = [it if "_again_" in it else f"{name}::{it}" for it in asked]
            words = [*words, *(f"--only={it}" for it in asked)]
        words += [f"--extern=core={kit}/rlibs/core.rlib"] * bool(names[1:])
        lines = ran(*words, cwd=f"{here}/{names[0]}").stdout.split("\n")
    other = re.compile(rf"\b(?:{'|'.join(names[1:]) or '$^'})\b")
    of = lambda line: (other.search(line) or names)[0]
    told = {name: "\n".join(it.replace(f"../{name}/", "") for it in lines if of(it) == name) for name in names}
    return [re.sub(rf"\b{name}\b", crate, told[name]) for name, (crate, *_) in zip(names, copies)]


def checked(rounds, over):
    """What a check with the libraries of this tree says of each of these rounds. If one of them does not compile, each
    is checked alone."""
    said = said_of(over, [(it.crate, it.put, it.asked()) for it in rounds])
    is_told = not rounds[1:] or any(map(VERDICT.match, "\n".join(said).split("\n")))
    return said if is_told else [told for it in rounds for told in checked([it], over)]


class Round:
    """Many bodies of a crate, which are checked in one copy of the crate, with stubs."""

    def __init__(self, crate, edit):
        self.crate, self.texts, self.keys, self.edits = crate, {}, set(), []
        self.takes(edit)

    def takes(self, edit):
        """Adds this edit of the crate to the round if possible: any copy, and an edit that replaces another function;
        among edits of constants and types, one that changes another text and leaves open another clause."""
        keys = {of.symbols for _, of in edit.functions} if not edit.copy else set()
        if edit.is_wide:
            keys = {(edit.by, it) for it in edit.promised or edit.clauses()} | {(it.path, it.old) for it in edit.pairs}
        texts = self.texts if edit.copy else edit.applied(self.texts)
        # no law refuses a correct text, nor a ghost clause alone; a wrong one in its place spoils its callers
        spoils = lambda it: not (it.copy or it.is_wide or it.part or it.survivor)
        kind = lambda it: (it.is_wide and it.part not in (CONTROL, GHOST), it.part == GHOST or spoils(it))
        is_like = all(kind(it) == kind(edit) for it in self.edits)
        most = 1 if edit.tries or any(it.tries for it in self.edits) else LARGEST
        if edit.crate != self.crate or texts is None or not is_like or keys & self.keys or len(self.edits) >= most:
            return False
        self.texts, self.keys, self.edits = texts, keys | self.keys, [*self.edits, edit]
        return True

    def copied(self):
        texts = dict(self.texts)
        for it in sorted((it.copy for it in self.edits if it.copy), key=lambda copy: -copy.behind):
            lines = (texts.get(it.path) or sources_of(self.crate)[it.path]).split("\n")
            texts[it.path] = "\n".join([*lines[: it.behind + 1], it.text, *lines[it.behind + 1 :]])
        return texts

    def put(self, here):
        copy_crate(self.crate, here)
        put_stubs(self.crate, here, self.copied(), lambda *of: any(it.stands_in(*of) for it in self.edits))
        for it in self.edits:
            if it.copy and (answers := it.answers()):
                put_answers(self.crate, here, answers, it.place())
            if it.goals or it.may_be_spoilt():
                put_searches(self.crate, here, it)

    def asked(self):
        return sorted({name for it in self.edits for name in it.asked()})

    def judge(self, said):
        """Judges the edits by the output of the check. Returns everything without an edit that is refused."""
        rows, misfits, texts = rows_of(said, self.crate), {}, self.copied()
        for error in () if rows else REFUSED.finditer(said):  # a text that does not compile; the others are tried again
            path, line = error[1], int(error[2]) - 1
            within = [of for of in functions_of(self.crate, path, texts.get(path, "")) if of.first <= line <= of.last]
            misfits.update((it, error[0]) for it in self.edits for of in within if it.stands_in(path, of))
        if not (rows or misfits or self.edits[1:]):
            misfits = {self.edits[0]: said[-300:]}
        for it in self.edits:
            if rows:
                it.judge(rows)
            elif it in misfits:
                it.kind, it.why = "bad", [f"no contract was tried: {misfits[it]}"]
            elif not misfits:
                it.tries += 1
        is_told = lambda symbol, goal: any(it.touches(symbol) and it.opens(goal) for it in self.edits)
        strange = [(it, goal) for it, row in rows.items() for _, goal in row["found"] if not is_told(it, goal)]
        return [f"{symbol}: no edit touches it, and it is refused: {goal}" for symbol, goal in strange]


def clauses_of(crate):
    """The clauses of a crate's public functions, each with its file, its function and its name. A law has none."""
    found = []
    for path, text in sources_of(crate).items():
        for of in functions_of(crate, path, text):
            head = "\n".join(text.split("\n")[of.first : of.body + 1])
            if re.match(r" *pub (const |unsafe )?fn", head) and not re.search(r"\{ ?\}$", head):
                found += [(path, of.shown, it) for it in re.findall(r"(?m)^ *ensures\*?(?: (\w+))? \{", head)]
    return found


def counted(edits):
    """How many bodies there are, how many of them are shown to be wrong, how, and how many controls are proved."""
    bodies, right = [it for it in edits if it.part == WRONG], [it for it in edits if it.part == CONTROL]
    shown = collections.Counter(it.shown() for it in bodies)
    by = ", ".join(f"{shown[it]} {it}" for it in SHOWN)
    told = f"{len(bodies)} mutants: {sum(shown[it] for it in SHOWN)} shown wrong ({by})"
    told += f", {shown[REFUSED_ONLY]} {REFUSED_ONLY}, {shown[SURVIVOR]} {SURVIVOR}"
    return f"{told}; {sum(it.kind == PROVED for it in right)} of {len(right)} controls proved"


class Bodies:
    """The bodies of a crate, or a sample of those of all, and their results, with the libraries of this tree."""

    def __init__(self, crate, edits, over=ROOT):
        self.crate, self.edits, self.over, self.strange = crate, edits, over, []

    def is_ready(self):
        below = set().union(*(crates_below()[it] - {it} for it in {edit.crate for edit in self.edits}))
        return all(os.path.isdir(library(self.over, it)) for it in below)

    def checks(self):
        """Rounds of the bodies that are left to try, in lists of those of one check. One that may be no program is
        checked alone."""
        rounds, may_fail = [], lambda it: any(edit.way_back for edit in it.edits)
        for edit in (it for it in self.edits if not it.kind):
            if not any(it.takes(edit) for it in rounds):
                rounds.append(Round(edit.crate, edit))
        some = sorted((it for it in rounds if not may_fail(it)), key=lambda it: -len(it.edits))
        together = [some[at : at + TOGETHER] for at in range(0, len(some), TOGETHER)]
        return [*together, *([it] for it in rounds if may_fail(it))]

    def told(self, options):
        lines = [f"of {self.crate}: {counted(self.edits)}"]
        if options.clauses:
            opened = set().union(*(it.opened() for it in self.edits if it.part == WRONG))
            clauses = clauses_of(self.crate)
            bare = [it for it in clauses if it not in opened]
            lines.append(f"    {len(bare)} of {len(clauses)} clauses of public functions are left open by no body")
            lines += [f"    no body leaves open {path}: {name}: {it or 'its clause'}" for path, name, it in bare]
        if options.goals:
            lines += [f"    {it.name}: {it.kind}, {it.part or it.told()}: {'; '.join(it.why)}" for it in self.edits]
        return "\n".join(lines)


def try_all(crates, jobs):
    """Tries the bodies of these crates, each crate once the libraries below are there, and prints a line for each
    round."""
    began, idle, working = time.monotonic(), list(crates), {}
    edits = [it for crate in crates for it in crate.edits]
    with concurrent.futures.ThreadPoolExecutor(jobs) as pool:
        try:
            while idle or working:
                for crate in [it for it in idle if it.is_ready()]:
                    idle.remove(crate)
                    working.update((pool.submit(checked, it, crate.over), (crate, it)) for it in crate.checks())
                time.sleep(1 if idle and not working else 0)
                for it in concurrent.futures.wait(working, 1, concurrent.futures.FIRST_COMPLETED).done:
                    crate, rounds = working.pop(it)
                    crate.strange += sum(map(Round.judge, rounds, it.result()), [])
                    minutes, seconds = divmod(int(time.monotonic() - began), 60)
                    done = f"{sum(bool(it.kind) for it in edits)} of {len(edits)}"
                    count = sum(len(tried.edits) for tried in rounds)
                    print(f"{minutes:3}:{seconds:02}  {done}: {crate.crate}, {count} together", flush=True)
                    idle += [crate] * all(other is not crate for other, _ in working.values())
        except BaseException:
            pool.shutdown(wait=False, cancel_futures=True)
            raise


def edits_of(crate, only=""):
    """The bodies of a crate whose names contain this pattern, and the other parts of their entries."""
    edits = [it for it in (Body(crate, entry) for entry in entries_of(crate)) if re.search(only, it.name)]
    names = collections.Counter(it.name for it in edits)
    for it in edits:
        it.is_unfit = it.is_unfit or f"{names[it.name]} have this name" * (names[it.name] > 1)
    return with_controls(edits, 10000 * [*crates_below()].index(crate))


def with_controls(edits, first=0):
    """These bodies and the other parts of their entries that have a place, numbered from this number on."""
    for it in (it for it in edits if not it.is_unfit):
        parts = [CONTROL] * it.has_control + [*OF_VALUES] * bool(it.condition)
        parts += [GHOST] * (it.has_control and bool(GHOSTS.search(it.entry.text)))
        it.beside = {part: Body(it.crate, it.entry, part) for part in parts}
        control = it.beside.get(CONTROL)
        if control and not control.is_unfit and it.of and it.of.behind and not controls.fault(*it.three()):
            known = [it.wrong, "" if it.calls_right else it.pairs[0].old]
            emptied = enumerate(controls.emptied(known, control.pairs[0].new))
            it.beside.update((f"{EMPTIED}{at}", Body(it.crate, it.entry, f"{EMPTIED}{at}", new)) for at, new in emptied)
    edits = [*edits, *(other for it in edits for other in it.beside.values())]
    for number, it in enumerate(edits, first):
        it.stand_beside(number)
    return edits


def build(crates):
    """Has `rt` build the outdated libraries of these crates. Reports which are missing."""
    for it in (it for it in all_crates() if it in crates):
        if not os.path.isdir(library(ROOT, it)):
            return f"no library of {it}: run `make program` first"
        if ran("rt", "lib", cwd=f"{ROOT}/crates/{it}", stderr=None).returncode:
            return f"{it} is not proved"
    return ""


def unfit_of(edits):
    """The edits that do not fit the code, and the files in folders of mutants that belong to no crate."""
    unfit = [(it.entry.file, f"{it.entry.name}: {it.is_unfit}") for it in edits if it.is_unfit]
    known = re.compile(rf"{ROOT}/crates/({'|'.join(crates_below())})/mutants/.*\.(edits|md)")
    strays = (it for it in files(f"{ROOT}/crates/*/mutants/**") if not known.fullmatch(it))
    unfit += [(it, "no edit of a crate of crates.txt") for it in strays]
    return list(dict.fromkeys(f"{os.path.relpath(file, ROOT)}: {why}" for file, why in unfit))


def options_of(words):
    parser = argparse.ArgumentParser(description=__doc__, formatter_class=argparse.RawDescriptionHelpFormatter)
    flag, word = functools.partial(parser.add_argument, action="store_true"), parser.add_argument
    flag("--list", help="try nothing: name the bodies that don't fit the code")
    flag("--goals", help="print each refusal, and by what it is shown")
    flag("--clauses", help="print the clauses of public functions that no body leaves open")
    flag("--sample", help=f"take the first {SAMPLE} of each crate that values show wrong, in few checks")
    flag("--whole", help="make all searches for a proof, also where a line `goal:` gives a body one of them")
    word("--only", default="", metavar="PATTERN", help="take the bodies whose CRATE/NAME the pattern is found in")
    word("--over", metavar="TREE", help="take the crates below from this tree, each once `rt ci` has put it there")
    jobs = max(1, min(processors(), free_memory() // CHECK_MEMORY))
    word("--jobs", type=int, default=jobs, metavar="N", help="the checks at a time (%(default)s here)")
    word("crates", nargs="*", help="take these crates alone")
    return parser.parse_args(words)


def failed_of(crates):
    failed = [line for it in crates for line in it.strange]
    for it in (it for crate in crates for it in crate.edits):
        if not it.is_well():
            failed.append(f"{it.name}: {it.kind}: {'; '.join(it.why)}{' (a known survivor)' * bool(it.survivor)}")
        elif it.part == WRONG and it.shown() == REFUSED_ONLY:
            failed.append(f"{it.name}: {REFUSED_ONLY} {it.idle() and f'({it.idle()})'}")
    return failed


def main(words):
    options = options_of(words)
    chosen = [it for it in crates_below() if not options.crates or it in options.crates]
    tried = {crate: edits for crate in chosen if (edits := edits_of(crate, options.only))}
    edits = [it for group in tried.values() for it in group]
    for it in edits if options.whole else ():
        it.goals = []
    unfit = unfit_of(edits)
    print("".join(f"{it}\n" for it in unfit), end="")
    if options.list or unfit or not edits:
        print(f"tests/bodies/mutants.py: {len(edits)} bodies, of which {len(unfit)} don't fit the code")
        return 1 if unfit or not edits else 0
    below = set().union(*(crates_below()[it] - {it} for it in tried))
    if not options.over and (lacking := build(below)):
        print(lacking)
        return 2
    if options.sample:
        is_simple = lambda it: it.copy and not (it.part or it.beside or it.survivor)  # values show it wrong
        groups = reversed(tried.values())  # the library of the first crate of a check must not be loaded for another
        tried = {"all": [it for group in groups for it in [*filter(is_simple, group)][:SAMPLE]]}
    crates = [Bodies(crate, group, options.over or ROOT) for crate, group in tried.items()]
    try_all(crates, options.jobs)
    print("\n".join(it.told(options) for it in crates))
    failed = failed_of(crates)
    print("".join(f"FAILED {it}\n" for it in failed), end="")
    used = resource.getrusage(resource.RUSAGE_CHILDREN)
    seconds = f"{used.ru_utime + used.ru_stime:.0f} processor seconds"
    told = counted([it for crate in crates for it in crate.edits])
    print(f"tests/bodies/mutants.py: {told}; {seconds}; {len(failed)} failed")
    return 1 if failed else 0


if __name__ == "__main__":
    end_by_signals(main)
