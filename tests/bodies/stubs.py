"""Replaces the functions of a crate that are not tried: each keeps its contract, and gets a stub as its body.
docs/DECISIONS.md (Tests and the gate) says why.
"""
import os
import re
import secrets

from edits import ANSWERS, ROOT, answered, functions_of, sources_of, text_of
from tree import files, write

# Another name in each run, so that no mutant and no control can call the functions that are only for stubs.
PLACE = f"nowhere_{secrets.token_hex(8)}"
STUB = f"crate::{PLACE}::never()"
# An answer to a goal that does not exist: with such an answer `rattle` does not look for the beginning of an answer to
# each goal that is left open, which takes a third of a check or more. And a hole for the invariant of a method's type,
# because the search for its proof may take as long, and the fault hides it.
FAULTS = ("fault", "invariant_of-self")
FAULT = f"""
pub fault : {PLACE}.{PLACE}
fault = ?

pub invariant_of-self : {PLACE}.invariant_of-self
invariant_of-self = ?
"""
# An answer with one of the six searches that `rattle` makes for one, and what the function's `#[tactic(..)]` names. A
# body that is refused takes about half as long so.
SEARCHED = f"""
pub {{name}} : {PLACE}.{{name}}{{opened}}
{{goal}} = grind (arith, common_steps{{lemmas}}) steps 2000000
"""
USED = f"""use Rattle.std.proofs.{{{{Common.arith, lemmas.Grind.common_steps}}}}
use Rattle.{{}}.proofs.{{}}.Goals as {PLACE}
"""


def may_be_stub(lines, it):
    """Returns whether a function may have a stub: it is not of a trait, not constant and not in a cycle of calls."""
    indent, is_constant = re.match(r"( *).*?(\bconst\b.*)?\bfn\b", lines[it.first]).groups()
    is_bound = (indent and "::" not in it.shown) or is_constant or it.in_cycle
    return not is_bound and it.last > it.body + 1 and lines[it.body].endswith("{") and lines[it.last] == indent + "}"


def put_stubs(crate, home, texts, is_tried):
    """Writes a crate into this folder, with these texts, and with stubs except for functions that are tried, as
    `is_tried` says for file and function. Answers to goals of the replaced bodies are left out."""
    gone = []
    for path, text in {**sources_of(crate), **texts}.items():
        lines = text.split("\n")
        found = [it for it in functions_of(crate, path, text) if may_be_stub(lines, it) and not is_tried(path, it)]
        for it in reversed(found):
            lines[it.body + 1 : it.last] = [STUB] + [""] * (it.last - it.body - 2)  # lines below keep their numbers
        if path in ("src/lib.rt", "src/main.rt"):
            lines.append(f"mod {PLACE};\n")
        write(f"{home}/{path}", "\n".join(lines))
        gone += [it.symbols for it in found]
    for name in (name for name in answered(crate) if any(it.match(name) for it in gone)):
        for file in files(*(f"{home}/proofs/{'/'.join(name.split('::')[1:])}/{it}" for it in ANSWERS)):
            os.remove(file)
    write(f"{home}/src/{PLACE}.rt", text_of(f"{ROOT}/tests/bodies/nowhere.rattle"))


def put_answers(crate, home, answers, place):
    """Gives this place of the crate in this folder the answers of another place, whose name is in them."""
    named, own = (".".join([*parts, ""]) for parts in (answers, place))
    for it in ANSWERS:
        file = f"{ROOT}/crates/{crate}/proofs/{'/'.join(answers)}/{it}"
        if os.path.exists(file):
            write(f"{home}/proofs/{'/'.join(place)}/{it}", re.sub(rf"\b{re.escape(named)}", own, text_of(file)))


def put_searches(crate, home, edit):
    """Gives the place of this edit in the crate in this folder, if it has no answers, a search for each of its goals,
    with the names of their arguments, and what its function names for it; and a fault for one more answer, if it may
    have one."""
    file = f"{home}/proofs/{'/'.join(edit.place())}/Answers.antt"
    if not os.path.exists(file):
        opened = " ".join(edit.named("unfolding"))
        named = {
            "lemmas": "".join(f", {it}" for it in edit.named("using")),
            "opened": opened and f"\nunfolding {opened}",
        }
        texts = [SEARCHED.format(name=it.split(" ")[0], goal=it, **named) for it in edit.goals]
        write(file, "".join([USED.format(crate, ".".join(edit.place())), FAULT * edit.may_be_spoilt(), *texts]))
