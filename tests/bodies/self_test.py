#!/usr/bin/env python3
"""Checks that mutants.py counts a body as shown wrong only if something shows it. It tries the bodies of bac_wire in
self_test.edits, most of them with a fault in body or control, and reports those with another result than in their line
`wanted:`. The status is 0 if there are none. The checks take about four minutes of processor time.

Usage: tests/bodies/self_test.py [PATTERN]: all of them, or those whose names contain the pattern.
"""
import re
import sys

sys.path.insert(0, sys.path[0] + "/..")
import controls
import definition_mutants
from edits import BY_CONTROL, BY_PROOF, CONTROL, EMPTIED, PROVED, REFUTED, Body, entries_in
from mutants import Bodies, failed_of, try_all, with_controls
from tree import status_of, table_of

CRATE = "bac_wire"


def outcome(body):
    """Returns how this body was judged, or why it was not tried."""
    control = body.beside.get(CONTROL)
    if body.is_unfit or (control and control.is_unfit):
        return "it does not fit"
    if body.kind == "bad":
        return "it is not tried"
    return "its control is not tried" if control and control.kind == "bad" else body.told()


def faults_of_kinds(body):
    """Yields faults in how a body that is shown wrong is judged, and in what mutants.py counts as failed, if one of its
    parts is proved, refused, or not tried. The kind of each part is set by hand, since proofs mostly come together."""
    how = body.shown()
    for part, it in {"": body, **body.beside}.items():
        for it.kind in ("clause", PROVED, "bad", it.kind):
            is_right = it.kind != "bad" and (it.kind == PROVED) == (part in (CONTROL, REFUTED))
            is_shown, is_well = body.shown() == how, not failed_of([Bodies(CRATE, [it])])
            if is_shown != is_right and it.kind != "bad" or is_well != (is_right or part.startswith(EMPTIED)):
                yield f"FAILED: {it.name}, as {it.kind}, is {'' if is_well else 'not '}well: {body.shown()}"


def main(pattern=""):
    bodies = [Body(CRATE, it) for it in entries_in("tests/bodies/self_test.edits", "") if re.search(pattern, it.name)]
    tried = with_controls(bodies)
    unfit = {it.entry.name for it in tried if it.is_unfit}
    crate = Bodies(CRATE, [it for it in tried if it.entry.name not in unfit])
    try_all([crate], 1)
    wrong = [f"FAILED {it}" for it in crate.strange]
    for name, rows in table_of("tests/bodies/controls.txt"):
        function = getattr(controls, name, None) or getattr(definition_mutants, name)
        rows = [[cell.replace("\\n", "\n") for cell in row] for row in rows]
        told = [(given, str(function(*given)), wanted) for *given, wanted in rows]
        wrong += [f"FAILED, {name} of {given} is {got}, not {wanted}" for given, got, wanted in told if got != wanted]
    for it in bodies:
        wanted, got = re.search(r"(?m)^wanted: (.*)", it.entry.text)[1], outcome(it)
        kinds = [f"{part or 'body'}: {of.is_unfit or of.kind}" for part, of in {"": it, **it.beside}.items()]
        told = f"{it.entry.name}: {got}: {'; '.join(kinds)}"
        print(told)
        wrong += [f"FAILED, not {wanted}: {told}"] * (got != wanted)
    wrong += [fault for it in bodies if it.shown() in (BY_CONTROL, BY_PROOF) for fault in faults_of_kinds(it)]
    return status_of(wrong, bodies, f"{len(bodies)} bodies, {len(wrong)} not told as they are to be")


sys.exit(main(*sys.argv[1:]))
