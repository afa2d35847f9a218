"""Finds controls that show nothing, by the rules of CONTRIBUTING.md (A mutant): one that writes the old text in other
words, one that lacks what is hard for the prover in the mutant, or one with a new branch that is never taken. For each
such branch a control is tried once more, with `unreachable!()` in the branch, and that must not be proved. A branch
that the mutant has too needs no such try: if it were never taken, the mutant would be proved.
"""
import collections
import re

from tree import table_of

PATTERNS = {head: [re.compile(it) for _, it in rows] for head, rows in table_of("tests/bodies/patterns.txt")}
TOKEN, NEUTRAL, ONE_ARM, PARTS, METHODS = PATTERNS["controls.py"]
NO_WORDS = "match let mut ref return if else true false _ self".split()
EMPTY = "unreachable!()"


def words(text):
    return TOKEN.findall(re.sub(r"//.*", "", text))


def depths(text, begin):
    """The places of a text from this one on, each with the number of brackets that are open after it."""
    depth = 0
    for at in range(begin, len(text)):
        depth += (text[at] in "([{") - (text[at] in ")]}")
        yield at, depth


def closing(text, begin):
    """Returns where the bracket at this place is closed, or 0 if it is closed after the text."""
    return next((at for at, depth in depths(text, begin) if not depth), 0)


def parts(text, begin):
    """The parts between the commas in the bracket at this place of a text."""
    end = closing(text, begin)
    cuts = [begin, *(at for at, depth in depths(text[:end], begin) if text[at] == "," and depth == 1), end]
    return [text[one + 1 : other] for one, other in zip(cuts, cuts[1:])]


def unfolded(said):
    """These words, with names bound instead of a match with one arm, and a part instead of a list of parts."""
    if it := ONE_ARM.search(said):
        end = closing(said, it.start(2))
        return f"{said[: it.start()]} let {it[3]} = {it[1]} ; {said[it.end() : end]}{said[end + 1 :]}"
    if (it := PARTS.search(said)) and closing(said, it.start(2)):
        pairs = zip(parts(said, it.start(1)), parts(said, it.start(2)))
        lets = "".join(f" let {name.strip()} = {part.strip()} ;" for name, part in pairs if name.strip())
        return said[: it.start()] + lets + said[closing(said, it.start(2)) + 3 :]
    for it in re.finditer(r"(?<![\w)\]>!] )[(\[]", said):
        end, found = closing(said, it.start()), parts(said, it.start())
        if end and (part := re.match(r" +(?:\. (\d)|\[ (\d) \])(?= )", said[end + 1 :])):
            one = found[int(part[1] or part[2])] if found[1:] else f"{found[0]}{part[0]}"
            return said[: it.start()] + one + said[end + 1 + part.end() :]
    return said


def plain(text):
    """The words of this text without brackets, names of parts, and arithmetic that changes nothing."""
    said, before = f" {' '.join(words(re.sub(r'[iu](?:size|[0-9]+)::MIN', '0', text)))} ", ""
    while said != before:
        before = said
        said = re.sub(r" let (?:_|\( \)) = [^;]* ;", "", unfolded(said))
        said = re.sub(r" [({] (\w+) [)}](?= )", r" \1", NEUTRAL.sub("", said))
        said = re.sub(r" (\d+) \+ (\d+)(?= )", lambda it: f" {int(it[1]) + int(it[2])}", said)
        if named := re.search(r" let (?:mut )?([a-z]\w*) = ([^;{}]*) ;", said):
            part, use = f" ( {named[2]} )", rf"(?<! \.) {named[1]}(?= (?![:!(]))"
            head, rest = said[: named.start()], said[named.end() :]
            # a name that is not used here is meant for the text after this one
            said = head + (re.sub(use, lambda _: part, rest) if re.search(use, rest) else f" {named[1]} :={part}{rest}")
    equal = lambda it: " " + " == ".join(sorted((it[1], it[2])))
    said = re.sub(r" ([\w. ]+?) == ([\w. ]+?)(?= (?:[;{})=]|&&|$))", equal, said)
    return [it for it in said.split() if it not in "(){}[]&*;," and it not in ("mut", "return")]


def call_of(head):
    """How a function with these head lines is called by the correct body that only calls it."""
    text = " ".join(it.strip() for it in head if not it.strip().startswith(("//", "#[")))
    name, rest = re.search(r"\bfn (\w+)(.*)", text).groups()
    given = re.split(r"\)(?: ->| where| requires| ensures| ghost| {|$)", rest[rest.index("(") :])[0]
    names = ", ".join(re.findall(r"\b(\w+): ", given))
    return f"self.{name}({names})" if re.search(r"\bself\b", given) else f"{name}({names})"


def calls_more(old, wrong):
    plainly = lambda text: re.sub(r"//.*|::<[^()]*>(?=\()", "", text)
    calls = lambda text: {*re.findall(r"(?<!\bfn )\b([a-z]\w*)\(", plainly(text))}
    return sorted(calls(wrong) - calls(old))


def hard(text):
    """The operators about which the prover knows only single laws, each with the words before and after it."""
    said = ["", *words(text), ""]
    of_two = lambda at: re.match(r"[\w)\]]", said[at - 1]) and said[at - 1] not in ("return", "in", "if", "else")
    signs = ("<<", ">>", "^", "%", "/", "<<=", ">>=", "^=", "%=", "/=", "*=", "&=", "|=")
    places = (at for at, it in enumerate(said) if it in signs or (it and it in "*&|" and of_two(at)))
    found = {(said[at].rstrip("="), said[at - 1], said[at + 1]) for at in places}
    called = (at for at, it in enumerate(said) if said[at - 1] == "." and METHODS.fullmatch(it))
    return found | {(said[at], said[at - 2], said[at + 2]) for at in called if at + 2 < len(said)}


def harder(old, wrong):
    return [it for it in hard(wrong) if it[0] not in {sign for sign, *_ in hard(old)}]


def fault(old, wrong, control):
    """Why a control shows nothing about this mutant of the old text, or ""."""
    if plain(old) == plain(control):
        return "its control is what stood there in other words"
    has_like = lambda one: any(one[0] == it[0] and (one[1] == it[1] or one[2] == it[2]) for it in hard(control))
    lacking = {it[0] for it in harder(old, wrong) if not has_like(it)}
    return f"its control lacks {' '.join(sorted(lacking))}" if lacking else ""


def doubt(old, wrong, control):
    """Why the tool cannot judge this control, or ""."""
    if signs := {it[0] for it in harder(old, wrong)}:
        return f"the tool can't tell whether the control has {' '.join(sorted(signs))} for the same"
    counts = [collections.Counter(words(it)) for it in (old, wrong, control)]
    common = [it for it in (counts[1] & counts[2]) - counts[0] if re.match(r"\w", it) and it not in NO_WORDS]
    return "" if common else "the tool can't tell more: body and control share nothing that did not stand there"


def branches(control):
    """The conditions of a control's branches, and where they begin and end: of `if` and `else`, and arms."""
    for it in re.finditer(r"(?:\bif (?:let .*? = )?[^{}]*?|\belse )\{(?!\s*\})", control):
        end = closing(control, it.end() - 1)
        if " => " not in it[0] and end:
            yield it[0], it.end(), end
    for it in re.finditer(r"((?:(?! => )[^,{}])*(?:\{[^{}]*\}(?:(?! => )[^,{}])*)?) => ", control):
        begin, ends = it.end(), ((",", 0), ("}", -1))
        if control[begin] == "{":
            begin, end = begin + 1, closing(control, begin)
        else:
            end = next((at for at, depth in depths(control, begin) if (control[at], depth) in ends), len(control))
        if end and control[begin:end].strip() != it[1].strip():
            yield it[0], begin, end


def emptied(known, control):
    """This control once for each of its branches that none of the known texts has, with that branch emptied."""
    own = (it for it in branches(control) if not any(it[0].strip() in text for text in known))
    return [f"{control[:begin]} {EMPTY} {control[end:]}" for _, begin, end in own]
