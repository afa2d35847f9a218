"""Weak assertions of tests in Python: a thing that is compared with itself or with several others, a constant, a loop
over an empty list, an expected value that is made of the found one, a pattern or a text that almost anything contains,
a part of what is to be compared, a length of zero or more, a long time, and a failure that is swallowed."""
import ast
import re

FEWEST = {"assertRegex": 3, "assertNotRegex": 3, "assertIn": 2, "assertNotIn": 2}  # letters and digits
SHOWS_LITTLE = ("sorted", "set", "len", "setdefault")  # what these make of the found value may be expected
ANYTHING = {"Exception", "BaseException"}
LONGEST = 25  # seconds that a test may allow
# The nodes of which the result may be known, whatever the code does.
JUDGED = ast.Call, ast.Compare, ast.Attribute, ast.FunctionDef, ast.For, ast.comprehension, ast.BoolOp
TESTED = ast.If, ast.IfExp, ast.Assert, ast.While
PARTS = {"len", "sorted", "set", "bool", "str", "type", "strip", "lower", "upper", "split", "casefold", "replace"}
PARTS |= {"sub", "rstrip", "lstrip", "splitlines", "abs", "round", "int", "min", "max", "any", "all", "frozenset"}


def walked(node, every):
    """Puts a node and those within it, in the order of the text, into a list, which each then has as `within`: their
    places, so that nothing is walked twice."""
    first = len(every)
    every.append(node)
    for name in node._fields:
        part = getattr(node, name, None)
        for it in part if isinstance(part, list) else (part,):
            if isinstance(it, ast.AST) and not isinstance(it, ast.expr_context):
                walked(it, every)
    node.within = every, first, len(every)
    return every


def within(node):
    """The nodes of a walked node, with itself."""
    every, first, last = node.within
    return every[first:last]


def name_of(call):
    """The name of a called function or method."""
    return getattr(getattr(call, "func", None), "attr", getattr(getattr(call, "func", None), "id", ""))


def inside(node):
    """The parts of an expression, except what only its order, its length or its elements are used of."""
    yield node
    if name_of(node) not in SHOWS_LITTLE and not isinstance(node, ast.Compare):
        for part in ast.iter_child_nodes(node):
            yield from inside(part)


def given_once(function):
    """The values of the names that a function gives one value."""
    given = {}
    for node in within(function):
        if isinstance(node, ast.Assign) and isinstance(node.targets[0], ast.Name):
            given.setdefault(node.targets[0].id, []).append(node.value)
    return {name: values[0] for name, values in given.items() if len(values) == 1}


def is_made_of_it(call, given):
    """Whether the expected value has the found one in it, or a part of it in the same place."""
    compared = {"assertEqual": call.args[:2], "same": call.args[1:3], "alike": call.args[1:3]}.get(name_of(call), [])
    if len(compared) < 2:
        return False
    found, wanted = compared[0], given.get(getattr(compared[1], "id", ""), compared[1])
    parts = [it for it in [found, *getattr(found, "elts", [])] if not isinstance(it, ast.Constant)]
    return not {*map(ast.dump, parts)}.isdisjoint(map(ast.dump, inside(wanted)))


def is_of_parts(call):
    """Whether both sides of an equality are cut in the same way, so that the rest is not compared."""
    sides = call.args[:2] if name_of(call) == "assertEqual" else []
    fixed = (ast.Slice, ast.Constant, ast.UnaryOp)  # a part that is the same in each run of a loop
    slices = {ast.dump(it.slice) for it in sides if isinstance(getattr(it, "slice", None), fixed)}
    cut = len({name_of(it) for it in sides} & PARTS) == len({*map(name_of, sides)}) == 1
    return cut or len(slices) == 1 and all(isinstance(it, ast.Subscript) for it in sides)


def is_patient(call):
    """Whether a time may be far longer than any that a test needs."""
    is_time = name_of(call) == "assertLess" and "monotonic" in ast.dump(call.args[0])
    limits = [it.value for it in within(call.args[1]) if isinstance(it, ast.Constant)] if is_time else []
    return any(isinstance(it, (int, float)) and it > LONGEST for it in limits)


def cases(nodes):
    """How many elements the rows, lists, sets and tables of a test in Python have, and how many lines its texts, so
    that one case fewer is seen; and the limits that it sets, each once."""
    shown = (getattr(it, "elts", getattr(it, "keys", [])) for it in nodes)
    limits = [it.args[1] for it in nodes if name_of(it).startswith(("assertLess", "assertGreater"))]
    lines = sum(it.value.count("\n") for it in nodes if isinstance(it, ast.Constant) and isinstance(it.value, str))
    elements = sum(len(it) for it in shown if isinstance(it, list))
    return {f"{elements} elements, {lines} lines", *map(ast.unparse, limits)}


def matches_anything(call):
    """Whether an assertion looks for a constant pattern that nonsense has."""
    for it in within(call) if name_of(call)[:6] == "assert" else ():
        if name_of(it) in ("search", "match", "fullmatch") and isinstance(it.args[0], ast.Constant):
            pattern, nonsense = it.args[0].value, "\u2603\n<~>"
            nonsense = nonsense.encode() if isinstance(pattern, bytes) else nonsense
            if getattr(re, name_of(it))(pattern, nonsense):
                return True
    return False


def is_wide(call):
    """Whether an assertion has a constant pattern or text with almost no letters and digits."""
    least = FEWEST.get(name_of(call), 0)
    text = call.args[least == 3].value if least and isinstance(call.args[least == 3], ast.Constant) else None
    plain = re.sub(r"\\.|\[[^]]*\]|\(\?.", "", str(text)) if least == 3 else str(text)
    return isinstance(text, (str, bytes)) and len(re.findall(r"\w", plain)) < least


def is_length(node):
    """Whether a length is compared with 0 so that every length is right."""
    sides = node.args[:2] if name_of(node) == "assertGreaterEqual" else []
    if isinstance(node, ast.Compare) and isinstance(node.ops[0], ast.GtE):
        sides = [node.left, node.comparators[0]]
    return len(sides) == 2 and name_of(sides[0]) == "len" and getattr(sides[1], "value", 1) == 0


def is_vacuous(node):
    """Whether the result of a test in Python is known, whatever the code does."""
    name = getattr(getattr(node, "func", None), "attr", getattr(getattr(node, "func", None), "id", ""))
    sides = node.args[1:3] if name in ("same", "alike") else node.args[:2] if name[:6] == "assert" else []
    sides = [node.left, *node.comparators] if isinstance(node, ast.Compare) else sides
    if len(sides) == 2 and len({*map(ast.dump, sides)}) == 1:
        return True
    if isinstance(node, ast.Attribute):
        return node.attr in ("skip", "expectedFailure")
    if name == "assertIn" and isinstance(sides[1], (ast.Tuple, ast.List, ast.Set)):  # several things would do
        return True
    if name in ("assertTrue", "assertFalse") and len(sides) == 2:  # the second is the message, and not another value
        return not isinstance(sides[1], ast.Constant) and ast.dump(sides[1]) not in ast.dump(sides[0])
    if isinstance(node, ast.FunctionDef) and node.name.startswith("test_"):
        called = (getattr(getattr(it, "func", None), "attr", "") for it in within(node))
        return not any(it == "rows" or it.startswith("assert") for it in called)
    if isinstance(node, (ast.For, ast.comprehension)):
        return isinstance(node.iter, (ast.List, ast.Tuple)) and not node.iter.elts
    if isinstance(node, ast.BoolOp):
        return any(isinstance(getattr(it, "value", None), bool) for it in node.values)
    known = getattr(node, "test", sides[0] if len(sides) == 1 else None)
    return isinstance(known, ast.Constant) and not isinstance(node, ast.While)


def weak(nodes):
    """Yields the line of each weak assertion among the nodes of a test, and why it is weak."""
    calls = [it for it in nodes if isinstance(it, ast.Call)]
    for node in (it for it in nodes if isinstance(it, JUDGED + TESTED) and is_vacuous(it)):
        yield getattr(node, "lineno", 0) or node.iter.lineno, "it compares a thing with itself, or nothing"
    for handler in (it for it in nodes if isinstance(it, ast.ExceptHandler)):
        is_any = handler.type is None or getattr(handler.type, "id", "") in ANYTHING
        if is_any and not isinstance(handler.body[-1], ast.Raise):
            yield handler.lineno, "any failure is swallowed"
    compared = (it for it in nodes if isinstance(it, (ast.Call, ast.Compare)))
    yield from ((it.lineno, "every length is right") for it in compared if is_length(it))
    for call in calls:
        if name_of(call) == "suppress" and {getattr(it, "id", "") for it in call.args} & ANYTHING:
            yield call.lineno, "any failure is swallowed"
        if is_patient(call):
            yield call.lineno, f"more than {LONGEST} seconds"
        if is_of_parts(call):
            yield call.lineno, "only a part of both sides is compared"
        if is_wide(call) or matches_anything(call):
            yield call.lineno, "almost any text has this"
    for function in (it for it in nodes if isinstance(it, ast.FunctionDef)):
        given = given_once(function)
        for call in (it for it in within(function) if isinstance(it, ast.Call) and is_made_of_it(it, given)):
            yield call.lineno, "the expected value is made of the found one"


def asserted(code):
    """How many assertions some tests in Rattle have, how many comparisons, and through how many numbers their ranges
    go."""
    steps = sum(int(end) - int(start) for start, end in re.findall(r"\b(\d+)\.\.=?(\d+)", code.replace("_", "")))
    compared = re.findall(r"==|&&|matches!|\bis_\w+\(\)", code)
    return f"{len(re.findall('assert(?:_eq)?!', code))} {len(compared)} {steps}"
