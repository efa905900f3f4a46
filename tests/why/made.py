"""Sheets that are made up, for the program and the model to answer alike: each operator and builtin with each of its overloads, and operands by chance.

A sheet is one operator or call on operands: after what enters them, each is brought by a push or a take. What is entered before is made a number of the stack by bitcast, and
added to the others, so that at most one value stands below the operands: then an accepted sheet ends in 11 and has no lines, and those are few.
"""
import itertools

import model
from cases import tool
from model import is_scalar, v

UNARY, BINARY, CALL = "unary", "binary", "call"
LEFT_OVER = "u32"


def item(t, table, running):
    """An item that brings a value of a type whose element is in the table."""
    mark = bytes([running])
    if t in table:
        return tool.item(tool.PUSH, table.index(t), mark)
    kinds = {"vec": 7, "mat": 8, "array": 9, "runtime": 10, "atomic": 11, "ptr": 12, "ref": 13, "frexp": 14, "modf": 15, "exchange": 16}
    p = q = 0
    if t[0] in ("vec", "array"):
        p = t[1]
    elif t[0] == "mat":
        p, q = t[1:3]
    elif t[0] in ("ptr", "ref"):
        p, q = model.SPACES.index(t[1]), model.ACCESSES.index(t[2])
    taken = tool.item(tool.TAKE, kinds[t[0]], p.to_bytes(4, "big"), q, table.index(model.elem(t)), mark)
    table.append(t)
    return taken


def sheet(what, name, types, marks):
    """A sheet of version 2 of one operator or call."""
    table, body, below = list(model.SCALARS), b"", False

    def enter(t):
        nonlocal body, below
        if t in table:
            return
        enter(model.elem(t))
        body += item(t, table, False) + tool.call_item(f"bitcast<{LEFT_OVER}>", "1") + (tool.item(tool.BINARY, model.BINARY.index("+")) if below else b"")
        below = True

    for t in types:
        if not is_scalar(t):
            enter(model.elem(t))
    for t, running in zip(types, marks):
        body += item(t, table, running)
    if what == CALL:
        body += tool.call_item(name, str(len(types)))
    elif what == UNARY:
        body += tool.item(tool.UNARY, model.UNARY.index(name))
    else:
        body += tool.item(tool.BINARY, model.BINARY.index(name))
    return tool.header_of(tool.MARKED, body) + body


def near_types(parameter):
    """The scalars and vectors that convert to a parameter."""
    return [t for s in model.SCALARS for n in model.WIDE if model.rank(t := v(n, s), parameter) is not None]


def rows():
    """Every row that is listed: what it is, its name, its overloads, its profile."""
    for name, overloads in model.UNARY_ROWS.items():
        yield UNARY, name, overloads, 0
    for name, overloads in model.BINARY_ROWS.items():
        yield BINARY, name, overloads, 0
    for name, overloads in model.BASE_ROWS.items():
        yield CALL, name, overloads, 0
    for name, overloads in model.SUBGROUP_ROWS.items():
        yield CALL, name, overloads, 1


def each_overload():
    """Each overload on its own parameters: all const, and where none is abstract all running."""
    for what, name, overloads, profile in rows():
        for parameters, _ in overloads:
            yield profile, sheet(what, name, parameters, [False] * len(parameters))
            if parameters and not any(map(model.abstract_at_any_depth, parameters)):
                yield profile, sheet(what, name, parameters, [True] * len(parameters))


def each_dropped():
    """Each overload that has both an abstract and a concrete parameter, on all that converts to it: what is concrete is running, so that it fits and is dropped."""
    for what, name, overloads, profile in rows():
        for parameters, _ in overloads:
            marks = [not model.abstract_at_any_depth(p) for p in parameters]
            if any(marks) and not all(marks):
                converting = [[p] if running else near_types(p) for p, running in zip(parameters, marks)]
                for types in itertools.product(*converting):
                    yield profile, sheet(what, name, types, marks)


def each_pair():
    """Each row of one operand on scalars and vectors of two, each of two on pairs of scalars: refused or not."""
    plain = model.SCALARS + [v(2, s) for s in model.SCALARS]
    for what, name, overloads, profile in rows():
        k = len(overloads[0][0])
        if k <= 2:
            for types in itertools.product(plain if k == 1 else model.SCALARS, repeat=k):
                yield profile, sheet(what, name, types, [False] * k)


def by_chance(random, count):
    """Operands near to a row's parameters, and others."""
    listed = list(rows())
    described = [(UNARY, "&", 1), (UNARY, "*", 1)] + [(CALL, name, k) for name, (k, _) in model.MEMORY.items()]
    fewer = {s: [t for t in model.SCALARS if model.rank(t, s) is not None] for s in model.SCALARS}

    def any_type(depth=2):
        way = random.randrange(12 if depth else 6)
        if way < 3:
            return random.choice(model.SCALARS)
        if way < 5:
            return ("vec", random.randint(2, 4), random.choice(model.SCALARS))
        if way == 5:
            return model.m(random.randint(2, 4), random.randint(2, 4), random.choice(model.FLOAT))
        if way == 6:
            return ("atomic", random.choice(model.BITS))
        if way == 7:
            return (random.choice(["frexp", "modf"]), v(random.randint(1, 4), random.choice(model.FLOAT)))
        if way == 8:
            return ("exchange", random.choice(model.BITS))
        of = any_type(depth - 1)
        while model.kind(of) in ("ptr", "ref", "runtime"):
            of = any_type(depth - 1)
        if way == 9:
            return random.choice([("runtime", of), ("array", random.choice([1, 4, 4294967295]), of)])
        if model.abstract_at_any_depth(of):
            return ("array", 2, of)
        return pointer(of)

    def pointer(of):
        head = random.choice(["ptr", "ptr", "ptr", "ref"])
        return (head, random.choice(model.SPACES[:5] if head == "ptr" else model.SPACES), random.choice(model.ACCESSES), of)

    def near(t):
        """A type that converts to a parameter."""
        if is_scalar(t):
            return random.choice(fewer[t])
        components = fewer[model.elem(t)] if t[0] == "vec" else [s for s in fewer[model.elem(t)] if s in model.FLOAT]
        return t[:-1] + (random.choice(components),)

    def first_operand():
        of = random.choice([("atomic", "i32"), ("atomic", "u32"), "f32", ("runtime", "f32"), ("array", 3, ("atomic", "u32")), ("vec", 2, "i32")])
        return random.choice([any_type(), ("ptr", random.choice(["storage", "workgroup"]), "read_write", of), pointer(of)])

    for _ in range(count):
        if random.randrange(4):
            what, name, overloads, profile = random.choice(listed)
            types = [near(t) for t in random.choice(overloads)[0]]
            if types and random.randrange(3) == 0:
                types[random.randrange(len(types))] = any_type()
        else:
            what, name, k = random.choice(described)
            profile, types = random.randrange(2), [first_operand()] + [random.choice(model.SCALARS + [any_type()]) for _ in range(k - 1)]
        # A running operand that is abstract is 14, which has no lines.
        marks = [random.randrange(2) == 1 and (not model.abstract_at_any_depth(t) or random.randrange(20) == 0) for t in types]
        yield profile, sheet(what, name, types, marks)
