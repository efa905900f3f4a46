"""Calls and their texts for the C host, by the model: hosts/c/why_rows.h, which hosts/c/why.c holds the library to. tests/why/run --store writes it.

Every listed operator and builtin is there accepted and refused, and every rule that is not listed, by each operand that may break it. A text of many lines stands by its length and
its FNV-1a sum: the stored cases have such texts whole.
"""
import model
from cases import ROOT
from model import m, v

PATH = ROOT / "hosts" / "c" / "why_rows.h"
MOST_LINES = 4
# 256 entries less the seven scalars, a result type of a compare below the arrays, and a pointer above them.
ARRAYS = 247
ATOMIC_I32, ATOMIC_U32 = ("atomic", "i32"), ("atomic", "u32")

# The table: after the scalars these, an element before its container.
TABLE = list(model.SCALARS) + [
    v(2, "f32"), v(3, "f32"), v(4, "f32"), v(2, "AbstractInt"), v(3, "AbstractFloat"), v(4, "i32"), v(4, "u32"), v(2, "u32"), v(2, "bool"),
    m(2, 2, "f32"), m(4, 3, "f32"), m(2, 4, "f32"), m(3, 3, "AbstractFloat"),
    ("runtime", "f32"), ("array", 4, "f32"), ("array", 4294967295, "AbstractFloat"), ATOMIC_I32, ATOMIC_U32, ("array", 2, ATOMIC_U32), ("exchange", "i32"), ("frexp", "f16"), ("modf", v(3, "AbstractFloat")),
    ("ptr", "storage", "read_write", ATOMIC_I32), ("ptr", "workgroup", "read_write", ATOMIC_U32), ("ptr", "storage", "read", ATOMIC_U32), ("ptr", "workgroup", "write", ATOMIC_I32),
    ("ptr", "private", "read_write", ATOMIC_U32), ("ptr", "storage", "read_write", "u32"), ("ptr", "storage", "read", ("runtime", "f32")), ("ptr", "storage", "read_write", ("runtime", "f32")),
    ("ptr", "storage", "write", ("runtime", "f32")), ("ptr", "workgroup", "read_write", ("runtime", "f32")), ("ptr", "storage", "read", ("array", 4, "f32")),
    ("ptr", "workgroup", "read_write", v(2, "f32")), ("ptr", "workgroup", "read", v(2, "f32")), ("ptr", "workgroup", "read_write", ("array", 2, ATOMIC_U32)),
    ("ref", "function", "read_write", "f32"), ("ref", "handle", "read", "f32"),
]

KINDS = ["vec", "mat", "array", "runtime", "atomic", "ptr", "ref", "frexp", "modf", "exchange"]
WHAT = {"unary": "UNARY_WHY", "binary": "BINARY_WHY", "call": "CALL_WHY"}


def entry(t):
    """The four words of a type's entry."""
    if model.is_scalar(t):
        return model.SCALARS.index(t), 0, 0, 0
    p, q = {"vec": lambda: (t[1], 0), "mat": lambda: t[1:3], "array": lambda: (t[1], 0)}.get(t[0], lambda: (0, 0))()
    if t[0] in ("ptr", "ref"):
        p, q = model.SPACES.index(t[1]), model.ACCESSES.index(t[2])
    return 7 + KINDS.index(t[0]), p, q, TABLE.index(model.elem(t))


def listed():
    """What each listed row is, its name, its overloads, its profile."""
    rows = [("unary", model.UNARY_ROWS, 0), ("binary", model.BINARY_ROWS, 0), ("call", model.BASE_ROWS, 0), ("call", model.SUBGROUP_ROWS, 1)]
    return [(what, name, overloads, profile) for what, named, profile in rows for name, overloads in named.items()]


def calls():
    """What is asked, its name, its profile, its operands as they are spelled, with a * where one is running."""
    for what, name, overloads, profile in listed():
        held = [parameters for parameters, _ in overloads if all(p in TABLE for p in parameters)]
        accepted = list(map(model.spelled, held[len(held) // 2]))
        yield what, name, profile, accepted
        # No overload takes the result type of frexp: the last operand is a misfit, and where there are more, some overloads have the first.
        if accepted:
            yield what, name, profile, accepted[:-1] + ["__frexp_result_f16"]
    for operands in ["AbstractInt AbstractInt bool*", "AbstractInt AbstractFloat bool*", "vec2<AbstractInt> vec2<AbstractInt> bool*", "vec2<AbstractInt> vec2<AbstractInt> vec2<bool>*",
                     "AbstractInt AbstractInt bool", "f16* AbstractInt bool*", "AbstractInt bool bool*"]:
        yield "call", "select", 0, operands.split()
    for operands in ["AbstractInt u32*", "AbstractInt u32", "vec2<AbstractInt> vec2<u32>*", "u32* AbstractInt"]:
        yield "binary", "<<", 0, operands.split()
    yield "call", "clamp", 0, ["AbstractInt", "AbstractFloat", "f16*"]
    yield "call", "insertBits", 0, ["AbstractInt", "i32*", "AbstractInt", "u32"]
    for operands in [["bool", "bool"], ["mat4x3<f32>", "mat2x4<f32>"], ["mat4x3<f32>", "vec4<f32>"], ["vec3<AbstractFloat>", "mat4x3<f32>"], ["AbstractInt", "mat3x3<AbstractFloat>"], ["vec2<f32>", "array<f32>"]]:
        yield "binary", "*", 0, operands
    # Rules that are not listed: on every type of the table that is no reference.
    for t in TABLE:
        yield "unary", "&", 0, [model.spelled(t)]
        if model.kind(t) != "ref":
            for name in ["arrayLength", "workgroupUniformLoad", "atomicLoad"]:
                yield "call", name, 0, [model.spelled(t)]
            yield "unary", "*", 0, [model.spelled(t)]
    right = ["ptr<storage,atomic<i32>,read_write>", "ptr<workgroup,atomic<u32>,read_write>"]
    for name, k in model.VALUES.items():
        for pointer in right + ["ptr<storage,atomic<u32>,read>", "ptr<private,atomic<u32>,read_write>"]:
            for value in ["i32", "u32*", "AbstractInt", "AbstractFloat", "vec4<i32>"] if k else []:
                yield "call", name, 1, [pointer] + [value] * k
    for pointer in right:
        for values in [["AbstractInt", "f32"], ["f32", "AbstractInt"], ["i32", "u32"], ["u32", "i32"]]:
            yield "call", "atomicCompareExchangeWeak", 0, [pointer] + values


def answer(what, name, profile, operands):
    """The text of a call that is accepted or refused with 8."""
    types, marks = [model.read(o.rstrip("*")) for o in operands], [o.endswith("*") for o in operands]
    if what == "call":
        result, _, text = model.call(profile, name, [], types, marks)
    else:
        signs, judged = (model.UNARY, model.unary) if what == "unary" else (model.BINARY, model.binary)
        result, _, text = judged(signs.index(name), types, marks)
    return result is not None, text


def fnv(text):
    total = 0x811C9DC5
    for byte in text.encode("ascii"):
        total = (total ^ byte) * 0x01000193 % 2**32
    return total


def row(what, name, profile, operands):
    accepted, text = answer(what, name, profile, operands)
    numbers = ", ".join(f"RUNNING({TABLE.index(model.read(o[:-1]))})" if o.endswith("*") else str(TABLE.index(model.read(o))) for o in operands) or "0"
    op = {"unary": model.UNARY, "binary": model.BINARY}.get(what, [name]).index(name)
    lines = text.splitlines(True)
    literal = "NULL" if len(lines) > MOST_LINES else " ".join(f'"{line[:-1]}\\n"' for line in lines) or '""'
    comment = f"{name}({', '.join(operands)})"
    head = f'{WHAT[what]}, {op}, "{name if what == "call" else ""}", {profile}, {len(operands)}, {{{numbers}}}, {0 if accepted else 8}, {len(text)}, 0x{fnv(text):08x}u'
    return f"    /* {comment} */\n    {{{head},\n     {literal}}},\n"


def longest():
    """The longest text: `*` on the type that has the longest spelling in a table of 256 entries, and bool. Its arrays are as many as the table has room for."""
    t = ("exchange", "i32")
    for _ in range(ARRAYS):
        t = ("array", 4294967295, t)
    return model.binary(model.BINARY.index("*"), [("ptr", "workgroup", "read_write", t), "bool"], [False, False])[2]


def header():
    """The whole file."""
    text = longest()
    entries = "".join(f"    {{{', '.join(map(lambda n: f'{n}u', entry(t)))}}}, /* {i} {model.spelled(t)} */\n" for i, t in enumerate(TABLE))
    seen, rows = set(), ""
    for asked in calls():
        key = repr(asked)
        if key not in seen:
            seen.add(key)
            rows += row(*asked)
    return (
        "/* Calls and the texts that say why, as the model of tests/why has them. tests/why/run --store writes this file. */\n"
        f"static const uint32_t why_table[][4] = {{\n{entries}}};\n\n"
        "/* What is asked, operator, name, profile, operands; what the call itself answers, accepted or 8; the text's length and FNV-1a sum, and the text where it has few lines. */\n"
        f"static const struct why_row why_rows[] = {{\n{rows}}};\n\n"
        "/* The longest text: the arrays that its first operand has one in the other, its lines, its length and its sum. */\n"
        f"enum {{ WHY_ARRAYS = {ARRAYS}, WHY_LINES = {len(text.splitlines())} }};\n"
        f"#define WHY_LENGTH {len(text)}u\n"
        f"#define WHY_SUM 0x{fnv(text):08x}u\n"
    )
