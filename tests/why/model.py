"""A model of document 02's K7, "Tell me why": what an operator or a call answers, and the text that says why.

It is written overload by overload from documents 01 and 02 and the readings of them that settle a line's words, and takes no table and no code from what is proved: tests/why/run
holds the two to each other.

A type is a scalar's name, as "f32", or a tuple: ("vec", 3, "f32"), ("mat", COLUMNS, ROWS, "f32"), ("array", COUNT, type), ("runtime", type), ("atomic", "u32"),
("ptr", space, access, type), ("ref", space, access, type), ("frexp", type), ("modf", type), ("exchange", "u32"). An overload is a pair: its parameters, its result.
"""
import re

BOOL, ABSTRACT_INT, ABSTRACT_FLOAT, I32, U32, F32, F16 = SCALARS = ["bool", "AbstractInt", "AbstractFloat", "i32", "u32", "f32", "f16"]
SPACES = ["function", "private", "workgroup", "uniform", "storage", "handle"]
ACCESSES = ["read", "write", "read_write"]
UNARY = ["!", "-", "~", "&", "*"]
BINARY = ["||", "&&", "+", "-", "*", "/", "%", "==", "!=", "<", "<=", ">", ">=", "|", "&", "^", "<<", ">>"]

# TYPES


def v(n, t):
    """A vector of n; "wide" counts a scalar as one of 1."""
    return t if n == 1 else ("vec", n, t)


def m(c, r, t):
    return ("mat", c, r, t)


def is_scalar(t):
    return isinstance(t, str)


def kind(t):
    return "scalar" if is_scalar(t) else t[0]


def elem(t):
    """The last part of every type that is no scalar is its element."""
    return t[-1]


def at_any_depth(test, t):
    return test(t) or not is_scalar(t) and at_any_depth(test, elem(t))


def is_abstract(t):
    return t in (ABSTRACT_INT, ABSTRACT_FLOAT)


def abstract_at_any_depth(t):
    return at_any_depth(is_abstract, t)


def spelled(t):
    """Document 01, "Spelling"."""
    if is_scalar(t):
        return t
    if t[0] == "vec":
        return f"vec{t[1]}<{t[2]}>"
    if t[0] == "mat":
        return f"mat{t[1]}x{t[2]}<{t[3]}>"
    if t[0] == "array":
        return f"array<{spelled(t[2])},{t[1]}>"
    if t[0] == "runtime":
        return f"array<{spelled(t[1])}>"
    if t[0] == "atomic":
        return f"atomic<{t[1]}>"
    if t[0] in ("ptr", "ref"):
        return f"{t[0]}<{t[1]},{spelled(t[3])},{t[2]}>"
    if t[0] == "exchange":
        return f"__atomic_compare_exchange_result<{t[1]}>"
    component = elem(t) if is_scalar(elem(t)) else elem(elem(t))
    width = "" if is_scalar(elem(t)) else f"vec{elem(t)[1]}_"
    return f"__{t[0]}_result_{width}{'abstract' if component == ABSTRACT_FLOAT else component}"


def read(text):
    """The type of a spelling: `spelled` the other way round."""
    if text in SCALARS:
        return text
    if found := re.fullmatch(r"vec([234])<(\w+)>", text):
        return ("vec", int(found[1]), found[2])
    if found := re.fullmatch(r"mat([234])x([234])<(\w+)>", text):
        return m(int(found[1]), int(found[2]), found[3])
    if found := re.fullmatch(r"array<(.*),(\d+)>", text):
        return ("array", int(found[2]), read(found[1]))
    if found := re.fullmatch(r"array<(.*)>", text):
        return ("runtime", read(found[1]))
    if found := re.fullmatch(r"atomic<(\w+)>", text):
        return ("atomic", found[1])
    if found := re.fullmatch(r"(ptr|ref)<(\w+),(.*),(\w+)>", text):
        return (found[1], found[2], found[4], read(found[3]))
    if found := re.fullmatch(r"__atomic_compare_exchange_result<(\w+)>", text):
        return ("exchange", found[1])
    if found := re.fullmatch(r"__(frexp|modf)_result_(?:vec([234])_)?(abstract|f32|f16)", text):
        component = ABSTRACT_FLOAT if found[3] == "abstract" else found[3]
        return (found[1], v(int(found[2] or 1), component))
    raise ValueError(f"'{text}' spells no type")


# CONVERSION

# Document 01: "a type to itself 0; AbstractFloat to f32 1, to f16 2; AbstractInt to i32 3, u32 4, AbstractFloat 5, f32 6, f16 7; nothing else"
RANKS = {
    (ABSTRACT_FLOAT, F32): 1,
    (ABSTRACT_FLOAT, F16): 2,
    (ABSTRACT_INT, I32): 3,
    (ABSTRACT_INT, U32): 4,
    (ABSTRACT_INT, ABSTRACT_FLOAT): 5,
    (ABSTRACT_INT, F32): 6,
    (ABSTRACT_INT, F16): 7,
}


def rank(t, parameter):
    """The rank of a type's conversion to a parameter, or None. "Vectors of equal width and matrices of equal shape convert by component, with its rank"."""
    if t == parameter:
        return 0
    if kind(t) == kind(parameter) == "scalar":
        return RANKS.get((t, parameter))
    if kind(t) == kind(parameter) and kind(t) in ("vec", "mat") and t[:-1] == parameter[:-1]:
        return RANKS.get((elem(t), elem(parameter)))
    return None


# THE OVERLOADS: of each row in the order of document 01's row, then of T's number, then of the size, the left parameter first

WIDTHS = [2, 3, 4]
WIDE = [1, 2, 3, 4]
FLOAT = [ABSTRACT_FLOAT, F32, F16]
INTEGER = [ABSTRACT_INT, I32, U32]
NUMERIC = [ABSTRACT_INT, ABSTRACT_FLOAT, I32, U32, F32, F16]
NOT_U32 = [ABSTRACT_INT, ABSTRACT_FLOAT, I32, F32, F16]
BITS = [I32, U32]
CONCRETE = [I32, U32, F32, F16]
ALL = [BOOL] + NUMERIC


def same(k, ts, sizes=WIDE):
    """k parameters and the result of one type."""
    return [((v(n, t),) * k, v(n, t)) for t in ts for n in sizes]


def to_component(k, ts, sizes):
    return [((v(n, t),) * k, t) for t in ts for n in sizes]


def to_bool(ts):
    return [((v(n, t), v(n, t)), v(n, BOOL)) for t in ts for n in WIDE]


ARITHMETIC = (
    same(2, NUMERIC)
    + [((v(n, t), t), v(n, t)) for t in NUMERIC for n in WIDTHS]
    + [((t, v(n, t)), v(n, t)) for t in NUMERIC for n in WIDTHS]
)
ADDITIVE = ARITHMETIC + [((m(c, r, t), m(c, r, t)), m(c, r, t)) for t in FLOAT for c in WIDTHS for r in WIDTHS]
PRODUCT = (
    ARITHMETIC
    + [((m(c, r, t), t), m(c, r, t)) for t in FLOAT for c in WIDTHS for r in WIDTHS]
    + [((t, m(c, r, t)), m(c, r, t)) for t in FLOAT for c in WIDTHS for r in WIDTHS]
    + [((m(c, r, t), v(c, t)), v(r, t)) for t in FLOAT for c in WIDTHS for r in WIDTHS]
    + [((v(r, t), m(c, r, t)), v(c, t)) for t in FLOAT for r in WIDTHS for c in WIDTHS]
    + [((m(k, r, t), m(c, k, t)), m(c, r, t)) for t in FLOAT for k in WIDTHS for r in WIDTHS for c in WIDTHS]
)

UNARY_ROWS = {"!": same(1, [BOOL]), "-": same(1, NOT_U32), "~": same(1, INTEGER)}

BINARY_ROWS = {
    **dict.fromkeys(["||", "&&"], same(2, [BOOL], [1])),
    **dict.fromkeys(["+", "-"], ADDITIVE),
    "*": PRODUCT,
    **dict.fromkeys(["/", "%"], ARITHMETIC),
    **dict.fromkeys(["==", "!="], to_bool(ALL)),
    **dict.fromkeys(["<", "<=", ">", ">="], to_bool(NUMERIC)),
    **dict.fromkeys(["|", "&"], same(2, INTEGER) + same(2, [BOOL])),
    "^": same(2, INTEGER),
    **dict.fromkeys(["<<", ">>"], [((v(n, t), v(n, U32)), v(n, t)) for t in INTEGER for n in WIDE]),
}


def rows(names, overloads):
    return dict.fromkeys(names.split(), overloads)


# Document 01, "Builtins"; ldexp is of document 02, K6
BASE_ROWS = {
    **rows("acos acosh asin asinh atan atanh ceil cos cosh degrees exp exp2 floor fract inverseSqrt log log2 radians round saturate sin sinh sqrt tan tanh trunc", same(1, FLOAT)),
    **rows("atan2 pow step", same(2, FLOAT)),
    **rows("fma smoothstep", same(3, FLOAT)),
    "mix": same(3, FLOAT) + [((v(n, t), v(n, t), t), v(n, t)) for t in FLOAT for n in WIDTHS],
    "abs": same(1, NUMERIC),
    **rows("max min", same(2, NUMERIC)),
    "clamp": same(3, NUMERIC),
    "sign": same(1, NOT_U32),
    **rows("countLeadingZeros countOneBits countTrailingZeros firstLeadingBit firstTrailingBit reverseBits", same(1, BITS)),
    "extractBits": [((v(n, t), U32, U32), v(n, t)) for t in BITS for n in WIDE],
    "insertBits": [((v(n, t), v(n, t), U32, U32), v(n, t)) for t in BITS for n in WIDE],
    "length": to_component(1, FLOAT, WIDE),
    "distance": to_component(2, FLOAT, WIDE),
    "dot": to_component(2, NUMERIC, WIDTHS),
    "normalize": same(1, FLOAT, WIDTHS),
    "reflect": same(2, FLOAT, WIDTHS),
    "faceForward": same(3, FLOAT, WIDTHS),
    "refract": [((v(n, t), v(n, t), t), v(n, t)) for t in FLOAT for n in WIDTHS],
    "cross": same(2, FLOAT, [3]),
    "determinant": [((m(n, n, t),), t) for t in FLOAT for n in WIDTHS],
    "transpose": [((m(c, r, t),), m(r, c, t)) for t in FLOAT for c in WIDTHS for r in WIDTHS],
    **rows("dpdx dpdy fwidth dpdxCoarse dpdyCoarse fwidthCoarse dpdxFine dpdyFine fwidthFine quantizeToF16", same(1, [F32])),
    "frexp": [((v(n, t),), ("frexp", v(n, t))) for t in FLOAT for n in WIDE],
    "modf": [((v(n, t),), ("modf", v(n, t))) for t in FLOAT for n in WIDE],
    **rows("pack4x8snorm pack4x8unorm", [((v(4, F32),), U32)]),
    **rows("pack4xI8 pack4xI8Clamp", [((v(4, I32),), U32)]),
    **rows("pack4xU8 pack4xU8Clamp", [((v(4, U32),), U32)]),
    **rows("pack2x16snorm pack2x16unorm pack2x16float", [((v(2, F32),), U32)]),
    **rows("unpack4x8snorm unpack4x8unorm", [((U32,), v(4, F32))]),
    "unpack4xI8": [((U32,), v(4, I32))],
    "unpack4xU8": [((U32,), v(4, U32))],
    **rows("unpack2x16snorm unpack2x16unorm unpack2x16float", [((U32,), v(2, F32))]),
    "dot4U8Packed": [((U32, U32), U32)],
    "dot4I8Packed": [((U32, U32), I32)],
    **rows("all any", [((v(n, BOOL),), BOOL) for n in WIDE]),
    "select": (
        [((v(n, t), v(n, t), BOOL), v(n, t)) for t in ALL for n in WIDE]
        + [((v(n, t), v(n, t), v(n, BOOL)), v(n, t)) for t in ALL for n in WIDTHS]
    ),
    "ldexp": [((v(n, t), v(n, ABSTRACT_INT if t == ABSTRACT_FLOAT else I32)), v(n, t)) for t in FLOAT for n in WIDE],
}

# Document 02, K1: what profile 1 adds
SUBGROUP_ROWS = {
    **rows("subgroupAdd subgroupExclusiveAdd subgroupInclusiveAdd subgroupMul subgroupExclusiveMul subgroupInclusiveMul subgroupMax subgroupMin", same(1, CONCRETE)),
    **rows("subgroupBroadcastFirst quadSwapDiagonal quadSwapX quadSwapY", same(1, CONCRETE)),
    **rows("subgroupAnd subgroupOr subgroupXor", same(1, BITS)),
    **rows("subgroupAll subgroupAny", same(1, [BOOL], [1])),
    "subgroupBallot": [((BOOL,), v(4, U32))],
    "subgroupElect": [((), BOOL)],
    **rows("subgroupBroadcast subgroupShuffle quadBroadcast", [((v(n, t), i), v(n, t)) for t in CONCRETE for n in WIDE for i in BITS]),
    **rows("subgroupShuffleDown subgroupShuffleUp subgroupShuffleXor", [((v(n, t), U32), v(n, t)) for t in CONCRETE for n in WIDE]),
}

BARRIERS = ["storageBarrier", "textureBarrier", "workgroupBarrier"]
DERIVATIVES = "dpdx dpdy fwidth dpdxCoarse dpdyCoarse fwidthCoarse dpdxFine dpdyFine fwidthFine".split()

# RULES THAT ARE NOT LISTED: for the operands' types the result, or which operand is wrong first, counted from 0, and what is wanted there

NO_VALUE = "no value"

# The values of the calls on atomics.
VALUES = {
    "atomicLoad": 0,
    **dict.fromkeys(["atomicStore", "atomicAdd", "atomicSub", "atomicMax", "atomicMin", "atomicAnd", "atomicOr", "atomicXor", "atomicExchange"], 1),
    "atomicCompareExchangeWeak": 2,
}


class Wrong(Exception):
    """The operand that breaks a rule, counted from 0, and what is wanted in its place."""


def address_of(t):
    if kind(t) != "ref" or t[1] == "handle":
        raise Wrong(0, "a reference, not in space handle")
    return ("ptr",) + t[1:]


def indirection(t):
    if kind(t) != "ptr":
        raise Wrong(0, "a pointer")
    return ("ref",) + t[1:]


def array_length(t):
    if kind(t) != "ptr" or t[1] != "storage" or t[2] not in ("read", "read_write") or kind(elem(t)) != "runtime":
        raise Wrong(0, "a pointer in space storage, read or read_write, to an array without count")
    return U32


def uniform_load(t):
    """"gives the component of an atomic, else the element, which is no kind 10 and holds no atomic"."""
    if kind(t) == "ptr" and t[1:3] == ("workgroup", "read_write"):
        if kind(elem(t)) == "atomic":
            return elem(elem(t))
        if kind(elem(t)) != "runtime" and not at_any_depth(lambda u: kind(u) == "atomic", elem(t)):
            return elem(t)
    raise Wrong(0, "a read_write pointer in space workgroup to an atomic, or to a type of fixed size with no atomic in it")


def on_atomic(name):
    def judged(t, *values):
        if kind(t) != "ptr" or t[1] not in ("storage", "workgroup") or t[2] != "read_write" or kind(elem(t)) != "atomic":
            raise Wrong(0, "a read_write pointer in space storage or workgroup to an atomic")
        component = elem(elem(t))
        for i, value in enumerate(values, 1):
            if rank(value, component) is None:
                raise Wrong(i, component)
        return {"atomicStore": NO_VALUE, "atomicCompareExchangeWeak": ("exchange", component)}.get(name, component)

    return judged


# by name: how many operands, and the rule
MEMORY = {
    "arrayLength": (1, array_length),
    "workgroupUniformLoad": (1, uniform_load),
    **{name: (1 + values, on_atomic(name)) for name, values in VALUES.items()},
}

# CALLS


class Refused(Exception):
    """A refusal's number, and how many entries lack."""

    def __init__(self, number, lacking=0):
        super().__init__(number)
        self.number, self.lacking = number, lacking


def names_of(profile):
    """Every builtin of a profile."""
    base = [*BASE_ROWS, *MEMORY, "bitcast", *BARRIERS]
    return {0: base, 1: base + [*SUBGROUP_ROWS]}[profile]


def line(text):
    return f"{text}\n"


def signature(parameters):
    return f"({', '.join(map(spelled, parameters))})"


def first_misfit(parameters, types):
    """The first operand that does not convert, counted from 0; None where all do."""
    return next((i for i, (t, p) in enumerate(zip(types, parameters)) if rank(t, p) is None), None)


def is_dropped(parameters, marks):
    """K3: "dropped when some operand has an abstract type after conversion and another operand is not a const-expression"."""
    return any(abstract_at_any_depth(p) and any(running for j, running in enumerate(marks) if j != i) for i, p in enumerate(parameters))


def is_preferred(a, b):
    """Ranks of which none is worse and one is better."""
    return all(x <= y for x, y in zip(a, b)) and any(x < y for x, y in zip(a, b))


def misfit_line(parameters, types):
    i = first_misfit(parameters, types)
    return line(f"{signature(parameters)}: operand {i + 1} is {spelled(types[i])}")


def dropped_line(parameters, marks):
    first_abstract = next(i for i, p in enumerate(parameters) if abstract_at_any_depth(p))
    return line(f"{signature(parameters)}: dropped, operand {first_abstract + 1} is abstract and operand {marks.index(True) + 1} is running")


def chosen_line(parameters, ranks):
    told = {0: "", 1: f", rank {' '.join(map(str, ranks))}"}.get(len(ranks), f", ranks {' '.join(map(str, ranks))}")
    return line(f"{signature(parameters)}: chosen{told}")


def by_row(overloads, types, marks):
    """The result of a listed row, or None where no overload fits; and the text."""
    fitting = [o for o in overloads if first_misfit(o[0], types) is None]
    left = [o for o in fitting if not is_dropped(o[0], marks)]
    if not fitting:
        return None, "".join(misfit_line(parameters, types) for parameters, _ in overloads)
    ranked = [([rank(t, p) for t, p in zip(types, parameters)], (parameters, result)) for parameters, result in left]
    best = [(ranks, o) for ranks, o in ranked if all(o is other or is_preferred(ranks, others) for others, other in ranked)]
    assert len(best) == 1, (types, marks)
    ranks, (parameters, result) = best[0]
    return result, chosen_line(parameters, ranks) + "".join(dropped_line(o[0], marks) for o in fitting if is_dropped(o[0], marks))


def by_rule(rule, types):
    """The same of a rule that is not listed: an accepted call has no line, a refused one a single line."""
    try:
        return rule(*types), ""
    except Wrong as wrong:
        i, wanted = wrong.args
        return None, line(f"operand {i + 1} is {spelled(types[i])}, wanted is {wanted}")


def references_and_marks(types, marks, taken=False):
    """Refusals 3 and 14, in this order."""
    if not taken and any(kind(t) == "ref" for t in types):
        raise Refused(3)
    if any(running and abstract_at_any_depth(t) for t, running in zip(types, marks)):
        raise Refused(14)


# What is answered: the result or NO_VALUE, None where the call is refused with 8; whether the result is running; the text that says why. Other refusals are raised.


def unary(op, types, marks):
    if not 0 <= op < len(UNARY):
        raise Refused(4)
    sign = UNARY[op]
    references_and_marks(types, marks, taken=sign == "&")
    if sign in UNARY_ROWS:
        result, text = by_row(UNARY_ROWS[sign], types, marks)
    else:
        result, text = by_rule({"&": address_of, "*": indirection}[sign], types)
    return result, any(marks), text


def binary(op, types, marks):
    if not 0 <= op < len(BINARY):
        raise Refused(4)
    references_and_marks(types, marks)
    result, text = by_row(BINARY_ROWS[BINARY[op]], types, marks)
    return result, any(marks), text


def bitcast(templates):
    """"one template type, numeric scalar or vector (else 5)"."""
    if len(templates) != 1 or not (kind(templates[0]) in ("scalar", "vec") and (templates[0] if is_scalar(templates[0]) else elem(templates[0])) in NUMERIC):
        raise Refused(5)
    return templates[0]


def call(profile, name, templates, types, marks):
    if profile not in (0, 1) or name not in names_of(profile):
        raise Refused(4)
    if name == "bitcast":
        result = bitcast(templates)
    elif templates:
        raise Refused(5)
    listed = {**BASE_ROWS, **SUBGROUP_ROWS}.get(name)
    if listed:
        count = len(listed[0][0])
    else:
        count = {"bitcast": 1, **dict.fromkeys(BARRIERS, 0)}.get(name) if name not in MEMORY else MEMORY[name][0]
    if len(types) != count:
        raise Refused(7)
    references_and_marks(types, marks)
    running = any(marks) or name in DERIVATIVES or name in MEMORY or name in SUBGROUP_ROWS
    if name in BARRIERS:
        return NO_VALUE, False, ""
    if name == "bitcast":
        return result, running, ""
    result, text = by_row(listed, types, marks) if listed else by_rule(MEMORY[name][1], types)
    return result, running and result != NO_VALUE, text
