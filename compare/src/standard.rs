//! Document 01, and of document 02 the subgroup and quad calls, the marks of operands, the calls on memory, ldexp and arrayLength, read as plainly as can be: every overload
//! of every row is listed, and a call is judged by a search through them all; workgroupUniformLoad and arrayLength, which have too many, each by its rule. A call
//! is one of profile 1, which has every name.
//!
//! It shares no line with the crate's files, with their stand-ins or with Swartabelk. It is slow, and a third opinion.

use crate::case::{Answer, Argument, Case, Operation};
use crate::types::Scalar::{self, *};
use crate::types::{Access, Space, WType};
use rows::{binary, ruled, scalar, unary};
use std::collections::HashMap;

mod rows;
pub use rows::{DERIVATIVES, FLOAT_ONE};

/// Refusals by document 01's numbers.
pub mod refusal {
    pub const REFERENCE: u32 = 3;
    pub const UNKNOWN: u32 = 4;
    pub const TEMPLATE: u32 = 5;
    pub const COUNT: u32 = 6;
    pub const OPERANDS: u32 = 7;
    pub const NONE_FITS: u32 = 8;
    pub const NO_ROOM: u32 = 9;
    pub const RUNNING_ABSTRACT: u32 = 14;
}

/// The 94 builtin names of document 01, sorted by their bytes.
#[rustfmt::skip]
pub const NAMES: [&str; 94] = [
    "abs", "acos", "acosh", "all", "any", "arrayLength", "asin", "asinh", "atan", "atan2", "atanh", "bitcast", "ceil", "clamp", "cos", "cosh",
    "countLeadingZeros", "countOneBits", "countTrailingZeros", "cross", "degrees", "determinant", "distance", "dot", "dot4I8Packed",
    "dot4U8Packed", "dpdx", "dpdxCoarse", "dpdxFine", "dpdy", "dpdyCoarse", "dpdyFine", "exp", "exp2", "extractBits", "faceForward",
    "firstLeadingBit", "firstTrailingBit", "floor", "fma", "fract", "frexp", "fwidth", "fwidthCoarse", "fwidthFine", "insertBits", "inverseSqrt",
    "ldexp", "length", "log", "log2", "max", "min", "mix", "modf", "normalize", "pack2x16float", "pack2x16snorm", "pack2x16unorm",
    "pack4x8snorm", "pack4x8unorm", "pack4xI8", "pack4xI8Clamp", "pack4xU8", "pack4xU8Clamp", "pow", "quantizeToF16", "radians", "reflect",
    "refract", "reverseBits", "round", "saturate", "select", "sign", "sin", "sinh", "smoothstep", "sqrt", "step", "storageBarrier", "tan",
    "tanh", "textureBarrier", "transpose", "trunc", "unpack2x16float", "unpack2x16snorm", "unpack2x16unorm", "unpack4x8snorm",
    "unpack4x8unorm", "unpack4xI8", "unpack4xU8", "workgroupBarrier",
];

/// The 12 calls on memory, sorted likewise; with them profile 0 has 106 names.
#[rustfmt::skip]
pub const MEMORY_NAMES: [&str; 12] = [
    "atomicAdd", "atomicAnd", "atomicCompareExchangeWeak", "atomicExchange", "atomicLoad", "atomicMax", "atomicMin", "atomicOr", "atomicStore",
    "atomicSub", "atomicXor", "workgroupUniformLoad",
];

/// The 25 that profile 1 adds, sorted likewise.
#[rustfmt::skip]
pub const SUBGROUP_NAMES: [&str; 25] = [
    "quadBroadcast", "quadSwapDiagonal", "quadSwapX", "quadSwapY", "subgroupAdd", "subgroupAll", "subgroupAnd", "subgroupAny", "subgroupBallot",
    "subgroupBroadcast", "subgroupBroadcastFirst", "subgroupElect", "subgroupExclusiveAdd", "subgroupExclusiveMul", "subgroupInclusiveAdd",
    "subgroupInclusiveMul", "subgroupMax", "subgroupMin", "subgroupMul", "subgroupOr", "subgroupShuffle", "subgroupShuffleDown",
    "subgroupShuffleUp", "subgroupShuffleXor", "subgroupXor",
];

/// Every name of profile 1: the 94, the 12, then the 25.
pub fn names() -> impl Iterator<Item = &'static str> {
    NAMES.into_iter().chain(MEMORY_NAMES).chain(SUBGROUP_NAMES)
}

/// Whether profile 0 has a name.
pub fn in_base(name: &str) -> bool {
    NAMES.binary_search(&name).is_ok() || MEMORY_NAMES.contains(&name)
}

/// Whether the value of a call is running even where all operands are const.
pub fn runs_anyway(name: &str) -> bool {
    let lists = [&DERIVATIVES[..], &SUBGROUP_NAMES, &MEMORY_NAMES];
    name == "arrayLength" || lists.iter().any(|list| list.contains(&name))
}

/// One overload: the parameters and the result.
#[derive(Clone, Debug)]
pub struct Overload {
    pub parameters: Vec<WType>,
    pub result: WType,
}

fn overload(parameters: &[WType], result: WType) -> Overload {
    Overload {
        parameters: parameters.to_vec(),
        result,
    }
}

/// The board of ranks, between scalars.
pub fn scalar_rank(from: Scalar, to: Scalar) -> Option<u32> {
    match (from, to) {
        _ if from == to => Some(0),
        (AbstractFloat, F32) => Some(1),
        (AbstractFloat, F16) => Some(2),
        (AbstractInt, I32) => Some(3),
        (AbstractInt, U32) => Some(4),
        (AbstractInt, AbstractFloat) => Some(5),
        (AbstractInt, F32) => Some(6),
        (AbstractInt, F16) => Some(7),
        _ => None,
    }
}

/// The rank of a conversion, or none.
pub fn rank(from: &WType, to: &WType) -> Option<u32> {
    match (from, to) {
        (WType::Scalar(a), WType::Scalar(b)) => scalar_rank(*a, *b),
        (WType::Vector(m, a), WType::Vector(n, b)) if m == n => scalar_rank(*a, *b),
        (WType::Matrix(c, r, a), WType::Matrix(d, s, b)) if (c, r) == (d, s) => scalar_rank(*a, *b),
        _ if from == to => Some(0),
        _ => None,
    }
}

/// That one of two scalars to which the other converts.
pub fn common(a: Scalar, b: Scalar) -> Option<Scalar> {
    if scalar_rank(a, b).is_some() {
        Some(b)
    } else {
        scalar_rank(b, a).map(|_| a)
    }
}

/// Whether an overload is left out: a parameter is abstract, and another operand is running.
fn dropped(overload: &Overload, case: &Case) -> bool {
    let another = |i: usize| (0..case.operands.len()).any(|j| j != i && case.runs(j));
    let mut parameters = overload.parameters.iter().enumerate();
    parameters.any(|(i, ty)| ty.is_abstract() && another(i))
}

/// Why no overload is looked for: an operand is a reference, or is running and abstract.
fn offended(case: &Case) -> Option<Answer> {
    let mut operands = case.operands.iter();
    if operands.any(|ty| matches!(ty, WType::Reference(..))) {
        return Some(Answer::Refused(refusal::REFERENCE));
    }
    running_abstract(case)
}

fn running_abstract(case: &Case) -> Option<Answer> {
    let mut operands = case.operands.iter().enumerate();
    let offends = operands.any(|(i, ty)| case.runs(i) && ty.is_abstract());
    offends.then_some(Answer::Refused(refusal::RUNNING_ABSTRACT))
}

/// The result of the fitting overload that is preferred to every other.
pub fn resolve(overloads: &[Overload], case: &Case) -> Answer {
    let operands = case.operands;
    let ranks_of = |overload: &Overload| -> Option<Vec<u32>> {
        let pairs = overload.parameters.iter().zip(operands);
        if pairs.clone().any(|(to, from)| rank(from, to).is_none()) {
            return None;
        }
        pairs.map(|(to, from)| rank(from, to)).collect()
    };
    let with_count = |overload: &&Overload| overload.parameters.len() == operands.len();
    if !overloads.iter().any(|overload| with_count(&overload)) {
        return Answer::Refused(refusal::OPERANDS);
    }
    if let Some(refused) = offended(case) {
        return refused;
    }
    let fitting: Vec<(Vec<u32>, &Overload)> = overloads
        .iter()
        .filter(with_count)
        .filter(|overload| !dropped(overload, case))
        .filter_map(|overload| ranks_of(overload).map(|ranks| (ranks, overload)))
        .collect();
    if fitting.is_empty() {
        return Answer::Refused(refusal::NONE_FITS);
    }
    let preferred = |a: &[u32], b: &[u32]| a.iter().zip(b).all(|(x, y)| x <= y) && a != b;
    let best = fitting.iter().enumerate().find(|(i, (ranks, _))| {
        let mut others = fitting.iter().enumerate().filter(|(j, _)| i != j);
        others.all(|(_, (other, _))| preferred(ranks, other))
    });
    let (_, (_, overload)) = best.unwrap_or_else(|| panic!("none is preferred: {case:?}"));
    Answer::Type(overload.result.clone())
}

/// Every list, made once.
pub struct Standard {
    unary: Vec<Vec<Overload>>,
    binary: Vec<Vec<Overload>>,
    calls: HashMap<&'static str, Vec<Overload>>,
}

impl Default for Standard {
    fn default() -> Self {
        Standard {
            unary: (0..3).map(unary).collect(),
            binary: (0..18).map(binary).collect(),
            calls: names().map(|name| (name, ruled(name))).collect(),
        }
    }
}

impl Standard {
    /// The answer, for a sound table with room and numbers that stand in it.
    pub fn answer(&self, case: &Case) -> Answer {
        let unfit = || running_abstract(case).unwrap_or(Answer::Refused(refusal::NONE_FITS));
        match (case.operation, case.operands) {
            (Operation::Unary(3), [a]) => match a {
                WType::Reference(space, elem, access) if *space != Space::Handle => {
                    Answer::Type(WType::Pointer(*space, elem.clone(), *access))
                }
                _ => unfit(),
            },
            (Operation::Unary(4), [a]) => match a {
                WType::Pointer(space, elem, access) => {
                    Answer::Type(WType::Reference(*space, elem.clone(), *access))
                }
                WType::Reference(..) => Answer::Refused(refusal::REFERENCE),
                _ => unfit(),
            },
            (Operation::Unary(op), _) => resolve(&self.unary[op], case),
            (Operation::Binary(op), _) => resolve(&self.binary[op], case),
            (Operation::Call(name), _) => self.call(name, case),
            (Operation::Template(head), _) => template(head, case.template),
        }
    }

    fn call(&self, name: &str, case: &Case) -> Answer {
        let Some(overloads) = self.calls.get(name) else {
            return Answer::Refused(refusal::UNKNOWN);
        };
        let wanted = match case.template {
            [] => name != "bitcast",
            [Argument::Type(ty)] => {
                name == "bitcast" && ty.as_wide().is_some_and(|(_, of)| of != Bool)
            }
            _ => false,
        };
        if !wanted {
            return Answer::Refused(refusal::TEMPLATE);
        }
        match name {
            "workgroupUniformLoad" => uniform_load(case),
            "arrayLength" => array_length(case),
            "atomicStore" => match resolve(overloads, case) {
                Answer::Type(_) => Answer::NoValue,
                refused => refused,
            },
            _ if overloads.is_empty() => crate_rule(name, case),
            _ => resolve(overloads, case),
        }
    }
}

/// Document 02: "takes a workgroup pointer with read_write access and gives the component of an atomic, else the element, which is no kind 10 and holds no atomic".
fn uniform_load(case: &Case) -> Answer {
    let [operand] = case.operands else {
        return Answer::Refused(refusal::OPERANDS);
    };
    if let Some(refused) = offended(case) {
        return refused;
    }
    match operand {
        WType::Pointer(Space::Workgroup, elem, Access::ReadWrite) => match &**elem {
            WType::Atomic(of) => Answer::Type(scalar(*of)),
            WType::Array(_, None) => Answer::Refused(refusal::NONE_FITS),
            elem if elem.holds_atomic() => Answer::Refused(refusal::NONE_FITS),
            elem => Answer::Type(elem.clone()),
        },
        _ => Answer::Refused(refusal::NONE_FITS),
    }
}

/// Document 02: "takes only a pointer in space storage, with read or read_write access, to an array without count".
fn array_length(case: &Case) -> Answer {
    let [operand] = case.operands else {
        return Answer::Refused(refusal::OPERANDS);
    };
    if let Some(refused) = offended(case) {
        return refused;
    }
    match operand {
        WType::Pointer(Space::Storage, elem, Access::Read | Access::ReadWrite)
            if matches!(**elem, WType::Array(_, None)) =>
        {
            Answer::Type(scalar(U32))
        }
        _ => Answer::Refused(refusal::NONE_FITS),
    }
}

/// The crate rules that are left, those of bitcast and of the barriers, after the template list was judged.
fn crate_rule(name: &str, case: &Case) -> Answer {
    let wanted = match name {
        "bitcast" => 1,
        _ => 0,
    };
    if case.operands.len() != wanted {
        return Answer::Refused(refusal::OPERANDS);
    }
    if let Some(refused) = offended(case) {
        return refused;
    }
    match (name, case.template) {
        ("bitcast", [Argument::Type(ty)]) => Answer::Type(ty.clone()),
        _ => Answer::NoValue,
    }
}

/// The heads of template types, but `array` and `atomic`, with the sizes they name.
#[rustfmt::skip]
pub const SIZED_HEADS: [(&str, u8, u8); 12] = [
    ("vec2", 2, 0), ("vec3", 3, 0), ("vec4", 4, 0),
    ("mat2x2", 2, 2), ("mat2x3", 2, 3), ("mat2x4", 2, 4),
    ("mat3x2", 3, 2), ("mat3x3", 3, 3), ("mat3x4", 3, 4),
    ("mat4x2", 4, 2), ("mat4x3", 4, 3), ("mat4x4", 4, 4),
];

/// "Template types".
fn template(head: &str, list: &[Argument]) -> Answer {
    let one_scalar = |allowed: &[Scalar]| match list {
        [Argument::Type(WType::Scalar(of))] if allowed.contains(of) => Some(*of),
        _ => None,
    };
    let sized = SIZED_HEADS.into_iter().find(|(name, _, _)| *name == head);
    let made = match (head, sized) {
        (_, Some((_, n, 0))) => {
            one_scalar(&[Bool, I32, U32, F32, F16]).map(|of| WType::Vector(n, of))
        }
        (_, Some((_, c, r))) => one_scalar(&[F32, F16]).map(|of| WType::Matrix(c, r, of)),
        ("atomic", _) => one_scalar(&[I32, U32]).map(WType::Atomic),
        ("array", _) => return array(list),
        _ => return Answer::Refused(refusal::UNKNOWN),
    };
    made.map_or(Answer::Refused(refusal::TEMPLATE), Answer::Type)
}

fn array(list: &[Argument]) -> Answer {
    let (elem, count) = match list {
        [Argument::Type(elem)] => (elem, None),
        [Argument::Type(_), Argument::Type(_)] => return Answer::Refused(refusal::TEMPLATE),
        [Argument::Type(elem), count] => (elem, Some(count)),
        _ => return Answer::Refused(refusal::TEMPLATE),
    };
    if elem.is_no_element() {
        return Answer::Refused(refusal::TEMPLATE);
    }
    let made = |count| Answer::Type(WType::Array(Box::new(elem.clone()), count));
    let Some(count) = count else {
        return made(None);
    };
    let count = match *count {
        Argument::AbstractInt(n) => n,
        Argument::I32(n) => i64::from(n),
        Argument::U32(n) => i64::from(n),
        _ => 0,
    };
    if (1..=i64::from(u32::MAX)).contains(&count) {
        made(Some(count as u64))
    } else {
        Answer::Refused(refusal::COUNT)
    }
}

#[cfg(test)]
mod tests {
    use super::*;
    use crate::domain::{on_memory, simples};

    fn named(name: &str) -> WType {
        let mut all = simples().into_iter().chain(on_memory());
        all.find(|ty| ty.to_string() == name).unwrap()
    }

    /// An operator, its operands and the answer, as the sixteen cases of document 01 have them.
    fn check(operation: Operation, operands: &[&str], answer: &str) {
        let operands: Vec<WType> = operands.iter().map(|name| named(name)).collect();
        let operands: Vec<&WType> = operands.iter().collect();
        let case = Case {
            operation,
            template: &[],
            operands: &operands,
            running: &[],
        };
        let given = Standard::default().answer(&case);
        assert_eq!(given.to_string(), answer, "{case}");
    }

    #[test]
    fn sixteen_cases() {
        use Operation::{Binary, Call};
        check(Binary(2), &["AbstractInt", "f32"], "f32");
        check(Binary(4), &["vec3<AbstractInt>", "f32"], "vec3<f32>");
        check(Binary(2), &["mat4x3<f32>", "mat4x3<f32>"], "mat4x3<f32>");
        check(Binary(4), &["mat4x3<f32>", "vec4<f32>"], "vec3<f32>");
        check(Binary(4), &["vec3<f32>", "mat4x3<f32>"], "vec4<f32>");
        check(Binary(4), &["mat4x3<f32>", "mat2x4<f32>"], "mat2x3<f32>");
        check(Binary(9), &["bool", "bool"], "refused 8");
        check(Binary(9), &["vec2<AbstractInt>", "vec2<f16>"], "vec2<bool>");
        check(Binary(7), &["i32", "u32"], "refused 8");
        check(Binary(13), &["AbstractInt", "u32"], "u32");
        check(Call("sqrt"), &["AbstractInt"], "AbstractFloat");
        check(Call("reverseBits"), &["AbstractInt"], "i32");
        check(
            Call("frexp"),
            &["vec2<AbstractFloat>"],
            "__frexp_result_vec2_abstract",
        );
        check(
            Call("clamp"),
            &["AbstractInt", "AbstractFloat", "f16"],
            "f16",
        );
        check(Call("dpdx"), &["f16"], "refused 8");
        check(Call("sign"), &["u32"], "refused 8");
    }

    #[test]
    fn subgroup_calls() {
        let call = |name, operands, answer| check(Operation::Call(name), operands, answer);
        call("subgroupElect", &[], "bool");
        call("subgroupElect", &["bool"], "refused 7");
        call("subgroupAdd", &["vec3<AbstractInt>"], "vec3<i32>");
        call("quadSwapX", &["AbstractFloat"], "f32");
        call("subgroupMax", &["bool"], "refused 8");
        call("subgroupXor", &["vec2<u32>"], "vec2<u32>");
        call("subgroupXor", &["AbstractFloat"], "refused 8");
        call("subgroupAll", &["vec2<bool>"], "refused 8");
        call("subgroupBallot", &["bool"], "vec4<u32>");
        call("subgroupBallot", &[], "refused 7");
        call("subgroupBroadcast", &["AbstractInt", "AbstractInt"], "i32");
        call("quadBroadcast", &["vec4<f16>", "i32"], "vec4<f16>");
        call("subgroupShuffleUp", &["f16", "AbstractInt"], "f16");
        call("subgroupShuffleUp", &["f16", "i32"], "refused 8");
    }

    #[test]
    fn calls_on_memory() {
        fn call(name: &'static str, operands: &[&str], answer: &str) {
            check(Operation::Call(name), operands, answer);
        }
        let counter = "ptr<storage,atomic<u32>,read_write>";
        let shared = "ptr<workgroup,atomic<i32>,read_write>";
        call("atomicLoad", &[counter], "u32");
        call("atomicAdd", &[shared, "AbstractInt"], "i32");
        call("atomicStore", &[counter, "u32"], "no value");
        call("atomicStore", &[counter], "refused 7");
        call("atomicStore", &[counter, "i32"], "refused 8");
        let exchanged = "__atomic_compare_exchange_result<u32>";
        call(
            "atomicCompareExchangeWeak",
            &[counter, "u32", "AbstractInt"],
            exchanged,
        );
        call(
            "atomicMax",
            &["ptr<storage,atomic<u32>,read>", "u32"],
            "refused 8",
        );
        call(
            "atomicMax",
            &["ptr<private,atomic<u32>,read_write>", "u32"],
            "refused 8",
        );
        let load = |operand: &str, answer: &str| call("workgroupUniformLoad", &[operand], answer);
        load(shared, "i32");
        load(counter, "refused 8");
        load("ptr<workgroup,array<f32,4>,read_write>", "array<f32,4>");
        load("ptr<workgroup,array<f32>,read_write>", "refused 8");
        load(
            "ptr<workgroup,array<atomic<i32>,4>,read_write>",
            "refused 8",
        );
        load("ptr<workgroup,f32,read>", "refused 8");
    }

    #[test]
    fn ldexp_and_array_length() {
        let call = |name, operands, answer| check(Operation::Call(name), operands, answer);
        call("ldexp", &["f32", "AbstractInt"], "f32");
        call("ldexp", &["f16", "i32"], "f16");
        call("ldexp", &["AbstractFloat", "i32"], "f32");
        call("ldexp", &["AbstractInt", "AbstractInt"], "AbstractFloat");
        call("ldexp", &["vec3<AbstractInt>", "vec3<i32>"], "vec3<f32>");
        call("ldexp", &["vec2<f32>", "vec3<i32>"], "refused 8");
        call("ldexp", &["vec2<f32>", "i32"], "refused 8");
        call("ldexp", &["f32", "u32"], "refused 8");
        call("ldexp", &["f32"], "refused 7");
        let length = |operand: &str, answer: &str| {
            check(Operation::Call("arrayLength"), &[operand], answer);
        };
        length("ptr<storage,array<f32>,read>", "u32");
        length("ptr<storage,array<atomic<i32>>,read_write>", "u32");
        length("ptr<storage,array<f32>,write>", "refused 8");
        length("ptr<storage,array<f32,4>,read>", "refused 8");
        length("ptr<workgroup,array<f32>,read_write>", "refused 8");
        length("f32", "refused 8");
    }

    #[test]
    fn names_are_sorted_and_all_but_six_are_listed() {
        for list in [&NAMES[..], &MEMORY_NAMES, &SUBGROUP_NAMES] {
            assert!(list.is_sorted_by(|a, b| a.as_bytes() < b.as_bytes()));
        }
        assert!(SUBGROUP_NAMES.iter().all(|name| !in_base(name)));
        assert!(MEMORY_NAMES.iter().all(|name| in_base(name)));
        let ruled_names = names().filter(|name| !ruled(name).is_empty());
        assert_eq!(ruled_names.count(), 89 + 11 + 25);
    }

    #[test]
    fn no_overload_is_listed_twice() {
        for list in names().map(ruled).chain((0..18).map(binary)) {
            for (i, a) in list.iter().enumerate() {
                assert!(list[..i].iter().all(|b| a.parameters != b.parameters));
            }
        }
    }
}
