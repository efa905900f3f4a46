//! The overloads of every row, in the order of document 01, then of document 02: each choice of T, width and shape is one, listed once.

use super::{Overload, overload};
use crate::types::Scalar::{self, *};
use crate::types::{Access, FLOATS, INTEGERS, NUMERICS, SCALARS, Space, WIDTHS, WType};

/// "wide float T to T, 26".
#[rustfmt::skip]
pub const FLOAT_ONE: [&str; 26] = [
    "acos", "acosh", "asin", "asinh", "atan", "atanh", "ceil", "cos", "cosh", "degrees", "exp", "exp2", "floor", "fract", "inverseSqrt", "log",
    "log2", "radians", "round", "saturate", "sin", "sinh", "sqrt", "tan", "tanh", "trunc",
];

/// "dpdx dpdy fwidth, each also with Coarse and Fine".
#[rustfmt::skip]
pub const DERIVATIVES: [&str; 9] = [
    "dpdx", "dpdxCoarse", "dpdxFine", "dpdy", "dpdyCoarse", "dpdyFine", "fwidth", "fwidthCoarse", "fwidthFine",
];

const BIT_ONE: [&str; 6] = [
    "countLeadingZeros",
    "countOneBits",
    "countTrailingZeros",
    "firstLeadingBit",
    "firstTrailingBit",
    "reverseBits",
];

/// Subgroup and quad calls of one operand, of any concrete number or vector of such, which they give.
#[rustfmt::skip]
const SUBGROUP_ONE: [&str; 12] = [
    "quadSwapDiagonal", "quadSwapX", "quadSwapY", "subgroupAdd", "subgroupBroadcastFirst", "subgroupExclusiveAdd", "subgroupExclusiveMul",
    "subgroupInclusiveAdd", "subgroupInclusiveMul", "subgroupMax", "subgroupMin", "subgroupMul",
];

/// The concrete numbers.
const CONCRETES: [Scalar; 4] = [I32, U32, F32, F16];

/// Scalar and vectors of each of a set.
fn wide(set: &[Scalar]) -> Vec<(u8, Scalar, WType)> {
    let mut out = Vec::new();
    for &of in set {
        for width in [1, 2, 3, 4] {
            out.push((width, of, WType::wide(width, of)));
        }
    }
    out
}

/// Vectors of each of a set.
fn vectors(set: &[Scalar]) -> Vec<(u8, Scalar, WType)> {
    let all = wide(set).into_iter();
    all.filter(|(width, _, _)| *width > 1).collect()
}

/// As many equal parameters as `count`, and the same type as the result.
fn same(types: Vec<(u8, Scalar, WType)>, count: usize) -> Vec<Overload> {
    let one = |(_, _, ty): (u8, Scalar, WType)| overload(&vec![ty.clone(); count], ty);
    types.into_iter().map(one).collect()
}

/// A concrete number or a vector of such, which is the result, and beside it a scalar of each of a set.
fn with_lane(set: &[Scalar]) -> Vec<Overload> {
    let mut list = Vec::new();
    for (_, _, ty) in wide(&CONCRETES) {
        list.extend(
            set.iter()
                .map(|&lane| overload(&[ty.clone(), scalar(lane)], ty.clone())),
        );
    }
    list
}

/// A read_write pointer to an atomic, in storage or in workgroup, and behind it so many values of the component.
fn on_atomics(values: usize, result: impl Fn(Scalar) -> WType) -> Vec<Overload> {
    let mut list = Vec::new();
    for space in [Space::Storage, Space::Workgroup] {
        for of in [I32, U32] {
            let atomic = Box::new(WType::Atomic(of));
            let pointer = WType::Pointer(space, atomic, Access::ReadWrite);
            let parameters = [vec![pointer], vec![scalar(of); values]].concat();
            list.push(overload(&parameters, result(of)));
        }
    }
    list
}

pub fn scalar(of: Scalar) -> WType {
    WType::Scalar(of)
}

/// The overloads of a binary operator.
pub fn binary(op: usize) -> Vec<Overload> {
    let mut list = Vec::new();
    let wide_pairs = |set: &[Scalar]| same(wide(set), 2);
    let compared = |set: &[Scalar]| {
        let one = |(width, _, ty): (u8, Scalar, WType)| {
            overload(&[ty.clone(), ty], WType::wide(width, Bool))
        };
        wide(set).into_iter().map(one).collect::<Vec<_>>()
    };
    match op {
        0 | 1 => list.push(overload(&[scalar(Bool), scalar(Bool)], scalar(Bool))),
        2..=6 => {
            list.extend(wide_pairs(&NUMERICS));
            for (_, of, ty) in vectors(&NUMERICS) {
                list.push(overload(&[ty.clone(), scalar(of)], ty.clone()));
                list.push(overload(&[scalar(of), ty.clone()], ty));
            }
            if op == 2 || op == 3 {
                list.extend(matrices().map(|(_, _, _, m)| overload(&[m.clone(), m.clone()], m)));
            }
            if op == 4 {
                list.extend(matrix_products());
            }
        }
        7 | 8 => list.extend(compared(&SCALARS)),
        9..=12 => list.extend(compared(&NUMERICS)),
        13 | 14 => {
            list.extend(wide_pairs(&INTEGERS));
            list.extend(wide_pairs(&[Bool]));
        }
        15 => list.extend(wide_pairs(&INTEGERS)),
        _ => {
            for (width, _, ty) in wide(&INTEGERS) {
                list.push(overload(&[ty.clone(), WType::wide(width, U32)], ty));
            }
        }
    }
    list
}

/// Every matrix, with its columns, rows and component.
fn matrices() -> impl Iterator<Item = (u8, u8, Scalar, WType)> {
    let shapes = WIDTHS.into_iter().flat_map(|c| WIDTHS.map(|r| (c, r)));
    shapes.flat_map(|(c, r)| FLOATS.map(|of| (c, r, of, WType::Matrix(c, r, of))))
}

/// What `*` takes beside scalars and vectors.
fn matrix_products() -> Vec<Overload> {
    let mut list = Vec::new();
    for (c, r, of, m) in matrices() {
        let (of_columns, of_rows) = (WType::Vector(c, of), WType::Vector(r, of));
        list.push(overload(&[m.clone(), scalar(of)], m.clone()));
        list.push(overload(&[scalar(of), m.clone()], m.clone()));
        list.push(overload(&[m.clone(), of_columns.clone()], of_rows.clone()));
        list.push(overload(&[of_rows, m.clone()], of_columns));
        // matKxR by matCxK gives matCxR; here c is K.
        for columns in WIDTHS {
            let right = WType::Matrix(columns, c, of);
            list.push(overload(&[m.clone(), right], WType::Matrix(columns, r, of)));
        }
    }
    list
}

/// The overloads of a unary operator but `&` and `*`.
pub fn unary(op: usize) -> Vec<Overload> {
    match op {
        0 => same(wide(&[Bool]), 1),
        1 => same(wide(&[AbstractInt, AbstractFloat, I32, F32, F16]), 1),
        _ => same(wide(&INTEGERS), 1),
    }
}

/// The overloads of a ruled builtin; none for other names.
pub fn ruled(name: &str) -> Vec<Overload> {
    // Parameters of one type, and another as the result.
    let to = |parameter: WType, result: WType| vec![overload(&[parameter], result)];
    match name {
        name if FLOAT_ONE.contains(&name) => same(wide(&FLOATS), 1),
        "atan2" | "pow" | "step" => same(wide(&FLOATS), 2),
        "fma" | "smoothstep" => same(wide(&FLOATS), 3),
        "mix" => {
            let mut list = same(wide(&FLOATS), 3);
            for (_, of, v) in vectors(&FLOATS) {
                list.push(overload(&[v.clone(), v.clone(), scalar(of)], v));
            }
            list
        }
        "abs" => same(wide(&NUMERICS), 1),
        "max" | "min" => same(wide(&NUMERICS), 2),
        "clamp" => same(wide(&NUMERICS), 3),
        "sign" => same(wide(&[AbstractInt, AbstractFloat, I32, F32, F16]), 1),
        name if BIT_ONE.contains(&name) => same(wide(&[I32, U32]), 1),
        "extractBits" => {
            let one = |(_, _, ty): (u8, Scalar, WType)| {
                overload(&[ty.clone(), scalar(U32), scalar(U32)], ty)
            };
            wide(&[I32, U32]).into_iter().map(one).collect()
        }
        "insertBits" => {
            let one = |(_, _, ty): (u8, Scalar, WType)| {
                overload(&[ty.clone(), ty.clone(), scalar(U32), scalar(U32)], ty)
            };
            wide(&[I32, U32]).into_iter().map(one).collect()
        }
        "ldexp" => {
            let one = |(width, of, ty): (u8, Scalar, WType)| {
                let second = if of.is_abstract() { AbstractInt } else { I32 };
                overload(&[ty.clone(), WType::wide(width, second)], ty)
            };
            wide(&FLOATS).into_iter().map(one).collect()
        }
        "length" => {
            let one = |(_, of, ty): (u8, Scalar, WType)| overload(&[ty], scalar(of));
            wide(&FLOATS).into_iter().map(one).collect()
        }
        "distance" => {
            let one = |(_, of, ty): (u8, Scalar, WType)| overload(&[ty.clone(), ty], scalar(of));
            wide(&FLOATS).into_iter().map(one).collect()
        }
        "dot" => {
            let one = |(_, of, ty): (u8, Scalar, WType)| overload(&[ty.clone(), ty], scalar(of));
            vectors(&NUMERICS).into_iter().map(one).collect()
        }
        "normalize" => same(vectors(&FLOATS), 1),
        "reflect" => same(vectors(&FLOATS), 2),
        "faceForward" => same(vectors(&FLOATS), 3),
        "refract" => {
            let one =
                |(_, of, v): (u8, Scalar, WType)| overload(&[v.clone(), v.clone(), scalar(of)], v);
            vectors(&FLOATS).into_iter().map(one).collect()
        }
        "cross" => {
            let threes = vectors(&FLOATS).into_iter();
            same(threes.filter(|(width, _, _)| *width == 3).collect(), 2)
        }
        "determinant" => matrices()
            .filter(|(c, r, _, _)| c == r)
            .map(|(_, _, of, m)| overload(&[m], scalar(of)))
            .collect(),
        "transpose" => matrices()
            .map(|(c, r, of, m)| overload(&[m], WType::Matrix(r, c, of)))
            .collect(),
        name if DERIVATIVES.contains(&name) => same(wide(&[F32]), 1),
        "quantizeToF16" => same(wide(&[F32]), 1),
        "frexp" | "modf" => {
            let result = |fract: WType| match name {
                "frexp" => WType::Frexp(Box::new(fract)),
                _ => WType::Modf(Box::new(fract)),
            };
            let one = |(_, _, ty): (u8, Scalar, WType)| Overload {
                parameters: vec![ty.clone()],
                result: result(ty),
            };
            wide(&FLOATS).into_iter().map(one).collect()
        }
        "pack4x8snorm" | "pack4x8unorm" => to(WType::Vector(4, F32), scalar(U32)),
        "pack4xI8" | "pack4xI8Clamp" => to(WType::Vector(4, I32), scalar(U32)),
        "pack4xU8" | "pack4xU8Clamp" => to(WType::Vector(4, U32), scalar(U32)),
        "pack2x16snorm" | "pack2x16unorm" | "pack2x16float" => {
            to(WType::Vector(2, F32), scalar(U32))
        }
        "unpack4x8snorm" | "unpack4x8unorm" => to(scalar(U32), WType::Vector(4, F32)),
        "unpack4xI8" => to(scalar(U32), WType::Vector(4, I32)),
        "unpack4xU8" => to(scalar(U32), WType::Vector(4, U32)),
        "unpack2x16snorm" | "unpack2x16unorm" | "unpack2x16float" => {
            to(scalar(U32), WType::Vector(2, F32))
        }
        "dot4U8Packed" => vec![overload(&[scalar(U32), scalar(U32)], scalar(U32))],
        "dot4I8Packed" => vec![overload(&[scalar(U32), scalar(U32)], scalar(I32))],
        "all" | "any" => wide(&[Bool])
            .into_iter()
            .map(|(_, _, ty)| overload(&[ty], scalar(Bool)))
            .collect(),
        "select" => {
            let mut list = Vec::new();
            for (_, _, ty) in wide(&SCALARS) {
                list.push(overload(&[ty.clone(), ty.clone(), scalar(Bool)], ty));
            }
            for (width, _, v) in vectors(&SCALARS) {
                list.push(overload(
                    &[v.clone(), v.clone(), WType::Vector(width, Bool)],
                    v,
                ));
            }
            list
        }
        "atomicLoad" => on_atomics(0, scalar),
        // The result of atomicStore is left out by its caller.
        "atomicAdd" | "atomicSub" | "atomicMax" | "atomicMin" | "atomicAnd" | "atomicOr"
        | "atomicXor" | "atomicExchange" | "atomicStore" => on_atomics(1, scalar),
        "atomicCompareExchangeWeak" => on_atomics(2, WType::Exchange),
        name if SUBGROUP_ONE.contains(&name) => same(wide(&CONCRETES), 1),
        "subgroupAnd" | "subgroupOr" | "subgroupXor" => same(wide(&[I32, U32]), 1),
        "subgroupAll" | "subgroupAny" => to(scalar(Bool), scalar(Bool)),
        "subgroupBallot" => to(scalar(Bool), WType::Vector(4, U32)),
        "subgroupElect" => vec![overload(&[], scalar(Bool))],
        "subgroupBroadcast" | "subgroupShuffle" | "quadBroadcast" => with_lane(&[I32, U32]),
        "subgroupShuffleDown" | "subgroupShuffleUp" | "subgroupShuffleXor" => with_lane(&[U32]),
        _ => Vec::new(),
    }
}
