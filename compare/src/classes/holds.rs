//! When a class holds: the question, the crate's answer and ours, each tested. In the order of the list.

use super::Seen;
use crate::case::{Answer, Argument, Case, Operation};
use crate::standard::{DERIVATIVES, FLOAT_ONE, MEMORY_NAMES, common, rank, refusal};
use crate::types::Scalar::{self, *};
use crate::types::WType::{self, Array, Matrix, Pointer, Vector};
use crate::types::{Access, Space};
use Operation::{Binary, Call, Template, Unary};

/// The crate gave this type.
fn gave(answer: &Answer, ty: WType) -> bool {
    *answer == Answer::Type(ty)
}

/// Refused because no overload fits.
fn unfit(answer: &Answer) -> bool {
    *answer == Answer::Refused(refusal::NONE_FITS)
}

/// Width and component of both operands.
fn two_wide(operands: &[&WType]) -> Option<[(u8, Scalar); 2]> {
    match operands {
        [a, b] => Some([a.as_wide()?, b.as_wide()?]),
        _ => None,
    }
}

pub fn not_any_vector(seen: &Seen) -> bool {
    match (seen.case.operation, seen.case.operands) {
        (Unary(0), [Vector(n, of)]) => {
            *of != Bool && gave(seen.rust, Vector(*n, *of)) && unfit(seen.ours)
        }
        _ => false,
    }
}

pub fn minus_vector(seen: &Seen) -> bool {
    match (seen.case.operation, seen.case.operands) {
        (Unary(1), [Vector(n, of)]) => {
            !matches!(of, Bool | U32) && seen.rust.is_refused() && gave(seen.ours, Vector(*n, *of))
        }
        _ => false,
    }
}

pub fn minus_any_scalar(seen: &Seen) -> bool {
    match (seen.case.operation, seen.case.operands) {
        (Unary(1), [WType::Scalar(of @ (Bool | U32))]) => {
            gave(seen.rust, WType::Scalar(*of)) && unfit(seen.ours)
        }
        _ => false,
    }
}

pub fn bool_arithmetic(seen: &Seen) -> bool {
    match (seen.case.operation, two_wide(seen.case.operands)) {
        (Binary(2..=6), Some([(m, Bool), (n, Bool)])) => {
            (m == n || m == 1 || n == 1)
                && gave(seen.rust, WType::wide(m.max(n), Bool))
                && unfit(seen.ours)
        }
        _ => false,
    }
}

pub fn matrix_sum(seen: &Seen) -> bool {
    match (seen.case.operation, seen.case.operands) {
        (Binary(2 | 3), [Matrix(c, r, a), Matrix(d, s, b)]) if (c, r) == (d, s) && c != r => {
            common(*a, *b).is_some_and(|of| {
                gave(seen.rust, Matrix(*c, *c, of)) && gave(seen.ours, Matrix(*c, *r, of))
            })
        }
        _ => false,
    }
}

/// A matrix that is not square beside a vector: the vector's width, those that the standard wants and gives, and the common component.
fn matrix_beside_vector(seen: &Seen) -> Option<(u8, u8, u8, Scalar)> {
    if seen.case.operation != Binary(4) {
        return None;
    }
    let (width, wanted, given, a, b) = match seen.case.operands {
        [Matrix(c, r, a), Vector(n, b)] => (*n, *c, *r, *a, *b),
        [Vector(n, b), Matrix(c, r, a)] => (*n, *r, *c, *a, *b),
        _ => return None,
    };
    let of = common(a, b)?;
    (wanted != given).then_some((width, wanted, given, of))
}

pub fn matrix_vector_refused(seen: &Seen) -> bool {
    matrix_beside_vector(seen).is_some_and(|(width, wanted, given, of)| {
        width == wanted && seen.rust.is_refused() && gave(seen.ours, Vector(given, of))
    })
}

pub fn matrix_vector_taken(seen: &Seen) -> bool {
    matrix_beside_vector(seen).is_some_and(|(width, wanted, given, of)| {
        width == given && gave(seen.rust, Vector(wanted, of)) && unfit(seen.ours)
    })
}

pub fn bool_ordering(seen: &Seen) -> bool {
    match (seen.case.operation, two_wide(seen.case.operands)) {
        (Binary(9..=12), Some([(m, Bool), (n, Bool)])) => {
            m == n && gave(seen.rust, WType::wide(m, Bool)) && unfit(seen.ours)
        }
        _ => false,
    }
}

pub fn bool_bits(seen: &Seen) -> bool {
    match (seen.case.operation, seen.case.operands) {
        (Binary(13 | 14), [WType::Scalar(Bool), WType::Scalar(Bool)]) => {
            seen.rust.is_refused() && gave(seen.ours, WType::Scalar(Bool))
        }
        _ => false,
    }
}

pub fn bits_left_type(seen: &Seen) -> bool {
    match (seen.case.operation, two_wide(seen.case.operands)) {
        (Binary(13..=15), Some([(m, AbstractInt), (n, of @ (I32 | U32))])) => {
            m == n
                && gave(seen.rust, WType::wide(m, AbstractInt))
                && gave(seen.ours, WType::wide(m, of))
        }
        _ => false,
    }
}

pub fn shift_by_vector(seen: &Seen) -> bool {
    match (seen.case.operation, seen.case.operands) {
        (Binary(16 | 17), [left, Vector(_, AbstractInt | U32)]) => {
            gave(seen.rust, (*left).clone()) && unfit(seen.ours)
        }
        _ => false,
    }
}

/// The builtins whose arm begins `is_float` of the first operand, but those of vectors alone.
fn asks_float(name: &str) -> bool {
    const OTHERS: [&str; 9] = [
        "atan2",
        "distance",
        "fma",
        "frexp",
        "length",
        "mix",
        "modf",
        "smoothstep",
        "step",
    ];
    FLOAT_ONE.contains(&name) || DERIVATIVES.contains(&name) || OTHERS.contains(&name)
}

/// Two vectors and a scalar of AbstractInt, in mix or refract.
fn is_third_abstract_int(case: &Case) -> bool {
    matches!(
        (case.operation, case.operands),
        (
            Call("mix" | "refract"),
            [Vector(..), Vector(..), WType::Scalar(AbstractInt)]
        )
    )
}

pub fn float_abstract_int(seen: &Seen) -> bool {
    match (seen.case.operation, seen.case.operands) {
        (Call(name), [first, ..]) if asks_float(name) && !is_third_abstract_int(seen.case) => {
            first.as_wide().is_some_and(|(_, of)| of == AbstractInt)
                && seen.rust.is_refused()
                && matches!(seen.ours, Answer::Type(_))
        }
        _ => false,
    }
}

pub fn float_vector_abstract_int(seen: &Seen) -> bool {
    match (seen.case.operation, seen.case.operands) {
        (Call("cross" | "faceForward" | "normalize" | "reflect"), [Vector(_, AbstractInt), ..]) => {
            seen.rust.is_refused() && matches!(seen.ours, Answer::Type(Vector(..)))
        }
        _ => false,
    }
}

pub fn third_abstract_int(seen: &Seen) -> bool {
    is_third_abstract_int(seen.case)
        && seen.rust.is_refused()
        && matches!(seen.ours, Answer::Type(Vector(..)))
}

/// The common type by WGSL, which has conversions of arrays too.
fn common_of_any(a: &WType, b: &WType) -> Option<WType> {
    match (a, b) {
        (WType::Scalar(x), WType::Scalar(y)) => common(*x, *y).map(WType::Scalar),
        (Vector(m, x), Vector(n, y)) if m == n => common(*x, *y).map(|of| Vector(*m, of)),
        (Matrix(c, r, x), Matrix(d, s, y)) if (c, r) == (d, s) => {
            common(*x, *y).map(|of| Matrix(*c, *r, of))
        }
        (Array(x, m @ Some(_)), Array(y, n)) if m == n => {
            common_of_any(x, y).map(|elem| Array(Box::new(elem), *m))
        }
        _ => (a == b).then(|| a.clone()),
    }
}

pub fn pow_any(seen: &Seen) -> bool {
    match (seen.case.operation, seen.case.operands) {
        (Call("pow"), [a, b]) => {
            common_of_any(a, b).is_some_and(|ty| gave(seen.rust, ty)) && unfit(seen.ours)
        }
        _ => false,
    }
}

pub fn pow_abstract_int(seen: &Seen) -> bool {
    match (seen.case.operation, two_wide(seen.case.operands)) {
        (Call("pow"), Some([(m, AbstractInt), (n, AbstractInt)])) => {
            m == n
                && gave(seen.rust, WType::wide(m, AbstractInt))
                && gave(seen.ours, WType::wide(m, AbstractFloat))
        }
        _ => false,
    }
}

pub fn cross_width(seen: &Seen) -> bool {
    match (seen.case.operation, seen.case.operands) {
        (Call("cross"), [Vector(m @ (2 | 4), a), Vector(n, b)]) if m == n && a.is_float() => {
            common(*a, *b).is_some_and(|of| gave(seen.rust, Vector(*m, of))) && unfit(seen.ours)
        }
        _ => false,
    }
}

pub fn determinant_matrix(seen: &Seen) -> bool {
    match (seen.case.operation, seen.case.operands) {
        (Call("determinant"), [Matrix(c, r, of)]) => {
            c == r && gave(seen.rust, Matrix(*c, *r, *of)) && gave(seen.ours, WType::Scalar(*of))
        }
        _ => false,
    }
}

/// A builtin of one operand, its width and component.
fn one_wide(seen: &Seen) -> Option<(&'static str, u8, Scalar)> {
    match (seen.case.operation, seen.case.operands) {
        (Call(name), [a]) => a.as_wide().map(|(width, of)| (name, width, of)),
        _ => None,
    }
}

pub fn reverse_bits_abstract(seen: &Seen) -> bool {
    match one_wide(seen) {
        Some(("reverseBits", n, AbstractInt)) => {
            gave(seen.rust, WType::wide(n, AbstractInt)) && gave(seen.ours, WType::wide(n, I32))
        }
        _ => false,
    }
}

pub fn insert_bits_float(seen: &Seen) -> bool {
    match (seen.case.operation, seen.case.operands) {
        (Call("insertBits"), [a, b, _, _]) => match (a.as_wide(), b.as_wide()) {
            (Some((m, AbstractInt)), Some((n, of))) if m == n && of.is_float() => {
                let concrete = if of == F16 { F16 } else { F32 };
                gave(seen.rust, WType::wide(m, concrete)) && unfit(seen.ours)
            }
            _ => false,
        },
        _ => false,
    }
}

pub fn quantize_abstract_float(seen: &Seen) -> bool {
    match one_wide(seen) {
        Some(("quantizeToF16", n, AbstractFloat)) => {
            gave(seen.rust, WType::wide(n, AbstractFloat)) && gave(seen.ours, WType::wide(n, F32))
        }
        _ => false,
    }
}

pub fn quantize_abstract_int(seen: &Seen) -> bool {
    match one_wide(seen) {
        Some(("quantizeToF16", n, AbstractInt)) => {
            seen.rust.is_refused() && gave(seen.ours, WType::wide(n, F32))
        }
        _ => false,
    }
}

pub fn derivative_f16(seen: &Seen) -> bool {
    match one_wide(seen) {
        Some((name, _, F16)) if DERIVATIVES.contains(&name) => {
            *seen.rust == Answer::Panicked && unfit(seen.ours)
        }
        _ => false,
    }
}

pub fn pack_clamp_refused(seen: &Seen) -> bool {
    match one_wide(seen) {
        Some(("pack4xI8Clamp", 4, I32) | ("pack4xU8Clamp", 4, U32)) => {
            seen.rust.is_refused() && gave(seen.ours, WType::Scalar(U32))
        }
        _ => false,
    }
}

pub fn pack_clamp_float(seen: &Seen) -> bool {
    match one_wide(seen) {
        Some(("pack4xI8Clamp" | "pack4xU8Clamp", 4, AbstractFloat | F32)) => {
            gave(seen.rust, WType::Scalar(U32)) && unfit(seen.ours)
        }
        _ => false,
    }
}

pub fn all_any(seen: &Seen) -> bool {
    match (seen.case.operation, seen.case.operands) {
        (Call("all" | "any"), [a]) => {
            a.as_wide().is_none_or(|(_, of)| of != Bool)
                && gave(seen.rust, WType::Scalar(Bool))
                && unfit(seen.ours)
        }
        _ => false,
    }
}

pub fn select_width(seen: &Seen) -> bool {
    match (seen.case.operation, seen.case.operands) {
        (Call("select"), [Vector(m, a), Vector(n, b), Vector(k, Bool)]) if m == n && m != k => {
            common(*a, *b).is_some_and(|of| gave(seen.rust, Vector(*m, of))) && unfit(seen.ours)
        }
        _ => false,
    }
}

pub fn shuffle_by_i32(seen: &Seen) -> bool {
    match (seen.case.operation, two_wide(seen.case.operands)) {
        (
            Call("subgroupShuffleDown" | "subgroupShuffleUp" | "subgroupShuffleXor"),
            Some([(n, of), (1, I32)]),
        ) => {
            let concrete = match of {
                AbstractInt => I32,
                AbstractFloat => F32,
                of => of,
            };
            of != Bool && gave(seen.rust, WType::wide(n, concrete)) && unfit(seen.ours)
        }
        _ => false,
    }
}

pub fn matrix_of_abstract(seen: &Seen) -> bool {
    match (seen.case.operation, seen.case.template) {
        (Template(head), [Argument::Type(WType::Scalar(AbstractFloat))]) => {
            let matrix = format!("{head}<AbstractFloat>");
            head.starts_with("mat")
                && matches!(seen.rust, Answer::Type(ty @ Matrix(..)) if ty.to_string() == matrix)
                && *seen.ours == Answer::Refused(refusal::TEMPLATE)
        }
        _ => false,
    }
}

pub fn array_count_wide(seen: &Seen) -> bool {
    match (seen.case.operation, seen.case.template) {
        (Template("array"), [Argument::Type(elem), Argument::AbstractInt(count)]) => {
            *count > i64::from(u32::MAX)
                && gave(
                    seen.rust,
                    Array(Box::new(elem.clone()), Some(*count as u64)),
                )
                && *seen.ours == Answer::Refused(refusal::COUNT)
        }
        _ => false,
    }
}

pub fn array_element(seen: &Seen) -> bool {
    match (seen.case.operation, seen.case.template) {
        (Template("array"), [Argument::Type(elem), ..]) => {
            elem.is_no_element()
                && matches!(seen.rust, Answer::Type(Array(of, _)) if **of == *elem)
                && *seen.ours == Answer::Refused(refusal::TEMPLATE)
        }
        _ => false,
    }
}

/// What the crate gives for a call on an atomic of that component, whatever the values are.
fn crate_atomic(name: &str, of: Scalar) -> Answer {
    match name {
        "atomicStore" => Answer::NoValue,
        "atomicCompareExchangeWeak" => Answer::Type(WType::Exchange(of)),
        _ => Answer::Type(WType::Scalar(of)),
    }
}

/// A call on an atomic that the crate takes and we refuse because it does not fit: whether its pointer is one that the standard takes, the component, and the values.
fn unfit_atomic<'a>(seen: &'a Seen) -> Option<(bool, Scalar, &'a [&'a WType])> {
    let (Call(name), [Pointer(space, elem, access), values @ ..]) =
        (seen.case.operation, seen.case.operands)
    else {
        return None;
    };
    let WType::Atomic(of) = **elem else {
        return None;
    };
    let shared = matches!(space, Space::Storage | Space::Workgroup) && *access == Access::ReadWrite;
    let atomic = name.starts_with("atomic") && MEMORY_NAMES.contains(&name);
    (atomic && *seen.rust == crate_atomic(name, of) && unfit(seen.ours))
        .then_some((shared, of, values))
}

pub fn atomic_any_pointer(seen: &Seen) -> bool {
    unfit_atomic(seen).is_some_and(|(shared, _, _)| !shared)
}

pub fn atomic_any_value(seen: &Seen) -> bool {
    unfit_atomic(seen).is_some_and(|(shared, of, values)| {
        let component = WType::Scalar(of);
        shared && values.iter().any(|ty| rank(ty, &component).is_none())
    })
}

pub fn atomic_store_count(seen: &Seen) -> bool {
    match (seen.case.operation, seen.case.operands) {
        (Call("atomicStore"), [Pointer(_, elem, _), values @ ..]) => {
            matches!(**elem, WType::Atomic(_))
                && values.len() != 1
                && *seen.rust == Answer::NoValue
                && *seen.ours == Answer::Refused(refusal::OPERANDS)
        }
        _ => false,
    }
}

/// What a workgroup pointer of workgroupUniformLoad points to, and its access, where the crate gives that.
fn loaded<'a>(seen: &'a Seen) -> Option<(&'a WType, Access)> {
    match (seen.case.operation, seen.case.operands) {
        (Call("workgroupUniformLoad"), [Pointer(Space::Workgroup, elem, access)]) => {
            gave(seen.rust, (**elem).clone()).then_some((&**elem, *access))
        }
        _ => None,
    }
}

pub fn uniform_load_access(seen: &Seen) -> bool {
    loaded(seen).is_some_and(|(_, access)| access != Access::ReadWrite) && unfit(seen.ours)
}

pub fn uniform_load_element(seen: &Seen) -> bool {
    loaded(seen).is_some_and(|(elem, access)| {
        let array = matches!(elem, Array(..));
        let refused = matches!(elem, Array(_, None)) || elem.holds_atomic();
        access == Access::ReadWrite && array && refused && unfit(seen.ours)
    })
}

pub fn uniform_load_atomic(seen: &Seen) -> bool {
    match loaded(seen) {
        Some((WType::Atomic(of), Access::ReadWrite)) => gave(seen.ours, WType::Scalar(*of)),
        _ => false,
    }
}

/// A call of ldexp: width and component of both operands.
fn scaled(seen: &Seen) -> Option<[(u8, Scalar); 2]> {
    match seen.case.operation {
        Call("ldexp") => two_wide(seen.case.operands),
        _ => None,
    }
}

pub fn ldexp_mixed(seen: &Seen) -> bool {
    match scaled(seen) {
        Some([(m, of @ (F32 | F16)), (n, AbstractInt)]) => {
            m == n && seen.rust.is_refused() && gave(seen.ours, WType::wide(m, of))
        }
        Some([(m, AbstractFloat), (n, I32)]) => {
            m == n && seen.rust.is_refused() && gave(seen.ours, WType::wide(m, F32))
        }
        _ => false,
    }
}

pub fn ldexp_abstract_int(seen: &Seen) -> bool {
    match scaled(seen) {
        Some([(m, AbstractInt), (n, second @ (AbstractInt | I32))]) => {
            let given = if second == I32 { F32 } else { AbstractFloat };
            m == n && seen.rust.is_refused() && gave(seen.ours, WType::wide(m, given))
        }
        _ => false,
    }
}

pub fn ldexp_width(seen: &Seen) -> bool {
    match scaled(seen) {
        Some([(m @ 2.., of), (n @ 2.., second)]) => {
            let alike = of.is_float() && of.is_abstract() == second.is_abstract();
            (m != n && alike && matches!(second, AbstractInt | I32))
                && gave(seen.rust, WType::wide(m, of))
                && unfit(seen.ours)
        }
        _ => false,
    }
}

pub fn array_length_any(seen: &Seen) -> bool {
    match (seen.case.operation, seen.case.operands) {
        (Call("arrayLength"), [operand]) => {
            let taken = match operand {
                Pointer(Space::Storage, elem, Access::Read | Access::ReadWrite) => {
                    matches!(**elem, Array(_, None))
                }
                _ => false,
            };
            !taken && gave(seen.rust, WType::Scalar(U32)) && unfit(seen.ours)
        }
        _ => false,
    }
}
