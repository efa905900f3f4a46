//! A stand-in for `conv.rs`: WGSL, "Conversion Rank" and "Overload Resolution".
//!
//! The ranks are the standard's, arrays included. Not shown: any fault in the crate's own ranks, in the type that it picks as the common one of two or
//! more, and in what `convert_inner_to` makes of a pointer or an array, for which WGSL has no such conversion. References are not loaded here:
//! the crate asks for loaded operands.

use crate::ty::Type;

/// WGSL's conversion rank, or none where no automatic conversion is feasible.
pub fn conversion_rank(from: &Type, to: &Type) -> Option<u32> {
    match (from, to) {
        _ if from == to => Some(0),
        (Type::AbstractFloat, Type::F32) => Some(1),
        (Type::AbstractFloat, Type::F16) => Some(2),
        (Type::AbstractInt, Type::I32) => Some(3),
        (Type::AbstractInt, Type::U32) => Some(4),
        (Type::AbstractInt, Type::AbstractFloat) => Some(5),
        (Type::AbstractInt, Type::F32) => Some(6),
        (Type::AbstractInt, Type::F16) => Some(7),
        (Type::Vec(n1, from), Type::Vec(n2, to)) if n1 == n2 => conversion_rank(from, to),
        (Type::Mat(c1, r1, from), Type::Mat(c2, r2, to)) if c1 == c2 && r1 == r2 => {
            conversion_rank(from, to)
        }
        (Type::Array(from, Some(n1)), Type::Array(to, Some(n2))) if n1 == n2 => {
            conversion_rank(from, to)
        }
        _ => None,
    }
}

/// That one of the two to which the other converts.
pub fn convert_ty<'a>(ty1: &'a Type, ty2: &'a Type) -> Option<&'a Type> {
    if ty1.is_convertible_to(ty2) {
        Some(ty2)
    } else if ty2.is_convertible_to(ty1) {
        Some(ty1)
    } else {
        None
    }
}

/// That one of the list to which all others convert.
pub fn convert_all_ty<'a>(tys: impl IntoIterator<Item = &'a Type>) -> Option<&'a Type> {
    let mut tys = tys.into_iter();
    let first = tys.next()?;
    tys.try_fold(first, convert_ty)
}

/// Conversion of the component type, with the shape kept.
pub trait Convert: Sized {
    fn convert_inner_to(&self, ty: &Type) -> Option<Self>;
}

impl Convert for Type {
    fn convert_inner_to(&self, ty: &Type) -> Option<Self> {
        match self {
            Type::Vec(n, inner) if inner.is_convertible_to(ty) => {
                Some(Type::Vec(*n, Box::new(ty.clone())))
            }
            Type::Mat(c, r, inner) if inner.is_convertible_to(ty) => {
                Some(Type::Mat(*c, *r, Box::new(ty.clone())))
            }
            scalar if scalar.is_convertible_to(ty) => Some(ty.clone()),
            _ => None,
        }
    }
}
