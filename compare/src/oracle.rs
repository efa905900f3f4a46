//! The crate's three files as an oracle: types go in as the crate's, its answers come out as `Answer`.
//!
//! A panic of the crate is caught and is an answer of its own. `quiet` keeps its message from the terminal.

use crate::Error;
use crate::call_ty::{atomic_compare_exchange_struct_type, type_builtin_fn};
use crate::case::{Answer, Argument};
use crate::inst::{Instance, LiteralInstance};
use crate::ops_ty::{type_binary_op, type_unary_op};
use crate::standard::SIZED_HEADS;
use crate::syntax::{AccessMode, AddressSpace, BinaryOperator, UnaryOperator};
use crate::tplt::{ArrayTemplate, AtomicTemplate, MatTemplate, TpltParam, VecTemplate};
use crate::ty::{StructType, Type};
use crate::types::{Access, Scalar, Space, WType};
use std::panic::{AssertUnwindSafe, catch_unwind};

const UNARY: [UnaryOperator; 5] = [
    UnaryOperator::LogicalNegation,
    UnaryOperator::Negation,
    UnaryOperator::BitwiseComplement,
    UnaryOperator::AddressOf,
    UnaryOperator::Indirection,
];

const BINARY: [BinaryOperator; 18] = [
    BinaryOperator::ShortCircuitOr,
    BinaryOperator::ShortCircuitAnd,
    BinaryOperator::Addition,
    BinaryOperator::Subtraction,
    BinaryOperator::Multiplication,
    BinaryOperator::Division,
    BinaryOperator::Remainder,
    BinaryOperator::Equality,
    BinaryOperator::Inequality,
    BinaryOperator::LessThan,
    BinaryOperator::LessThanEqual,
    BinaryOperator::GreaterThan,
    BinaryOperator::GreaterThanEqual,
    BinaryOperator::BitwiseOr,
    BinaryOperator::BitwiseAnd,
    BinaryOperator::BitwiseXor,
    BinaryOperator::ShiftLeft,
    BinaryOperator::ShiftRight,
];

/// The crate's operator of a number of document 01.
pub fn unary_operator(op: usize) -> UnaryOperator {
    UNARY[op]
}

/// The crate's operator of a number of document 01.
pub fn binary_operator(op: usize) -> BinaryOperator {
    BINARY[op]
}

/// Panics of the crate write nothing from here on.
pub fn quiet() {
    std::panic::set_hook(Box::new(|info| {
        let ours = info
            .location()
            .is_none_or(|at| !at.file().contains("docs/src/"));
        if ours {
            eprintln!("{info}");
        }
    }));
}

/// The crate's answer to a unary operator.
pub fn oracle_unary(op: usize, ty: &Type) -> Answer {
    asked(|| type_unary_op(UNARY[op], ty).map(Some))
}

/// The crate's answer to a binary operator.
pub fn oracle_binary(op: usize, a: &Type, b: &Type) -> Answer {
    asked(|| type_binary_op(BINARY[op], a, b).map(Some))
}

/// The crate's answer to a call; an empty template list is none.
pub fn oracle_call(name: &str, tplt: &[TpltParam], args: &[Type]) -> Answer {
    let tplt = (!tplt.is_empty()).then_some(tplt);
    asked(|| type_builtin_fn(name, tplt, args))
}

/// The crate's answer to a template type. Which template a head asks for is ours: the module that does it was not supplied.
pub fn oracle_template(head: &str, args: &[TpltParam]) -> Answer {
    let sized = SIZED_HEADS.into_iter().find(|(name, _, _)| *name == head);
    asked(|| match (head, sized) {
        (_, Some((_, n, 0))) => VecTemplate::parse(args).map(|made| Some(made.ty(n))),
        (_, Some((_, c, r))) => MatTemplate::parse(args).map(|made| Some(made.ty(c, r))),
        ("atomic", _) => AtomicTemplate::parse(args).map(|made| Some(made.ty())),
        ("array", _) => ArrayTemplate::parse(args).map(|made| Some(made.ty())),
        _ => Err(Error::TemplateArgs("no head")),
    })
}

fn asked(ask: impl FnOnce() -> Result<Option<Type>, Error>) -> Answer {
    match catch_unwind(AssertUnwindSafe(ask)) {
        Ok(Ok(Some(ty))) => Answer::Type(from_rust(&ty)),
        Ok(Ok(None)) => Answer::NoValue,
        Ok(Err(_)) => Answer::Refused(0),
        Err(_) => Answer::Panicked,
    }
}

fn scalar_to_rust(of: Scalar) -> Type {
    match of {
        Scalar::Bool => Type::Bool,
        Scalar::AbstractInt => Type::AbstractInt,
        Scalar::AbstractFloat => Type::AbstractFloat,
        Scalar::I32 => Type::I32,
        Scalar::U32 => Type::U32,
        Scalar::F32 => Type::F32,
        Scalar::F16 => Type::F16,
    }
}

fn scalar_from_rust(ty: &Type) -> Option<Scalar> {
    match ty {
        Type::Bool => Some(Scalar::Bool),
        Type::AbstractInt => Some(Scalar::AbstractInt),
        Type::AbstractFloat => Some(Scalar::AbstractFloat),
        Type::I32 => Some(Scalar::I32),
        Type::U32 => Some(Scalar::U32),
        Type::F32 => Some(Scalar::F32),
        Type::F16 => Some(Scalar::F16),
        _ => None,
    }
}

fn space_to_rust(space: Space) -> AddressSpace {
    match space {
        Space::Function => AddressSpace::Function,
        Space::Private => AddressSpace::Private,
        Space::Workgroup => AddressSpace::Workgroup,
        Space::Uniform => AddressSpace::Uniform,
        Space::Storage => AddressSpace::Storage,
        Space::Handle => AddressSpace::Handle,
    }
}

fn space_from_rust(space: AddressSpace) -> Space {
    match space {
        AddressSpace::Function => Space::Function,
        AddressSpace::Private => Space::Private,
        AddressSpace::Workgroup => Space::Workgroup,
        AddressSpace::Uniform => Space::Uniform,
        AddressSpace::Storage => Space::Storage,
        AddressSpace::Handle => Space::Handle,
    }
}

fn access_to_rust(access: Access) -> AccessMode {
    match access {
        Access::Read => AccessMode::Read,
        Access::Write => AccessMode::Write,
        Access::ReadWrite => AccessMode::ReadWrite,
    }
}

fn access_from_rust(access: AccessMode) -> Access {
    match access {
        AccessMode::Read => Access::Read,
        AccessMode::Write => Access::Write,
        AccessMode::ReadWrite => Access::ReadWrite,
    }
}

/// A type as the crate has it. The result types of frexp and modf are no operands here.
pub fn to_rust(ty: &WType) -> Type {
    let boxed = |elem: &WType| Box::new(to_rust(elem));
    match ty {
        WType::Scalar(of) => scalar_to_rust(*of),
        WType::Vector(n, of) => Type::Vec(*n, Box::new(scalar_to_rust(*of))),
        WType::Matrix(c, r, of) => Type::Mat(*c, *r, Box::new(scalar_to_rust(*of))),
        WType::Array(elem, count) => Type::Array(boxed(elem), count.map(|n| n as usize)),
        WType::Atomic(of) => Type::Atomic(Box::new(scalar_to_rust(*of))),
        WType::Pointer(space, elem, access) => {
            Type::Ptr(space_to_rust(*space), boxed(elem), access_to_rust(*access))
        }
        WType::Reference(space, elem, access) => {
            Type::Ref(space_to_rust(*space), boxed(elem), access_to_rust(*access))
        }
        WType::Exchange(of) => atomic_compare_exchange_struct_type(&scalar_to_rust(*of)).into(),
        WType::Frexp(_) | WType::Modf(_) | WType::Foreign(_) => {
            panic!("{ty} is no operand of the comparison")
        }
    }
}

/// A type of the crate as document 01 has it.
pub fn from_rust(ty: &Type) -> WType {
    let made = match ty {
        Type::Vec(n, of) => scalar_from_rust(of).map(|of| WType::Vector(*n, of)),
        Type::Mat(c, r, of) => scalar_from_rust(of).map(|of| WType::Matrix(*c, *r, of)),
        Type::Atomic(of) => scalar_from_rust(of).map(WType::Atomic),
        Type::Array(elem, count) => Some(WType::Array(
            Box::new(from_rust(elem)),
            count.map(|n| n as u64),
        )),
        Type::Ptr(space, elem, access) => Some(WType::Pointer(
            space_from_rust(*space),
            Box::new(from_rust(elem)),
            access_from_rust(*access),
        )),
        Type::Ref(space, elem, access) => Some(WType::Reference(
            space_from_rust(*space),
            Box::new(from_rust(elem)),
            access_from_rust(*access),
        )),
        Type::Struct(ty) => exchange_type(ty).or_else(|| result_type(ty)),
        scalar => scalar_from_rust(scalar).map(WType::Scalar),
    };
    made.unwrap_or_else(|| WType::Foreign(format!("{ty:?}")))
}

/// The result type of a compare, where both members are as document 02 says. The crate's name for it has no component.
fn exchange_type(ty: &StructType) -> Option<WType> {
    let [old_value, exchanged] = &ty.members[..] else {
        return None;
    };
    let as_said = ty.name == "__atomic_compare_exchange_result"
        && old_value.name == "old_value"
        && (exchanged.name == "exchanged" && exchanged.ty == Type::Bool);
    scalar_from_rust(&old_value.ty)
        .filter(|of| as_said && matches!(of, Scalar::I32 | Scalar::U32))
        .map(WType::Exchange)
}

/// The result type of frexp or modf, where name and both members are as document 01 says.
fn result_type(ty: &StructType) -> Option<WType> {
    let [fract, second] = &ty.members[..] else {
        return None;
    };
    let fract_ty = from_rust(&fract.ty);
    let (width, of) = fract_ty.as_wide()?;
    let exp = if of.is_abstract() {
        Scalar::AbstractInt
    } else {
        Scalar::I32
    };
    let (made, second_ty) = match second.name.as_str() {
        "exp" => (
            WType::Frexp(Box::new(fract_ty.clone())),
            WType::wide(width, exp),
        ),
        "whole" => (WType::Modf(Box::new(fract_ty.clone())), fract_ty),
        _ => return None,
    };
    let as_said = fract.name == "fract"
        && of.is_float()
        && from_rust(&second.ty) == second_ty
        && made.to_string() == ty.name;
    as_said.then_some(made)
}

/// An argument of a template list as the crate has it.
pub fn argument_to_rust(argument: &Argument) -> TpltParam {
    let literal = |literal| TpltParam::Instance(Instance::Literal(literal));
    match argument {
        Argument::Type(ty) => TpltParam::Type(to_rust(ty)),
        Argument::AbstractInt(n) => literal(LiteralInstance::AbstractInt(*n)),
        Argument::I32(n) => literal(LiteralInstance::I32(*n)),
        Argument::U32(n) => literal(LiteralInstance::U32(*n)),
        Argument::Bool(b) => literal(LiteralInstance::Bool(*b)),
        Argument::F32(bits) => literal(LiteralInstance::F32(f32::from_bits(*bits))),
    }
}

#[cfg(test)]
mod tests {
    use super::*;
    use crate::domain::{on_memory, references, whole};

    #[test]
    fn every_type_comes_back() {
        for ty in whole().iter().chain(&references()).chain(&on_memory()) {
            assert_eq!(&from_rust(&to_rust(ty)), ty);
        }
    }

    #[test]
    fn a_panic_is_an_answer() {
        quiet();
        assert_eq!(oracle_call("dpdx", &[], &[Type::F16]), Answer::Panicked);
    }

    #[test]
    fn results_of_frexp_have_their_members() {
        let two = Type::Vec(2, Box::new(Type::AbstractFloat));
        let answer = oracle_call("frexp", &[], &[two]);
        assert_eq!(answer.to_string(), "__frexp_result_vec2_abstract");
    }
}
