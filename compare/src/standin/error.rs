//! A stand-in for `error.rs`, and for `CallSignature` of `lib.rs`.
//!
//! `lib.rs` was supplied, but it names modules and a README that were not, so it cannot be built; the structure below has its three fields.
//! Not shown: the texts of errors, and errors that the three files do not name. Every error counts as one refusal.

use crate::syntax::{BinaryOperator, UnaryOperator};
use crate::tplt::TpltParam;
use crate::ty::Type;

/// A call that no arm of the crate takes.
#[derive(Clone, Debug, PartialEq)]
pub struct CallSignature {
    pub name: String,
    pub tplt: Option<Vec<TpltParam>>,
    pub args: Vec<Type>,
}

/// The errors that the three files give.
#[derive(Clone, Debug, PartialEq)]
pub enum Error {
    Unary(UnaryOperator, Type),
    Binary(BinaryOperator, Type, Type),
    Signature(CallSignature),
    TemplateArgs(&'static str),
    Builtin(&'static str),
    PtrHandle,
    PtrVecComp,
}
