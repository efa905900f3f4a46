//! The typing rules of WGSL, proved: the result types of operators, builtins, template types and whole sheets, by `libswartabelk.a`.
//!
//! A [`Table`] owns the types of a host. It gives out a [`Type`] for each, and a type once given out never moves or changes. A [`Value`] is a type, and
//! whether the value is known only when running; it is what operators and calls take and give.
//!
//! ```
//! use swartabelk::{BinaryOp, Table, Type};
//!
//! # fn main() -> Result<(), swartabelk::Error> {
//! let mut table = Table::new();
//! let sum = table.binary(BinaryOp::Plus, Type::ABSTRACT_INT, Type::F32)?;
//! assert_eq!(sum.ty(), Type::F32);
//!
//! let vec3 = table.template("vec3", &[sum.ty().into()])?;
//! let scaled = table.binary(BinaryOp::Times, vec3, sum)?;
//! assert_eq!(table.spell(scaled.ty()), "vec3<f32>");
//!
//! let length = table.call("length", &[scaled])?.expect("only barriers and atomicStore have no value");
//! assert_eq!(length.ty(), Type::F32);
//! # Ok(())
//! # }
//! ```
//!
//! What WGSL does not allow is an [`Error`]. It has the [`Reason`], and says it in words; where no overload fits, it says of each why not.
//!
//! ```
//! use swartabelk::{BinaryOp, Reason, Table, Type};
//!
//! let error = Table::new().binary(BinaryOp::Or, Type::BOOL, Type::F32).unwrap_err();
//! assert_eq!(error.reason(), Reason::NoOverload);
//! assert_eq!(error.to_string(), "no overload takes operands of these types (refusal 8)");
//! assert_eq!(error.why(), "(bool, bool): operand 2 is f32\n");
//! ```
//!
//! A host that lends its own words, with no allocator, say, has the same by the functions of [`lent`].
//!
//! # Features
//!
//! The package uses no `std` unless it is asked to.
//!
//! | feature | has |
//! |---|---|
//! | `alloc` (by default) | [`Table`], [`Error`], and spellings as `String`, by the crate `alloc` |
//! | `std` | `std::error::Error` for [`Error`] and [`lent::Refusal`], besides `alloc` |
//! | none of them | [`lent`], and the enums |
//!
//! # Linking
//!
//! The build script looks for `libswartabelk.a` in the folder that `SWARTABELK_LIB` names, or else where `tools/archive` writes it. The archive is for x86-64.
#![no_std]
#![warn(missing_docs)]

#[cfg(feature = "alloc")]
extern crate alloc;
#[cfg(feature = "std")]
extern crate std;

#[cfg(feature = "alloc")]
mod error;
pub mod lent;
mod raw;
mod rules;
#[cfg(feature = "alloc")]
mod run;
#[cfg(feature = "alloc")]
mod table;

#[cfg(feature = "alloc")]
pub use error::Error;
pub use rules::{Access, Argument, BinaryOp, Profile, Reason, Space, UnaryOp};
#[cfg(feature = "alloc")]
pub use table::{Entry, Table, Type, Value};

/// The most entries that a table has, and the words of one.
const CEILING: usize = 256;
const STRIDE: usize = 4;
