//! A stand-in for `inst.rs`: the values of the crate.
//!
//! Only literals are here, for they are all that `tplt.rs` reads. Not shown: every computation on values, and what the crate does with a count that
//! is a value but no literal. F16 is kept as an f32.

/// A value.
#[derive(Clone, Debug, PartialEq)]
pub enum Instance {
    Literal(LiteralInstance),
    /// A value that is no literal, as a vector.
    Other,
}

/// A literal.
#[derive(Clone, Debug, PartialEq)]
pub enum LiteralInstance {
    Bool(bool),
    AbstractInt(i64),
    AbstractFloat(f64),
    I32(i32),
    U32(u32),
    F32(f32),
    F16(f32),
}
