//! A stand-in for `syntax.rs`: operators and enumerants by WGSL's lists.
//!
//! Not shown: how the crate reads them from text. The texel formats are two of WGSL's, for textures are left out of the comparison.

/// WGSL, "Address Spaces".
#[derive(Clone, Copy, Debug, PartialEq, Eq)]
pub enum AddressSpace {
    Function,
    Private,
    Workgroup,
    Uniform,
    Storage,
    Handle,
}

/// WGSL, "Memory Access Mode".
#[derive(Clone, Copy, Debug, PartialEq, Eq)]
pub enum AccessMode {
    Read,
    Write,
    ReadWrite,
}

/// Formats of storage textures; two are enough to compile.
#[derive(Clone, Copy, Debug, PartialEq, Eq)]
pub enum TexelFormat {
    Rgba8Unorm,
    R32Uint,
}

/// The component of a sampled texture.
#[derive(Clone, Copy, Debug, PartialEq, Eq)]
pub enum SampledType {
    I32,
    U32,
    F32,
}

/// WGSL, "Predeclared enumerants", those that stand in template lists.
#[derive(Clone, Copy, Debug, PartialEq, Eq)]
pub enum Enumerant {
    AddressSpace(AddressSpace),
    AccessMode(AccessMode),
    TexelFormat(TexelFormat),
}

/// WGSL, "unary_expression", in the order of document 01.
#[derive(Clone, Copy, Debug, PartialEq, Eq)]
pub enum UnaryOperator {
    LogicalNegation,
    Negation,
    BitwiseComplement,
    AddressOf,
    Indirection,
}

/// WGSL, "Operator Precedence and Associativity", in the order of document 01.
#[derive(Clone, Copy, Debug, PartialEq, Eq)]
pub enum BinaryOperator {
    ShortCircuitOr,
    ShortCircuitAnd,
    Addition,
    Subtraction,
    Multiplication,
    Division,
    Remainder,
    Equality,
    Inequality,
    LessThan,
    LessThanEqual,
    GreaterThan,
    GreaterThanEqual,
    BitwiseOr,
    BitwiseAnd,
    BitwiseXor,
    ShiftLeft,
    ShiftRight,
}
