//! Types as document 01 has them, and their spelling. Neither the crate's types nor Swartabelk's table: both are turned into these to be compared.

use std::fmt;

/// The scalars, in the order of the table's first seven entries.
#[derive(Clone, Copy, Debug, PartialEq, Eq, PartialOrd, Ord, Hash)]
pub enum Scalar {
    Bool,
    AbstractInt,
    AbstractFloat,
    I32,
    U32,
    F32,
    F16,
}

use Scalar::*;

pub const SCALARS: [Scalar; 7] = [Bool, AbstractInt, AbstractFloat, I32, U32, F32, F16];
pub const FLOATS: [Scalar; 3] = [AbstractFloat, F32, F16];
pub const INTEGERS: [Scalar; 3] = [AbstractInt, I32, U32];
pub const NUMERICS: [Scalar; 6] = [AbstractInt, AbstractFloat, I32, U32, F32, F16];

/// The widths of vectors, and the column and row counts of matrices.
pub const WIDTHS: [u8; 3] = [2, 3, 4];

impl Scalar {
    pub fn is_abstract(self) -> bool {
        matches!(self, AbstractInt | AbstractFloat)
    }
    pub fn is_float(self) -> bool {
        FLOATS.contains(&self)
    }
    pub fn name(self) -> &'static str {
        match self {
            Bool => "bool",
            AbstractInt => "AbstractInt",
            AbstractFloat => "AbstractFloat",
            I32 => "i32",
            U32 => "u32",
            F32 => "f32",
            F16 => "f16",
        }
    }
}

/// Address spaces, in document 01's order.
#[derive(Clone, Copy, Debug, PartialEq, Eq, PartialOrd, Ord, Hash)]
pub enum Space {
    Function,
    Private,
    Workgroup,
    Uniform,
    Storage,
    Handle,
}

pub const SPACES: [Space; 6] = [
    Space::Function,
    Space::Private,
    Space::Workgroup,
    Space::Uniform,
    Space::Storage,
    Space::Handle,
];

impl Space {
    fn name(self) -> &'static str {
        match self {
            Space::Function => "function",
            Space::Private => "private",
            Space::Workgroup => "workgroup",
            Space::Uniform => "uniform",
            Space::Storage => "storage",
            Space::Handle => "handle",
        }
    }
    /// The access of a pointer that names none.
    fn usual_access(self) -> Access {
        match self {
            Space::Function | Space::Private | Space::Workgroup => Access::ReadWrite,
            Space::Uniform | Space::Storage | Space::Handle => Access::Read,
        }
    }
}

/// Access modes, in document 01's order.
#[derive(Clone, Copy, Debug, PartialEq, Eq, PartialOrd, Ord, Hash)]
pub enum Access {
    Read,
    Write,
    ReadWrite,
}

pub const ACCESSES: [Access; 3] = [Access::Read, Access::Write, Access::ReadWrite];

impl Access {
    fn name(self) -> &'static str {
        match self {
            Access::Read => "read",
            Access::Write => "write",
            Access::ReadWrite => "read_write",
        }
    }
}

/// A type.
#[derive(Clone, Debug, PartialEq, Eq, PartialOrd, Ord, Hash)]
pub enum WType {
    Scalar(Scalar),
    Vector(u8, Scalar),
    /// Columns, rows, component.
    Matrix(u8, u8, Scalar),
    /// Element, and the count where there is one. The crate's count may pass 32 bits.
    Array(Box<WType>, Option<u64>),
    Atomic(Scalar),
    Pointer(Space, Box<WType>, Access),
    Reference(Space, Box<WType>, Access),
    /// The result of frexp, by the type of `fract`.
    Frexp(Box<WType>),
    /// The result of modf, by the type of `fract`.
    Modf(Box<WType>),
    /// The result of atomicCompareExchangeWeak, by the type of `old_value`.
    Exchange(Scalar),
    /// A type of the crate for which document 01 has no row.
    Foreign(String),
}

impl WType {
    /// The scalar or the vector of a width; width 1 is the scalar.
    pub fn wide(width: u8, of: Scalar) -> WType {
        if width == 1 {
            WType::Scalar(of)
        } else {
            WType::Vector(width, of)
        }
    }
    /// The type of a spelling, in which a pointer may lack its access: that is WGSL's of its space then. None where it is none of these.
    pub fn read(spelling: &str) -> Option<WType> {
        let scalar = |name: &str| SCALARS.into_iter().find(|of| of.name() == name);
        if let Some(of) = scalar(spelling) {
            return Some(WType::Scalar(of));
        }
        let (head, inside) = spelling.strip_suffix('>')?.split_once('<')?;
        let size = |digit: &str| digit.parse().ok().filter(|n| WIDTHS.contains(n));
        match head {
            "array" => {
                let counted = inside.rsplit_once(',');
                let count = counted.and_then(|(elem, n)| Some((elem, n.parse().ok()?)));
                let (elem, count) = match count {
                    Some((elem, n)) => (elem, Some(n)),
                    None => (inside, None),
                };
                Some(WType::Array(Box::new(WType::read(elem)?), count))
            }
            "atomic" => scalar(inside).map(WType::Atomic),
            "__atomic_compare_exchange_result" => scalar(inside).map(WType::Exchange),
            "ptr" => {
                let (space, rest) = inside.split_once(',')?;
                let space = SPACES.into_iter().find(|one| one.name() == space)?;
                let named = rest.rsplit_once(',').and_then(|(elem, access)| {
                    let access = ACCESSES.into_iter().find(|one| one.name() == access)?;
                    Some((elem, access))
                });
                let (elem, access) = named.unwrap_or((rest, space.usual_access()));
                Some(WType::Pointer(space, Box::new(WType::read(elem)?), access))
            }
            _ if head.starts_with("vec") => Some(WType::Vector(size(&head[3..])?, scalar(inside)?)),
            _ => {
                let (columns, rows) = head.strip_prefix("mat")?.split_once('x')?;
                Some(WType::Matrix(size(columns)?, size(rows)?, scalar(inside)?))
            }
        }
    }
    /// Width and component of a scalar or vector.
    pub fn as_wide(&self) -> Option<(u8, Scalar)> {
        match self {
            WType::Scalar(of) => Some((1, *of)),
            WType::Vector(width, of) => Some((*width, *of)),
            _ => None,
        }
    }
    /// Whether a pointer or reference must not point to it.
    pub fn is_abstract(&self) -> bool {
        match self {
            WType::Scalar(of) | WType::Vector(_, of) | WType::Matrix(_, _, of) => of.is_abstract(),
            WType::Array(elem, _) | WType::Frexp(elem) | WType::Modf(elem) => elem.is_abstract(),
            _ => false,
        }
    }
    /// Whether an atomic stands in it, at any depth.
    pub fn holds_atomic(&self) -> bool {
        match self {
            WType::Atomic(_) => true,
            WType::Array(elem, _) => elem.holds_atomic(),
            _ => false,
        }
    }
    /// The types that no array may hold.
    pub fn is_no_element(&self) -> bool {
        matches!(
            self,
            WType::Pointer(..) | WType::Reference(..) | WType::Array(_, None)
        )
    }
}

/// The end of a result type's name.
fn result_name(fract: &WType) -> String {
    let of = |of: Scalar| match of {
        AbstractFloat => "abstract",
        of => of.name(),
    };
    match fract {
        WType::Scalar(s) => of(*s).to_string(),
        WType::Vector(n, s) => format!("vec{n}_{}", of(*s)),
        other => format!("({other})"),
    }
}

impl fmt::Display for WType {
    fn fmt(&self, f: &mut fmt::Formatter<'_>) -> fmt::Result {
        match self {
            WType::Scalar(of) => f.write_str(of.name()),
            WType::Vector(n, of) => write!(f, "vec{n}<{}>", of.name()),
            WType::Matrix(c, r, of) => write!(f, "mat{c}x{r}<{}>", of.name()),
            WType::Array(elem, Some(n)) => write!(f, "array<{elem},{n}>"),
            WType::Array(elem, None) => write!(f, "array<{elem}>"),
            WType::Atomic(of) => write!(f, "atomic<{}>", of.name()),
            WType::Pointer(space, elem, access) => {
                write!(f, "ptr<{},{elem},{}>", space.name(), access.name())
            }
            WType::Reference(space, elem, access) => {
                write!(f, "ref<{},{elem},{}>", space.name(), access.name())
            }
            WType::Frexp(fract) => write!(f, "__frexp_result_{}", result_name(fract)),
            WType::Modf(fract) => write!(f, "__modf_result_{}", result_name(fract)),
            WType::Exchange(of) => write!(f, "__atomic_compare_exchange_result<{}>", of.name()),
            WType::Foreign(name) => write!(f, "foreign:{name}"),
        }
    }
}

#[cfg(test)]
mod tests {
    use super::*;
    use crate::domain::{on_memory, whole};

    #[test]
    fn every_spelling_is_read() {
        for ty in whole().iter().chain(&on_memory()) {
            assert_eq!(WType::read(&ty.to_string()).as_ref(), Some(ty));
        }
        let unnamed = WType::read("ptr<workgroup,atomic<i32>>").unwrap();
        assert_eq!(unnamed.to_string(), "ptr<workgroup,atomic<i32>,read_write>");
        for none in [
            "St",
            "f64",
            "vec5<f32>",
            "vec<f32>",
            "array<>",
            "ptr<storage>",
            "mat2<f32>",
        ] {
            assert_eq!(WType::read(none), None, "{none}");
        }
    }
}
