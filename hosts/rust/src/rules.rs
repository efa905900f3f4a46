//! The words of the documents as enums: operators, spaces, accesses, template arguments, reasons of a refusal; and the profile.
use core::fmt;

/// The unary operators, by their numbers.
#[derive(Clone, Copy, Debug, PartialEq, Eq, Hash)]
#[repr(u32)]
pub enum UnaryOp {
    /// `!`
    Not = 0,
    /// `-`
    Negate = 1,
    /// `~`
    Complement = 2,
    /// `&`
    AddressOf = 3,
    /// `*`
    Indirection = 4,
}

/// The binary operators, by their numbers.
#[derive(Clone, Copy, Debug, PartialEq, Eq, Hash)]
#[repr(u32)]
pub enum BinaryOp {
    /// `||`
    Or = 0,
    /// `&&`
    And = 1,
    /// `+`
    Plus = 2,
    /// `-`
    Minus = 3,
    /// `*`
    Times = 4,
    /// `/`
    Over = 5,
    /// `%`
    Remainder = 6,
    /// `==`
    Equal = 7,
    /// `!=`
    Unequal = 8,
    /// `<`
    Less = 9,
    /// `<=`
    LessEqual = 10,
    /// `>`
    Greater = 11,
    /// `>=`
    GreaterEqual = 12,
    /// `|`
    BitOr = 13,
    /// `&`
    BitAnd = 14,
    /// `^`
    BitXor = 15,
    /// `<<`
    ShiftLeft = 16,
    /// `>>`
    ShiftRight = 17,
}

/// The profile of a call or of a sheet, by its number: which builtins there are. Any number but those of the two constants is an unknown profile, in which
/// every call is refused with [`Reason::Unknown`], and so is every sheet, at place 0.
///
/// ```
/// use swartabelk::{Profile, Reason, Table, Type};
///
/// let mut table = Table::new();
/// assert_eq!(table.call("subgroupElect", &[]).unwrap_err().reason(), Reason::Unknown);
/// table.set_profile(Profile::SUBGROUPS);
/// assert_eq!(table.call("subgroupElect", &[]), Ok(Some(Type::BOOL.running())));
/// ```
#[derive(Clone, Copy, Debug, Default, PartialEq, Eq, Hash)]
pub struct Profile(pub u32);

impl Profile {
    /// The builtins without those of subgroups and quads.
    pub const BASE: Profile = Profile(0);
    /// These, and the subgroup and quad builtins.
    pub const SUBGROUPS: Profile = Profile(1);
}

/// Why a call is refused, by its number.
///
/// ```
/// use swartabelk::Reason;
///
/// assert_eq!(Reason::NoOverload as u32, 8);
/// assert_eq!(Reason::of(8), Some(Reason::NoOverload));
/// assert_eq!(Reason::NoOverload.to_string(), "no overload takes operands of these types");
/// ```
#[derive(Clone, Copy, Debug, PartialEq, Eq, Hash)]
#[repr(u32)]
pub enum Reason {
    /// The table is not sound, or the slice is shorter than four times the count.
    Unsound = 1,
    /// A type number that is not below the count.
    NoSuchType = 2,
    /// A reference offered, but to unary `&`.
    Reference = 3,
    /// An unknown operator, builtin or head; a name outside the profile, or an unknown profile.
    Unknown = 4,
    /// A template list or an entry that is wrong, missing or not wanted.
    Template = 5,
    /// An array's count.
    Count = 6,
    /// A wrong number of operands.
    Operands = 7,
    /// No overload fits.
    NoOverload = 8,
    /// The result is absent, and the slice or 256 leaves too little room. The refusal tells how many entries lack.
    NoRoom = 9,
    /// A sheet's header, framing, kind or payload length.
    Framing = 10,
    /// The stack is short, a 65th value, or a wrong end.
    Stack = 11,
    /// The text is longer than the output.
    TooLong = 12,
    /// An operand that is known only when running and is abstract at any depth.
    RunningAbstract = 14,
}

impl Reason {
    /// The reason of a refusal's number.
    pub const fn of(number: u32) -> Option<Reason> {
        Some(match number {
            1 => Reason::Unsound,
            2 => Reason::NoSuchType,
            3 => Reason::Reference,
            4 => Reason::Unknown,
            5 => Reason::Template,
            6 => Reason::Count,
            7 => Reason::Operands,
            8 => Reason::NoOverload,
            9 => Reason::NoRoom,
            10 => Reason::Framing,
            11 => Reason::Stack,
            12 => Reason::TooLong,
            14 => Reason::RunningAbstract,
            _ => return None,
        })
    }

    /// The reason in words, as `swartabelk_refusal_text` of the C header has them.
    pub const fn text(self) -> &'static str {
        match self {
            Reason::Unsound => "the table is not sound, or its slice is too short",
            Reason::NoSuchType => "no type of the table has this number",
            Reason::Reference => "an operand is a reference, which only unary & takes",
            Reason::Unknown => "there is no such operator, head or profile, or no such builtin in this profile",
            Reason::Template => "a template list or an entry is wrong, missing or not wanted",
            Reason::Count => "the array's count is wrong",
            Reason::Operands => "the builtin takes another number of operands",
            Reason::NoOverload => "no overload takes operands of these types",
            Reason::NoRoom => "the result is a new type, and the table has no room for it",
            Reason::Framing => "the sheet's header or an item is badly framed",
            Reason::Stack => "too few values on the stack, a 65th value, or not one value at the end",
            Reason::TooLong => "the text is longer than the output",
            Reason::RunningAbstract => "an operand is known only when running, and its type is abstract or holds one that is",
        }
    }
}

impl fmt::Display for Reason {
    fn fmt(&self, f: &mut fmt::Formatter<'_>) -> fmt::Result {
        f.write_str(self.text())
    }
}

/// A template's argument. Its types are those of a [`Table`](crate::Table), `Argument<Type>`, or numbers, for a host that lends its own words.
///
/// ```
/// use swartabelk::{Table, Type};
///
/// # fn main() -> Result<(), swartabelk::Error> {
/// let mut table = Table::new();
/// let four = table.template("array", &[Type::F32.into(), 4.into()])?;
/// assert_eq!(table.spell(four), "array<f32,4>");
/// # Ok(())
/// # }
/// ```
#[derive(Clone, Copy, Debug, PartialEq, Eq, Hash)]
pub enum Argument<T = u32> {
    /// A type.
    Type(T),
    /// A literal of AbstractInt.
    AbstractInt(i64),
    /// A literal of i32.
    I32(i32),
    /// A literal of u32.
    U32(u32),
    /// Another literal.
    Other,
}

impl Argument<u32> {
    /// The tag and the value, as [`template`](crate::lent::template) takes them.
    pub const fn pair(self) -> [i64; 2] {
        match self {
            Argument::Type(number) => [0, number as i64],
            Argument::AbstractInt(value) => [1, value],
            Argument::I32(value) => [2, value as i64],
            Argument::U32(value) => [3, value as i64],
            Argument::Other => [4, 0],
        }
    }
}

impl<T> From<i64> for Argument<T> {
    fn from(value: i64) -> Argument<T> {
        Argument::AbstractInt(value)
    }
}

impl<T> From<i32> for Argument<T> {
    fn from(value: i32) -> Argument<T> {
        Argument::I32(value)
    }
}

impl<T> From<u32> for Argument<T> {
    fn from(value: u32) -> Argument<T> {
        Argument::U32(value)
    }
}

/// The spaces of a pointer or a reference, by their numbers.
#[derive(Clone, Copy, Debug, PartialEq, Eq, Hash)]
#[repr(u32)]
pub enum Space {
    /// `function`
    Function = 0,
    /// `private`
    Private = 1,
    /// `workgroup`
    Workgroup = 2,
    /// `uniform`
    Uniform = 3,
    /// `storage`
    Storage = 4,
    /// `handle`, of a reference alone
    Handle = 5,
}

impl Space {
    /// The space of a number.
    pub const fn of(number: u32) -> Option<Space> {
        Some(match number {
            0 => Space::Function,
            1 => Space::Private,
            2 => Space::Workgroup,
            3 => Space::Uniform,
            4 => Space::Storage,
            5 => Space::Handle,
            _ => return None,
        })
    }
}

/// The accesses of a pointer or a reference, by their numbers.
#[derive(Clone, Copy, Debug, PartialEq, Eq, Hash)]
#[repr(u32)]
pub enum Access {
    /// `read`
    Read = 0,
    /// `write`
    Write = 1,
    /// `read_write`
    ReadWrite = 2,
}

impl Access {
    /// The access of a number.
    pub const fn of(number: u32) -> Option<Access> {
        Some(match number {
            0 => Access::Read,
            1 => Access::Write,
            2 => Access::ReadWrite,
            _ => return None,
        })
    }
}
