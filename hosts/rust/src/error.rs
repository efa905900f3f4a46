//! The error of a [`Table`](crate::Table).
use alloc::string::String;
use core::fmt;

use crate::lent::Refusal;
use crate::Reason;

/// What a [`Table`](crate::Table) refuses: why, and where in a sheet.
///
/// ```
/// use swartabelk::{Reason, Table};
///
/// // bool < bool, as a sheet: two pushes of bool, and the operator at byte 9.
/// let error = Table::new().sheet(&[1, 0, 9, 2, 1, 0, 2, 1, 0, 2, 3, 9]).unwrap_err();
/// assert_eq!(error.reason(), Reason::NoOverload);
/// assert_eq!(error.place(), Some(9));
/// assert_eq!(error.to_string(), "no overload takes operands of these types (refusal 8 at 9)");
/// ```
///
/// Where no overload fits, it tells of each overload why not, by [`Error::why`], and by `{:#}` behind the line that `{}` writes:
///
/// ```
/// use swartabelk::{BinaryOp, Table, Type};
///
/// let error = Table::new().binary(BinaryOp::Or, Type::BOOL, Type::F32).unwrap_err();
/// assert_eq!(error.why(), "(bool, bool): operand 2 is f32\n");
/// let words = "no overload takes operands of these types (refusal 8)";
/// assert_eq!(format!("{error}"), words);
/// assert_eq!(format!("{error:#}"), format!("{words}\n(bool, bool): operand 2 is f32"));
/// ```
///
/// With the feature `std` it is a `std::error::Error`.
#[derive(Clone, PartialEq, Eq)]
pub struct Error {
    refusal: Refusal,
    in_sheet: bool,
    why: String,
}

impl Error {
    /// The error of a single call.
    pub(crate) fn of_call(refusal: Refusal) -> Error {
        Error {
            refusal,
            in_sheet: false,
            why: String::new(),
        }
    }

    /// The error of a sheet.
    pub(crate) fn of_sheet(refusal: Refusal) -> Error {
        Error {
            in_sheet: true,
            ..Error::of_call(refusal)
        }
    }

    /// The same with its reason text.
    pub(crate) fn because(self, why: String) -> Error {
        Error { why, ..self }
    }

    /// Why.
    pub const fn reason(&self) -> Reason {
        self.refusal.reason
    }

    /// Of a sheet, the byte where the refused item begins: 0 for a wrong header and an unknown profile, the sheet's length for a wrong end. `None` of a single call.
    pub const fn place(&self) -> Option<usize> {
        if self.in_sheet {
            Some(self.refusal.place as usize)
        } else {
            None
        }
    }

    /// For [`Reason::NoRoom`] how many entries lack, so that [`Table::grow`](crate::Table::grow) by as many helps, unless the table has 256 already. Else 0.
    pub const fn lacking(&self) -> usize {
        self.refusal.lacking as usize
    }

    /// For [`Reason::NoOverload`] a line for each overload of the operator or builtin, of a sheet that of the refused item: its parameters, and the first operand that
    /// does not convert; or the one line of a rule that has no list, as that of a pointer. Else nothing.
    pub fn why(&self) -> &str {
        &self.why
    }
}

/// The reason in words, its number, and the place of a sheet. By `{:#}` the lines of [`Error::why`] follow.
impl fmt::Display for Error {
    fn fmt(&self, f: &mut fmt::Formatter<'_>) -> fmt::Result {
        let place = self.in_sheet.then_some(self.refusal.place);
        self.refusal.told(f, place)?;
        if f.alternate() && !self.why.is_empty() {
            write!(f, "\n{}", self.why.trim_end())?;
        }
        Ok(())
    }
}

/// As it is displayed: what `main` writes of an error that it returns, and `unwrap` of one that it meets.
impl fmt::Debug for Error {
    fn fmt(&self, f: &mut fmt::Formatter<'_>) -> fmt::Result {
        fmt::Display::fmt(self, f)
    }
}

#[cfg(feature = "std")]
impl std::error::Error for Error {}
