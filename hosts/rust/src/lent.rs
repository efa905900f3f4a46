//! The same over words that the host lends: one function for each of `include/swartabelk.h`, safe, without an allocator.
//!
//! A table is a slice of words: `used` entries of four words each, kind, p, q and elem. The entries 0 to 6 are the scalars that [`SCALARS`] lists, and a
//! type is the number of its entry. A result that is absent is entered where the slice has room; the answer says the count afterwards, which the next call
//! is given. No entry that was there moves or changes.
//!
//! An [`Operand`] is a type, and whether its value is known only when running. The number of a type alone is the operand of a const-expression.
//!
//! Every function answers for any words, numbers and bytes: what is wrong is refused.
//!
//! ```
//! use swartabelk::lent::{binary, Answer, SCALARS};
//! use swartabelk::BinaryOp;
//!
//! let mut words = [0; 1024];
//! words[..28].copy_from_slice(&SCALARS);
//! // AbstractInt + f32 is f32.
//! let sum = binary(&mut words, 7, BinaryOp::Plus as u32, 1, 5);
//! assert_eq!(sum, Answer::Type { number: 5, running: false, used: 7 });
//! ```
use core::fmt;

use crate::{raw, Profile, Reason, CEILING, STRIDE};

/// The seven scalars, as a table begins: bool, AbstractInt, AbstractFloat, i32, u32, f32, f16.
pub const SCALARS: [u32; 28] = [
    0, 0, 0, 0, 1, 0, 0, 0, 2, 0, 0, 0, 3, 0, 0, 0, 4, 0, 0, 0, 5, 0, 0, 0, 6, 0, 0, 0,
];

/// An operand: the number of its type, and a mark. It is const, a const-expression, or running, known only when running. Where an operand is running, an overload of
/// which another parameter is abstract is left out; so `select(1, 2, flag)` is AbstractInt where the flag is const, and i32 where it is running.
///
/// A number is made an operand by `into`, and is a const one then.
///
/// ```
/// use swartabelk::lent::{call, Answer, Operand, SCALARS};
/// use swartabelk::Profile;
///
/// let mut words = SCALARS;
/// let mut select = |flag| call(&mut words, 7, Profile::BASE, b"select", &[], &[1.into(), 1.into(), flag]);
/// assert_eq!(select(0.into()), Answer::Type { number: 1, running: false, used: 7 });
/// assert_eq!(select(Operand::running(0)), Answer::Type { number: 3, running: true, used: 7 });
/// ```
#[derive(Clone, Copy, Debug, PartialEq, Eq, Hash)]
#[repr(transparent)]
pub struct Operand(u32);

impl Operand {
    /// A const-expression of the type of this number.
    pub const fn known(number: u32) -> Operand {
        Operand(unmarked(number))
    }

    /// A value of the type of this number that is known only when running.
    pub const fn running(number: u32) -> Operand {
        Operand(unmarked(number) | raw::RUNNING)
    }

    /// The number of its type.
    pub const fn number(self) -> u32 {
        self.0 & !raw::RUNNING
    }

    /// Whether it is known only when running.
    pub const fn is_running(self) -> bool {
        self.0 & raw::RUNNING != 0
    }
}

impl From<u32> for Operand {
    fn from(number: u32) -> Operand {
        Operand::known(number)
    }
}

/// A number as it stands beside a mark. One that has no room there is no type's, and becomes one that is no type's either.
const fn unmarked(number: u32) -> u32 {
    if number < raw::RUNNING {
        number
    } else {
        raw::RUNNING - 1
    }
}

/// A refusal: why, at which place of a sheet, the count of entries as it stands, and how many entries lack.
#[derive(Clone, Copy, Debug, PartialEq, Eq)]
pub struct Refusal {
    /// Why.
    pub reason: Reason,
    /// The item's length byte; 0 for a single call, for [`Reason::Unsound`], for a wrong header and for an unknown profile; the sheet's length for a wrong end.
    pub place: u32,
    /// The count of entries; for [`Reason::Unsound`] the one that was given.
    pub used: u32,
    /// For [`Reason::NoRoom`] how many entries lack: the missing ones that the result needs, less those that are free in the slice and below 256. Else 0.
    pub lacking: u32,
}

impl Refusal {
    /// The least length of a slice in which the same call is not refused for want of room, where it was in one of so many words. `None` where that would be more
    /// than 256 entries, which no table has, and for every reason but [`Reason::NoRoom`]. Of a sheet it is enough for the item at [`Refusal::place`]; a later
    /// one may want more.
    ///
    /// ```
    /// use swartabelk::lent::{call, Answer, SCALARS};
    /// use swartabelk::Profile;
    ///
    /// let mut words = SCALARS.to_vec();
    /// let answer = loop {
    ///     // frexp gives a type that is not one of the scalars.
    ///     match call(&mut words, 7, Profile::BASE, b"frexp", &[], &[5.into()]) {
    ///         Answer::Refused(refusal) => match refusal.enough_words(words.len()) {
    ///             Some(length) => words.resize(length, 0),
    ///             None => break Answer::Refused(refusal),
    ///         },
    ///         answer => break answer,
    ///     }
    /// };
    /// assert_eq!(answer, Answer::Type { number: 7, running: false, used: 8 });
    /// assert_eq!(words.len(), 32);
    /// ```
    pub fn enough_words(&self, length: usize) -> Option<usize> {
        let entries = length / STRIDE + self.lacking as usize;
        (self.reason == Reason::NoRoom && entries <= CEILING).then_some(STRIDE * entries)
    }
}

/// The reason in words and its number, the place where it is not 0, and what lacks.
///
/// ```
/// use swartabelk::{lent::Refusal, Reason};
///
/// let refusal = Refusal { reason: Reason::NoRoom, place: 9, used: 256, lacking: 2 };
/// let words = "the result is a new type, and the table has no room for it: 2 entries lack (refusal 9 at 9)";
/// assert_eq!(refusal.to_string(), words);
/// ```
impl fmt::Display for Refusal {
    fn fmt(&self, f: &mut fmt::Formatter<'_>) -> fmt::Result {
        self.told(f, (self.place != 0).then_some(self.place))
    }
}

impl Refusal {
    /// It in words, with this place or none.
    pub(crate) fn told(&self, f: &mut fmt::Formatter<'_>, place: Option<u32>) -> fmt::Result {
        write!(f, "{}", self.reason)?;
        match self.lacking {
            0 => {}
            1 => write!(f, ": 1 entry lacks")?,
            n => write!(f, ": {n} entries lack")?,
        }
        match place {
            None => write!(f, " (refusal {})", self.reason as u32),
            Some(place) => write!(f, " (refusal {} at {place})", self.reason as u32),
        }
    }
}

#[cfg(feature = "std")]
impl std::error::Error for Refusal {}

/// What a call answers.
#[derive(Clone, Copy, Debug, PartialEq, Eq)]
pub enum Answer {
    /// Accepted, with a type.
    Type {
        /// The type's number.
        number: u32,
        /// Whether the value is known only when running.
        running: bool,
        /// The count of entries afterwards.
        used: u32,
    },
    /// Accepted, without a value.
    NoValue {
        /// The count of entries.
        used: u32,
    },
    /// Refused.
    Refused(Refusal),
}

impl Answer {
    /// The value as an operand of another call; `None` where there is none.
    ///
    /// ```
    /// use swartabelk::lent::{binary, call, Answer, SCALARS};
    /// use swartabelk::{BinaryOp, Profile};
    ///
    /// let mut words = SCALARS;
    /// // A derivative is running, whatever its operand is.
    /// let slope = call(&mut words, 7, Profile::BASE, b"dpdx", &[], &[5.into()]).operand().unwrap();
    /// let sum = binary(&mut words, 7, BinaryOp::Plus as u32, slope, 1);
    /// assert_eq!(sum, Answer::Type { number: 5, running: true, used: 7 });
    /// ```
    pub const fn operand(&self) -> Option<Operand> {
        match *self {
            Answer::Type {
                number,
                running: false,
                ..
            } => Some(Operand::known(number)),
            Answer::Type { number, .. } => Some(Operand::running(number)),
            _ => None,
        }
    }
}

fn refusal(number: u32, place: u32, used: u32, lacking: u32) -> Refusal {
    let reason = Reason::of(number).expect("the library gives no other refusal");
    Refusal {
        reason,
        place,
        used,
        lacking,
    }
}

fn answer(r: raw::Reply) -> Answer {
    match r {
        raw::Reply {
            refusal: 0,
            ty: raw::NO_VALUE,
            used,
            ..
        } => Answer::NoValue { used },
        raw::Reply {
            refusal: 0,
            ty,
            mark,
            used,
            ..
        } => Answer::Type {
            number: ty,
            running: mark != 0,
            used,
        },
        raw::Reply {
            refusal: number,
            place,
            used,
            lacking,
            ..
        } => Answer::Refused(refusal(number, place, used, lacking)),
    }
}

/// Whether the words hold a sound table of `used` entries: no value, or [`Reason::Unsound`].
pub fn check(words: &[u32], used: u32) -> Answer {
    // SAFETY: the pointer and the length are those of a slice that is lent for the call.
    answer(unsafe { raw::swartabelk_check(words.as_ptr(), words.len(), used) })
}

/// The type that an entry stands for, by its kind, p, q and elem: the number of the entry that is equal to it, or else a new one. An entry that breaks the rule of its
/// kind, or whose elem is not below `used`, is refused with [`Reason::Template`]. A scalar's kind with 0 for the rest is that scalar. The value is const.
///
/// ```
/// use swartabelk::lent::{call, enter, Answer, Operand, SCALARS};
/// use swartabelk::Profile;
///
/// let mut words = [0; 1024];
/// words[..28].copy_from_slice(&SCALARS);
/// // A counter: atomic<u32>, and a read_write pointer to it in space storage.
/// assert_eq!(enter(&mut words, 7, 11, 0, 0, 4), Answer::Type { number: 7, running: false, used: 8 });
/// assert_eq!(enter(&mut words, 8, 12, 4, 2, 7), Answer::Type { number: 8, running: false, used: 9 });
/// // What it was before 1 is added is a u32, known only when running.
/// let counted = call(&mut words, 9, Profile::BASE, b"atomicAdd", &[], &[Operand::running(8), 1.into()]);
/// assert_eq!(counted, Answer::Type { number: 4, running: true, used: 9 });
/// ```
pub fn enter(words: &mut [u32], used: u32, kind: u32, p: u32, q: u32, elem: u32) -> Answer {
    // SAFETY: as above, and the slice is lent for writing.
    answer(unsafe {
        raw::swartabelk_enter(words.as_mut_ptr(), words.len(), used, kind, p, q, elem)
    })
}

/// The type of a unary operator, by its number, on the operand `a`.
pub fn unary(words: &mut [u32], used: u32, op: u32, a: impl Into<Operand>) -> Answer {
    let Operand(a) = a.into();
    // SAFETY: as above.
    answer(unsafe { raw::swartabelk_unary(words.as_mut_ptr(), words.len(), used, op, a) })
}

/// The type of a binary operator, by its number, on the operands `a` and `b`.
pub fn binary(
    words: &mut [u32],
    used: u32,
    op: u32,
    a: impl Into<Operand>,
    b: impl Into<Operand>,
) -> Answer {
    let (Operand(a), Operand(b)) = (a.into(), b.into());
    // SAFETY: as above.
    answer(unsafe { raw::swartabelk_binary(words.as_mut_ptr(), words.len(), used, op, a, b) })
}

/// The type of a call of the builtin that has this name in the profile, on the operands `args`. `tplt` is its template list: the number of one type for `bitcast`,
/// none for every other.
///
/// Calls on memory, those on atomics and `workgroupUniformLoad`, are in both profiles, and their values are running. `atomicStore` has none.
pub fn call(
    words: &mut [u32],
    used: u32,
    profile: Profile,
    name: &[u8],
    tplt: &[u32],
    args: &[Operand],
) -> Answer {
    // SAFETY: as above; what is lent for writing lies apart from the rest, and an operand is laid out as the number that it holds.
    answer(unsafe {
        raw::swartabelk_call(
            words.as_mut_ptr(),
            words.len(),
            used,
            profile.0,
            name.as_ptr(),
            name.len(),
            tplt.as_ptr(),
            tplt.len(),
            args.as_ptr().cast(),
            args.len(),
        )
    })
}

/// The type of a head with template arguments, entered if absent. `args` are pairs of a tag and a value: [`Argument::pair`](crate::Argument::pair) makes one.
pub fn template(words: &mut [u32], used: u32, head: &[u8], args: &[i64]) -> Answer {
    // SAFETY: as above.
    answer(unsafe {
        raw::swartabelk_template(
            words.as_mut_ptr(),
            words.len(),
            used,
            head.as_ptr(),
            head.len(),
            args.as_ptr(),
            args.len(),
        )
    })
}

/// The type of a whole sheet, whose calls are those of the profile. What its accepted items entered stays, also where a later item is refused. In a sheet of version 1
/// every value is const, and so is the answer's; in one of version 2 pushes and takes have marks, and results keep theirs.
pub fn sheet(words: &mut [u32], used: u32, profile: Profile, sheet: &[u8]) -> Answer {
    // SAFETY: as above.
    answer(unsafe {
        raw::swartabelk_sheet(
            words.as_mut_ptr(),
            words.len(),
            used,
            profile.0,
            sheet.as_ptr(),
            sheet.len(),
        )
    })
}

/// Writes the spelling of a type to the front of `out` and gives its length. Later bytes stay unchanged, and all of them where it is refused.
pub fn spell(words: &[u32], used: u32, number: u32, out: &mut [u8]) -> Result<usize, Refusal> {
    // SAFETY: as above.
    let r = unsafe {
        raw::swartabelk_spell(
            words.as_ptr(),
            words.len(),
            used,
            number,
            out.as_mut_ptr(),
            out.len(),
        )
    };
    length(r)
}

/// The length of a text that was written, or why none was. A text enters nothing, so that nothing lacks.
fn length(r: raw::Spelled) -> Result<usize, Refusal> {
    match r.refusal {
        0 => Ok(r.length as usize),
        number => Err(refusal(number, r.place, r.used, 0)),
    }
}

/// Writes why a unary operator is refused with [`Reason::NoOverload`], or which overload it chose, to the front of `out`, in lines, and gives the length. A call that is
/// refused with another reason is refused with that one, and a text that is longer than `out` with [`Reason::TooLong`]; then nothing is written.
///
/// ```
/// use swartabelk::lent::{why_unary, SCALARS};
/// use swartabelk::UnaryOp;
///
/// let mut out = [0; 100];
/// let length = why_unary(&SCALARS, 7, UnaryOp::Indirection as u32, 5, &mut out).unwrap();
/// assert_eq!(&out[..length], b"operand 1 is f32, wanted is a pointer\n");
/// ```
pub fn why_unary(
    words: &[u32],
    used: u32,
    op: u32,
    a: impl Into<Operand>,
    out: &mut [u8],
) -> Result<usize, Refusal> {
    let Operand(a) = a.into();
    // SAFETY: as above.
    length(unsafe {
        raw::swartabelk_why_unary(
            words.as_ptr(),
            words.len(),
            used,
            op,
            a,
            out.as_mut_ptr(),
            out.len(),
        )
    })
}

/// The same of a binary operator.
pub fn why_binary(
    words: &[u32],
    used: u32,
    op: u32,
    a: impl Into<Operand>,
    b: impl Into<Operand>,
    out: &mut [u8],
) -> Result<usize, Refusal> {
    let (Operand(a), Operand(b)) = (a.into(), b.into());
    // SAFETY: as above.
    length(unsafe {
        raw::swartabelk_why_binary(
            words.as_ptr(),
            words.len(),
            used,
            op,
            a,
            b,
            out.as_mut_ptr(),
            out.len(),
        )
    })
}

/// The same of a call of a builtin.
pub fn why_call(
    words: &[u32],
    used: u32,
    profile: Profile,
    name: &[u8],
    tplt: &[u32],
    args: &[Operand],
    out: &mut [u8],
) -> Result<usize, Refusal> {
    // SAFETY: as above.
    length(unsafe {
        raw::swartabelk_why_call(
            words.as_ptr(),
            words.len(),
            used,
            profile.0,
            name.as_ptr(),
            name.len(),
            tplt.as_ptr(),
            tplt.len(),
            args.as_ptr().cast(),
            args.len(),
            out.as_mut_ptr(),
            out.len(),
        )
    })
}

/// The name of the call whose item begins at a place of the sheet, as that part of it; empty where no well-framed call begins there.
pub fn call_name(sheet: &[u8], place: usize) -> &[u8] {
    // SAFETY: as above.
    let part = unsafe { raw::swartabelk_call_name(sheet.as_ptr(), sheet.len(), place) };
    &sheet[part.start..part.start + part.length]
}
