//! A table that owns its words, and what it gives out.
use alloc::string::String;
use alloc::vec;
use alloc::vec::Vec;
use core::fmt;

use crate::lent::{self, Answer, Operand, Refusal};
use crate::run::{Call, Run};
use crate::{Access, Argument, BinaryOp, Error, Profile, Reason, Space, UnaryOp, CEILING, STRIDE};

/// A type of a [`Table`]. But for the seven scalars, which every table has, only a table gives types out, and each stands in the table that gave it out.
///
/// In another table its number stands for another type or for none, and none is refused with [`Reason::NoSuchType`].
#[derive(Clone, Copy, Debug, PartialEq, Eq, PartialOrd, Ord, Hash)]
#[repr(transparent)]
pub struct Type(u32);

impl Type {
    /// `bool`
    pub const BOOL: Type = Type(0);
    /// `AbstractInt`, the type of the literal `1`
    pub const ABSTRACT_INT: Type = Type(1);
    /// `AbstractFloat`, the type of the literal `1.0`
    pub const ABSTRACT_FLOAT: Type = Type(2);
    /// `i32`
    pub const I32: Type = Type(3);
    /// `u32`
    pub const U32: Type = Type(4);
    /// `f32`
    pub const F32: Type = Type(5);
    /// `f16`
    pub const F16: Type = Type(6);

    /// Its number in its table.
    pub const fn number(self) -> u32 {
        self.0
    }

    /// A value of this type that is a const-expression. A type becomes one by `into` too.
    pub const fn known(self) -> Value {
        Value(Operand::known(self.0))
    }

    /// A value of this type that is known only when running, as a variable is.
    pub const fn running(self) -> Value {
        Value(Operand::running(self.0))
    }
}

/// A value: its type, and whether it is a const-expression or known only when running. Operators and calls take values as operands, and give one.
///
/// Where an operand is running, an overload of which another parameter is abstract is left out:
///
/// ```
/// use swartabelk::{Table, Type};
///
/// # fn main() -> Result<(), swartabelk::Error> {
/// let mut table = Table::new();
/// let one = Type::ABSTRACT_INT.known();
/// let known = table.call("select", &[one, one, Type::BOOL.known()])?;
/// assert_eq!(known, Some(Type::ABSTRACT_INT.known()));
/// let flag = table.call("select", &[one, one, Type::BOOL.running()])?;
/// assert_eq!(flag, Some(Type::I32.running()));
/// # Ok(())
/// # }
/// ```
#[derive(Clone, Copy, PartialEq, Eq, Hash)]
#[repr(transparent)]
pub struct Value(Operand);

impl Value {
    /// Its type.
    pub const fn ty(self) -> Type {
        Type(self.0.number())
    }

    /// Whether it is known only when running.
    pub const fn is_running(self) -> bool {
        self.0.is_running()
    }
}

impl fmt::Debug for Value {
    fn fmt(&self, f: &mut fmt::Formatter<'_>) -> fmt::Result {
        f.debug_struct("Value")
            .field("ty", &self.ty())
            .field("running", &self.is_running())
            .finish()
    }
}

impl From<Type> for Value {
    fn from(ty: Type) -> Value {
        ty.known()
    }
}

impl From<Type> for Argument<Type> {
    fn from(ty: Type) -> Argument<Type> {
        Argument::Type(ty)
    }
}

/// What a type is made of, as [`Table::enter`] takes it and [`Table::entry`] gives it.
#[derive(Clone, Copy, Debug, PartialEq, Eq, Hash)]
pub enum Entry {
    /// A scalar, one of the seven constants of [`Type`].
    Scalar(Type),
    /// A vector of 2 to 4 scalars.
    Vec {
        /// How many.
        width: u32,
        /// The scalar.
        of: Type,
    },
    /// A matrix of 2 to 4 columns and rows, of AbstractFloat, f32 or f16.
    Mat {
        /// Its columns.
        columns: u32,
        /// Its rows.
        rows: u32,
        /// The scalar.
        of: Type,
    },
    /// An array with a count of 1 or more.
    Array {
        /// Its element: no pointer, no reference and no array without count.
        of: Type,
        /// How many.
        count: u32,
    },
    /// An array without count.
    RuntimeArray {
        /// Its element, as of an array.
        of: Type,
    },
    /// An atomic.
    Atomic {
        /// Its component, i32 or u32.
        of: Type,
    },
    /// A pointer.
    Ptr {
        /// Its space, but [`Space::Handle`].
        space: Space,
        /// What it points to: no pointer, no reference and nothing abstract at any depth.
        to: Type,
        /// Its access.
        access: Access,
    },
    /// A reference.
    Ref {
        /// Its space.
        space: Space,
        /// What it refers to, as of a pointer.
        to: Type,
        /// Its access.
        access: Access,
    },
    /// The result of `frexp`.
    FrexpResult {
        /// The type of its member `fract`: a float or a vector of floats.
        fract: Type,
    },
    /// The result of `modf`.
    ModfResult {
        /// The type of its member `fract`, as of frexp.
        fract: Type,
    },
    /// The result of `atomicCompareExchangeWeak`.
    ExchangeResult {
        /// The type of its member `old_value`: i32 or u32.
        old_value: Type,
    },
}

impl Entry {
    /// Its words: kind, p, q and elem.
    const fn words(self) -> [u32; STRIDE] {
        match self {
            Entry::Scalar(Type(kind)) => [kind, 0, 0, 0],
            Entry::Vec { width, of } => [7, width, 0, of.0],
            Entry::Mat { columns, rows, of } => [8, columns, rows, of.0],
            Entry::Array { of, count } => [9, count, 0, of.0],
            Entry::RuntimeArray { of } => [10, 0, 0, of.0],
            Entry::Atomic { of } => [11, 0, 0, of.0],
            Entry::Ptr { space, to, access } => [12, space as u32, access as u32, to.0],
            Entry::Ref { space, to, access } => [13, space as u32, access as u32, to.0],
            Entry::FrexpResult { fract } => [14, 0, 0, fract.0],
            Entry::ModfResult { fract } => [15, 0, 0, fract.0],
            Entry::ExchangeResult { old_value } => [16, 0, 0, old_value.0],
        }
    }

    /// The entry of such words in a sound table.
    fn of(words: &[u32]) -> Option<Entry> {
        let &[kind, p, q, elem] = words else {
            return None;
        };
        let elem = Type(elem);
        Some(match kind {
            0..=6 => Entry::Scalar(Type(kind)),
            7 => Entry::Vec { width: p, of: elem },
            8 => Entry::Mat {
                columns: p,
                rows: q,
                of: elem,
            },
            9 => Entry::Array { of: elem, count: p },
            10 => Entry::RuntimeArray { of: elem },
            11 => Entry::Atomic { of: elem },
            12 => Entry::Ptr {
                space: Space::of(p)?,
                to: elem,
                access: Access::of(q)?,
            },
            13 => Entry::Ref {
                space: Space::of(p)?,
                to: elem,
                access: Access::of(q)?,
            },
            14 => Entry::FrexpResult { fract: elem },
            15 => Entry::ModfResult { fract: elem },
            16 => Entry::ExchangeResult { old_value: elem },
            _ => return None,
        })
    }
}

/// A table of types that owns its words. It begins with the seven scalars; a result that it lacks is entered, and what it once gave out stands.
///
/// ```
/// use swartabelk::{Access, Entry, Space, Table, Type};
///
/// # fn main() -> Result<(), swartabelk::Error> {
/// let mut table = Table::new();
/// // A counter in storage: what it was before 1 is added is a u32, known only when running.
/// let atomic = table.enter(Entry::Atomic { of: Type::U32 })?;
/// let counter = table.enter(Entry::Ptr { space: Space::Storage, to: atomic, access: Access::ReadWrite })?;
/// let before = table.call("atomicAdd", &[counter.running(), Type::ABSTRACT_INT.known()])?;
/// assert_eq!(before, Some(Type::U32.running()));
/// assert_eq!(table.spell(counter), "ptr<storage,atomic<u32>,read_write>");
/// assert_eq!(table.entries(), 9);
/// # Ok(())
/// # }
/// ```
#[derive(Clone)]
pub struct Table {
    words: Vec<u32>,
    used: u32,
    profile: Profile,
}

impl Table {
    /// A table of the seven scalars with room for 256 entries, the most that a table has: 4 KB, allocated once.
    pub fn new() -> Table {
        Table::with_entries(CEILING)
    }

    /// A table of the seven scalars with room for so many entries, at least these seven and at most 256. It does not grow by itself: a call whose result has no room
    /// is refused, and the error says how many entries lack.
    ///
    /// ```
    /// use swartabelk::{Entry, Reason, Table, Type};
    ///
    /// # fn main() -> Result<(), swartabelk::Error> {
    /// let mut table = Table::with_entries(7);
    /// let error = table.call("frexp", &[Type::F32.known()]).unwrap_err();
    /// assert_eq!((error.reason(), error.lacking()), (Reason::NoRoom, 1));
    /// table.grow(error.lacking());
    /// let result = table.call("frexp", &[Type::F32.known()])?.unwrap();
    /// assert_eq!(table.entry(result.ty()), Entry::FrexpResult { fract: Type::F32 });
    /// # Ok(())
    /// # }
    /// ```
    pub fn with_entries(entries: usize) -> Table {
        let scalars = lent::SCALARS;
        let used = scalars.len() / STRIDE;
        let mut words = vec![0; STRIDE * entries.clamp(used, CEILING)];
        words[..scalars.len()].copy_from_slice(&scalars);
        Table {
            words,
            used: used as u32,
            profile: Profile::BASE,
        }
    }

    /// A table of these words, four for each entry, as [`Table::words`] gave them out, with room for 256 entries. Words that are no sound table are refused with
    /// [`Reason::Unsound`].
    ///
    /// ```
    /// use swartabelk::{Reason, Table, Type};
    ///
    /// # fn main() -> Result<(), swartabelk::Error> {
    /// let mut table = Table::new();
    /// let vec2 = table.template("vec2", &[Type::F16.into()])?;
    /// let again = Table::from_words(table.words())?;
    /// assert_eq!(again.spell(again.type_of(vec2.number()).unwrap()), "vec2<f16>");
    /// assert_eq!(Table::from_words(&[1, 2, 3]).unwrap_err().reason(), Reason::Unsound);
    /// # Ok(())
    /// # }
    /// ```
    pub fn from_words(words: &[u32]) -> Result<Table, Error> {
        let whole = words.len() % STRIDE == 0;
        // A count that is no table's, where the words are no whole entries or too many.
        let used = u32::try_from(words.len() / STRIDE).unwrap_or(0);
        match lent::check(words, if whole { used } else { 0 }) {
            Answer::Refused(refusal) => Err(Error::of_call(refusal)),
            _ => {
                let mut table = Table::new();
                table.words[..words.len()].copy_from_slice(words);
                table.used = used;
                Ok(table)
            }
        }
    }

    /// The same table with its calls and sheets in a profile, which is [`Profile::BASE`] else.
    pub fn with_profile(mut self, profile: Profile) -> Table {
        self.profile = profile;
        self
    }

    /// The profile of its calls and sheets from now on.
    pub fn set_profile(&mut self, profile: Profile) {
        self.profile = profile;
    }

    /// The profile of its calls and sheets.
    pub fn profile(&self) -> Profile {
        self.profile
    }

    /// How many entries it has.
    pub fn entries(&self) -> usize {
        self.used as usize
    }

    /// How many entries it has room for, those that it has included.
    pub fn room(&self) -> usize {
        self.words.len() / STRIDE
    }

    /// Makes room for so many entries more, up to 256.
    pub fn grow(&mut self, entries: usize) {
        let room = self.room().saturating_add(entries).min(CEILING);
        self.words.resize(STRIDE * room, 0);
    }

    /// The words of its entries, four for each: kind, p, q and elem.
    pub fn words(&self) -> &[u32] {
        &self.words[..STRIDE * self.entries()]
    }

    /// The type of a number, for a host that keeps numbers; `None` where the table has no such entry.
    pub fn type_of(&self, number: u32) -> Option<Type> {
        (number < self.used).then_some(Type(number))
    }

    /// All its types, in the order in which they were entered.
    pub fn types(&self) -> impl DoubleEndedIterator<Item = Type> + ExactSizeIterator {
        (0..self.used).map(Type)
    }

    /// What a type is made of.
    ///
    /// # Panics
    ///
    /// Where the type is another table's and this one has none of its number.
    pub fn entry(&self, ty: Type) -> Entry {
        let at = STRIDE * ty.0 as usize;
        let words = self.words().get(at..at + STRIDE);
        words.and_then(Entry::of).expect(ANOTHER_TABLES)
    }

    /// The type of an entry: the one that is equal to it, or else a new one. An entry that breaks the rule of its kind is refused with [`Reason::Template`].
    pub fn enter(&mut self, entry: Entry) -> Result<Type, Error> {
        let [kind, p, q, elem] = entry.words();
        let answer = lent::enter(&mut self.words, self.used, kind, p, q, elem);
        self.value(answer).map(Value::ty)
    }

    /// The type of a head with template arguments, as `vec3`, `mat4x4`, `atomic` and `array` are.
    ///
    /// ```
    /// use swartabelk::{Argument, Table, Type};
    ///
    /// # fn main() -> Result<(), swartabelk::Error> {
    /// let mut table = Table::new();
    /// let mat = table.template("mat4x3", &[Type::F16.into()])?;
    /// let array = table.template("array", &[Argument::Type(mat), Argument::AbstractInt(4)])?;
    /// assert_eq!(table.spell(array), "array<mat4x3<f16>,4>");
    /// # Ok(())
    /// # }
    /// ```
    pub fn template(&mut self, head: &str, args: &[Argument<Type>]) -> Result<Type, Error> {
        let pairs: Vec<i64> = args.iter().flat_map(|arg| arg.numbered().pair()).collect();
        let answer = lent::template(&mut self.words, self.used, head.as_bytes(), &pairs);
        self.value(answer).map(Value::ty)
    }

    /// The value of a unary operator.
    ///
    /// ```
    /// use swartabelk::{Table, Type, UnaryOp};
    ///
    /// # fn main() -> Result<(), swartabelk::Error> {
    /// let mut table = Table::new();
    /// let minus = table.unary(UnaryOp::Negate, Type::F32.running())?;
    /// assert_eq!(minus, Type::F32.running());
    /// # Ok(())
    /// # }
    /// ```
    pub fn unary(&mut self, op: UnaryOp, a: impl Into<Value>) -> Result<Value, Error> {
        let (op, Value(a)) = (op as u32, a.into());
        let answer = lent::unary(&mut self.words, self.used, op, a);
        self.value(answer)
            .map_err(|e| self.because(e, Call::Unary(op, a)))
    }

    /// The value of a binary operator.
    ///
    /// ```
    /// use swartabelk::{BinaryOp, Table, Type};
    ///
    /// # fn main() -> Result<(), swartabelk::Error> {
    /// let mut table = Table::new();
    /// let less = table.binary(BinaryOp::Less, Type::I32.running(), Type::ABSTRACT_INT)?;
    /// assert_eq!(less, Type::BOOL.running());
    /// # Ok(())
    /// # }
    /// ```
    pub fn binary(
        &mut self,
        op: BinaryOp,
        a: impl Into<Value>,
        b: impl Into<Value>,
    ) -> Result<Value, Error> {
        let (op, Value(a), Value(b)) = (op as u32, a.into(), b.into());
        let answer = lent::binary(&mut self.words, self.used, op, a, b);
        self.value(answer)
            .map_err(|e| self.because(e, Call::Binary(op, a, b)))
    }

    /// The value of a call of a builtin; `None` for the barriers and `atomicStore`, which have none.
    ///
    /// ```
    /// use swartabelk::{Table, Type};
    ///
    /// # fn main() -> Result<(), swartabelk::Error> {
    /// let mut table = Table::new();
    /// let root = table.call("sqrt", &[Type::ABSTRACT_INT.known()])?;
    /// assert_eq!(root, Some(Type::ABSTRACT_FLOAT.known()));
    /// assert_eq!(table.call("workgroupBarrier", &[])?, None);
    /// # Ok(())
    /// # }
    /// ```
    pub fn call(&mut self, name: &str, args: &[Value]) -> Result<Option<Value>, Error> {
        self.call_with(name, &[], args)
    }

    /// The value of a call with a template list, as `bitcast` has one.
    ///
    /// ```
    /// use swartabelk::{Table, Type};
    ///
    /// # fn main() -> Result<(), swartabelk::Error> {
    /// let mut table = Table::new();
    /// let bits = table.call_with("bitcast", &[Type::U32], &[Type::F32.running()])?;
    /// assert_eq!(bits, Some(Type::U32.running()));
    /// # Ok(())
    /// # }
    /// ```
    pub fn call_with(
        &mut self,
        name: &str,
        template: &[Type],
        args: &[Value],
    ) -> Result<Option<Value>, Error> {
        let (name, template, args) = (name.as_bytes(), numbers(template), operands(args));
        let words = &mut self.words;
        let answer = lent::call(words, self.used, self.profile, name, template, args);
        self.took(answer).map_err(|refusal| {
            self.because(Error::of_call(refusal), Call::Named(name, template, args))
        })
    }

    /// The value of a whole sheet; `None` where it ends with a call that has none. What its accepted items entered stays, also where a later item is refused.
    ///
    /// ```
    /// use swartabelk::{Table, Type};
    ///
    /// # fn main() -> Result<(), swartabelk::Error> {
    /// let mut table = Table::new();
    /// // AbstractInt and f32 are pushed and added.
    /// let sum = table.sheet(&[1, 0, 9, 2, 1, 1, 2, 1, 5, 2, 3, 2])?;
    /// assert_eq!(sum, Some(Type::F32.known()));
    /// # Ok(())
    /// # }
    /// ```
    pub fn sheet(&mut self, sheet: &[u8]) -> Result<Option<Value>, Error> {
        let answer = lent::sheet(&mut self.words, self.used, self.profile, sheet);
        self.took(answer).map_err(|refusal| {
            let error = Error::of_sheet(refusal);
            if refusal.reason != Reason::NoOverload {
                return error;
            }
            let mut run = Run::new(self, sheet);
            let Some(operands) = run.to(refusal.place as usize) else {
                return error;
            };
            match run.call(&operands) {
                Some(call) => self.because(error, call),
                None => error,
            }
        })
    }

    /// The spelling of a type.
    ///
    /// # Panics
    ///
    /// Where the type is another table's and this one has none of its number.
    pub fn spell(&self, ty: Type) -> String {
        String::from_utf8(self.spelling(ty)).expect("a spelling is ASCII")
    }

    /// Writes the spelling of a type.
    ///
    /// ```
    /// use std::fmt::Write;
    /// use swartabelk::{Table, Type};
    ///
    /// let mut line = String::from("let x: ");
    /// Table::new().spell_to(Type::F32, &mut line)?;
    /// write!(line, " = 1;")?;
    /// assert_eq!(line, "let x: f32 = 1;");
    /// # Ok::<(), std::fmt::Error>(())
    /// ```
    ///
    /// # Panics
    ///
    /// As [`Table::spell`].
    pub fn spell_to(&self, ty: Type, out: &mut (impl fmt::Write + ?Sized)) -> fmt::Result {
        out.write_str(&self.spell(ty))
    }

    /// The bytes of a type's spelling.
    fn spelling(&self, ty: Type) -> Vec<u8> {
        // Most are shorter than that, and none is longer than 80 bytes an entry.
        let mut out = vec![0; 80];
        loop {
            match lent::spell(&self.words, self.used, ty.0, &mut out) {
                Ok(length) => {
                    out.truncate(length);
                    return out;
                }
                Err(refusal) if refusal.reason == Reason::TooLong => {
                    out.resize(80 * self.entries(), 0);
                }
                Err(_) => panic!("{ANOTHER_TABLES}"),
            }
        }
    }

    /// An error with the reason text of the call that gave it, where that has one.
    fn because(&self, error: Error, call: Call) -> Error {
        if error.reason() != Reason::NoOverload {
            return error;
        }
        // Most texts are shorter than that; the longest has more than a million bytes.
        let mut out = vec![0; 4096];
        loop {
            let (words, used) = (&self.words, self.used);
            let written = match call {
                Call::Unary(op, a) => lent::why_unary(words, used, op, a, &mut out),
                Call::Binary(op, a, b) => lent::why_binary(words, used, op, a, b, &mut out),
                Call::Named(name, template, args) => {
                    lent::why_call(words, used, self.profile, name, template, args, &mut out)
                }
            };
            match written {
                Ok(length) => {
                    out.truncate(length);
                    return error.because(String::from_utf8(out).expect("a reason is ASCII"));
                }
                Err(refusal) if refusal.reason == Reason::TooLong => out.resize(2 * out.len(), 0),
                // No other call is asked about than one that was refused with 8.
                Err(_) => return error,
            }
        }
    }

    /// What an answer says, and its count kept.
    fn took(&mut self, answer: Answer) -> Result<Option<Value>, Refusal> {
        match answer {
            Answer::Type { used, .. } | Answer::NoValue { used } => self.used = used,
            Answer::Refused(refusal) => {
                self.used = refusal.used;
                return Err(refusal);
            }
        }
        Ok(answer.operand().map(Value))
    }

    /// The same of a call that has a value wherever it is accepted.
    fn value(&mut self, answer: Answer) -> Result<Value, Error> {
        let value = self.took(answer).map_err(Error::of_call)?;
        Ok(value.expect("operators, templates and entries have a value"))
    }
}

impl Default for Table {
    fn default() -> Table {
        Table::new()
    }
}

/// The spellings of its types, in order.
impl fmt::Debug for Table {
    fn fmt(&self, f: &mut fmt::Formatter<'_>) -> fmt::Result {
        f.debug_list()
            .entries(self.types().map(|ty| self.spell(ty)))
            .finish()
    }
}

/// Two tables are equal where their entries and profiles are.
impl PartialEq for Table {
    fn eq(&self, other: &Table) -> bool {
        self.words() == other.words() && self.profile == other.profile
    }
}

impl Eq for Table {}

const ANOTHER_TABLES: &str = "the type is of another table";

impl Argument<Type> {
    /// The same with the type by its number.
    fn numbered(self) -> Argument<u32> {
        match self {
            Argument::Type(ty) => Argument::Type(ty.0),
            Argument::AbstractInt(value) => Argument::AbstractInt(value),
            Argument::I32(value) => Argument::I32(value),
            Argument::U32(value) => Argument::U32(value),
            Argument::Other => Argument::Other,
        }
    }
}

/// The numbers of types.
fn numbers(types: &[Type]) -> &[u32] {
    // SAFETY: a type is laid out as the number that it holds.
    unsafe { core::slice::from_raw_parts(types.as_ptr().cast(), types.len()) }
}

/// Values as the operands that they hold.
fn operands(values: &[Value]) -> &[Operand] {
    // SAFETY: a value is laid out as the operand that it holds.
    unsafe { core::slice::from_raw_parts(values.as_ptr().cast(), values.len()) }
}
