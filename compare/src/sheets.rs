//! Sheets: made for the benchmark, and typed by the crate's functions over a plain stack.
//!
//! The machine is ours, for the crate has none. It is the plainest there is: a `Vec` of the crate's types, and a call into the crate for each item.

use crate::call_ty::type_builtin_fn;
use crate::case::{Answer, Case, Operation};
use crate::domain::{PLAINS, simples};
use crate::ops_ty::{type_binary_op, type_unary_op};
use crate::oracle::{binary_operator, from_rust, oracle_call, quiet, to_rust, unary_operator};
use crate::ours::table::Table;
use crate::random::Random;
use crate::standard::Standard;
use crate::tplt::TpltParam;
use crate::ty::Type;
use crate::types::{SCALARS, WType};
use std::collections::{BTreeMap, BTreeSet};

/// Kinds of items.
mod item {
    pub const PUSH: u8 = 1;
    pub const UNARY: u8 = 2;
    pub const BINARY: u8 = 3;
    pub const CALL: u8 = 4;
    pub const CALL_WITH_TEMPLATE: u8 = 5;
}

/// The longest sheet, without its header.
pub const MOST_BYTES: usize = 60_000;

/// A sheet under way: its bytes after the header, and how many items they are.
#[derive(Default)]
pub struct Sheet {
    bytes: Vec<u8>,
    pub items: usize,
}

impl Sheet {
    fn item(&mut self, kind: u8, payload: &[u8]) {
        self.bytes.push(1 + payload.len() as u8);
        self.bytes.push(kind);
        self.bytes.extend_from_slice(payload);
        self.items += 1;
    }
    pub fn push(&mut self, number: u32) {
        self.item(item::PUSH, &[number as u8]);
    }
    pub fn unary(&mut self, op: u8) {
        self.item(item::UNARY, &[op]);
    }
    pub fn binary(&mut self, op: u8) {
        self.item(item::BINARY, &[op]);
    }
    pub fn call(&mut self, name: &str, operands: u8) {
        self.item(item::CALL, &[&[operands], name.as_bytes()].concat());
    }
    /// One value, and as many calls of a name on it as 60,000 bytes hold.
    pub fn of_calls(name: &str, number: u32) -> Sheet {
        let mut sheet = Sheet::default();
        sheet.push(number);
        while sheet.length() + 3 + name.len() <= MOST_BYTES {
            sheet.call(name, 1);
        }
        sheet
    }
    /// How many bytes the items have.
    pub fn length(&self) -> usize {
        self.bytes.len()
    }
    /// The whole sheet, with its header.
    pub fn bytes(&self) -> Vec<u8> {
        assert!(self.length() <= MOST_BYTES);
        let length = (self.length() as u16).to_be_bytes();
        [&[1], &length[..], &self.bytes].concat()
    }
}

/// Why a sheet has no type; what is wrong with it is not told.
#[derive(Debug)]
pub struct Refused;

/// The type of a sheet by the crate's functions, over a table of the crate's types.
pub fn type_sheet(table: &[Type], sheet: &[u8]) -> Result<Option<Type>, Refused> {
    let [1, high, low, items @ ..] = sheet else {
        return Err(Refused);
    };
    let mut items = items;
    if items.len() != usize::from(u16::from_be_bytes([*high, *low])) {
        return Err(Refused);
    }
    let mut stack: Vec<Type> = Vec::new();
    while let [length, rest @ ..] = items {
        let length = usize::from(*length);
        if rest.len() < length {
            return Err(Refused);
        }
        let (payload, next) = rest.split_at(length);
        items = next;
        match payload {
            [item::PUSH, number] => {
                if stack.len() == 64 {
                    return Err(Refused);
                }
                let ty = table.get(usize::from(*number)).ok_or(Refused)?;
                stack.push(ty.clone());
            }
            [item::UNARY, op @ 0..=4] => {
                let a = stack.pop().ok_or(Refused)?;
                let made = type_unary_op(unary_operator(usize::from(*op)), &a);
                stack.push(made.map_err(|_| Refused)?);
            }
            [item::BINARY, op @ 0..=17] => {
                let b = stack.pop().ok_or(Refused)?;
                let a = stack.pop().ok_or(Refused)?;
                let made = type_binary_op(binary_operator(usize::from(*op)), &a, &b);
                stack.push(made.map_err(|_| Refused)?);
            }
            [item::CALL, count, name @ ..] => {
                if !called(&mut stack, None, usize::from(*count), name)? {
                    return end(items, &stack);
                }
            }
            [item::CALL_WITH_TEMPLATE, number, count, name @ ..] => {
                let ty = table.get(usize::from(*number)).ok_or(Refused)?;
                let list = [TpltParam::Type(ty.clone())];
                if !called(&mut stack, Some(&list), usize::from(*count), name)? {
                    return end(items, &stack);
                }
            }
            _ => return Err(Refused),
        }
    }
    match &stack[..] {
        [_] => Ok(stack.pop()),
        _ => Err(Refused),
    }
}

/// A call without value ends the sheet on an empty stack.
fn end(items: &[u8], stack: &[Type]) -> Result<Option<Type>, Refused> {
    match (items, stack) {
        ([], []) => Ok(None),
        _ => Err(Refused),
    }
}

/// Calls a builtin with the values on top of the stack; false where it has no value.
fn called(
    stack: &mut Vec<Type>,
    list: Option<&[TpltParam]>,
    count: usize,
    name: &[u8],
) -> Result<bool, Refused> {
    let name = std::str::from_utf8(name).map_err(|_| Refused)?;
    let from = stack.len().checked_sub(count).ok_or(Refused)?;
    let made = type_builtin_fn(name, list, &stack[from..]).map_err(|_| Refused)?;
    stack.truncate(from);
    let has_value = made.is_some();
    stack.extend(made);
    Ok(has_value)
}

/// A table of `entries` entries with some types last, as the header wants it and as the crate has it, and the numbers of those types.
pub fn table_with(types: &[WType], entries: usize) -> (Table, Vec<Type>, Vec<u32>) {
    const SPARE: usize = 8;
    let mut table = Table::new((entries + SPARE).min(256));
    let absent: BTreeSet<&WType> = types
        .iter()
        .filter(|ty| !matches!(ty, WType::Scalar(_)))
        .collect();
    let fillers = crate::domain::whole();
    let holds = |ty: &WType| match ty {
        WType::Array(elem, _) | WType::Pointer(_, elem, _) => types.contains(elem),
        ty => types.contains(ty),
    };
    let mut fillers = fillers.iter().filter(|ty| !holds(ty));
    while (table.used as usize) < entries.saturating_sub(absent.len()) {
        let filler = fillers.next().expect("types enough");
        table.number(filler);
    }
    let numbers: Vec<u32> = types.iter().map(|ty| table.number(ty)).collect();
    let rust = (0..table.used)
        .map(|number| to_rust(&table.read(number).expect("a sound table")))
        .collect();
    (table, rust, numbers)
}

/// The sheets of the benchmark.
#[derive(Clone, Copy, Debug, PartialEq, Eq)]
pub enum Pattern {
    /// Operators on scalars.
    Scalars,
    /// Operators on vectors of three and scalars.
    Vectors,
    /// clamp, mix and sqrt on scalars.
    Calls,
}

pub const PATTERNS: [Pattern; 3] = [Pattern::Scalars, Pattern::Vectors, Pattern::Calls];

impl Pattern {
    pub fn name(self) -> &'static str {
        match self {
            Pattern::Scalars => "scalars",
            Pattern::Vectors => "vectors",
            Pattern::Calls => "calls",
        }
    }

    /// The types that its items push.
    pub fn types(self) -> Vec<WType> {
        use crate::types::Scalar::{AbstractInt, F32};
        match self {
            Pattern::Scalars | Pattern::Calls => [AbstractInt, F32].map(WType::Scalar).to_vec(),
            Pattern::Vectors => vec![WType::Scalar(F32), WType::Vector(3, F32)],
        }
    }

    /// A sheet of so many items, or as many as 60,000 bytes hold; `numbers` are those of its types.
    pub fn sheet(self, items: usize, numbers: &[u32]) -> Sheet {
        const OPERATORS: [u8; 4] = [2, 3, 4, 5];
        let mut sheet = Sheet::default();
        let (small, large) = (numbers[0], numbers[1]);
        sheet.push(large);
        let mut turn = 0;
        match self {
            Pattern::Scalars | Pattern::Vectors => {
                // Two items a turn, and at the end three: `large == ..`, then `!`.
                while sheet.items + 2 <= items.saturating_sub(3) {
                    sheet.push(if turn % 3 == 0 { small } else { large });
                    sheet.binary(OPERATORS[turn % 4]);
                    turn += 1;
                }
                sheet.push(large);
                sheet.binary(7);
                sheet.unary(0);
            }
            Pattern::Calls => {
                let mut next = Sheet::default();
                loop {
                    match turn % 3 {
                        0 => {
                            next.push(small);
                            next.push(large);
                            next.call("clamp", 3);
                        }
                        1 => {
                            next.push(large);
                            next.push(small);
                            next.call("mix", 3);
                        }
                        _ => next.call("sqrt", 1),
                    }
                    let full = sheet.items + next.items > items
                        || sheet.length() + next.length() > MOST_BYTES;
                    if full {
                        break;
                    }
                    sheet.bytes.append(&mut next.bytes);
                    sheet.items += std::mem::take(&mut next.items);
                    turn += 1;
                }
            }
        }
        sheet
    }
}

/// A sheet of `kinds` different operators on vectors of three and scalars, in turn, as many as 60,000 bytes hold; each result is compared with itself, and all
/// comparisons are joined. Both sides have one answer to each.
pub fn kinds(kinds: usize) -> (Table, Vec<Type>, Sheet) {
    const OPERATORS: [u8; 5] = [2, 3, 4, 5, 6];
    const EQUAL: u8 = 7;
    const AND: u8 = 14;
    let types = crate::domain::simples();
    let (table, rust, numbers) = table_with(&types, types.len());
    let operands: Vec<Type> = types.iter().map(to_rust).collect();
    let standard = Standard::default();
    let width = |ty: &WType| ty.as_wide().map(|(width, _)| width);
    let mut met: Vec<(u8, usize, usize, usize)> = Vec::new();
    for op in OPERATORS {
        for (a, one) in types.iter().enumerate() {
            for (b, other) in types.iter().enumerate() {
                if !matches!(
                    (width(one), width(other)),
                    (Some(3), Some(1 | 3)) | (Some(1), Some(3))
                ) {
                    continue;
                }
                let case = Case {
                    operation: Operation::Binary(usize::from(op)),
                    template: &[],
                    operands: &[one, other],
                    running: &[],
                };
                let Answer::Type(made) = standard.answer(&case) else {
                    continue;
                };
                let operator = binary_operator(usize::from(op));
                let by_crate = type_binary_op(operator, &operands[a], &operands[b]);
                if by_crate.is_ok_and(|ty| from_rust(&ty) == made) {
                    let result = types.iter().position(|ty| *ty == made);
                    met.push((op, a, b, result.expect("one of the 55")));
                }
            }
        }
    }
    assert!(kinds <= met.len());
    let bools = |ty: &WType| ty.to_string() == "vec3<bool>";
    let bools = types.iter().position(bools).expect("one of the 55");
    let mut sheet = Sheet::default();
    sheet.push(numbers[bools]);
    for (op, a, b, result) in met[..kinds].iter().cycle() {
        if sheet.length() + 18 > MOST_BYTES {
            break;
        }
        sheet.push(numbers[*a]);
        sheet.push(numbers[*b]);
        sheet.binary(*op);
        sheet.push(numbers[*result]);
        sheet.binary(EQUAL);
        sheet.binary(AND);
    }
    (table, rust, sheet)
}

/// A sheet of two operators in turn whose keys have the same slots in the memo (`slot_of` of crates/memo/src/lib.rt), over a table of arrays and one vector.
pub fn two_in_turn() -> (Table, Vec<Type>, Sheet) {
    use crate::types::Scalar::{F32, I32};
    let slot = |op: u8, a: u32, b: u32| {
        let key = (u64::from(op) + 1) * 65_536 + u64::from(a) * 256 + u64::from(b);
        key * 2_654_435_761 / 16_777_216 % 256
    };
    for arrays in 0..200 {
        let array = |count| WType::Array(Box::new(WType::Scalar(I32)), Some(count));
        let mut types: Vec<WType> = (1..=arrays).map(array).collect();
        types.push(WType::Vector(3, F32));
        let (table, rust, numbers) = table_with(&types, types.len() + 7);
        let (vector, scalar) = (numbers[arrays as usize], F32 as u32);
        for (one, other) in [(2, 3), (2, 4), (2, 5), (3, 4), (3, 5), (4, 5)] {
            if slot(one, vector, vector) != slot(other, vector, scalar) {
                continue;
            }
            let mut sheet = Sheet::default();
            sheet.push(vector);
            while sheet.length() + 12 <= MOST_BYTES {
                sheet.push(vector);
                sheet.binary(one);
                sheet.push(scalar);
                sheet.binary(other);
            }
            return (table, rust, sheet);
        }
    }
    panic!("two keys of one slot");
}

/// Calls of a name that both sides answer with the same scalar or vector: the operands' places in a list of types, and the result's.
type Agreed = Vec<(Vec<usize>, usize)>;

/// The first of them, with as few operands as the name takes.
fn agreed(standard: &Standard, name: &'static str, types: &[WType], rust: &[Type]) -> Agreed {
    const MOST: usize = 40;
    const MOST_OPERANDS: u32 = 4;
    for count in 0..=MOST_OPERANDS {
        let place = |list: usize, i: u32| list / types.len().pow(count - 1 - i) % types.len();
        let places = |list| (0..count).map(|i| place(list, i)).collect::<Vec<_>>();
        let result = |places: &Vec<usize>| {
            let operands: Vec<&WType> = places.iter().map(|&i| &types[i]).collect();
            let case = Case {
                operation: Operation::Call(name),
                template: &[],
                operands: &operands,
                running: &[],
            };
            let answer = standard.answer(&case);
            let by_crate: Vec<Type> = places.iter().map(|&i| rust[i].clone()).collect();
            if answer != oracle_call(name, &[], &by_crate) {
                return None;
            }
            types
                .iter()
                .position(|ty| answer == Answer::Type(ty.clone()))
        };
        let lists = (0..types.len().pow(count)).map(places);
        let met = lists.filter_map(|list| Some((list.clone(), result(&list)?)));
        let met: Agreed = met.take(MOST).collect();
        if !met.is_empty() {
            return met;
        }
    }
    panic!("{name} on scalars and vectors")
}

/// The names that are not answered with a scalar or a vector of such operands alone.
const OTHERS: [&str; 9] = [
    "arrayLength",
    "bitcast",
    "determinant",
    "frexp",
    "modf",
    "storageBarrier",
    "textureBarrier",
    "transpose",
    "workgroupBarrier",
];

/// What joins the comparisons of vectors; it is called for that alone.
const JOIN: &str = "all";

/// A call of a name on operands whose places in a list of types are given, and its result's.
struct Called<'a> {
    name: &'a str,
    places: &'a [usize],
    result: usize,
}

/// A sheet in which each result is compared with itself, and all comparisons are joined; `numbers` are those of the plain types.
fn joined(calls: &[Called], numbers: &[u32]) -> Sheet {
    const EQUAL: u8 = 7;
    // On bool alone, and on vectors of bool.
    const ALSO: u8 = 1;
    const AND: u8 = 14;
    let width = |call: &&Called| call.result / SCALARS.len();
    let mut sheet = Sheet::default();
    sheet.push(numbers[0]);
    for wide in 0..PLAINS / SCALARS.len() {
        let mut of_width = calls.iter().filter(|call| width(call) == wide).peekable();
        let is_vector = wide > 0 && of_width.peek().is_some();
        if is_vector {
            sheet.push(numbers[SCALARS.len() * wide]);
        }
        for call in of_width {
            call.places
                .iter()
                .for_each(|&place| sheet.push(numbers[place]));
            sheet.call(call.name, call.places.len() as u8);
            sheet.push(numbers[call.result]);
            sheet.binary(EQUAL);
            sheet.binary(if is_vector { AND } else { ALSO });
        }
        if is_vector {
            sheet.call(JOIN, 1);
            sheet.binary(ALSO);
        }
    }
    sheet
}

/// Sheets that call all names of a list but `OTHERS`, some times over, each time in another order, and how many of these calls there are. Names that are answered
/// alike have operands of their own in a sheet, so that no run meets a call twice.
pub fn all_names(names: &[&'static str]) -> (Table, Vec<Type>, Vec<Sheet>, usize) {
    const TIMES: usize = 20;
    quiet();
    let types = &simples()[..PLAINS];
    let (table, rust, numbers) = table_with(types, types.len());
    let operands: Vec<Type> = types.iter().map(to_rust).collect();
    let standard = Standard::default();
    let is_called = |name: &&&'static str| !OTHERS.contains(name) && **name != JOIN;
    let mut calls: Vec<(&str, Agreed)> = names
        .iter()
        .filter(is_called)
        .map(|name| (*name, agreed(&standard, name, types, &operands)))
        .collect();
    let mut random = Random::new(1);
    let mut sheets = Vec::new();
    for _ in 0..TIMES {
        for i in (1..calls.len()).rev() {
            calls.swap(i, random.below(i + 1));
        }
        let mut met: BTreeMap<&Agreed, usize> = BTreeMap::new();
        let mut parts: BTreeMap<usize, Vec<Called>> = BTreeMap::new();
        for (name, agreed) in &calls {
            let turn = met.entry(agreed).or_default();
            let (places, result) = &agreed[*turn % agreed.len()];
            parts.entry(*turn / agreed.len()).or_default().push(Called {
                name,
                places,
                result: *result,
            });
            *turn += 1;
        }
        sheets.extend(parts.values().map(|calls| joined(calls, &numbers)));
    }
    let count = TIMES * calls.len();
    (table, rust, sheets, count)
}

#[cfg(test)]
mod tests {
    use super::*;
    use crate::oracle::from_rust;

    #[test]
    fn the_page_example() {
        let sheet = [1, 0, 9, 2, 1, 1, 2, 1, 5, 2, 3, 2];
        let (_, rust, _) = table_with(&[], 7);
        let ty = type_sheet(&rust, &sheet).unwrap().unwrap();
        assert_eq!(from_rust(&ty).to_string(), "f32");
    }

    #[test]
    fn sheets_of_all_names_have_a_type() {
        let (_, rust, sheets, calls) = all_names(&crate::standard::NAMES);
        assert_eq!(calls, 20 * (94 - OTHERS.len() - 1));
        for sheet in sheets {
            let made = type_sheet(&rust, &sheet.bytes()).unwrap().unwrap();
            assert_eq!(from_rust(&made).to_string(), "bool");
        }
    }

    #[test]
    fn every_pattern_has_a_type() {
        for (pattern, ty) in PATTERNS.into_iter().zip(["bool", "vec3<bool>", "f32"]) {
            let missing = usize::from(pattern == Pattern::Vectors);
            for items in [20, 2_000, 20_000] {
                for entries in [7, 20, 200] {
                    let (table, rust, numbers) = table_with(&pattern.types(), entries);
                    assert!(table.used as usize == entries.max(7 + missing));
                    let sheet = pattern.sheet(items, &numbers);
                    assert!(sheet.items <= items && sheet.length() <= MOST_BYTES);
                    let made = type_sheet(&rust, &sheet.bytes()).unwrap().unwrap();
                    assert_eq!(from_rust(&made).to_string(), ty);
                }
            }
        }
    }
}
