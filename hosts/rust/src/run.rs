//! The operands of an item of a sheet, for its reason text: what the items before it leave on the stack.
use alloc::vec::Vec;

use crate::lent::{self, Operand};
use crate::{Profile, Table};

/// A call that was refused.
#[derive(Clone, Copy)]
pub(crate) enum Call<'a> {
    /// A unary operator.
    Unary(u32, Operand),
    /// A binary operator.
    Binary(u32, Operand, Operand),
    /// A builtin's name, its template list and its operands.
    Named(&'a [u8], &'a [u32], &'a [Operand]),
}

/// The kinds of an item.
const PUSH: u8 = 1;
const UNARY: u8 = 2;
const BINARY: u8 = 3;
const CALL: u8 = 4;
const CALL_TEMPLATE: u8 = 5;
const TAKE: u8 = 6;

/// A sheet of which the items before a place were accepted, typed again item by item, by single calls, over a table that has all that they entered: so each gives the
/// number that it gave.
pub(crate) struct Run<'a> {
    words: Vec<u32>,
    used: u32,
    profile: Profile,
    marks: bool,
    sheet: &'a [u8],
    /// Where the item begins that is looked at, and the template list of that item.
    place: usize,
    template: [u32; 1],
}

impl<'a> Run<'a> {
    pub(crate) fn new(table: &Table, sheet: &'a [u8]) -> Run<'a> {
        Run {
            words: table.words().to_vec(),
            used: table.entries() as u32,
            profile: table.profile(),
            marks: sheet.first() == Some(&2),
            sheet,
            place: 3,
            template: [0],
        }
    }

    /// The operands of the item at a place.
    pub(crate) fn to(&mut self, place: usize) -> Option<Vec<Operand>> {
        let mut stack = Vec::new();
        loop {
            let (kind, payload) = self.item()?;
            let operands = stack.split_off(stack.len().checked_sub(taken(kind, payload)?)?);
            if self.place == place {
                return Some(operands);
            }
            stack.push(self.value(kind, payload, &operands)?);
            self.place += 2 + payload.len();
        }
    }

    /// The call that the item at the place is, on these operands.
    pub(crate) fn call<'b>(&'b mut self, operands: &'b [Operand]) -> Option<Call<'b>> {
        let (kind, payload) = self.item()?;
        Some(match (kind, payload, operands) {
            (UNARY, &[op], &[a]) => Call::Unary(op.into(), a),
            (BINARY, &[op], &[a, b]) => Call::Binary(op.into(), a, b),
            (CALL, [_, name @ ..], _) => Call::Named(name, &[], operands),
            (CALL_TEMPLATE, &[number, _, ref name @ ..], _) => {
                self.template = [number.into()];
                Call::Named(name, &self.template, operands)
            }
            _ => return None,
        })
    }

    /// The kind and the payload of the item at the place.
    fn item(&self) -> Option<(u8, &'a [u8])> {
        let length = usize::from(*self.sheet.get(self.place)?);
        let item = self.sheet.get(self.place + 1..self.place + 1 + length)?;
        let (&kind, payload) = item.split_first()?;
        Some((kind, payload))
    }

    /// The value that an accepted item pushes.
    fn value(&mut self, kind: u8, payload: &[u8], operands: &[Operand]) -> Option<Operand> {
        let (words, used) = (&mut self.words[..], self.used);
        let running = self.marks && matches!(kind, PUSH | TAKE) && payload.last() == Some(&1);
        let answer = match (kind, payload, operands) {
            (PUSH, &[number, ..], _) => return Some(marked(number.into(), running)),
            (TAKE, &[kind, a, b, c, d, q, elem, ..], _) => {
                let p = u32::from_be_bytes([a, b, c, d]);
                lent::enter(words, used, kind.into(), p, q.into(), elem.into())
            }
            (UNARY, &[op], &[a]) => lent::unary(words, used, op.into(), a),
            (BINARY, &[op], &[a, b]) => lent::binary(words, used, op.into(), a, b),
            (CALL, [_, name @ ..], _) => lent::call(words, used, self.profile, name, &[], operands),
            (CALL_TEMPLATE, &[number, _, ref name @ ..], _) => {
                let template = [number.into()];
                lent::call(words, used, self.profile, name, &template, operands)
            }
            _ => return None,
        };
        let value = answer.operand()?;
        // Version 1 keeps no mark.
        Some(marked(
            value.number(),
            self.marks && (running || value.is_running()),
        ))
    }
}

/// How many operands an item takes off the stack.
fn taken(kind: u8, payload: &[u8]) -> Option<usize> {
    Some(match (kind, payload) {
        (UNARY, _) => 1,
        (BINARY, _) => 2,
        (CALL, &[count, ..]) | (CALL_TEMPLATE, &[_, count, ..]) => count.into(),
        _ => 0,
    })
}

fn marked(number: u32, running: bool) -> Operand {
    if running {
        Operand::running(number)
    } else {
        Operand::known(number)
    }
}
