//! The calls themselves.

use crate::case::{Answer, Argument, Case, Operation, profile};
use crate::ours::table::{ENTRIES, Table};
use crate::standard::{in_base, refusal, runs_anyway};
use crate::types::WType;

pub const NO_VALUE: u32 = 0xFFFF_FFFF;

/// The bit of an operand and of a reply's mark: known only when running.
pub const RUNNING: u32 = 0x8000_0000;

/// `swartabelk_reply` of the header.
#[repr(C)]
#[derive(Clone, Copy, Debug, PartialEq, Eq)]
pub struct Reply {
    pub refusal: u32,
    pub ty: u32,
    pub mark: u32,
    pub place: u32,
    pub used: u32,
    pub lacking: u32,
}

/// `swartabelk_spelled` of the header.
#[repr(C)]
#[derive(Clone, Copy, Debug)]
pub struct Spelled {
    pub refusal: u32,
    pub length: u32,
    pub place: u32,
    pub used: u32,
}

unsafe extern "C" {
    pub fn swartabelk_check(words: *const u32, words_len: usize, used: u32) -> Reply;
    pub fn swartabelk_enter(
        words: *mut u32,
        words_len: usize,
        used: u32,
        kind: u32,
        p: u32,
        q: u32,
        elem: u32,
    ) -> Reply;
    pub fn swartabelk_unary(words: *mut u32, words_len: usize, used: u32, op: u32, a: u32)
    -> Reply;
    pub fn swartabelk_binary(
        words: *mut u32,
        words_len: usize,
        used: u32,
        op: u32,
        a: u32,
        b: u32,
    ) -> Reply;
    pub fn swartabelk_call(
        words: *mut u32,
        words_len: usize,
        used: u32,
        profile: u32,
        name: *const u8,
        name_len: usize,
        tplt: *const u32,
        tplt_len: usize,
        args: *const u32,
        args_len: usize,
    ) -> Reply;
    pub fn swartabelk_template(
        words: *mut u32,
        words_len: usize,
        used: u32,
        head: *const u8,
        head_len: usize,
        args: *const i64,
        args_len: usize,
    ) -> Reply;
    pub fn swartabelk_sheet(
        words: *mut u32,
        words_len: usize,
        used: u32,
        profile: u32,
        sheet: *const u8,
        sheet_len: usize,
    ) -> Reply;
    pub fn swartabelk_spell(
        words: *const u32,
        words_len: usize,
        used: u32,
        ty: u32,
        out: *mut u8,
        out_len: usize,
    ) -> Spelled;
    pub fn swartabelk_why_binary(
        words: *const u32,
        words_len: usize,
        used: u32,
        op: u32,
        a: u32,
        b: u32,
        out: *mut u8,
        out_len: usize,
    ) -> Spelled;
}

pub fn enter(table: &mut Table, [kind, p, q, elem]: [u32; 4]) -> Reply {
    let (words, len) = (table.words.as_mut_ptr(), table.words.len());
    // SAFETY: the words are lent for the call, with their length.
    unsafe { swartabelk_enter(words, len, table.used, kind, p, q, elem) }
}

pub fn unary(table: &mut Table, op: u32, a: u32) -> Reply {
    let (words, len) = (table.words.as_mut_ptr(), table.words.len());
    // SAFETY: the words are lent for the call, with their length.
    unsafe { swartabelk_unary(words, len, table.used, op, a) }
}

pub fn binary(table: &mut Table, op: u32, a: u32, b: u32) -> Reply {
    let (words, len) = (table.words.as_mut_ptr(), table.words.len());
    // SAFETY: the words are lent for the call, with their length.
    unsafe { swartabelk_binary(words, len, table.used, op, a, b) }
}

pub fn call(table: &mut Table, profile: u32, name: &str, tplt: &[u32], args: &[u32]) -> Reply {
    let (words, len) = (table.words.as_mut_ptr(), table.words.len());
    // SAFETY: words, name and lists are lent for the call, each with its length.
    unsafe {
        swartabelk_call(
            words,
            len,
            table.used,
            profile,
            name.as_ptr(),
            name.len(),
            tplt.as_ptr(),
            tplt.len(),
            args.as_ptr(),
            args.len(),
        )
    }
}

pub fn template(table: &mut Table, head: &str, args: &[i64]) -> Reply {
    let (words, len) = (table.words.as_mut_ptr(), table.words.len());
    // SAFETY: words, head and list are lent for the call, each with its length.
    unsafe {
        swartabelk_template(
            words,
            len,
            table.used,
            head.as_ptr(),
            head.len(),
            args.as_ptr(),
            args.len(),
        )
    }
}

pub fn sheet(table: &mut Table, profile: u32, sheet: &[u8]) -> Reply {
    let (words, len) = (table.words.as_mut_ptr(), table.words.len());
    // SAFETY: words and sheet are lent for the call, each with its length.
    unsafe { swartabelk_sheet(words, len, table.used, profile, sheet.as_ptr(), sheet.len()) }
}

/// The spelling of a number, by the library.
pub fn spell(table: &Table, number: u32) -> Result<String, u32> {
    let mut out = [0u8; 256];
    let (words, len) = (table.words.as_ptr(), table.words.len());
    // SAFETY: the words are lent for reading and the output for writing, each with its length.
    let spelled =
        unsafe { swartabelk_spell(words, len, table.used, number, out.as_mut_ptr(), out.len()) };
    match spelled.refusal {
        0 => Ok(String::from_utf8_lossy(&out[..spelled.length as usize]).into_owned()),
        refusal => Err(refusal),
    }
}

/// Why a binary operator is accepted or refused, by the library.
pub fn why_binary(table: &Table, op: u32, a: u32, b: u32, out: &mut [u8]) -> Spelled {
    let (words, len) = (table.words.as_ptr(), table.words.len());
    // SAFETY: the words are lent for reading and the output for writing, each with its length.
    unsafe { swartabelk_why_binary(words, len, table.used, op, a, b, out.as_mut_ptr(), out.len()) }
}

/// A case asked over a table that holds its types and nothing else beside the scalars. A call is one of profile 1, held to what the other profiles reply.
pub fn answer(case: &Case) -> Result<Answer, String> {
    let mut table = Table::new(ENTRIES);
    let mark = |runs: bool| if runs { RUNNING } else { 0 };
    let operand = |(i, ty): (usize, &&WType)| table.number(ty) | mark(case.runs(i));
    let operands: Vec<u32> = case.operands.iter().enumerate().map(operand).collect();
    let list: Vec<i64> = case
        .template
        .iter()
        .flat_map(|argument| match argument {
            Argument::Type(ty) => [0, i64::from(table.number(ty))],
            Argument::AbstractInt(n) => [1, *n],
            Argument::I32(n) => [2, i64::from(*n)],
            Argument::U32(n) => [3, i64::from(*n)],
            Argument::Bool(b) => [4, i64::from(*b)],
            Argument::F32(bits) => [5, i64::from(*bits)],
        })
        .collect();
    let types: Vec<u32> = list.chunks(2).map(|pair| pair[1] as u32).collect();
    let ask = |table: &mut Table| match case.operation {
        Operation::Unary(op) => unary(table, op as u32, operands[0]),
        Operation::Binary(op) => binary(table, op as u32, operands[0], operands[1]),
        Operation::Call(name) => call(table, profile::SUBGROUPS, name, &types, &operands),
        Operation::Template(head) => template(table, head, &list),
    };
    let before = table.clone();
    let reply = ask(&mut table);
    if let Operation::Call(name) = case.operation {
        other_profiles(&before, &table, reply, name, &types, &operands)?;
    }
    let answer = read(&before, &mut table, reply)?;
    // A value is running where an operand is, and by some names; a template, and what has no value, has no mark.
    let anyway = matches!(case.operation, Operation::Call(name) if runs_anyway(name));
    let runs = anyway || operands.iter().any(|operand| operand & RUNNING != 0);
    if reply.mark != mark(runs && matches!(answer, Answer::Type(_))) {
        return Err(format!("another mark: {reply:?}"));
    }
    with_less_room(&before, reply, ask)?;
    Ok(answer)
}

/// Holds a reply that entered types to slices with less room: each refuses with 9 and tells how many entries lack, and changes nothing. The slice that has just
/// room enough replies the same.
fn with_less_room(
    before: &Table,
    reply: Reply,
    ask: impl Fn(&mut Table) -> Reply,
) -> Result<(), String> {
    for entries in before.used..reply.used {
        let mut table = before.in_slice(entries);
        let left = table.clone();
        let tight = ask(&mut table);
        let wanted = Reply {
            refusal: refusal::NO_ROOM,
            ty: NO_VALUE,
            mark: 0,
            place: 0,
            used: before.used,
            lacking: reply.used - entries,
        };
        if tight != wanted || table.words != left.words {
            return Err(format!("{entries} entries: {tight:?}, wanted {wanted:?}"));
        }
    }
    if before.used < reply.used {
        let enough = ask(&mut before.in_slice(reply.used));
        if enough != reply {
            return Err(format!("just enough: {enough:?}, wanted {reply:?}"));
        }
    }
    Ok(())
}

/// Holds what profile 1 replied and left to profile 0, which does the same for the names that it has and refuses all others, and, where there is one operand or
/// none, to an unknown profile, which refuses all.
fn other_profiles(
    before: &Table,
    after: &Table,
    reply: Reply,
    name: &str,
    types: &[u32],
    operands: &[u32],
) -> Result<(), String> {
    /// Profile 0 and an unknown one.
    const OTHERS: [u32; 2] = [profile::BASE, 2];
    let asked = if operands.len() < 2 { 2 } else { 1 };
    let unknown_name = Reply {
        refusal: refusal::UNKNOWN,
        ty: NO_VALUE,
        mark: 0,
        place: 0,
        used: before.used,
        lacking: 0,
    };
    for profile in OTHERS.into_iter().take(asked) {
        let mut table = before.clone();
        let other = call(&mut table, profile, name, types, operands);
        let (wanted, left) = if profile == profile::BASE && in_base(name) {
            (reply, after)
        } else {
            (unknown_name, before)
        };
        if other != wanted || table.words != left.words {
            return Err(format!("profile {profile}: {other:?}, wanted {wanted:?}"));
        }
    }
    Ok(())
}

/// The answer of a reply, once the words are as the header promises.
fn read(before: &Table, table: &mut Table, reply: Reply) -> Result<Answer, String> {
    let held = 4 * before.used as usize;
    if reply.place != 0 {
        return Err(format!("place {} of a single call", reply.place));
    }
    if reply.lacking != 0 {
        return Err(format!("entries lack, where there is room: {reply:?}"));
    }
    if reply.refusal != 0 {
        let kept = table.words == before.words && reply.used == before.used;
        if !kept || reply.ty != NO_VALUE {
            return Err(format!("a refusal that changed something: {reply:?}"));
        }
        return Ok(Answer::Refused(reply.refusal));
    }
    if table.words[..held] != before.words[..held] {
        return Err("an earlier entry was changed".to_string());
    }
    if reply.used < before.used || 4 * reply.used as usize > table.words.len() {
        return Err(format!("a count out of range: {reply:?}"));
    }
    let now = 4 * reply.used as usize;
    if table.words[now..] != before.words[now..] {
        return Err("a word behind the count was changed".to_string());
    }
    table.used = reply.used;
    if reply.ty == NO_VALUE {
        return Ok(Answer::NoValue);
    }
    let ty = table.read(reply.ty)?;
    let spelled = spell(table, reply.ty);
    if spelled != Ok(ty.to_string()) {
        return Err(format!("{ty} was spelled {spelled:?}"));
    }
    Ok(Answer::Type(ty))
}

#[cfg(test)]
mod tests {
    use super::*;
    use crate::domain::{on_memory, references, whole};

    /// Entry by entry the library enters each type as `Table` does, and finds it again.
    #[test]
    fn every_type_is_entered() {
        for ty in whole().iter().chain(&references()).chain(&on_memory()) {
            let mut wanted = Table::new(ENTRIES);
            let number = wanted.number(ty);
            let mut table = Table::new(ENTRIES);
            for (i, again) in (7..wanted.used).flat_map(|i| [(i, false), (i, true)]) {
                let reply = enter(&mut table, wanted.entry(i));
                let told = [reply.refusal, reply.ty, reply.mark, reply.place, reply.used];
                assert_eq!(
                    (told, reply.lacking),
                    ([0, i, 0, 0, i + 1], 0),
                    "{ty} {again}"
                );
                table.used = reply.used;
            }
            assert_eq!(table.words, wanted.words, "{ty}");
            assert_eq!(table.read(number).as_ref(), Ok(ty));
        }
    }
}
