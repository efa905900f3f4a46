//! 100,000 made-up sheets: what the table says of a sheet is what a machine of ours says, which frames the bytes itself and types each item by a single call.
//!
//! All kinds of items, both versions, both profiles and an unknown one, tables with much room and with little; one sheet in eight has bytes that were changed,
//! cut off or added afterwards. The answer, its mark, place and count and what lacks are compared, and every word of the table; where no overload fits, the reason text too.
use swartabelk::lent::{
    binary, call, enter, sheet, unary, why_binary, why_call, why_unary, Answer, Operand, Refusal,
    SCALARS,
};
use swartabelk::{Profile, Reason, Table};

const SHEETS: u64 = 100_000;

/// The stack's values, and the bytes that a sheet may have after its header.
const VALUES: usize = 64;
const LONGEST: usize = 60_000;

/// Every builtin of profile 1.
const NAMES: &str = "
    abs acos acosh all any arrayLength asin asinh atan atan2 atanh atomicAdd atomicAnd
    atomicCompareExchangeWeak atomicExchange atomicLoad atomicMax atomicMin atomicOr atomicStore
    atomicSub atomicXor bitcast ceil clamp cos cosh countLeadingZeros countOneBits countTrailingZeros
    cross degrees determinant distance dot dot4I8Packed dot4U8Packed dpdx dpdxCoarse dpdxFine dpdy
    dpdyCoarse dpdyFine exp exp2 extractBits faceForward firstLeadingBit firstTrailingBit floor fma
    fract frexp fwidth fwidthCoarse fwidthFine insertBits inverseSqrt ldexp length log log2 max min mix
    modf normalize pack2x16float pack2x16snorm pack2x16unorm pack4x8snorm pack4x8unorm pack4xI8
    pack4xI8Clamp pack4xU8 pack4xU8Clamp pow quadBroadcast quadSwapDiagonal quadSwapX quadSwapY
    quantizeToF16 radians reflect refract reverseBits round saturate select sign sin sinh smoothstep
    sqrt step storageBarrier subgroupAdd subgroupAll subgroupAnd subgroupAny subgroupBallot
    subgroupBroadcast subgroupBroadcastFirst subgroupElect subgroupExclusiveAdd subgroupExclusiveMul
    subgroupInclusiveAdd subgroupInclusiveMul subgroupMax subgroupMin subgroupMul subgroupOr
    subgroupShuffle subgroupShuffleDown subgroupShuffleUp subgroupShuffleXor subgroupXor tan tanh
    textureBarrier transpose trunc unpack2x16float unpack2x16snorm unpack2x16unorm unpack4x8snorm
    unpack4x8unorm unpack4xI8 unpack4xU8 workgroupBarrier workgroupUniformLoad
";

/// The kinds of an item.
const PUSH: u8 = 1;
const UNARY: u8 = 2;
const BINARY: u8 = 3;
const CALL: u8 = 4;
const CALL_TEMPLATE: u8 = 5;
const TAKE: u8 = 6;

/// Numbers that look made up, the same in each run.
struct Dice(u64);

impl Dice {
    fn below(&mut self, n: usize) -> usize {
        self.0 ^= self.0 << 13;
        self.0 ^= self.0 >> 7;
        self.0 ^= self.0 << 17;
        (self.0 % n as u64) as usize
    }

    fn one_in(&mut self, n: usize) -> bool {
        self.below(n) == 0
    }

    fn of<T: Copy>(&mut self, list: &[T]) -> T {
        list[self.below(list.len())]
    }
}

// The machine that the sheet is held to.

/// What an item of a sheet does.
enum Done {
    /// It leaves a value more or less on the stack.
    Goes,
    /// It is a call without value.
    Silent,
}

#[derive(Clone)]
struct Machine {
    words: Vec<u32>,
    used: u32,
    stack: Vec<Operand>,
    marks: bool,
    profile: Profile,
    /// The operands of the operator or call that was typed last.
    asked: Vec<Operand>,
}

/// A refusal of an item: the reason, and what lacks.
type Refused = (Reason, u32);

impl Machine {
    /// What a single call answers, with the count kept where it is accepted: a value, or none.
    fn took(&mut self, answer: Answer) -> Result<Option<Operand>, Refused> {
        match answer {
            Answer::Type { used, .. } | Answer::NoValue { used } => self.used = used,
            Answer::Refused(r) => return Err((r.reason, r.lacking)),
        }
        Ok(answer.operand())
    }

    /// A value on the stack, whose mark version 1 does not keep.
    fn hold(&mut self, value: Operand) {
        let number = value.number();
        self.stack
            .push(if self.marks { value } else { number.into() });
    }

    /// An item, by its kind and its payload.
    fn item(&mut self, kind: u8, payload: &[u8]) -> Result<Done, Refused> {
        match (kind, payload) {
            (PUSH, &[number]) if !self.marks => self.push(Operand::known(number.into())),
            (PUSH, &[number, 0]) if self.marks => self.push(Operand::known(number.into())),
            (PUSH, &[number, 1]) if self.marks => self.push(Operand::running(number.into())),
            (UNARY, &[op]) => self.operator(1, |m, a| unary(&mut m.words, m.used, op.into(), a[0])),
            (BINARY, &[op]) => self.operator(2, |m, a| {
                binary(&mut m.words, m.used, op.into(), a[0], a[1])
            }),
            (CALL, &[count, ref name @ ..]) if (1..=32).contains(&name.len()) => self
                .operator(count.into(), |m, a| {
                    call(&mut m.words, m.used, m.profile, name, &[], a)
                }),
            (CALL_TEMPLATE, &[number, count, ref name @ ..]) if (1..=32).contains(&name.len()) => {
                self.operator(count.into(), |m, a| {
                    call(&mut m.words, m.used, m.profile, name, &[number.into()], a)
                })
            }
            (TAKE, &[kind, a, b, c, d, q, elem]) if !self.marks => self.take(
                [
                    kind.into(),
                    u32::from_be_bytes([a, b, c, d]),
                    q.into(),
                    elem.into(),
                ],
                false,
            ),
            (TAKE, &[kind, a, b, c, d, q, elem, mark @ (0 | 1)]) if self.marks => self.take(
                [
                    kind.into(),
                    u32::from_be_bytes([a, b, c, d]),
                    q.into(),
                    elem.into(),
                ],
                mark == 1,
            ),
            _ => Err((Reason::Framing, 0)),
        }
    }

    fn push(&mut self, value: Operand) -> Result<Done, Refused> {
        if self.used <= value.number() {
            return Err((Reason::NoSuchType, 0));
        }
        if self.stack.len() == VALUES {
            return Err((Reason::Stack, 0));
        }
        self.hold(value);
        Ok(Done::Goes)
    }

    /// A take: a broken entry comes before a 65th value, and that before want of room.
    fn take(&mut self, [kind, p, q, elem]: [u32; 4], running: bool) -> Result<Done, Refused> {
        let mut next = self.clone();
        let answer = enter(&mut next.words, next.used, kind, p, q, elem);
        match next.took(answer) {
            Err((Reason::Template, _)) => return Err((Reason::Template, 0)),
            _ if self.stack.len() == VALUES => return Err((Reason::Stack, 0)),
            Err(refused) => return Err(refused),
            Ok(value) => {
                let number = value.expect("an entry has a type").number();
                next.hold(if running {
                    Operand::running(number)
                } else {
                    number.into()
                });
            }
        }
        *self = next;
        Ok(Done::Goes)
    }

    /// An operator or a call on so many operands: the deepest is the first.
    fn operator(
        &mut self,
        count: usize,
        single: impl Fn(&mut Machine, &[Operand]) -> Answer,
    ) -> Result<Done, Refused> {
        let Some(below) = self.stack.len().checked_sub(count) else {
            return Err((Reason::Stack, 0));
        };
        let mut next = self.clone();
        let operands = next.stack.split_off(below);
        self.asked.clone_from(&operands);
        next.asked.clone_from(&operands);
        let answer = single(&mut next, &operands);
        // A 65th value comes before want of room.
        let value = match next.took(answer) {
            Err((Reason::NoRoom, _)) | Ok(Some(_)) if below == VALUES => {
                return Err((Reason::Stack, 0))
            }
            taken => taken?,
        };
        let done = match value {
            Some(value) => {
                next.hold(value);
                Done::Goes
            }
            // No value may stand below a call that has none.
            None if below != 0 => return Err((Reason::Stack, 0)),
            None => Done::Silent,
        };
        *self = next;
        Ok(done)
    }

    fn refused(&self, (reason, lacking): Refused, place: usize) -> Answer {
        Answer::Refused(Refusal {
            reason,
            place: place as u32,
            used: self.used,
            lacking,
        })
    }

    /// A whole sheet.
    fn run(&mut self, bytes: &[u8]) -> Answer {
        let &[version @ (1 | 2), high, low, ref body @ ..] = bytes else {
            return self.refused((Reason::Framing, 0), 0);
        };
        let length = 256 * usize::from(high) + usize::from(low);
        if LONGEST < length || body.len() != length {
            return self.refused((Reason::Framing, 0), 0);
        }
        if ![Profile::BASE, Profile::SUBGROUPS].contains(&self.profile) {
            return self.refused((Reason::Unknown, 0), 0);
        }
        self.marks = version == 2;
        let mut place = 3;
        while place < bytes.len() {
            let behind = &bytes[place + 1..];
            let size = usize::from(bytes[place]);
            if size == 0 || behind.len() < size {
                return self.refused((Reason::Framing, 0), place);
            }
            let before = self.clone();
            match self.item(behind[0], &behind[1..size]) {
                Ok(Done::Goes) => place += 1 + size,
                // It is the last item, or is refused.
                Ok(Done::Silent) if behind.len() == size => {
                    return Answer::NoValue { used: self.used }
                }
                Ok(Done::Silent) => {
                    *self = before;
                    return self.refused((Reason::Stack, 0), place);
                }
                Err(refused) => return self.refused(refused, place),
            }
        }
        match self.stack[..] {
            [value] => Answer::Type {
                number: value.number(),
                running: value.is_running(),
                used: self.used,
            },
            _ => self.refused((Reason::Stack, 0), place),
        }
    }
}

/// A text that is written to lent bytes, with as many of them as it wants.
fn written(write: impl Fn(&mut [u8]) -> Result<usize, Refusal>) -> String {
    let mut out = vec![0; 1024];
    loop {
        match write(&mut out) {
            Ok(length) => return String::from_utf8(out[..length].to_vec()).expect("ASCII"),
            Err(refusal) => assert_eq!(refusal.reason, Reason::TooLong),
        }
        out.resize(4 * out.len(), 0);
    }
}

impl Machine {
    /// Why the item at a place, which was typed last, has no overload that fits.
    fn why(&self, bytes: &[u8], place: usize) -> String {
        let (w, n, a) = (&self.words, self.used, &self.asked[..]);
        let item = &bytes[place + 1..place + 1 + usize::from(bytes[place])];
        written(|out| match (item[0], &item[1..]) {
            (UNARY, &[op]) => why_unary(w, n, op.into(), a[0], out),
            (BINARY, &[op]) => why_binary(w, n, op.into(), a[0], a[1], out),
            (CALL, [_, name @ ..]) => why_call(w, n, self.profile, name, &[], a, out),
            (CALL_TEMPLATE, &[t, _, ref name @ ..]) => {
                why_call(w, n, self.profile, name, &[t.into()], a, out)
            }
            _ => panic!("no other item has overloads"),
        })
    }
}

// The sheets.

/// After the scalars, in every other table: vectors, matrices, arrays, atomics, pointers and references, so that most calls have operands.
const ENTRIES: [[u32; 4]; 16] = [
    [7, 3, 0, 5],
    [7, 2, 0, 1],
    [7, 4, 0, 6],
    [7, 3, 0, 0],
    [7, 4, 0, 4],
    [8, 2, 2, 5],
    [8, 4, 3, 2],
    [9, 4, 0, 1],
    [10, 0, 0, 5],
    [11, 0, 0, 4],
    [11, 0, 0, 3],
    [12, 4, 2, 16],
    [12, 2, 2, 17],
    [12, 4, 0, 15],
    [13, 0, 2, 5],
    [14, 0, 0, 7],
];

/// A machine over the scalars or over these too, in a slice that has room for 256 entries or for few more than it has.
fn start(dice: &mut Dice) -> Machine {
    let entries: &[[u32; 4]] = if dice.one_in(2) { &ENTRIES } else { &[] };
    let mut words = SCALARS.to_vec();
    words.extend(entries.iter().flatten());
    let used = words.len() as u32 / 4;
    let room = if dice.one_in(4) {
        used as usize + dice.below(4)
    } else {
        256
    };
    words.resize(4 * room, 0);
    let profile = match dice.below(64) {
        0 => Profile(2 + dice.below(3) as u32),
        n => [Profile::BASE, Profile::SUBGROUPS][n % 2],
    };
    Machine {
        words,
        used,
        stack: Vec::new(),
        marks: dice.one_in(2),
        profile,
        asked: Vec::new(),
    }
}

/// A builtin and how many operands it takes, asked of the library: a count that is not refused with 7.
fn called(name: &'static str) -> (&'static str, usize) {
    let count = (0..=4).find(|&k| {
        let template: &[u32] = if name == "bitcast" { &[4] } else { &[] };
        let args = vec![Operand::known(0); k];
        let answer = call(
            &mut SCALARS.clone(),
            7,
            Profile::SUBGROUPS,
            name.as_bytes(),
            template,
            &args,
        );
        !matches!(
            answer,
            Answer::Refused(Refusal {
                reason: Reason::Operands | Reason::Unknown,
                ..
            })
        )
    });
    (name, count.expect("a builtin takes at most four operands"))
}

/// The item of a kind with a payload, and a mark behind it where the version has one.
fn framed(kind: u8, payload: &[u8], mark: Option<u8>) -> Vec<u8> {
    let mut bytes = vec![(1 + payload.len() + mark.iter().len()) as u8, kind];
    bytes.extend(payload);
    bytes.extend(mark);
    bytes
}

/// Any entry: mostly one that keeps the rule of its kind.
fn any_entry(dice: &mut Dice, used: u32) -> [u8; 7] {
    let scalar = dice.below(7) as u8;
    let float = dice.of(&[2, 5, 6]);
    let integer = dice.of(&[3, 4]);
    let any = dice.below(used as usize) as u8;
    let width = 2 + dice.below(3) as u8;
    let (kind, p, q, elem) = match dice.below(12) {
        0..=2 => (7, width, 0, scalar),
        3 => (8, width, 2 + dice.below(3) as u8, float),
        4 => (9, 1 + dice.below(255) as u8, 0, any),
        5 => (10, 0, 0, any),
        6 => (11, 0, 0, integer),
        7 => (12, dice.below(5) as u8, dice.below(3) as u8, any),
        8 => (13, dice.below(6) as u8, dice.below(3) as u8, any),
        9 => (
            14 + dice.below(2) as u8,
            0,
            0,
            if dice.one_in(2) { float } else { any },
        ),
        10 => (16, 0, 0, integer),
        _ => (scalar, 0, 0, 0),
    };
    let mut entry = [kind, 0, 0, 0, p, q, elem];
    if dice.one_in(16) {
        entry[dice.below(7)] = dice.below(20) as u8;
    }
    entry
}

/// Any item, for a machine as it stands.
fn any_item(dice: &mut Dice, machine: &Machine, calls: &[(&str, usize)]) -> Vec<u8> {
    let depth = machine.stack.len();
    // Where several values stand, fewer are pushed.
    let least = if 2 < depth && !dice.one_in(4) { 12 } else { 0 };
    let mark = machine.marks.then(|| {
        if dice.one_in(200) {
            2 + dice.below(254) as u8
        } else {
            dice.one_in(4) as u8
        }
    });
    match least + dice.below(32 - least) {
        0..=9 => {
            let most = machine.used as usize + dice.one_in(20) as usize;
            framed(PUSH, &[dice.below(most) as u8], mark)
        }
        10 | 11 => framed(TAKE, &any_entry(dice, machine.used), mark),
        12 | 13 => framed(UNARY, &[dice.below(6) as u8], None),
        14..=20 => framed(BINARY, &[dice.below(19) as u8], None),
        21 | 22 => {
            let name = if dice.one_in(8) {
                dice.of(calls).0
            } else {
                "bitcast"
            };
            let template = dice.below(machine.used as usize + 1) as u8;
            framed(
                CALL_TEMPLATE,
                &[&[template, !dice.one_in(16) as u8][..], name.as_bytes()].concat(),
                None,
            )
        }
        23 if dice.one_in(4) => {
            let name: String = (0..1 + dice.below(36))
                .map(|_| dice.of(&['a', 'b', 'Z', '0', ' ', '_']))
                .collect();
            framed(
                CALL,
                &[&[dice.below(3) as u8][..], name.as_bytes()].concat(),
                None,
            )
        }
        24 if dice.one_in(8) => framed(dice.below(256) as u8, &[0; 9][..dice.below(10)], None),
        _ => {
            // One that the stack has operands for, if a few tries find one.
            let (name, count) = (0..4)
                .map(|_| dice.of(calls))
                .find(|&(_, k)| k <= depth)
                .unwrap_or(dice.of(calls));
            let count = if dice.one_in(64) { count ^ 1 } else { count };
            framed(CALL, &[&[count as u8][..], name.as_bytes()].concat(), None)
        }
    }
}

/// An item of a tame sheet: few types, which most of these operators and calls take together.
fn tame_item(dice: &mut Dice, machine: &Machine, pushes: bool) -> Vec<u8> {
    if pushes && dice.one_in(3) {
        let mark = machine.marks.then(|| dice.one_in(8) as u8);
        let number = dice.of(&[1, 1, 2, 5, 5, 7]).min(machine.used as u8 - 1);
        return framed(PUSH, &[number], mark);
    }
    match dice.below(8) {
        0 => framed(UNARY, &[1], None),
        1..=3 => framed(BINARY, &[2 + dice.below(5) as u8], None),
        4 => framed(
            CALL_TEMPLATE,
            &[&[dice.of(&[3, 4, 5]), 1][..], b"bitcast"].concat(),
            None,
        ),
        _ => {
            let one = ["abs", "sqrt", "sign", "length", "saturate"];
            let two = ["max", "min", "step", "pow", "distance", "atan2"];
            let three = ["clamp", "mix", "fma", "smoothstep"];
            let (count, name) = match machine.stack.len().min(1 + dice.below(3)) {
                0 | 1 => (1, dice.of(&one)),
                2 => (2, dice.of(&two)),
                _ => (3, dice.of(&three)),
            };
            framed(CALL, &[&[count][..], name.as_bytes()].concat(), None)
        }
    }
}

/// An item that would be a 65th value: a push, a take of an entry that is sound or not, a call without operands.
fn over_full(dice: &mut Dice, machine: &Machine) -> Vec<u8> {
    let mark = machine.marks.then_some(0);
    match dice.below(4) {
        0 => framed(PUSH, &[dice.below(machine.used as usize + 1) as u8], mark),
        1 => framed(TAKE, &any_entry(dice, machine.used), mark),
        2 => framed(TAKE, &[7, 0, 0, 0, 9, 0, 5], mark),
        _ => framed(CALL, b"\0subgroupElect", None),
    }
}

/// A sheet from a machine's state, of items that it accepts. A wild one has any items, and ends at one in forty that is refused; a few of them fill the stack. In a
/// tame one nothing is pushed in its second half, until one value stands.
fn any_sheet(dice: &mut Dice, from: &Machine, calls: &[(&str, usize)]) -> Vec<u8> {
    let mut machine = from.clone();
    let mut bytes = vec![1 + machine.marks as u8, 0, 0];
    let tame = dice.one_in(2);
    let full = !tame && dice.one_in(50);
    let tries = if full { 100 } else { 4 + dice.below(36) };
    for i in 0..if tame { 8 * tries } else { tries } {
        let item = if full && machine.stack.len() < VALUES {
            framed(PUSH, &[dice.below(7) as u8], machine.marks.then_some(0))
        } else if full && dice.one_in(2) {
            over_full(dice, &machine)
        } else if tame {
            tame_item(dice, &machine, i < tries)
        } else {
            any_item(dice, &machine, calls)
        };
        let mut next = machine.clone();
        let done = next.item(item[1], &item[2..]);
        let ends = match done {
            Ok(Done::Goes) => false,
            Ok(Done::Silent) => true,
            Err((Reason::NoRoom, _)) => dice.one_in(3),
            Err(_) if full => dice.one_in(8),
            Err(_) => dice.one_in(if tame { 400 } else { 40 }),
        };
        if done.is_ok() || ends {
            bytes.extend(&item);
        }
        if ends && !dice.one_in(8) {
            break;
        }
        if done.is_ok() {
            machine = next;
        }
        if tries / 2 < i && machine.stack.len() == 1 {
            break;
        }
    }
    let length = bytes.len() - 3;
    bytes[1..3].copy_from_slice(&(length as u16).to_be_bytes());
    if dice.one_in(8) {
        amiss(dice, &mut bytes);
    }
    bytes
}

/// Changes, cuts off or adds bytes, with a length in the header that is right, or not.
fn amiss(dice: &mut Dice, bytes: &mut Vec<u8>) {
    for _ in 0..1 + dice.below(3) {
        let at = dice.below(bytes.len());
        match dice.below(4) {
            0 => bytes.truncate(at.max(1)),
            1 => bytes.push(dice.below(256) as u8),
            2 => bytes[at] = dice.below(8) as u8,
            _ => bytes[at] = dice.below(256) as u8,
        }
    }
    if 3 <= bytes.len() && !dice.one_in(4) {
        let length = bytes.len() - 3;
        bytes[1..3].copy_from_slice(&(length as u16).to_be_bytes());
    }
}

/// What a table says of a sheet, as an answer of lent words: the machine's table, as far as it has entries, in a [`Table`] with the same room.
fn by_table(from: &Machine, bytes: &[u8]) -> (Answer, Vec<u32>, String) {
    let whole =
        Table::from_words(&from.words[..4 * from.used as usize]).expect("the table is sound");
    let mut table = Table::with_entries(from.words.len() / 4).with_profile(from.profile);
    for ty in whole.types().skip(7) {
        assert_eq!(table.enter(whole.entry(ty)), Ok(ty));
    }
    let said = table.sheet(bytes);
    let used = table.entries() as u32;
    let mut why = String::new();
    let answer = match said {
        Ok(Some(value)) => Answer::Type {
            number: value.ty().number(),
            running: value.is_running(),
            used,
        },
        Ok(None) => Answer::NoValue { used },
        Err(error) => {
            let place = error.place().expect("a sheet's error has a place") as u32;
            why.push_str(error.why());
            Answer::Refused(Refusal {
                reason: error.reason(),
                place,
                used,
                lacking: error.lacking() as u32,
            })
        }
    };
    let mut words = table.words().to_vec();
    words.resize(from.words.len(), 0);
    (answer, words, why)
}

#[test]
fn sheets_are_typed_as_by_single_calls() {
    let calls: Vec<(&str, usize)> = NAMES.split_whitespace().map(called).collect();
    assert_eq!(calls.len(), 131);
    let mut reasons = [0; 15];
    let mut kinds = [0; 7];
    let (mut silent, mut running, mut versions, mut profiles) = (0, 0, [0; 2], [0; 3]);
    for k in 1..=SHEETS {
        // Each sheet has dice of its own, so that one that fails can be made alone.
        let mut dice = Dice(k.wrapping_mul(0x9e37_79b9_7f4a_7c15));
        dice.below(2);
        let from = start(&mut dice);
        let bytes = any_sheet(&mut dice, &from, &calls);
        let mut by_calls = from.clone();
        let told = by_calls.run(&bytes);
        let mut words = from.words.clone();
        let answer = sheet(&mut words, from.used, from.profile, &bytes);
        assert_eq!(
            (answer, &words),
            (told, &by_calls.words),
            "sheet {k}: {bytes:?}"
        );
        let why = match answer {
            Answer::Refused(r) if r.reason == Reason::NoOverload => {
                by_calls.why(&bytes, r.place as usize)
            }
            _ => String::new(),
        };
        assert_eq!(
            by_table(&from, &bytes),
            (answer, words, why),
            "sheet {k}: {bytes:?}"
        );
        match answer {
            Answer::Type { running: r, .. } => {
                reasons[0] += 1;
                running += r as usize;
                // What an accepted sheet is made of.
                versions[usize::from(bytes[0]) - 1] += 1;
                profiles[from.profile.0 as usize] += 1;
                let mut place = 3;
                while place < bytes.len() {
                    kinds[usize::from(bytes[place + 1])] += 1;
                    place += 1 + usize::from(bytes[place]);
                }
            }
            Answer::NoValue { .. } => silent += 1,
            Answer::Refused(r) => reasons[r.reason as usize] += 1,
        }
    }
    println!("{SHEETS} sheets by refusal, 0 for a type: {reasons:?}, {silent} without value; of those with a type {running} running, {versions:?} by version, {profiles:?} by profile, items by kind {kinds:?}");
    for reason in [0, 2, 3, 4, 5, 7, 8, 9, 10, 11, 14] {
        assert!(100 < reasons[reason], "few sheets end with {reason}");
    }
    assert!(kinds[1..].iter().all(|&n| 100 < n));
    assert!(100 < silent && 100 < running && versions.iter().all(|&n| 100 < n));
    assert!(100 < profiles[0] && 100 < profiles[1] && profiles[2] == 0);
}
