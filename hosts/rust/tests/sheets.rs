//! A sheet does what the single calls do, item by item: made-up sheets of pushes, takes, operators and calls, of which many meet the same operands again, some in a slice
//! with little room. A take is the entering of its entry, and a call without value is the last item or is refused. In version 2 it does so by the marks of its values, in version 1 all of them are const. And what it does in profile 0 it does in profile 1 too, but
//! where profile 0 lacks a name.
use swartabelk::lent::{
    binary, call, call_name, enter, sheet, unary, Answer, Operand, Refusal, SCALARS,
};
use swartabelk::{Profile, Reason};

/// The stack's values, and the bytes that a sheet may have after its header.
const VALUES: usize = 64;
const LONGEST: usize = 60_000;

/// What is called, and on how many operands. One name is no builtin's, nine are those of profile 1 alone, and one has no value.
const CALLS: [(&str, usize); 49] = [
    ("abs", 1),
    ("all", 1),
    ("any", 1),
    ("arrayLength", 1),
    ("atomicAdd", 2),
    ("atomicAnd", 2),
    ("atomicCompareExchangeWeak", 3),
    ("atomicExchange", 2),
    ("atomicLoad", 1),
    ("atomicMax", 2),
    ("atomicMin", 2),
    ("atomicOr", 2),
    ("atomicStore", 2),
    ("atomicSub", 2),
    ("atomicXor", 2),
    ("clamp", 3),
    ("cross", 2),
    ("determinant", 1),
    ("distance", 2),
    ("dot", 2),
    ("dpdx", 1),
    ("extractBits", 3),
    ("fma", 3),
    ("frexp", 1),
    ("insertBits", 4),
    ("ldexp", 2),
    ("length", 1),
    ("max", 2),
    ("mix", 3),
    ("modf", 1),
    ("nothing", 1),
    ("pow", 2),
    ("quadBroadcast", 2),
    ("quadSwapX", 1),
    ("reverseBits", 1),
    ("select", 3),
    ("sign", 1),
    ("smoothstep", 3),
    ("sqrt", 1),
    ("step", 2),
    ("subgroupAdd", 1),
    ("subgroupAll", 1),
    ("subgroupAnd", 1),
    ("subgroupBallot", 1),
    ("subgroupElect", 0),
    ("subgroupShuffle", 2),
    ("subgroupShuffleUp", 2),
    ("transpose", 1),
    ("workgroupUniformLoad", 1),
];

/// After the scalars: vectors, a matrix, a pointer to f32 and a reference to it, an array of AbstractInt, atomics, pointers to one in storage and in workgroup, one of
/// them that may only be read.
const ENTRIES: [[u32; 4]; 14] = [
    [7, 3, 0, 5],
    [7, 2, 0, 1],
    [7, 4, 0, 6],
    [7, 3, 0, 0],
    [7, 2, 0, 4],
    [8, 2, 2, 5],
    [12, 0, 2, 5],
    [13, 0, 2, 5],
    [9, 4, 0, 1],
    [11, 0, 0, 4],
    [11, 0, 0, 3],
    [12, 4, 2, 16],
    [12, 2, 2, 17],
    [12, 4, 0, 16],
];

/// Of them the pointers to an atomic.
const POINTERS: [u8; 3] = [18, 19, 20];

/// Numbers that look made up, the same in each run.
struct Dice(u64);

impl Dice {
    fn below(&mut self, n: usize) -> usize {
        self.0 ^= self.0 << 13;
        self.0 ^= self.0 >> 7;
        self.0 ^= self.0 << 17;
        (self.0 % n as u64) as usize
    }
}

/// The versions of a sheet: in the second a push and a take have a mark.
#[derive(Clone, Copy, Debug, PartialEq, Eq)]
#[repr(u8)]
enum Version {
    Unmarked = 1,
    Marked = 2,
}

/// An item, of a push and a take with the mark that it has in version 2.
enum Item {
    Push(u8, bool),
    /// An entry: its kind, p, q and elem.
    Take([u8; 4], bool),
    Unary(u8),
    Binary(u8),
    Call(&'static str, usize),
}

/// An item of that kind in a version, with its mark at the end.
fn marked(version: Version, kind: u8, payload: &[u8], running: bool) -> Vec<u8> {
    let mark = [running as u8];
    let mark = match version {
        Version::Unmarked => &[][..],
        Version::Marked => &mark,
    };
    let length = (1 + payload.len() + mark.len()) as u8;
    [&[length, kind], payload, mark].concat()
}

impl Item {
    fn bytes(&self, version: Version) -> Vec<u8> {
        match *self {
            Item::Push(t, running) => marked(version, 1, &[t], running),
            Item::Take([kind, p, q, elem], running) => {
                marked(version, 6, &[kind, 0, 0, 0, p, q, elem], running)
            }
            Item::Unary(op) => vec![2, 2, op],
            Item::Binary(op) => vec![2, 3, op],
            Item::Call(name, k) => {
                let mut bytes = vec![2 + name.len() as u8, 4, k as u8];
                bytes.extend_from_slice(name.as_bytes());
                bytes
            }
        }
    }
}

#[derive(Clone)]
struct State {
    version: Version,
    profile: Profile,
    words: Vec<u32>,
    used: u32,
    stack: Vec<Operand>,
    /// How many calls on memory were accepted, and how many takes of the type of a compare.
    on_memory: usize,
    compares_taken: usize,
}

impl State {
    /// A table in a slice of so many entries.
    fn new(version: Version, profile: Profile, entries: usize) -> State {
        let mut words = vec![0; 4 * entries];
        words[..28].copy_from_slice(&SCALARS);
        for (i, e) in ENTRIES.iter().enumerate() {
            words[28 + 4 * i..32 + 4 * i].copy_from_slice(e);
        }
        State {
            version,
            profile,
            words,
            used: 7 + ENTRIES.len() as u32,
            stack: Vec::new(),
            on_memory: 0,
            compares_taken: 0,
        }
    }

    fn refused(&self, reason: Reason) -> Answer {
        Answer::Refused(Refusal {
            reason,
            place: 0,
            used: self.used,
            lacking: 0,
        })
    }

    /// An item by the single call that it stands for: its answer, and of a type the state after it.
    fn take(&mut self, item: &Item) -> Answer {
        let operands = match *item {
            Item::Push(t, running) => return self.push(t as u32, running),
            Item::Take(e, running) => return self.enter(e, running),
            Item::Unary(_) => 1,
            Item::Binary(_) => 2,
            Item::Call(_, k) => k,
        };
        if self.stack.len() < operands {
            return self.refused(Reason::Stack);
        }
        let below = self.stack.len() - operands;
        let a = &self.stack[below..];
        let answer = match *item {
            Item::Push(..) | Item::Take(..) => unreachable!(),
            Item::Unary(op) => unary(&mut self.words, self.used, op as u32, a[0]),
            Item::Binary(op) => binary(&mut self.words, self.used, op as u32, a[0], a[1]),
            Item::Call(name, _) => {
                let name = name.as_bytes();
                call(&mut self.words, self.used, self.profile, name, &[], a)
            }
        };
        if let Answer::Type {
            number,
            running,
            used,
        } = answer
        {
            if below == VALUES {
                return self.refused(Reason::Stack);
            }
            self.stack.truncate(below);
            self.hold(number, running);
            self.used = used;
        }
        if matches!(answer, Answer::Type { .. }) && is_on_memory(item) {
            self.on_memory += 1;
        }
        // No value may stand below a call that has none.
        if matches!(answer, Answer::NoValue { .. }) {
            if below != 0 {
                return self.refused(Reason::Stack);
            }
            self.stack.clear();
        }
        answer
    }

    /// A value on the stack. Version 1 keeps no mark.
    fn hold(&mut self, number: u32, running: bool) {
        self.stack.push(match self.version {
            Version::Marked if running => Operand::running(number),
            _ => number.into(),
        });
    }

    fn push(&mut self, number: u32, running: bool) -> Answer {
        if self.used <= number {
            return self.refused(Reason::NoSuchType);
        }
        if self.stack.len() == VALUES {
            return self.refused(Reason::Stack);
        }
        self.hold(number, running);
        Answer::Type {
            number,
            running,
            used: self.used,
        }
    }

    /// A take: what is wrong with the entry comes before a 65th value, and that before want of room.
    fn enter(&mut self, e: [u8; 4], running: bool) -> Answer {
        let mut words = self.words.clone();
        let [kind, p, q, elem] = e.map(u32::from);
        let answer = enter(&mut words, self.used, kind, p, q, elem);
        let broken = self.refused(Reason::Template);
        if answer != broken && self.stack.len() == VALUES {
            return self.refused(Reason::Stack);
        }
        if let Answer::Type { number, used, .. } = answer {
            self.hold(number, running);
            self.used = used;
            self.words = words;
            self.compares_taken += (kind == 16) as usize;
        }
        answer
    }
}

fn is_on_memory(item: &Item) -> bool {
    matches!(item, Item::Call(name, _) if name.starts_with("atomic") || *name == "workgroupUniformLoad")
}

/// A vector, or the type of a compare, seldom one that breaks its rule.
fn any_entry(dice: &mut Dice) -> [u8; 4] {
    if dice.below(2) == 0 {
        [7, 2 + dice.below(3) as u8, 0, dice.below(7) as u8]
    } else {
        let of = [3, 4, 3, 4, 3, 4, 5, 16][dice.below(8)];
        [16, 0, 0, of]
    }
}

/// A call on memory of that many operands.
fn any_on_memory(dice: &mut Dice, operands: usize) -> Item {
    let calls = CALLS.map(|(name, k)| Item::Call(name, k));
    let fitting = calls
        .into_iter()
        .filter(|item| is_on_memory(item) && matches!(item, Item::Call(_, k) if *k == operands));
    let mut fitting: Vec<Item> = fitting.collect();
    fitting.swap_remove(dice.below(fitting.len()))
}

fn any_item(dice: &mut Dice, state: &State) -> Item {
    // Where a pointer stands among the upper three values, one item in three is a call on it.
    let upper = state.stack.iter().rev().take(3);
    let mut pointers = upper.map(|v| POINTERS.contains(&(v.number() as u8)));
    if let Some(above) = pointers.position(|is| is) {
        if dice.below(3) == 0 {
            // With nothing below, often the one that has no value.
            if above == 1 && state.stack.len() == 2 && dice.below(2) == 0 {
                return Item::Call("atomicStore", 2);
            }
            return any_on_memory(dice, above + 1);
        }
    }
    match dice.below(16) {
        // A pointer more often, most of all as the first value.
        0..=5 if dice.below(if state.stack.is_empty() { 2 } else { 12 }) == 0 => {
            Item::Push(POINTERS[dice.below(POINTERS.len())], dice.below(3) == 0)
        }
        0..=5 => Item::Push(
            dice.below(state.used as usize + 1) as u8,
            dice.below(3) == 0,
        ),
        6 if dice.below(4) == 0 => Item::Take(any_entry(dice), dice.below(3) == 0),
        6 | 7 => Item::Unary(dice.below(6) as u8),
        8..=11 => Item::Binary(dice.below(19) as u8),
        _ => {
            let (name, k) = CALLS[dice.below(CALLS.len())];
            let amiss = dice.below(32) == 0;
            Item::Call(name, if amiss { k ^ 1 } else { k })
        }
    }
}

/// Of AbstractInt, f32 and vec3 of f32 alone, which `+` and its like can make one value of.
fn mild_item(dice: &mut Dice) -> Item {
    match dice.below(4) {
        0 => {
            // What is abstract is const, so that it can be an operand; few are running, so that some sheets have none.
            let t = [1, 5, 7][dice.below(3)];
            Item::Push(t, t != 1 && dice.below(100) == 0)
        }
        1 => Item::Binary(2 + dice.below(5) as u8),
        _ => {
            let (name, k) = [("abs", 1), ("clamp", 3), ("max", 2), ("mix", 3)][dice.below(4)];
            Item::Call(name, k)
        }
    }
}

/// Of how many items that are refused so a wild sheet ends at one. Want of room and running operands that are abstract are seldom met.
fn ends_at(reason: Reason) -> usize {
    match reason {
        Reason::NoRoom => 3,
        Reason::RunningAbstract => 10,
        _ => 50,
    }
}

fn wrong_stack(place: usize, used: u32) -> Answer {
    Answer::Refused(Refusal {
        reason: Reason::Stack,
        place: place as u32,
        used,
        lacking: 0,
    })
}

/// A sheet of so many tries from a state, and what the single calls say that it answers and leaves. An item that is refused is left out. A wild sheet ends at one such
/// in 50, and at more of the seldom ones; in a mild one nothing is pushed after half of the tries, until one value stands. It ends at a call without value too, or such a
/// call has an item behind it and is refused.
fn made(dice: &mut Dice, from: &State, most: usize, wild: bool) -> (Vec<u8>, Answer, State) {
    let mut state = from.clone();
    let mut bytes = vec![state.version as u8, 0, 0];
    let mut stopped = None;
    for i in 0..most {
        let item = if wild {
            any_item(dice, &state)
        } else {
            mild_item(dice)
        };
        if !wild && most / 2 <= i && matches!(item, Item::Push(..)) {
            continue;
        }
        let mut item_bytes = item.bytes(state.version);
        if 3 + LONGEST < bytes.len() + item_bytes.len() {
            break;
        }
        let mut next = state.clone();
        let answer = next.take(&item);
        match answer {
            Answer::Type { .. } => state = next,
            Answer::NoValue { used } => {
                let last = dice.below(2) == 0;
                let place = bytes.len();
                stopped = Some(if last {
                    answer
                } else {
                    wrong_stack(place, used)
                });
                if !last {
                    item_bytes.extend(Item::Push(0, false).bytes(state.version));
                }
                state = next;
            }
            Answer::Refused(r) if wild && dice.below(ends_at(r.reason)) == 0 => {
                let place = bytes.len() as u32;
                stopped = Some(Answer::Refused(Refusal { place, ..r }));
            }
            _ => continue,
        }
        bytes.extend_from_slice(&item_bytes);
        if stopped.is_some() {
            break;
        }
    }
    let length = bytes.len() - 3;
    bytes[1] = (length / 256) as u8;
    bytes[2] = (length % 256) as u8;
    let used = state.used;
    let end = match state.stack[..] {
        [value] => Answer::Type {
            number: value.number(),
            running: value.is_running(),
            used,
        },
        _ => wrong_stack(bytes.len(), used),
    };
    (bytes, stopped.unwrap_or(end), state)
}

/// Whether profile 0 refuses a sheet at a name that profile 1 has.
fn lacks_a_name(bytes: &[u8], answer: Answer) -> bool {
    match answer {
        Answer::Refused(r) if r.reason == Reason::Unknown => {
            let name = call_name(bytes, r.place as usize);
            name.starts_with(b"subgroup") || name.starts_with(b"quad")
        }
        _ => false,
    }
}

#[test]
fn sheets_do_what_single_calls_do() {
    let mut dice = Dice(0x5eed_5eed_5eed_5eed);
    let mut reasons = [0; 15];
    let mut lacking = [0; 3];
    let (mut unnamed, mut alike) = (0, 0);
    let (mut on_memory, mut compares_taken, mut without_value) = (0, 0, 0);
    // Values that are const and that are running, in version 1 and in version 2.
    let mut marks = [[0; 2]; 2];
    for k in 0..4000 {
        let profile = [Profile::BASE, Profile::SUBGROUPS][k / 2 % 2];
        // In the second slice no entry is free, in the third one is.
        let held = 7 + ENTRIES.len();
        let entries = [256, held, held + 1][k / 4 % 3];
        let version = [Version::Unmarked, Version::Marked][k / 12 % 2];
        let (bytes, told, after) = made(
            &mut dice,
            &State::new(version, profile, entries),
            if k % 100 < 4 { 20_000 } else { 400 },
            k % 2 == 0,
        );
        on_memory += after.on_memory;
        compares_taken += after.compares_taken;
        let run_in = |profile, entries| {
            let mut state = State::new(version, profile, entries);
            let answer = sheet(&mut state.words, state.used, profile, &bytes);
            (answer, state.words)
        };
        let run = |profile| run_in(profile, entries);
        assert_eq!(run(profile), (told, after.words), "sheet {k}: {bytes:?}");
        let base = run(Profile::BASE);
        if lacks_a_name(&bytes, base.0) {
            unnamed += 1;
        } else {
            assert_eq!(base, run(Profile::SUBGROUPS), "sheet {k}: {bytes:?}");
            alike += 1;
        }
        // Its last item is the one that lacks room. With one entry less than it lacks, one lacks; with all it has room.
        if let Answer::Refused(refusal) = told {
            lacking[refusal.lacking as usize] += 1;
            if refusal.reason == Reason::NoRoom {
                let enough = entries + refusal.lacking as usize;
                let less = Answer::Refused(Refusal {
                    lacking: 1,
                    ..refusal
                });
                assert_eq!(run_in(profile, enough - 1).0, less, "sheet {k}: {bytes:?}");
                let answer = run_in(profile, enough).0;
                let room = match answer {
                    Answer::Refused(r) => r.reason == Reason::Stack,
                    _ => true,
                };
                assert!(room, "sheet {k}: {answer:?} {bytes:?}");
            }
        }
        match told {
            Answer::Refused(r) => {
                reasons[r.reason as usize] += 1;
                // No mark, and no 14.
                let marked = version == Version::Marked;
                assert!(marked || r.reason != Reason::RunningAbstract);
            }
            Answer::Type { running, .. } => {
                reasons[0] += 1;
                marks[version as usize - 1][running as usize] += 1;
            }
            Answer::NoValue { .. } => without_value += 1,
        }
    }
    println!("sheets by refusal, 0 for a type: {reasons:?}; of the refused {lacking:?} by how many entries lack; of those with a type {marks:?} by version and mark; {alike} alike in both profiles, {unnamed} with a name that profile 0 lacks");
    println!("{on_memory} calls on memory and {compares_taken} takes of the type of a compare accepted, {without_value} sheets without value");
    for reason in [0, 2, 3, 4, 5, 7, 8, 9, 11, 14] {
        assert_ne!(reasons[reason], 0, "no sheet ends with {reason}");
    }
    assert_eq!(lacking[1] + lacking[2], reasons[Reason::NoRoom as usize]);
    assert_ne!(lacking[1], 0);
    assert_ne!(lacking[2], 0);
    assert_eq!(marks[0][1], 0);
    assert_ne!(marks[0][0], 0);
    assert_ne!(marks[1][0], 0);
    assert_ne!(marks[1][1], 0);
    assert_ne!(on_memory, 0);
    assert_ne!(compares_taken, 0);
    assert_ne!(without_value, 0);
    assert_ne!(unnamed, 0);
    assert_ne!(alike, 0);
}
