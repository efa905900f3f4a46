//! Document 02's "How much room is missing": for want of room how many entries lack; a slice that is longer by so many has room, and one that is longer by less has not.
use swartabelk::lent::{binary, sheet, spell, template, unary, Answer, Operand, Refusal, SCALARS};
use swartabelk::{Argument, BinaryOp, Profile, Reason, UnaryOp};

const ABSTRACT_INT: u32 = 1;
const ABSTRACT_FLOAT: u32 = 2;
const U32: u32 = 4;
const F32: u32 = 5;
const F16: u32 = 6;

const VEC: u32 = 7;
const MAT: u32 = 8;
const ARRAY: u32 = 9;
const PTR: u32 = 12;
const REF: u32 = 13;
const FREXP: u32 = 14;

const VEC2_ABSTRACT_INT: u32 = 7;
const VEC4_F32: u32 = 8;
const MAT4X3_F32: u32 = 9;
const MAT2X4_F32: u32 = 10;
const REF_F32: u32 = 11;
const PTR_U32: u32 = 12;

/// What those after the scalars are. There is no vec2<AbstractFloat>, which frexp and modf of vec2<AbstractInt> need, and no vec3 of anything.
const ENTRIES: [[u32; 4]; 6] = [
    [VEC, 2, 0, ABSTRACT_INT],
    [VEC, 4, 0, F32],
    [MAT, 4, 3, F32],
    [MAT, 2, 4, F32],
    [REF, 0, 2, F32],
    [PTR, 4, 0, U32],
];

/// How many entries the table has.
const TYPES: u32 = 13;

/// The table, with arrays behind so that it has `used` entries, in a slice of so many.
fn table(used: u32, entries: usize) -> Vec<u32> {
    let mut words = [&SCALARS[..], &ENTRIES.concat()].concat();
    for count in TYPES..used {
        words.extend([ARRAY, count, 0, F32]);
    }
    words.resize(4 * entries, 0);
    words
}

/// A call on const operands.
fn call(
    words: &mut [u32],
    used: u32,
    profile: Profile,
    name: &[u8],
    tplt: &[u32],
    args: &[u32],
) -> Answer {
    let args: Vec<Operand> = args.iter().map(|a| (*a).into()).collect();
    swartabelk::lent::call(words, used, profile, name, tplt, &args)
}

/// A const value.
fn is(number: u32, used: u32) -> Answer {
    Answer::Type {
        number,
        running: false,
        used,
    }
}

/// For want of room, with so many entries lacking.
fn lacks(lacking: u32, place: u32, used: u32) -> Answer {
    Answer::Refused(Refusal {
        reason: Reason::NoRoom,
        place,
        used,
        lacking,
    })
}

fn refusal(answer: Answer) -> Refusal {
    match answer {
        Answer::Refused(refusal) => refusal,
        _ => panic!("{answer:?} is no refusal"),
    }
}

/// What is asked of a table.
enum Question {
    Unary(UnaryOp, u32),
    Binary(BinaryOp, u32, u32),
    Call(&'static str, &'static [u32]),
    Template(&'static str, &'static [Argument]),
    Sheet(&'static [u8]),
}

impl Question {
    fn ask(&self, words: &mut [u32], used: u32) -> Answer {
        let profile = Profile::SUBGROUPS;
        match *self {
            Question::Unary(op, a) => unary(words, used, op as u32, a),
            Question::Binary(op, a, b) => binary(words, used, op as u32, a, b),
            Question::Call(name, args) => call(words, used, profile, name.as_bytes(), &[], args),
            Question::Template(head, args) => {
                let list: Vec<i64> = args.iter().flat_map(|a| a.pair()).collect();
                template(words, used, head.as_bytes(), &list)
            }
            Question::Sheet(items) => {
                let length = (items.len() as u16).to_be_bytes();
                sheet(words, used, profile, &[&[1], &length[..], items].concat())
            }
        }
    }
}

/// Questions whose result is absent: the entries that it needs, and in a sheet the place of the item.
const ABSENT: [(Question, u32, u32); 20] = [
    (Question::Call("frexp", &[VEC2_ABSTRACT_INT]), 2, 0),
    (Question::Call("modf", &[VEC2_ABSTRACT_INT]), 2, 0),
    (Question::Call("frexp", &[VEC4_F32]), 1, 0),
    (Question::Call("modf", &[F16]), 1, 0),
    (Question::Call("subgroupBallot", &[0]), 1, 0),
    (Question::Call("transpose", &[MAT4X3_F32]), 1, 0),
    (Question::Unary(UnaryOp::AddressOf, REF_F32), 1, 0),
    (Question::Unary(UnaryOp::Indirection, PTR_U32), 1, 0),
    (
        Question::Binary(BinaryOp::Times, MAT4X3_F32, VEC4_F32),
        1,
        0,
    ),
    (
        Question::Binary(BinaryOp::Times, MAT4X3_F32, MAT2X4_F32),
        1,
        0,
    ),
    (Question::Binary(BinaryOp::Less, VEC4_F32, VEC4_F32), 1, 0),
    (Question::Template("vec3", &[Argument::Type(F32)]), 1, 0),
    (Question::Template("mat2x2", &[Argument::Type(F16)]), 1, 0),
    (
        Question::Template("array", &[Argument::Type(VEC4_F32), Argument::U32(4)]),
        1,
        0,
    ),
    (
        Question::Template("array", &[Argument::Type(VEC4_F32)]),
        1,
        0,
    ),
    (Question::Template("atomic", &[Argument::Type(U32)]), 1, 0),
    // A take of array<f32,4>.
    (Question::Sheet(&[8, 6, 9, 0, 0, 0, 4, 0, 5]), 1, 3),
    // A matrix by a vector, the address of a reference, frexp of a vector.
    (Question::Sheet(&[2, 1, 9, 2, 1, 8, 2, 3, 4]), 1, 9),
    (Question::Sheet(&[2, 1, 11, 2, 2, 3]), 1, 6),
    (Question::Sheet(b"\x02\x01\x07\x07\x04\x01frexp"), 2, 6),
];

#[test]
fn a_slice_longer_by_what_lacks_has_room() {
    for (i, (question, missing, place)) in ABSENT.iter().enumerate() {
        for free in 0..*missing {
            let mut words = table(TYPES, (TYPES + free) as usize);
            let before = words.clone();
            let answer = question.ask(&mut words, TYPES);
            assert_eq!(answer, lacks(missing - free, *place, TYPES), "{i}");
            assert_eq!(words, before, "{i}");
            let refusal = refusal(answer);
            let enough = before.len() + 4 * refusal.lacking as usize;
            assert_eq!(refusal.enough_words(before.len()), Some(enough), "{i}");
            // Longer by one entry less, and by one less and a part of one.
            for length in [enough - 4, enough - 1] {
                words.resize(length, 0);
                let still = question.ask(&mut words, TYPES);
                assert_eq!(still, lacks(1, *place, TYPES), "{i}");
                assert_eq!(words[..before.len()], before, "{i}");
            }
            words.resize(enough, 0);
            let used = TYPES + missing;
            let entered = Answer::Type {
                number: used - 1,
                running: matches!(question, Question::Call("subgroupBallot", _)),
                used,
            };
            assert_eq!(question.ask(&mut words, TYPES), entered, "{i}");
            // What was entered is found again, and no room is wanted.
            assert_eq!(question.ask(&mut words, used), entered, "{i}");
        }
    }
}

#[test]
fn an_element_and_its_container() {
    let frexp = &ABSENT[0].0;
    for (free, answer) in [
        (0, lacks(2, 0, TYPES)),
        (1, lacks(1, 0, TYPES)),
        (2, is(TYPES + 1, TYPES + 2)),
    ] {
        let mut words = table(TYPES, TYPES as usize + free);
        assert_eq!(frexp.ask(&mut words, TYPES), answer);
    }
    let mut words = table(TYPES, 256);
    frexp.ask(&mut words, TYPES);
    let entered = [VEC, 2, 0, ABSTRACT_FLOAT, FREXP, 0, 0, TYPES];
    assert_eq!(words[4 * TYPES as usize..][..8], entered);
    // With the element there, the container alone lacks.
    let used = TYPES + 1;
    let room = 4 * used as usize;
    assert_eq!(frexp.ask(&mut words[..room], used), lacks(1, 0, used));
}

#[test]
fn more_than_256_entries_are_none() {
    for entries in [256, 257, 258, 1000] {
        // What lacks stays, however long the slice is.
        let mut words = table(256, entries);
        let before = words.clone();
        for (question, missing, place) in &ABSENT {
            let answer = question.ask(&mut words, 256);
            assert_eq!(answer, lacks(*missing, *place, 256));
            assert_eq!(refusal(answer).enough_words(words.len()), None);
        }
        assert_eq!(words, before);
        let frexp = &ABSENT[0].0;
        let mut words = table(255, entries);
        assert_eq!(frexp.ask(&mut words, 255), lacks(1, 0, 255));
        let mut words = table(254, entries);
        assert_eq!(frexp.ask(&mut words, 254), is(255, 256));
    }
    // 255 entries and two that are missing are more than 256: longer by the two that lack, one still does.
    let frexp = &ABSENT[0].0;
    let mut words = table(255, 255);
    let answer = frexp.ask(&mut words, 255);
    assert_eq!(answer, lacks(2, 0, 255));
    assert_eq!(refusal(answer).enough_words(words.len()), None);
    words.resize(4 * 257, 0);
    assert_eq!(frexp.ask(&mut words, 255), lacks(1, 0, 255));
}

#[test]
fn a_sheet_lacks_item_by_item() {
    // Two takes; two values at the end are refused with 11.
    let takes = Question::Sheet(
        b"\x08\x06\x09\x00\x00\x00\x04\x00\x05\x08\x06\x09\x00\x00\x00\x05\x00\x05",
    );
    let mut words = table(TYPES, TYPES as usize);
    let mut used = TYPES;
    for place in [3, 12] {
        let answer = takes.ask(&mut words, used);
        // What the first entered stays.
        used = TYPES + place / 12;
        assert_eq!(answer, lacks(1, place, used));
        let enough = refusal(answer).enough_words(words.len());
        words.resize(enough.expect("256 entries are far"), 0);
    }
    let end = Refusal {
        reason: Reason::Stack,
        place: 21,
        used: TYPES + 2,
        lacking: 0,
    };
    assert_eq!(takes.ask(&mut words, used), Answer::Refused(end));
    assert_eq!(end.enough_words(words.len()), None);
}

/// Asks in a slice without room and in one with: what is entered there lacks here, and else the answers are the same. How many entries lacked.
fn in_both(ask: impl Fn(&mut [u32]) -> Answer) -> u32 {
    let mut words = table(TYPES, 256);
    let (tight, _) = words.split_at_mut(4 * TYPES as usize);
    let without = ask(tight);
    let with = ask(&mut words);
    match (with, without) {
        (Answer::Type { used, .. }, Answer::Refused(_)) => {
            assert_eq!(without, lacks(used - TYPES, 0, TYPES));
            used - TYPES
        }
        _ => {
            assert_eq!(without, with);
            assert!(!matches!(with, Answer::Refused(r) if r.lacking != 0));
            0
        }
    }
}

#[test]
fn every_operator_and_some_names() {
    let mut lacked = [0; 3];
    let mut count = |lacking: u32| lacked[lacking as usize] += 1;
    for a in 0..=TYPES {
        for op in 0..=5 {
            count(in_both(|words| unary(words, TYPES, op, a)));
        }
        for b in 0..=TYPES {
            for op in 0..=18 {
                count(in_both(|words| binary(words, TYPES, op, a, b)));
            }
        }
        for name in [
            "abs",
            "frexp",
            "length",
            "modf",
            "nosuch",
            "quadSwapX",
            "sign",
            "sqrt",
            "subgroupAdd",
            "subgroupBallot",
            "transpose",
        ] {
            let name = name.as_bytes();
            count(in_both(|words| {
                call(words, TYPES, Profile::SUBGROUPS, name, &[], &[a])
            }));
        }
    }
    println!("calls by how many entries lack: {lacked:?}");
    assert!(lacked.iter().all(|n| *n != 0));
}

#[test]
fn a_spelling_lacks_no_entry() {
    let words = table(TYPES, TYPES as usize);
    let mut out = [0; 4];
    for (used, number, reason) in [
        (6, F32, Reason::Unsound),
        (TYPES, TYPES, Reason::NoSuchType),
        (TYPES, VEC4_F32, Reason::TooLong),
    ] {
        let refusal = Refusal {
            reason,
            place: 0,
            used,
            lacking: 0,
        };
        assert_eq!(spell(&words, used, number, &mut out), Err(refusal));
    }
}
