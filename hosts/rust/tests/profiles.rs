//! Document 02's profiles: the names of profile 1, unknown profiles, the 65th value of a call, and a table without room.
use swartabelk::lent::{sheet, Answer, Operand, Refusal, SCALARS};
use swartabelk::{Profile, Reason};

const BOOL: u32 = 0;
const ABSTRACT_INT: u32 = 1;
const ABSTRACT_FLOAT: u32 = 2;
const I32: u32 = 3;
const U32: u32 = 4;
const F32: u32 = 5;
const F16: u32 = 6;
const VEC4_U32: u32 = 7;
const VEC3_ABSTRACT_INT: u32 = 8;
const VEC3_I32: u32 = 9;
const VEC2_F16: u32 = 10;
const VEC2_BOOL: u32 = 11;
const MAT2X2_F32: u32 = 12;
const REF_F32: u32 = 13;

/// What those after the scalars are.
const ENTRIES: [[u32; 4]; 7] = [
    [7, 4, 0, U32],
    [7, 3, 0, ABSTRACT_INT],
    [7, 3, 0, I32],
    [7, 2, 0, F16],
    [7, 2, 0, BOOL],
    [8, 2, 2, F32],
    [13, 0, 2, F32],
];

/// A name of profile 1: operands that it takes, what it gives for them, operands that it refuses, and why.
type Row = (&'static str, &'static [u32], u32, &'static [u32], Reason);

use Reason::{NoOverload, Operands, Reference};

#[rustfmt::skip]
const NAMES: [Row; 25] = [
    ("quadBroadcast", &[F16, ABSTRACT_INT], F16, &[F16, F16], NoOverload),
    ("quadSwapDiagonal", &[VEC3_I32], VEC3_I32, &[BOOL], NoOverload),
    ("quadSwapX", &[ABSTRACT_FLOAT], F32, &[VEC2_BOOL], NoOverload),
    ("quadSwapY", &[U32], U32, &[MAT2X2_F32], NoOverload),
    ("subgroupAdd", &[VEC3_ABSTRACT_INT], VEC3_I32, &[REF_F32], Reference),
    ("subgroupAll", &[BOOL], BOOL, &[ABSTRACT_INT], NoOverload),
    ("subgroupAnd", &[VEC4_U32], VEC4_U32, &[VEC2_F16], NoOverload),
    ("subgroupAny", &[BOOL], BOOL, &[VEC2_BOOL], NoOverload),
    ("subgroupBallot", &[BOOL], VEC4_U32, &[U32], NoOverload),
    ("subgroupBroadcast", &[F32, I32], F32, &[F32, F32], NoOverload),
    ("subgroupBroadcastFirst", &[ABSTRACT_INT], I32, &[BOOL], NoOverload),
    ("subgroupElect", &[], BOOL, &[REF_F32], Operands),
    ("subgroupExclusiveAdd", &[VEC2_F16], VEC2_F16, &[BOOL], NoOverload),
    ("subgroupExclusiveMul", &[I32], I32, &[MAT2X2_F32], NoOverload),
    ("subgroupInclusiveAdd", &[F32], F32, &[], Operands),
    ("subgroupInclusiveMul", &[VEC4_U32], VEC4_U32, &[VEC2_BOOL], NoOverload),
    ("subgroupMax", &[ABSTRACT_FLOAT], F32, &[BOOL], NoOverload),
    ("subgroupMin", &[F16], F16, &[BOOL], NoOverload),
    ("subgroupMul", &[VEC3_ABSTRACT_INT], VEC3_I32, &[F32, F32], Operands),
    ("subgroupOr", &[ABSTRACT_INT], I32, &[F32], NoOverload),
    ("subgroupShuffle", &[VEC2_F16, U32], VEC2_F16, &[VEC2_F16, VEC4_U32], NoOverload),
    ("subgroupShuffleDown", &[ABSTRACT_FLOAT, ABSTRACT_INT], F32, &[U32, I32], NoOverload),
    ("subgroupShuffleUp", &[I32, U32], I32, &[I32, REF_F32], Reference),
    ("subgroupShuffleXor", &[VEC4_U32, U32], VEC4_U32, &[VEC4_U32, I32], NoOverload),
    ("subgroupXor", &[U32], U32, &[ABSTRACT_FLOAT], NoOverload),
];

/// Profiles that there are not.
const UNKNOWN: [Profile; 4] = [
    Profile(2),
    Profile(256),
    Profile(1 << 31),
    Profile(u32::MAX),
];

/// A table with these entries after the scalars, room for 256, and its count.
fn table(entries: &[[u32; 4]]) -> ([u32; 1024], u32) {
    let mut words = [0; 1024];
    words[..28].copy_from_slice(&SCALARS);
    for (i, e) in entries.iter().enumerate() {
        words[28 + 4 * i..32 + 4 * i].copy_from_slice(e);
    }
    (words, 7 + entries.len() as u32)
}

/// A table without room: 249 arrays.
fn full() -> ([u32; 1024], u32) {
    let arrays: Vec<[u32; 4]> = (1..=249).map(|count| [9, count, 0, F32]).collect();
    table(&arrays)
}

/// A call on const operands.
fn call(
    words: &mut [u32],
    used: u32,
    profile: Profile,
    name: &[u8],
    tplt: &[u32],
    args: &[u32],
) -> Answer {
    let args: Vec<Operand> = args.iter().map(|a| (*a).into()).collect();
    swartabelk::lent::call(words, used, profile, name, tplt, &args)
}

/// A const value.
fn is(number: u32, used: u32) -> Answer {
    Answer::Type {
        number,
        running: false,
        used,
    }
}

/// A running value.
fn runs(number: u32, used: u32) -> Answer {
    Answer::Type {
        number,
        running: true,
        used,
    }
}

fn refused(reason: Reason, place: u32, used: u32) -> Answer {
    Answer::Refused(Refusal {
        reason,
        place,
        used,
        lacking: 0,
    })
}

/// For want of room, with so many entries lacking.
fn lacks(lacking: u32, place: u32, used: u32) -> Answer {
    Answer::Refused(Refusal {
        reason: Reason::NoRoom,
        place,
        used,
        lacking,
    })
}

fn with_header(items: &[u8]) -> Vec<u8> {
    let length = (items.len() as u16).to_be_bytes();
    [&[1], &length[..], items].concat()
}

/// A sheet of so many pushes of bool, and a call.
fn called(pushes: usize, name: &str, count: u8) -> Vec<u8> {
    let mut items = [2, 1, BOOL as u8].repeat(pushes);
    items.extend([2 + name.len() as u8, 4, count]);
    items.extend(name.as_bytes());
    with_header(&items)
}

#[test]
fn every_name_of_profile_1() {
    let (mut words, used) = table(&ENTRIES);
    let before = words;
    for (name, taken, gives, wrong, reason) in NAMES {
        let mut asked = |profile, tplt: &[u32], args: &[u32]| {
            call(&mut words, used, profile, name.as_bytes(), tplt, args)
        };
        assert_eq!(
            asked(Profile::SUBGROUPS, &[], taken),
            runs(gives, used),
            "{name}"
        );
        assert_eq!(
            asked(Profile::SUBGROUPS, &[], wrong),
            refused(reason, 0, used),
            "{name}"
        );
        assert_eq!(
            asked(Profile::SUBGROUPS, &[U32], taken),
            refused(Reason::Template, 0, used),
            "{name}"
        );
        for args in [taken, wrong] {
            let unknown = refused(Reason::Unknown, 0, used);
            assert_eq!(asked(Profile::BASE, &[], args), unknown, "{name}");
        }
    }
    assert_eq!(words, before);
}

#[test]
fn the_same_name_in_a_sheet() {
    for (name, taken, gives, _, _) in NAMES {
        let (mut words, used) = table(&ENTRIES);
        let before = words;
        let mut items: Vec<u8> = taken.iter().flat_map(|t| [2, 1, *t as u8]).collect();
        let place = 3 + items.len() as u32;
        items.extend([2 + name.len() as u8, 4, taken.len() as u8]);
        items.extend(name.as_bytes());
        let bytes = with_header(&items);
        assert_eq!(
            sheet(&mut words, used, Profile::SUBGROUPS, &bytes),
            is(gives, used),
            "{name}"
        );
        assert_eq!(
            sheet(&mut words, used, Profile::BASE, &bytes),
            refused(Reason::Unknown, place, used),
            "{name}"
        );
        assert_eq!(words, before);
    }
}

#[test]
fn calls_in_an_unknown_profile() {
    let (mut words, used) = table(&ENTRIES);
    let before = words;
    for profile in UNKNOWN {
        let mut asked = |name: &[u8], tplt: &[u32], args: &[u32]| {
            call(&mut words, used, profile, name, tplt, args)
        };
        // Before a template list, an operand count, a reference and an overload, whatever the name.
        let unknown = refused(Reason::Unknown, 0, used);
        for name in [&b"sqrt"[..], b"subgroupAdd", b"bitcast", b"nosuch", b""] {
            assert_eq!(asked(name, &[], &[F32]), unknown);
            assert_eq!(asked(name, &[F32, F32], &[F32]), unknown);
            assert_eq!(asked(name, &[], &[F32, F32]), unknown);
            assert_eq!(asked(name, &[], &[REF_F32]), unknown);
            assert_eq!(asked(name, &[], &[BOOL]), unknown);
            assert_eq!(asked(name, &[], &[]), unknown);
            // 2 comes first, of the list and of the operands.
            let absent = refused(Reason::NoSuchType, 0, used);
            assert_eq!(asked(name, &[], &[F32, used]), absent);
            assert_eq!(asked(name, &[used], &[F32]), absent);
        }
        for name in [&b"subgroupElect"[..], b"storageBarrier"] {
            assert_eq!(asked(name, &[], &[]), unknown);
        }
        // And 1 before it.
        assert_eq!(
            call(&mut words, 6, profile, b"sqrt", &[], &[used]),
            refused(Reason::Unsound, 0, 6)
        );
        assert_eq!(
            call(&mut words[..55], used, profile, b"sqrt", &[], &[F32]),
            refused(Reason::Unsound, 0, used)
        );
    }
    assert_eq!(words, before);
}

#[test]
fn sheets_in_an_unknown_profile() {
    let (mut words, used) = table(&ENTRIES);
    let before = words;
    let taken = with_header(&[8, 6, 7, 0, 0, 0, 3, 0, 5]);
    let barrier = called(0, "storageBarrier", 0);
    for profile in UNKNOWN {
        // At place 0, and nothing is entered: with a call, without, without an item, with one that is badly framed.
        for bytes in [
            &taken[..],
            &barrier,
            &with_header(&[2, 1, 5]),
            &with_header(&[]),
            &with_header(&[2, 9, 0]),
            &[2, 0, 0],
        ] {
            assert_eq!(
                sheet(&mut words, used, profile, bytes),
                refused(Reason::Unknown, 0, used)
            );
        }
        // A wrong header comes first.
        for bytes in [&[][..], &[1, 0], &[3, 0, 0], &[1, 0, 1], &taken[..11]] {
            assert_eq!(
                sheet(&mut words, used, profile, bytes),
                refused(Reason::Framing, 0, used)
            );
        }
        // And before it a table that is not sound.
        assert_eq!(
            sheet(&mut words, 6, profile, &[1, 0]),
            refused(Reason::Unsound, 0, 6)
        );
    }
    assert_eq!(words, before);
    assert_eq!(
        sheet(&mut words, used, Profile::SUBGROUPS, &taken),
        is(used, used + 1)
    );
}

#[test]
fn a_65th_value() {
    for (mut words, used) in [table(&[]), full()] {
        let before = words;
        let mut run = |profile, bytes: &[u8]| sheet(&mut words, used, profile, bytes);
        let elect = |pushes| called(pushes, "subgroupElect", 0);
        assert_eq!(run(Profile::SUBGROUPS, &elect(0)), is(BOOL, used));
        // 64 values are a wrong end, and no 65th value.
        let end = elect(63).len() as u32;
        assert_eq!(
            run(Profile::SUBGROUPS, &elect(63)),
            refused(Reason::Stack, end, used)
        );
        assert_eq!(
            run(Profile::SUBGROUPS, &elect(64)),
            refused(Reason::Stack, 195, used)
        );
        // Whatever refuses the call itself comes first.
        assert_eq!(
            run(Profile::BASE, &elect(64)),
            refused(Reason::Unknown, 195, used)
        );
        assert_eq!(
            run(Profile::SUBGROUPS, &called(64, "subgroupElect", 1)),
            refused(Reason::Operands, 195, used)
        );
        assert_eq!(
            run(Profile::SUBGROUPS, &called(64, "subgroupElect", 65)),
            refused(Reason::Stack, 195, used)
        );
        for (number, reason) in [(U32, Reason::Template), (255, Reason::NoSuchType)] {
            // Of a full table 255 is an entry.
            let reason = if used == 256 {
                Reason::Template
            } else {
                reason
            };
            let mut items = [2, 1, BOOL as u8].repeat(64);
            items.extend(b"\x10\x05");
            items.extend([number as u8, 0]);
            items.extend(b"subgroupElect");
            assert_eq!(
                run(Profile::SUBGROUPS, &with_header(&items)),
                refused(reason, 195, used)
            );
        }
        assert_eq!(words, before);
    }
}

#[test]
fn a_ballot_is_entered_where_there_is_room() {
    let ballot = called(1, "subgroupBallot", 1);
    let (mut words, used) = table(&[]);
    let before = words;
    // Eight entries are wanted.
    assert_eq!(
        sheet(&mut words[..31], used, Profile::SUBGROUPS, &ballot),
        lacks(1, 6, 7)
    );
    assert_eq!(words, before);
    assert_eq!(
        sheet(&mut words[..32], used, Profile::SUBGROUPS, &ballot),
        is(7, 8)
    );
    assert_eq!(words[28..32], [7, 4, 0, U32]);
    assert_eq!(words[32..], before[32..]);

    let (mut words, used) = full();
    let before = words;
    assert_eq!(
        sheet(&mut words, used, Profile::SUBGROUPS, &ballot),
        lacks(1, 6, 256)
    );
    // Of 64 values the call takes one, so that its value is no 65th: 9, and not 11.
    assert_eq!(
        sheet(
            &mut words,
            used,
            Profile::SUBGROUPS,
            &called(64, "subgroupBallot", 1)
        ),
        lacks(1, 195, 256)
    );
    assert_eq!(
        call(
            &mut words,
            used,
            Profile::SUBGROUPS,
            b"subgroupBallot",
            &[],
            &[BOOL]
        ),
        lacks(1, 0, 256)
    );
    assert_eq!(words, before);
    // Where it is present a full table has room enough.
    words[1020..].copy_from_slice(&[7, 4, 0, U32]);
    assert_eq!(
        sheet(&mut words, used, Profile::SUBGROUPS, &ballot),
        is(255, 256)
    );
}
