//! Every function, held to document 01: its worked sheets, its sixteen cases, and the refusals 1 to 12.
use swartabelk::lent::{
    binary, call_name, check, sheet, spell, template, unary, Answer, Operand, Refusal, SCALARS,
};
use swartabelk::{Argument, BinaryOp, Profile, Reason, UnaryOp};

const BOOL: u32 = 0;
const ABSTRACT_INT: u32 = 1;
const ABSTRACT_FLOAT: u32 = 2;
const I32: u32 = 3;
const U32: u32 = 4;
const F32: u32 = 5;
const F16: u32 = 6;

const VEC: u32 = 7;
const MAT: u32 = 8;
const ARRAY: u32 = 9;
const PTR: u32 = 12;
const REF: u32 = 13;
const FREXP: u32 = 14;

/// A table with these entries after the scalars, room for 256, and its count.
fn table(entries: &[[u32; 4]]) -> ([u32; 1024], u32) {
    let mut words = [0; 1024];
    words[..28].copy_from_slice(&SCALARS);
    for (i, e) in entries.iter().enumerate() {
        words[28 + 4 * i..32 + 4 * i].copy_from_slice(e);
    }
    (words, 7 + entries.len() as u32)
}

/// A call on const operands.
fn call(
    words: &mut [u32],
    used: u32,
    profile: Profile,
    name: &[u8],
    tplt: &[u32],
    args: &[u32],
) -> Answer {
    let args: Vec<Operand> = args.iter().map(|a| (*a).into()).collect();
    swartabelk::lent::call(words, used, profile, name, tplt, &args)
}

/// A const value.
fn is(number: u32, used: u32) -> Answer {
    Answer::Type {
        number,
        running: false,
        used,
    }
}

fn refused(reason: Reason, place: u32, used: u32) -> Answer {
    Answer::Refused(Refusal {
        reason,
        place,
        used,
        lacking: 0,
    })
}

/// For want of room, with so many entries lacking.
fn lacks(lacking: u32, place: u32, used: u32) -> Answer {
    Answer::Refused(Refusal {
        reason: Reason::NoRoom,
        place,
        used,
        lacking,
    })
}

/// A binary operator on the two last entries, or on scalars; the answer and the entry that it enters.
fn op(entries: &[[u32; 4]], op: BinaryOp, a: u32, b: u32) -> (Answer, [u32; 4]) {
    let (mut words, used) = table(entries);
    let answer = binary(&mut words, used, op as u32, a, b);
    let at = 4 * used as usize;
    (
        answer,
        [words[at], words[at + 1], words[at + 2], words[at + 3]],
    )
}

fn builtin(name: &str, args: &[u32]) -> Answer {
    let (mut words, used) = table(&[]);
    call(&mut words, used, Profile::BASE, name.as_bytes(), &[], args)
}

fn run(items: &[u8]) -> Answer {
    let (mut words, used) = table(&[]);
    let mut bytes = vec![1, (items.len() / 256) as u8, (items.len() % 256) as u8];
    bytes.extend_from_slice(items);
    sheet(&mut words, used, Profile::BASE, &bytes)
}

#[test]
fn checks() {
    let (mut words, used) = table(&[[VEC, 3, 0, F32]]);
    assert_eq!(check(&words, used), Answer::NoValue { used: 8 });
    assert_eq!(check(&words[..32], used), Answer::NoValue { used: 8 });
    assert_eq!(check(&words[..31], used), refused(Reason::Unsound, 0, 8));
    assert_eq!(check(&[], 7), refused(Reason::Unsound, 0, 7));
    for n in [0, 6, 257, u32::MAX] {
        assert_eq!(check(&words, n), refused(Reason::Unsound, 0, n));
    }
    words[29] = 5;
    assert_eq!(check(&words, used), refused(Reason::Unsound, 0, 8));
}

#[test]
fn sixteen_cases() {
    let none = [0; 4];
    assert_eq!(
        op(&[], BinaryOp::Plus, ABSTRACT_INT, F32),
        (is(F32, 7), none)
    );
    assert_eq!(
        op(&[[VEC, 3, 0, ABSTRACT_INT]], BinaryOp::Times, 7, F32),
        (is(8, 9), [VEC, 3, 0, F32])
    );
    assert_eq!(
        op(&[[MAT, 4, 3, F32]], BinaryOp::Plus, 7, 7),
        (is(7, 8), none)
    );
    assert_eq!(
        op(&[[MAT, 4, 3, F32], [VEC, 4, 0, F32]], BinaryOp::Times, 7, 8),
        (is(9, 10), [VEC, 3, 0, F32])
    );
    assert_eq!(
        op(&[[VEC, 3, 0, F32], [MAT, 4, 3, F32]], BinaryOp::Times, 7, 8),
        (is(9, 10), [VEC, 4, 0, F32])
    );
    assert_eq!(
        op(&[[MAT, 4, 3, F32], [MAT, 2, 4, F32]], BinaryOp::Times, 7, 8),
        (is(9, 10), [MAT, 2, 3, F32])
    );
    assert_eq!(
        op(&[], BinaryOp::Less, BOOL, BOOL),
        (refused(Reason::NoOverload, 0, 7), none)
    );
    assert_eq!(
        op(
            &[[VEC, 2, 0, ABSTRACT_INT], [VEC, 2, 0, F16]],
            BinaryOp::Less,
            7,
            8
        ),
        (is(9, 10), [VEC, 2, 0, BOOL])
    );
    assert_eq!(
        op(&[], BinaryOp::Equal, I32, U32),
        (refused(Reason::NoOverload, 0, 7), none)
    );
    assert_eq!(
        op(&[], BinaryOp::BitOr, ABSTRACT_INT, U32),
        (is(U32, 7), none)
    );
    assert_eq!(builtin("sqrt", &[ABSTRACT_INT]), is(ABSTRACT_FLOAT, 7));
    assert_eq!(builtin("reverseBits", &[ABSTRACT_INT]), is(I32, 7));
    let (mut words, used) = table(&[[VEC, 2, 0, ABSTRACT_FLOAT]]);
    assert_eq!(
        call(&mut words, used, Profile::BASE, b"frexp", &[], &[7]),
        is(8, 9)
    );
    assert_eq!(words[32..36], [FREXP, 0, 0, 7]);
    assert_eq!(
        builtin("clamp", &[ABSTRACT_INT, ABSTRACT_FLOAT, F16]),
        is(F16, 7)
    );
    assert_eq!(builtin("dpdx", &[F16]), refused(Reason::NoOverload, 0, 7));
    assert_eq!(builtin("sign", &[U32]), refused(Reason::NoOverload, 0, 7));
}

#[test]
fn operators_are_refused() {
    let (mut words, used) = table(&[[REF, 0, 2, F32]]);
    let before = words;
    assert_eq!(
        unary(&mut words, 6, UnaryOp::Not as u32, BOOL),
        refused(Reason::Unsound, 0, 6)
    );
    assert_eq!(
        unary(&mut words, used, UnaryOp::Not as u32, 8),
        refused(Reason::NoSuchType, 0, 8)
    );
    assert_eq!(
        unary(&mut words, used, UnaryOp::Negate as u32, 7),
        refused(Reason::Reference, 0, 8)
    );
    assert_eq!(
        unary(&mut words, used, u32::MAX, BOOL),
        refused(Reason::Unknown, 0, 8)
    );
    assert_eq!(
        unary(&mut words, used, UnaryOp::Negate as u32, U32),
        refused(Reason::NoOverload, 0, 8)
    );
    assert_eq!(
        unary(&mut words[..32], used, UnaryOp::AddressOf as u32, 7),
        lacks(1, 0, 8)
    );
    assert_eq!(
        binary(&mut words, 6, BinaryOp::Plus as u32, F32, F32),
        refused(Reason::Unsound, 0, 6)
    );
    assert_eq!(
        binary(&mut words, used, BinaryOp::Plus as u32, F32, u32::MAX),
        refused(Reason::NoSuchType, 0, 8)
    );
    assert_eq!(
        binary(&mut words, used, BinaryOp::Plus as u32, F32, 7),
        refused(Reason::Reference, 0, 8)
    );
    assert_eq!(
        binary(&mut words, used, 18, F32, F32),
        refused(Reason::Unknown, 0, 8)
    );
    assert_eq!(
        binary(&mut words, used, BinaryOp::ShiftLeft as u32, U32, I32),
        refused(Reason::NoOverload, 0, 8)
    );
    assert_eq!(words, before);
    assert_eq!(
        unary(&mut words, used, UnaryOp::AddressOf as u32, 7),
        is(8, 9)
    );
    assert_eq!(words[32..36], [PTR, 0, 2, F32]);
    assert_eq!(
        unary(&mut words, 9, UnaryOp::Indirection as u32, 8),
        is(7, 9)
    );
}

#[test]
fn calls() {
    let (mut words, used) = table(&[[REF, 0, 2, F32], [VEC, 2, 0, F32]]);
    assert_eq!(
        call(&mut words, used, Profile::BASE, b"bitcast", &[U32], &[F32]),
        is(U32, 9)
    );
    assert_eq!(
        call(&mut words, used, Profile::BASE, b"storageBarrier", &[], &[]),
        Answer::NoValue { used: 9 }
    );
    assert_eq!(
        call(&mut words, 6, Profile::BASE, b"sqrt", &[], &[F32]),
        refused(Reason::Unsound, 0, 6)
    );
    assert_eq!(
        call(&mut words, used, Profile::BASE, b"sqrt", &[], &[9]),
        refused(Reason::NoSuchType, 0, 9)
    );
    assert_eq!(
        call(&mut words, used, Profile::BASE, b"sqrt", &[], &[7]),
        refused(Reason::Reference, 0, 9)
    );
    assert_eq!(
        call(&mut words, used, Profile::BASE, b"nosuch", &[], &[F32]),
        refused(Reason::Unknown, 0, 9)
    );
    assert_eq!(
        call(&mut words, used, Profile::BASE, b"bitcast", &[], &[F32]),
        refused(Reason::Template, 0, 9)
    );
    assert_eq!(
        call(&mut words, used, Profile::BASE, b"sqrt", &[], &[F32, F32]),
        refused(Reason::Operands, 0, 9)
    );
    assert_eq!(
        call(&mut words, used, Profile::BASE, b"sqrt", &[], &[BOOL]),
        refused(Reason::NoOverload, 0, 9)
    );
    assert_eq!(
        call(&mut words[..36], used, Profile::BASE, b"modf", &[], &[8]),
        lacks(1, 0, 9)
    );
}

#[test]
fn templates() {
    let (mut words, used) = table(&[]);
    let list = |args: &[Argument]| args.iter().flat_map(|a| a.pair()).collect::<Vec<i64>>();
    assert_eq!(
        template(&mut words, used, b"vec2", &list(&[Argument::Type(F32)])),
        is(7, 8)
    );
    assert_eq!(
        template(
            &mut words,
            8,
            b"array",
            &list(&[Argument::Type(7), Argument::U32(u32::MAX)])
        ),
        is(8, 9)
    );
    assert_eq!(words[28..36], [VEC, 2, 0, F32, ARRAY, u32::MAX, 0, 7]);
    let before = words;
    let n = 9;
    assert_eq!(
        template(&mut words, 6, b"vec2", &list(&[Argument::Type(F32)])),
        refused(Reason::Unsound, 0, 6)
    );
    assert_eq!(
        template(&mut words, n, b"vec2", &list(&[Argument::Type(9)])),
        refused(Reason::NoSuchType, 0, n)
    );
    assert_eq!(
        template(&mut words, n, b"vec2", &[0, -1]),
        refused(Reason::NoSuchType, 0, n)
    );
    assert_eq!(
        template(&mut words, n, b"vec5", &list(&[Argument::Type(F32)])),
        refused(Reason::Unknown, 0, n)
    );
    assert_eq!(
        template(
            &mut words,
            n,
            b"vec2",
            &list(&[Argument::Type(ABSTRACT_INT)])
        ),
        refused(Reason::Template, 0, n)
    );
    assert_eq!(
        template(&mut words, n, b"vec2", &[0, F32 as i64, 1]),
        refused(Reason::Template, 0, n)
    );
    for count in [
        Argument::AbstractInt(-3),
        Argument::AbstractInt(1 << 32),
        Argument::I32(0),
        Argument::U32(0),
        Argument::Other,
    ] {
        assert_eq!(
            template(
                &mut words,
                n,
                b"array",
                &list(&[Argument::Type(U32), count])
            ),
            refused(Reason::Count, 0, n)
        );
    }
    assert_eq!(
        template(&mut words[..36], n, b"vec3", &list(&[Argument::Type(F32)])),
        lacks(1, 0, n)
    );
    assert_eq!(words, before);
}

#[test]
fn sheets() {
    assert_eq!(run(&[2, 1, 1, 2, 1, 5, 2, 3, 2]), is(F32, 7));
    assert_eq!(
        run(&[2, 1, 0, 2, 1, 0, 2, 3, 9]),
        refused(Reason::NoOverload, 9, 7)
    );
    assert_eq!(
        run(b"\x10\x04\x00storageBarrier"),
        Answer::NoValue { used: 7 }
    );
    assert_eq!(
        run(b"\x02\x01\x00\x10\x04\x00storageBarrier"),
        refused(Reason::Stack, 6, 7)
    );
    assert_eq!(run(b"\x02\x01\x05\x0a\x05\x04\x01bitcast"), is(U32, 7));
    assert_eq!(run(&[]), refused(Reason::Stack, 3, 7));
    assert_eq!(run(&[2, 9, 0]), refused(Reason::Framing, 3, 7));
    assert_eq!(run(&[2, 1, 7]), refused(Reason::NoSuchType, 3, 7));
    assert_eq!(run(&[2, 1, 5, 2, 2, 5]), refused(Reason::Unknown, 6, 7));
    assert_eq!(run(&[2, 1, 5, 2, 1, 5]), refused(Reason::Stack, 9, 7));
    assert_eq!(
        run(&[8, 6, 7, 0, 0, 0, 5, 0, 5]),
        refused(Reason::Template, 3, 7)
    );
    assert_eq!(
        run(b"\x02\x01\x05\x02\x01\x05\x06\x04\x02sqrt"),
        refused(Reason::Operands, 9, 7)
    );
    assert_eq!(run(&[2, 1, 5].repeat(65)), refused(Reason::Stack, 195, 7));

    let (mut words, used) = table(&[[REF, 0, 2, F32]]);
    for header in [&[1, 0][..], &[0, 0, 0], &[3, 0, 0]] {
        assert_eq!(
            sheet(&mut words, used, Profile::BASE, header),
            refused(Reason::Framing, 0, 8)
        );
    }
    assert_eq!(
        sheet(&mut words, 6, Profile::BASE, &[1, 0, 0]),
        refused(Reason::Unsound, 0, 6)
    );
    assert_eq!(
        sheet(
            &mut words,
            used,
            Profile::BASE,
            &[1, 0, 6, 2, 1, 7, 2, 2, 1]
        ),
        refused(Reason::Reference, 6, 8)
    );
    // What an accepted item entered stays where the next is refused.
    assert_eq!(
        sheet(
            &mut words,
            used,
            Profile::BASE,
            &[1, 0, 12, 8, 6, 7, 0, 0, 0, 3, 0, 5, 2, 2, 0]
        ),
        refused(Reason::NoOverload, 12, 9)
    );
    assert_eq!(words[32..36], [VEC, 3, 0, F32]);
    assert_eq!(
        sheet(
            &mut words[..36],
            9,
            Profile::BASE,
            &[1, 0, 9, 8, 6, 7, 0, 0, 0, 4, 0, 5]
        ),
        lacks(1, 3, 9)
    );
}

#[test]
fn spellings() {
    let (words, used) = table(&[
        [VEC, 2, 0, F32],
        [ARRAY, 4, 0, 7],
        [PTR, 4, 0, U32],
        [FREXP, 0, 0, 7],
    ]);
    let spelled = |number| {
        let mut out = [b'.'; 40];
        let length = spell(&words, used, number, &mut out).expect("it fits");
        assert!(out[length..].iter().all(|b| *b == b'.'));
        String::from_utf8(out[..length].to_vec()).expect("spellings are ASCII")
    };
    assert_eq!(spelled(F32), "f32");
    assert_eq!(spelled(8), "array<vec2<f32>,4>");
    assert_eq!(spelled(9), "ptr<storage,u32,read>");
    assert_eq!(spelled(10), "__frexp_result_vec2_f32");
    let mut out = [b'.'; 17];
    let refusal = |reason, used| {
        Err(Refusal {
            reason,
            place: 0,
            used,
            lacking: 0,
        })
    };
    assert_eq!(
        spell(&words, used, 8, &mut out),
        refusal(Reason::TooLong, 11)
    );
    assert_eq!(
        spell(&words, used, 11, &mut out),
        refusal(Reason::NoSuchType, 11)
    );
    assert_eq!(spell(&words, 5, F32, &mut out), refusal(Reason::Unsound, 5));
    assert_eq!(out, [b'.'; 17]);
}

#[test]
fn names() {
    let bytes = b"\x01\x00\x13\x02\x01\x05\x06\x04\x01sqrt\x08\x05\x04\x01casts";
    assert_eq!(call_name(bytes, 6), b"sqrt");
    assert_eq!(call_name(bytes, 13), b"casts");
    assert!(std::ptr::eq(call_name(bytes, 6).as_ptr(), &bytes[9]));
    for place in [0, 3, bytes.len(), usize::MAX] {
        assert_eq!(call_name(bytes, place), b"");
    }
    assert_eq!(call_name(&bytes[..bytes.len() - 1], 13), b"");
    assert_eq!(call_name(&[], 0), b"");
}
