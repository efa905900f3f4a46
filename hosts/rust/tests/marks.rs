//! Document 02's "Known early, or only when running": overloads that a running operand leaves out, marks of results, refusal 14, and sheets of version 2.
use swartabelk::lent::{
    binary, call, sheet, spell, template, unary, Answer, Operand, Refusal, SCALARS,
};
use swartabelk::{BinaryOp, Profile, Reason, UnaryOp};

const BOOL: u32 = 0;
const ABSTRACT_INT: u32 = 1;
const ABSTRACT_FLOAT: u32 = 2;
const I32: u32 = 3;
const U32: u32 = 4;
const F32: u32 = 5;
const F16: u32 = 6;
const VEC3_ABSTRACT_INT: u32 = 7;
const VEC3_I32: u32 = 8;
const VEC3_F32: u32 = 9;
const VEC3_BOOL: u32 = 10;
const MAT3X3_ABSTRACT: u32 = 11;
const MAT3X3_F32: u32 = 12;
const ARRAY_ABSTRACT: u32 = 13;
const ARRAY_OF_ARRAY: u32 = 14;
const MODF_ABSTRACT: u32 = 15;
const REF_F32: u32 = 16;
const PTR_F32: u32 = 17;
const ARRAY_F32: u32 = 18;
const PTR_ARRAY: u32 = 19;

/// What those after the scalars are.
const ENTRIES: [[u32; 4]; 13] = [
    [7, 3, 0, ABSTRACT_INT],
    [7, 3, 0, I32],
    [7, 3, 0, F32],
    [7, 3, 0, BOOL],
    [8, 3, 3, ABSTRACT_FLOAT],
    [8, 3, 3, F32],
    [9, 4, 0, ABSTRACT_INT],
    [10, 0, 0, ARRAY_ABSTRACT],
    [15, 0, 0, ABSTRACT_FLOAT],
    [13, 4, 0, F32],
    [12, 4, 0, F32],
    [10, 0, 0, F32],
    [12, 4, 0, ARRAY_F32],
];

/// How many entries the table has.
const TYPES: u32 = 20;

/// Abstract at any depth.
const ABSTRACT: [u32; 7] = [
    ABSTRACT_INT,
    ABSTRACT_FLOAT,
    VEC3_ABSTRACT_INT,
    MAT3X3_ABSTRACT,
    ARRAY_ABSTRACT,
    ARRAY_OF_ARRAY,
    MODF_ABSTRACT,
];

/// The derivatives.
const DERIVATIVES: [&str; 9] = [
    "dpdx",
    "dpdxCoarse",
    "dpdxFine",
    "dpdy",
    "dpdyCoarse",
    "dpdyFine",
    "fwidth",
    "fwidthCoarse",
    "fwidthFine",
];

fn table() -> Vec<u32> {
    [&SCALARS[..], &ENTRIES.concat()].concat()
}

fn known(number: u32) -> Operand {
    number.into()
}

fn running(number: u32) -> Operand {
    Operand::running(number)
}

/// A const value.
fn is(number: u32) -> Answer {
    Answer::Type {
        number,
        running: false,
        used: TYPES,
    }
}

/// A running value.
fn runs(number: u32) -> Answer {
    Answer::Type {
        number,
        running: true,
        used: TYPES,
    }
}

fn refused(reason: Reason) -> Answer {
    refused_at(reason, 0)
}

fn refused_at(reason: Reason, place: u32) -> Answer {
    Answer::Refused(Refusal {
        reason,
        place,
        used: TYPES,
        lacking: 0,
    })
}

/// A call over the table, whose words it leaves as they are.
fn called(profile: Profile, name: &str, tplt: &[u32], args: &[Operand]) -> Answer {
    let mut words = table();
    let answer = call(&mut words, TYPES, profile, name.as_bytes(), tplt, args);
    assert_eq!(words, table(), "{name}");
    answer
}

fn builtin(name: &str, args: &[Operand]) -> Answer {
    called(Profile::BASE, name, &[], args)
}

fn bitcast(to: u32, from: Operand) -> Answer {
    called(Profile::BASE, "bitcast", &[to], &[from])
}

/// A sheet of that version over the table.
fn run(version: u8, items: &[u8]) -> Answer {
    let mut words = table();
    let length = (items.len() as u16).to_be_bytes();
    let bytes = [&[version], &length[..], items].concat();
    let answer = sheet(&mut words, TYPES, Profile::SUBGROUPS, &bytes);
    assert_eq!(words, table());
    answer
}

#[test]
fn an_operand_is_a_number_and_a_mark() {
    for number in [0, F32, 255, (1 << 31) - 1] {
        assert_eq!(known(number).number(), number);
        assert_eq!(running(number).number(), number);
        assert!(!known(number).is_running());
        assert!(running(number).is_running());
        assert_ne!(known(number), running(number));
    }
    // The bit of the mark makes no running operand of a number: it stays one that no type has.
    let mut words = table();
    for number in [TYPES, 1 << 31, (1 << 31) + F32, u32::MAX] {
        for operand in [known(number), running(number)] {
            assert_eq!(
                unary(&mut words, TYPES, UnaryOp::Negate as u32, operand),
                refused(Reason::NoSuchType)
            );
        }
        assert!(!known(number).is_running());
    }
}

#[test]
fn overloads_that_a_running_operand_leaves_out() {
    let select = |a, b, flag| builtin("select", &[a, b, flag]);
    let one = known(ABSTRACT_INT);
    assert_eq!(select(one, one, running(BOOL)), runs(I32));
    assert_eq!(select(one, one, known(BOOL)), is(ABSTRACT_INT));
    let half = known(ABSTRACT_FLOAT);
    assert_eq!(select(one, half, running(BOOL)), runs(F32));
    assert_eq!(select(one, half, known(BOOL)), is(ABSTRACT_FLOAT));
    assert_eq!(select(one, running(F16), known(BOOL)), runs(F16));
    let ones = known(VEC3_ABSTRACT_INT);
    for flag in [BOOL, VEC3_BOOL] {
        assert_eq!(select(ones, ones, running(flag)), runs(VEC3_I32));
        assert_eq!(select(ones, ones, known(flag)), is(VEC3_ABSTRACT_INT));
    }
    let mut words = table();
    let mut op = |op: BinaryOp, a, b| binary(&mut words, TYPES, op as u32, a, b);
    assert_eq!(op(BinaryOp::ShiftLeft, one, running(U32)), runs(I32));
    assert_eq!(op(BinaryOp::ShiftLeft, one, known(U32)), is(ABSTRACT_INT));
    assert_eq!(op(BinaryOp::Times, ones, running(F32)), runs(VEC3_F32));
    let matrix = known(MAT3X3_ABSTRACT);
    assert_eq!(op(BinaryOp::Times, matrix, running(F32)), runs(MAT3X3_F32));
    assert_eq!(op(BinaryOp::Times, matrix, half), is(MAT3X3_ABSTRACT));
    let clamp = |h| builtin("clamp", &[one, half, h]);
    assert_eq!(clamp(running(F16)), runs(F16));
    assert_eq!(clamp(known(F16)), is(F16));
    assert_eq!(clamp(half), is(ABSTRACT_FLOAT));
    assert_eq!(builtin("extractBits", &[one, running(U32), one]), runs(I32));
}

#[test]
fn a_running_operand_that_is_abstract() {
    let length = |a| builtin("arrayLength", &[a]);
    for number in ABSTRACT {
        assert_eq!(length(running(number)), refused(Reason::RunningAbstract));
        assert_eq!(length(known(number)), refused(Reason::NoOverload));
        let cast = bitcast(U32, running(number));
        assert_eq!(cast, refused(Reason::RunningAbstract));
        assert_eq!(bitcast(U32, known(number)), is(U32));
    }
    let one = running(ABSTRACT_INT);
    let mut words = table();
    let mut op = |op: BinaryOp, a, b| binary(&mut words, TYPES, op as u32, a, b);
    // Before 8.
    for (a, b) in [(one, known(BOOL)), (known(BOOL), one), (one, one)] {
        assert_eq!(op(BinaryOp::Or, a, b), refused(Reason::RunningAbstract));
    }
    let or = op(BinaryOp::Or, known(ABSTRACT_INT), running(BOOL));
    assert_eq!(or, refused(Reason::NoOverload));
    assert_eq!(builtin("all", &[one]), refused(Reason::RunningAbstract));
    // After 3.
    for r in [known(REF_F32), running(REF_F32)] {
        assert_eq!(op(BinaryOp::Plus, r, one), refused(Reason::Reference));
        assert_eq!(op(BinaryOp::Plus, one, r), refused(Reason::Reference));
    }
    // After 7, 5, 4, 2 and 1.
    assert_eq!(builtin("sqrt", &[one, one]), refused(Reason::Operands));
    assert_eq!(bitcast(BOOL, one), refused(Reason::Template));
    assert_eq!(builtin("nosuch", &[one]), refused(Reason::Unknown));
    assert_eq!(builtin("subgroupAdd", &[one]), refused(Reason::Unknown));
    let absent = builtin("max", &[one, known(TYPES)]);
    assert_eq!(absent, refused(Reason::NoSuchType));
    let unsound = Answer::Refused(Refusal {
        reason: Reason::Unsound,
        place: 0,
        used: 6,
        lacking: 0,
    });
    assert_eq!(unary(&mut words, 6, UnaryOp::Negate as u32, one), unsound);
    let sum = called(Profile::SUBGROUPS, "subgroupAdd", &[], &[one]);
    assert_eq!(sum, refused(Reason::RunningAbstract));
    // Before 9: the slice has no room for what frexp gives.
    let frexp = |a| builtin("frexp", &[a]);
    assert_eq!(
        frexp(running(VEC3_ABSTRACT_INT)),
        refused(Reason::RunningAbstract)
    );
    let lacks = Answer::Refused(Refusal {
        reason: Reason::NoRoom,
        place: 0,
        used: TYPES,
        lacking: 2,
    });
    assert_eq!(frexp(known(VEC3_ABSTRACT_INT)), lacks);
    // Of unary & and * too.
    for op in [UnaryOp::AddressOf, UnaryOp::Indirection] {
        assert_eq!(
            unary(&mut words, TYPES, op as u32, one),
            refused(Reason::RunningAbstract)
        );
    }
}

#[test]
fn marks_of_results() {
    for name in DERIVATIVES {
        for a in [known(F32), running(F32), known(ABSTRACT_FLOAT)] {
            assert_eq!(builtin(name, &[a]), runs(F32), "{name}");
        }
        assert_eq!(builtin(name, &[running(VEC3_F32)]), runs(VEC3_F32));
    }
    assert_eq!(builtin("quantizeToF16", &[known(F32)]), is(F32));
    assert_eq!(builtin("sqrt", &[known(F32)]), is(F32));
    assert_eq!(builtin("sqrt", &[running(F32)]), runs(F32));
    assert_eq!(builtin("ldexp", &[known(F32), known(I32)]), is(F32));
    assert_eq!(builtin("ldexp", &[known(F32), running(I32)]), runs(F32));
    assert_eq!(bitcast(U32, known(F32)), is(U32));
    assert_eq!(bitcast(U32, running(F32)), runs(U32));
    let mut words = table();
    let mut op = |op: UnaryOp, a| unary(&mut words, TYPES, op as u32, a);
    assert_eq!(op(UnaryOp::AddressOf, known(REF_F32)), is(PTR_F32));
    assert_eq!(op(UnaryOp::AddressOf, running(REF_F32)), runs(PTR_F32));
    assert_eq!(op(UnaryOp::Indirection, known(PTR_F32)), is(REF_F32));
    assert_eq!(op(UnaryOp::Indirection, running(PTR_F32)), runs(REF_F32));
    let none = builtin("storageBarrier", &[]);
    assert_eq!(none, Answer::NoValue { used: TYPES });
    assert_eq!(none.operand(), None);
    let elect = called(Profile::SUBGROUPS, "subgroupElect", &[], &[]);
    assert_eq!(elect, runs(BOOL));
    // The value of one call is the operand of the next.
    let flag = elect.operand().expect("it has a value");
    assert_eq!(flag, running(BOOL));
    let one = known(ABSTRACT_INT);
    assert_eq!(builtin("select", &[one, one, flag]), runs(I32));
    assert_eq!(refused(Reason::Unknown).operand(), None);
}

#[test]
fn every_operator_by_the_marks() {
    // What is left of an abstract type where an operand is running.
    let concrete = |number| match number {
        ABSTRACT_INT => I32,
        ABSTRACT_FLOAT => F32,
        VEC3_ABSTRACT_INT => VEC3_I32,
        MAT3X3_ABSTRACT => MAT3X3_F32,
        _ => number,
    };
    let mut words = table();
    let mut told = [0; 3];
    for op in 0..=18 {
        for a in 0..=TYPES {
            for b in 0..=TYPES {
                let early = binary(&mut words, TYPES, op, a, b);
                assert!(!matches!(early, Answer::Type { running: true, .. }));
                for (x, y) in [
                    (running(a), known(b)),
                    (known(a), running(b)),
                    (running(a), running(b)),
                ] {
                    let late = binary(&mut words, TYPES, op, x, y);
                    let of = |o: Operand| o.is_running() && ABSTRACT.contains(&o.number());
                    let (which, wanted) = match early {
                        Answer::Refused(r)
                            if matches!(
                                r.reason,
                                Reason::NoSuchType | Reason::Unknown | Reason::Reference
                            ) =>
                        {
                            (0, early)
                        }
                        _ if of(x) || of(y) => (1, refused(Reason::RunningAbstract)),
                        Answer::Type { number, .. } => (2, runs(concrete(number))),
                        _ => (0, early),
                    };
                    assert_eq!(late, wanted, "{op} {x:?} {y:?}");
                    told[which] += 1;
                }
            }
        }
    }
    assert_eq!(words, table());
    println!("refused as const operands are, refused with 14, accepted: {told:?}");
    assert!(told.iter().all(|n| *n != 0));
}

#[test]
fn numbers_that_are_no_operands() {
    let bit = 1 << 31;
    let one = known(F32);
    let in_list = called(Profile::BASE, "bitcast", &[U32 | bit], &[one]);
    assert_eq!(in_list, refused(Reason::NoSuchType));
    let mut words = table();
    assert_eq!(
        template(&mut words, TYPES, b"vec2", &[0, i64::from(F32 | bit)]),
        refused(Reason::NoSuchType)
    );
    let mut out = [0; 8];
    let refusal = Refusal {
        reason: Reason::NoSuchType,
        place: 0,
        used: TYPES,
        lacking: 0,
    };
    assert_eq!(spell(&words, TYPES, F32 | bit, &mut out), Err(refusal));
    assert_eq!(out, [0; 8]);
}

#[test]
fn sheets_of_version_2() {
    let select = b"\x08\x04\x03select";
    let with = |version, pushes: &[u8]| run(version, &[pushes, select].concat());
    let late = with(2, &[3, 1, 1, 0, 3, 1, 1, 0, 3, 1, 0, 1]);
    assert_eq!(late, runs(I32));
    let early = with(2, &[3, 1, 1, 0, 3, 1, 1, 0, 3, 1, 0, 0]);
    assert_eq!(early, is(ABSTRACT_INT));
    assert_eq!(with(1, &[2, 1, 1, 2, 1, 1, 2, 1, 0]), is(ABSTRACT_INT));
    let abstracts = with(2, &[3, 1, 1, 1, 3, 1, 1, 0, 3, 1, 0, 1]);
    assert_eq!(abstracts, refused_at(Reason::RunningAbstract, 15));
    // A running abstract value is pushed, and left; so is one that is taken.
    assert_eq!(run(2, &[3, 1, 1, 1]), runs(ABSTRACT_INT));
    assert_eq!(
        run(2, &[9, 6, 9, 0, 0, 0, 4, 0, 1, 1]),
        runs(ARRAY_ABSTRACT)
    );
    assert_eq!(
        run(2, &[3, 1, 1, 1, 2, 2, 1]),
        refused_at(Reason::RunningAbstract, 7)
    );
    // A mark above 1, before all else that is wrong with the item.
    for item in [
        &[3, 1, 5, 2][..],
        &[3, 1, 5, 255],
        &[3, 1, 99, 2],
        &[9, 6, 7, 0, 0, 0, 3, 0, 5, 2],
        &[9, 6, 7, 0, 0, 0, 5, 0, 5, 2],
        // Payloads of version 1.
        &[2, 1, 5],
        &[8, 6, 7, 0, 0, 0, 3, 0, 5],
    ] {
        assert_eq!(run(2, item), refused_at(Reason::Framing, 3), "{item:?}");
    }
    for item in [&[3, 1, 5, 0][..], &[9, 6, 7, 0, 0, 0, 3, 0, 5, 0]] {
        assert_eq!(run(1, item), refused_at(Reason::Framing, 3), "{item:?}");
    }
    assert_eq!(run(3, &[3, 1, 5, 0]), refused_at(Reason::Framing, 0));
    assert_eq!(run(2, &[]), refused_at(Reason::Stack, 3));
}

#[test]
fn version_1_keeps_no_mark() {
    // select(1, 1, subgroupElect()); 1 << arrayLength(p); dpdx(x)
    let elect = b"\x0f\x04\x00subgroupElect\x08\x04\x03select";
    assert_eq!(
        run(2, &[&[3, 1, 1, 0, 3, 1, 1, 0], &elect[..]].concat()),
        runs(I32)
    );
    assert_eq!(
        run(1, &[&[2, 1, 1, 2, 1, 1], &elect[..]].concat()),
        is(ABSTRACT_INT)
    );
    let shifted = b"\x0d\x04\x01arrayLength\x02\x03\x10";
    assert_eq!(
        run(
            2,
            &[&[3, 1, 1, 0, 3, 1, PTR_ARRAY as u8, 0], &shifted[..]].concat()
        ),
        runs(I32)
    );
    assert_eq!(
        run(
            1,
            &[&[2, 1, 1, 2, 1, PTR_ARRAY as u8], &shifted[..]].concat()
        ),
        is(ABSTRACT_INT)
    );
    let slope = b"\x06\x04\x01dpdx";
    assert_eq!(run(2, &[&[3, 1, 5, 0], &slope[..]].concat()), runs(F32));
    assert_eq!(run(1, &[&[2, 1, 5], &slope[..]].concat()), is(F32));
}
