//! Document 02's "Atomic calls": a type that a host enters, the twelve calls on memory, the type that a compare gives, and sheets that call them.
use swartabelk::lent::{
    binary, check, enter, sheet, spell, unary, Answer, Operand, Refusal, SCALARS,
};
use swartabelk::{BinaryOp, Profile, Reason, UnaryOp};
use Reason::{NoOverload, NoSuchType, Operands, Reference, RunningAbstract, Template, Unknown};

const BOOL: u32 = 0;
const ABSTRACT_INT: u32 = 1;
const ABSTRACT_FLOAT: u32 = 2;
const I32: u32 = 3;
const U32: u32 = 4;
const F32: u32 = 5;
const F16: u32 = 6;

const VEC: u32 = 7;
const MAT: u32 = 8;
const ARRAY: u32 = 9;
const RUNTIME: u32 = 10;
const ATOMIC: u32 = 11;
const PTR: u32 = 12;
const REF: u32 = 13;
const FREXP: u32 = 14;
const MODF: u32 = 15;
const EXCHANGE: u32 = 16;

const FUNCTION: u32 = 0;
const PRIVATE: u32 = 1;
const WORKGROUP: u32 = 2;
const UNIFORM: u32 = 3;
const STORAGE: u32 = 4;
const HANDLE: u32 = 5;
const READ: u32 = 0;
const WRITE: u32 = 1;
const READ_WRITE: u32 = 2;

/// The bit of a mark.
const RUNNING: u32 = 1 << 31;

const ATOMIC_I32: u32 = 7;
const ATOMIC_U32: u32 = 8;
const EXCHANGE_I32: u32 = 9;
const EXCHANGE_U32: u32 = 10;
const STORAGE_I32: u32 = 11;
const STORAGE_U32: u32 = 12;
const WORKGROUP_I32: u32 = 13;
const WORKGROUP_U32: u32 = 14;
const STORAGE_READ: u32 = 15;
const STORAGE_WRITE: u32 = 16;
const WORKGROUP_READ: u32 = 17;
const WORKGROUP_WRITE: u32 = 18;
const IN_FUNCTION: u32 = 19;
const IN_PRIVATE: u32 = 20;
const IN_UNIFORM: u32 = 21;
const STORAGE_PLAIN: u32 = 22;
const WORKGROUP_PLAIN: u32 = 23;
const VEC2_U32: u32 = 24;
const VEC2_ABSTRACT_INT: u32 = 25;
const REF_ATOMIC: u32 = 26;
const ARRAY_F32: u32 = 27;
const RUNTIME_F32: u32 = 28;
const ARRAY_OF_ATOMICS: u32 = 29;
const ARRAY_OF_ARRAYS: u32 = 30;
const RUNTIME_ATOMICS: u32 = 31;
const ARRAY_OF_EXCHANGES: u32 = 32;
const TO_VEC: u32 = 33;
const TO_ARRAY: u32 = 34;
const TO_RUNTIME: u32 = 35;
const TO_ATOMICS: u32 = 36;
const TO_ARRAYS: u32 = 37;
const TO_RUNTIME_ATOMICS: u32 = 38;
const TO_EXCHANGE: u32 = 39;
const TO_EXCHANGES: u32 = 40;
const STORAGE_VEC: u32 = 41;

/// What those after the scalars are.
const ENTRIES: [[u32; 4]; 35] = [
    [ATOMIC, 0, 0, I32],
    [ATOMIC, 0, 0, U32],
    [EXCHANGE, 0, 0, I32],
    [EXCHANGE, 0, 0, U32],
    [PTR, STORAGE, READ_WRITE, ATOMIC_I32],
    [PTR, STORAGE, READ_WRITE, ATOMIC_U32],
    [PTR, WORKGROUP, READ_WRITE, ATOMIC_I32],
    [PTR, WORKGROUP, READ_WRITE, ATOMIC_U32],
    [PTR, STORAGE, READ, ATOMIC_U32],
    [PTR, STORAGE, WRITE, ATOMIC_U32],
    [PTR, WORKGROUP, READ, ATOMIC_U32],
    [PTR, WORKGROUP, WRITE, ATOMIC_U32],
    [PTR, FUNCTION, READ_WRITE, ATOMIC_U32],
    [PTR, PRIVATE, READ_WRITE, ATOMIC_U32],
    [PTR, UNIFORM, READ_WRITE, ATOMIC_U32],
    [PTR, STORAGE, READ_WRITE, U32],
    [PTR, WORKGROUP, READ_WRITE, U32],
    [VEC, 2, 0, U32],
    [VEC, 2, 0, ABSTRACT_INT],
    [REF, STORAGE, READ_WRITE, ATOMIC_U32],
    [ARRAY, 4, 0, F32],
    [RUNTIME, 0, 0, F32],
    [ARRAY, 4, 0, ATOMIC_U32],
    [ARRAY, 3, 0, ARRAY_OF_ATOMICS],
    [RUNTIME, 0, 0, ATOMIC_U32],
    [ARRAY, 2, 0, EXCHANGE_U32],
    [PTR, WORKGROUP, READ_WRITE, VEC2_U32],
    [PTR, WORKGROUP, READ_WRITE, ARRAY_F32],
    [PTR, WORKGROUP, READ_WRITE, RUNTIME_F32],
    [PTR, WORKGROUP, READ_WRITE, ARRAY_OF_ATOMICS],
    [PTR, WORKGROUP, READ_WRITE, ARRAY_OF_ARRAYS],
    [PTR, WORKGROUP, READ_WRITE, RUNTIME_ATOMICS],
    [PTR, WORKGROUP, READ_WRITE, EXCHANGE_I32],
    [PTR, WORKGROUP, READ_WRITE, ARRAY_OF_EXCHANGES],
    [PTR, STORAGE, READ_WRITE, VEC2_U32],
];

/// How many entries the table has.
const TYPES: u32 = 42;

/// What a call on an atomic gives.
#[derive(Clone, Copy)]
enum Gives {
    Component,
    Nothing,
    Compared,
}

use Gives::{Compared, Component, Nothing};

/// The calls on atomics: the values behind the pointer, and what is given.
const ATOMICS: [(&str, usize, Gives); 11] = [
    ("atomicAdd", 1, Component),
    ("atomicAnd", 1, Component),
    ("atomicCompareExchangeWeak", 2, Compared),
    ("atomicExchange", 1, Component),
    ("atomicLoad", 0, Component),
    ("atomicMax", 1, Component),
    ("atomicMin", 1, Component),
    ("atomicOr", 1, Component),
    ("atomicStore", 1, Nothing),
    ("atomicSub", 1, Component),
    ("atomicXor", 1, Component),
];

const LOAD: &str = "workgroupUniformLoad";
const COMPARE: &str = "atomicCompareExchangeWeak";

/// Both profiles.
const PROFILES: [Profile; 2] = [Profile::BASE, Profile::SUBGROUPS];

/// The pointers that calls on atomics take, and the component of each.
const TAKEN: [(u32, u32); 4] = [
    (STORAGE_I32, I32),
    (STORAGE_U32, U32),
    (WORKGROUP_I32, I32),
    (WORKGROUP_U32, U32),
];

/// What they do not take as a pointer: of another access, in another space, to no atomic, no pointer.
const WRONG_POINTERS: [u32; 15] = [
    STORAGE_READ,
    STORAGE_WRITE,
    WORKGROUP_READ,
    WORKGROUP_WRITE,
    IN_FUNCTION,
    IN_PRIVATE,
    IN_UNIFORM,
    STORAGE_PLAIN,
    WORKGROUP_PLAIN,
    TO_ATOMICS,
    TO_RUNTIME_ATOMICS,
    TO_EXCHANGE,
    ATOMIC_U32,
    U32,
    BOOL,
];

/// What does not convert to u32.
const WRONG_VALUES: [u32; 11] = [
    BOOL,
    ABSTRACT_FLOAT,
    I32,
    F32,
    F16,
    VEC2_U32,
    VEC2_ABSTRACT_INT,
    ATOMIC_U32,
    STORAGE_U32,
    EXCHANGE_U32,
    ARRAY_F32,
];

/// A table of these entries after the scalars, in a slice of so many.
fn table(entries: &[[u32; 4]], room: usize) -> Vec<u32> {
    let mut words = [&SCALARS[..], &entries.concat()].concat();
    words.resize(4 * room, 0);
    words
}

/// A call over the table, which it leaves as it was.
fn call(profile: Profile, name: &str, tplt: &[u32], args: &[Operand]) -> Answer {
    let mut words = table(&ENTRIES, 256);
    let before = words.clone();
    let answer = swartabelk::lent::call(&mut words, TYPES, profile, name.as_bytes(), tplt, args);
    assert_eq!(words, before, "{name}");
    answer
}

/// The pointer, and so many equal values.
fn operands(pointer: Operand, values: usize, value: Operand) -> Vec<Operand> {
    [vec![pointer], vec![value; values]].concat()
}

/// A const value.
fn is(number: u32, used: u32) -> Answer {
    Answer::Type {
        number,
        running: false,
        used,
    }
}

/// A running value.
fn runs(number: u32, used: u32) -> Answer {
    Answer::Type {
        number,
        running: true,
        used,
    }
}

fn refused(reason: Reason, place: u32, used: u32) -> Answer {
    Answer::Refused(Refusal {
        reason,
        place,
        used,
        lacking: 0,
    })
}

/// For want of room, with one entry lacking.
fn lacks(place: u32, used: u32) -> Answer {
    Answer::Refused(Refusal {
        reason: Reason::NoRoom,
        place,
        used,
        lacking: 1,
    })
}

/// What a call on an atomic of that component gives, over the table.
fn given(gives: Gives, component: u32) -> Answer {
    match gives {
        Component => runs(component, TYPES),
        Nothing => Answer::NoValue { used: TYPES },
        Compared if component == I32 => runs(EXCHANGE_I32, TYPES),
        Compared => runs(EXCHANGE_U32, TYPES),
    }
}

#[test]
fn the_table_is_sound() {
    assert_eq!(ENTRIES.len() as u32 + 7, TYPES);
    let words = table(&ENTRIES, 256);
    assert_eq!(check(&words, TYPES), Answer::NoValue { used: TYPES });
}

#[test]
fn calls_on_atomics_are_accepted() {
    for profile in PROFILES {
        for (name, values, gives) in ATOMICS {
            for (pointer, component) in TAKEN {
                let wanted = given(gives, component);
                let values_given = [
                    component.into(),
                    Operand::running(component),
                    ABSTRACT_INT.into(),
                ];
                for pointer in [pointer.into(), Operand::running(pointer)] {
                    for value in values_given {
                        let args = operands(pointer, values, value);
                        assert_eq!(call(profile, name, &[], &args), wanted, "{name} {args:?}");
                    }
                }
            }
        }
    }
}

#[test]
fn a_wrong_pointer() {
    for profile in PROFILES {
        for (name, values, _) in ATOMICS {
            for wrong in WRONG_POINTERS {
                for pointer in [wrong.into(), Operand::running(wrong)] {
                    let args = operands(pointer, values, ABSTRACT_INT.into());
                    let answer = call(profile, name, &[], &args);
                    assert_eq!(answer, refused(NoOverload, 0, TYPES), "{name} {args:?}");
                }
            }
            let args = operands(REF_ATOMIC.into(), values, U32.into());
            let answer = call(profile, name, &[], &args);
            assert_eq!(answer, refused(Reference, 0, TYPES), "{name}");
            let args = operands(TYPES.into(), values, U32.into());
            let answer = call(profile, name, &[], &args);
            assert_eq!(answer, refused(NoSuchType, 0, TYPES), "{name}");
        }
    }
}

#[test]
fn a_wrong_value_at_each_place() {
    for profile in PROFILES {
        for (name, values, _) in ATOMICS {
            for at in 1..=values {
                let put = |pointer: u32, right: u32, wrong: Operand, reason: Reason| {
                    let mut args = operands(pointer.into(), values, right.into());
                    args[at] = wrong;
                    let answer = call(profile, name, &[], &args);
                    assert_eq!(answer, refused(reason, 0, TYPES), "{name} {args:?}");
                };
                for wrong in WRONG_VALUES {
                    put(STORAGE_U32, U32, wrong.into(), NoOverload);
                }
                put(WORKGROUP_I32, I32, U32.into(), NoOverload);
                put(STORAGE_U32, U32, REF_ATOMIC.into(), Reference);
                put(STORAGE_U32, U32, TYPES.into(), NoSuchType);
                // A running value that is abstract: after a reference, before all else that is wrong with the operands.
                let running = Operand::running(ABSTRACT_INT);
                put(STORAGE_U32, U32, running, RunningAbstract);
                put(STORAGE_READ, U32, running, RunningAbstract);
                put(REF_ATOMIC, U32, running, Reference);
                let vector = Operand::running(VEC2_ABSTRACT_INT);
                put(WORKGROUP_I32, I32, vector, RunningAbstract);
            }
        }
    }
}

#[test]
fn a_wrong_count_and_a_template() {
    let twelve = ATOMICS.map(|(name, values, _)| (name, values));
    for profile in PROFILES {
        for (name, values) in twelve.into_iter().chain([(LOAD, 0)]) {
            let args = operands(WORKGROUP_U32.into(), values + 1, U32.into());
            for count in (0..=values).chain([values + 2]) {
                let answer = call(profile, name, &[], &args[..count]);
                assert_eq!(answer, refused(Operands, 0, TYPES), "{name} {count}");
            }
            // The count before a reference, a template before the count.
            let references = operands(REF_ATOMIC.into(), values + 1, U32.into());
            let answer = call(profile, name, &[], &references);
            assert_eq!(answer, refused(Operands, 0, TYPES), "{name}");
            for args in [&args[..values + 1], &[]] {
                let answer = call(profile, name, &[U32], args);
                assert_eq!(answer, refused(Template, 0, TYPES), "{name}");
            }
            let answer = call(profile, name, &[TYPES], &[]);
            assert_eq!(answer, refused(NoSuchType, 0, TYPES), "{name}");
        }
    }
}

#[test]
fn unknown_profiles_and_names() {
    for profile in [Profile(2), Profile(u32::MAX)] {
        for (name, values, _) in ATOMICS {
            for pointer in [STORAGE_U32, REF_ATOMIC] {
                let args = operands(pointer.into(), values, U32.into());
                let answer = call(profile, name, &[], &args);
                assert_eq!(answer, refused(Unknown, 0, TYPES), "{name}");
            }
        }
        let answer = call(profile, LOAD, &[], &[WORKGROUP_U32.into()]);
        assert_eq!(answer, refused(Unknown, 0, TYPES));
    }
    for name in ["atomicDiv", "atomicCompareExchange", "atomicadd"] {
        let args = operands(STORAGE_U32.into(), 1, U32.into());
        let answer = call(Profile::BASE, name, &[], &args);
        assert_eq!(answer, refused(Unknown, 0, TYPES), "{name}");
    }
}

#[test]
fn uniform_loads() {
    for profile in PROFILES {
        for (pointer, gives) in [
            (WORKGROUP_I32, I32),
            (WORKGROUP_U32, U32),
            (WORKGROUP_PLAIN, U32),
            (TO_VEC, VEC2_U32),
            (TO_ARRAY, ARRAY_F32),
            (TO_EXCHANGE, EXCHANGE_I32),
            (TO_EXCHANGES, ARRAY_OF_EXCHANGES),
        ] {
            for pointer in [pointer.into(), Operand::running(pointer)] {
                let answer = call(profile, LOAD, &[], &[pointer]);
                assert_eq!(answer, runs(gives, TYPES), "{pointer:?}");
            }
        }
        for wrong in [
            TO_RUNTIME,
            TO_ATOMICS,
            TO_ARRAYS,
            TO_RUNTIME_ATOMICS,
            WORKGROUP_READ,
            WORKGROUP_WRITE,
            STORAGE_U32,
            STORAGE_PLAIN,
            STORAGE_VEC,
            IN_FUNCTION,
            IN_PRIVATE,
            IN_UNIFORM,
            ATOMIC_U32,
            VEC2_U32,
            U32,
        ] {
            for wrong in [wrong.into(), Operand::running(wrong)] {
                let answer = call(profile, LOAD, &[], &[wrong]);
                assert_eq!(answer, refused(NoOverload, 0, TYPES), "{wrong:?}");
            }
        }
        let one = |operand| call(profile, LOAD, &[], &[operand]);
        let abstract_ones = [ABSTRACT_INT.into(), Operand::running(ABSTRACT_INT)].map(one);
        assert_eq!(abstract_ones[0], refused(NoOverload, 0, TYPES));
        assert_eq!(abstract_ones[1], refused(RunningAbstract, 0, TYPES));
        assert_eq!(one(REF_ATOMIC.into()), refused(Reference, 0, TYPES));
        assert_eq!(one(TYPES.into()), refused(NoSuchType, 0, TYPES));
    }
}

#[test]
fn the_type_of_a_compare() {
    for component in [I32, U32] {
        let entries = [
            [ATOMIC, 0, 0, component],
            [PTR, STORAGE, READ_WRITE, ATOMIC_I32],
        ];
        let compare = |words: &mut [u32], used, value: Operand| {
            let args = operands(8.into(), 2, value);
            swartabelk::lent::call(words, used, Profile::BASE, COMPARE.as_bytes(), &[], &args)
        };
        let mut tight = table(&entries, 9);
        let before = tight.clone();
        assert_eq!(compare(&mut tight, 9, ABSTRACT_INT.into()), lacks(0, 9));
        // 8 and 14 come before 9.
        let float = compare(&mut tight, 9, F32.into());
        assert_eq!(float, refused(NoOverload, 0, 9));
        let running = compare(&mut tight, 9, Operand::running(ABSTRACT_INT));
        assert_eq!(running, refused(RunningAbstract, 0, 9));
        assert_eq!(tight, before);
        let mut words = table(&entries, 10);
        assert_eq!(compare(&mut words, 9, component.into()), runs(9, 10));
        assert_eq!(words[36..], [EXCHANGE, 0, 0, component]);
        assert_eq!(compare(&mut words, 10, ABSTRACT_INT.into()), runs(9, 10));
        // No operator takes it.
        let equal = binary(&mut words, 10, BinaryOp::Equal as u32, 9, 9);
        assert_eq!(equal, refused(NoOverload, 0, 10));
    }
    // A full table of arrays, but for the atomic and its pointer.
    let mut entries = vec![[ATOMIC, 0, 0, I32], [PTR, WORKGROUP, READ_WRITE, 7]];
    entries.extend((1..=247).map(|count| [ARRAY, count, 0, F32]));
    let args = operands(8.into(), 2, I32.into());
    let mut words = table(&entries, 300);
    let compare = |words: &mut [u32]| {
        swartabelk::lent::call(words, 256, Profile::BASE, COMPARE.as_bytes(), &[], &args)
    };
    assert_eq!(compare(&mut words), lacks(0, 256));
    entries[248] = [EXCHANGE, 0, 0, I32];
    assert_eq!(compare(&mut table(&entries, 300)), runs(255, 256));
}

/// Entries of every kind above the scalars, each after those that it needs.
const RIGHT: [[u32; 4]; 15] = [
    [VEC, 3, 0, F32],
    [MAT, 2, 4, F16],
    [ARRAY, u32::MAX, 0, 7],
    [RUNTIME, 0, 0, 9],
    [ATOMIC, 0, 0, U32],
    [PTR, STORAGE, READ_WRITE, 11],
    [REF, HANDLE, READ, F32],
    [FREXP, 0, 0, 7],
    [MODF, 0, 0, ABSTRACT_FLOAT],
    [EXCHANGE, 0, 0, I32],
    [EXCHANGE, 0, 0, U32],
    [ARRAY, 2, 0, 16],
    [PTR, WORKGROUP, READ, 17],
    [REF, FUNCTION, WRITE, 16],
    [VEC, 2, 0, ABSTRACT_INT],
];

/// Entries that break a rule over the table that those make: of each kind, of none, and with an elem that is not below the count.
#[rustfmt::skip]
const BROKEN: [[u32; 4]; 54] = [
    [BOOL, 1, 0, 0], [F32, 0, 1, 0], [U32, 0, 0, 1], [F16, 0, 0, 6],
    [VEC, 1, 0, F32], [VEC, 5, 0, F32], [VEC, 3, 1, F32], [VEC, 2, 0, 7],
    [MAT, 5, 2, F32], [MAT, 2, 1, F32], [MAT, 2, 2, I32], [MAT, 2, 2, 7],
    [ARRAY, 0, 0, F32], [ARRAY, 4, 1, F32], [ARRAY, 4, 0, 10], [ARRAY, 4, 0, 12], [ARRAY, 4, 0, 13],
    [RUNTIME, 1, 0, F32], [RUNTIME, 0, 1, F32], [RUNTIME, 0, 0, 10], [RUNTIME, 0, 0, 12],
    [ATOMIC, 0, 0, F32], [ATOMIC, 0, 0, BOOL], [ATOMIC, 1, 0, U32], [ATOMIC, 0, 1, U32], [ATOMIC, 0, 0, 7],
    [PTR, HANDLE, READ, F32], [PTR, STORAGE, 3, F32], [PTR, STORAGE, READ, ABSTRACT_INT], [PTR, STORAGE, READ, 21], [PTR, STORAGE, READ, 12],
    [REF, 6, READ, F32], [REF, HANDLE, 3, F32], [REF, HANDLE, READ, ABSTRACT_FLOAT], [REF, HANDLE, READ, 13],
    [FREXP, 0, 0, I32], [FREXP, 1, 0, F32], [FREXP, 0, 0, 21], [MODF, 0, 0, U32], [MODF, 0, 0, 9],
    [EXCHANGE, 0, 0, F32], [EXCHANGE, 0, 0, BOOL], [EXCHANGE, 0, 0, ABSTRACT_INT], [EXCHANGE, 1, 0, I32], [EXCHANGE, 0, 1, I32], [EXCHANGE, 0, 0, 11],
    [17, 0, 0, 0], [17, 0, 0, I32], [256 + VEC, 3, 0, F32], [u32::MAX, 0, 0, 0],
    [VEC, 3, 0, 22], [RUNTIME, 0, 0, u32::MAX], [EXCHANGE, 0, 0, RUNNING | I32], [ARRAY, 4, 0, RUNNING | F32],
];

fn put(words: &mut [u32], used: u32, [kind, p, q, elem]: [u32; 4]) -> Answer {
    enter(words, used, kind, p, q, elem)
}

#[test]
fn every_kind_is_entered_and_found() {
    let mut words = SCALARS.to_vec();
    for (i, e) in RIGHT.into_iter().enumerate() {
        let used = 7 + i as u32;
        let before = words.clone();
        assert_eq!(put(&mut words, used, e), lacks(0, used), "{e:?}");
        assert_eq!(words, before);
        // A part of an entry is none.
        words.extend([0; 3]);
        assert_eq!(put(&mut words, used, e), lacks(0, used), "{e:?}");
        words.push(0);
        assert_eq!(put(&mut words, used, e), is(used, used + 1), "{e:?}");
        assert_eq!(words, [&before[..], &e].concat());
        assert_eq!(put(&mut words, used + 1, e), is(used, used + 1), "{e:?}");
        assert_eq!(words, [&before[..], &e].concat());
        assert_eq!(check(&words, used + 1), Answer::NoValue { used: used + 1 });
    }
    for scalar in BOOL..=F16 {
        assert_eq!(put(&mut words, 22, [scalar, 0, 0, 0]), is(scalar, 22));
    }
}

#[test]
fn what_breaks_a_rule_is_not_entered() {
    for room in [22, 256] {
        let mut words = table(&RIGHT, room);
        let before = words.clone();
        for e in BROKEN {
            assert_eq!(put(&mut words, 22, e), refused(Template, 0, 22), "{e:?}");
        }
        assert_eq!(words, before);
    }
}

#[test]
fn entering_wants_a_sound_table() {
    let mut words = table(&RIGHT, 256);
    for used in [0, 6, 257, u32::MAX] {
        for e in [[F32, 0, 0, 0], [VEC, 4, 0, F32], [17, 0, 0, 0]] {
            let unsound = refused(Reason::Unsound, 0, used);
            assert_eq!(put(&mut words, used, e), unsound, "{used} {e:?}");
        }
    }
    let short = put(&mut words[..87], 22, [F32, 0, 0, 0]);
    assert_eq!(short, refused(Reason::Unsound, 0, 22));
    // Kind 16 has its rule in a table too.
    words[88..92].copy_from_slice(&[EXCHANGE, 0, 0, F32]);
    assert_eq!(check(&words, 23), refused(Reason::Unsound, 0, 23));
    // 256 entries are the most.
    let arrays: Vec<[u32; 4]> = (1..=249).map(|count| [ARRAY, count, 0, F32]).collect();
    let mut full = table(&arrays, 300);
    assert_eq!(put(&mut full, 256, [EXCHANGE, 0, 0, U32]), lacks(0, 256));
    assert_eq!(put(&mut full, 256, [ARRAY, 249, 0, F32]), is(255, 256));
    let broken = put(&mut full, 256, [EXCHANGE, 0, 0, F32]);
    assert_eq!(broken, refused(Template, 0, 256));
}

#[test]
fn a_counter() {
    let mut words = table(&[], 256);
    assert_eq!(put(&mut words, 7, [ATOMIC, 0, 0, U32]), is(7, 8));
    assert_eq!(put(&mut words, 8, [REF, STORAGE, READ_WRITE, 7]), is(8, 9));
    let counter = Operand::running(8);
    let pointer = unary(&mut words, 9, UnaryOp::AddressOf as u32, counter);
    assert_eq!(pointer, runs(9, 10));
    let pointer = pointer.operand().unwrap();
    let mut on = |name: &str, args: &[Operand]| {
        let args = [&[pointer], args].concat();
        let name = name.as_bytes();
        swartabelk::lent::call(&mut words, 10, Profile::BASE, name, &[], &args)
    };
    let was = on("atomicAdd", &[ABSTRACT_INT.into()]);
    assert_eq!(was, runs(U32, 10));
    // What was given is the next call's value.
    let was = was.operand().unwrap();
    assert_eq!(on("atomicMax", &[was]), runs(U32, 10));
    let stored = on("atomicStore", &[was]);
    assert_eq!(stored, Answer::NoValue { used: 10 });
    assert_eq!(stored.operand(), None);
    // It is running: 1 << it is i32.
    let shifted = binary(
        &mut words,
        10,
        BinaryOp::ShiftLeft as u32,
        ABSTRACT_INT,
        was,
    );
    assert_eq!(shifted, runs(I32, 10));
}

#[test]
fn spellings() {
    let words = table(&ENTRIES, 256);
    for (number, spelling) in [
        (EXCHANGE_I32, "__atomic_compare_exchange_result<i32>"),
        (EXCHANGE_U32, "__atomic_compare_exchange_result<u32>"),
        (
            ARRAY_OF_EXCHANGES,
            "array<__atomic_compare_exchange_result<u32>,2>",
        ),
        (
            TO_EXCHANGE,
            "ptr<workgroup,__atomic_compare_exchange_result<i32>,read_write>",
        ),
    ] {
        let mut out = [b'.'; 80];
        let n = spelling.len();
        let short = spell(&words, TYPES, number, &mut out[..n - 1]).unwrap_err();
        assert_eq!(short.reason, Reason::TooLong);
        assert_eq!(out, [b'.'; 80]);
        assert_eq!(spell(&words, TYPES, number, &mut out), Ok(n));
        assert_eq!(&out[..n], spelling.as_bytes());
        assert_eq!(out[n], b'.');
    }
}

/// A push of version 1.
fn push(number: u32) -> Vec<u8> {
    vec![2, 1, number as u8]
}

/// A push of version 2.
fn marked(number: u32, running: bool) -> Vec<u8> {
    vec![3, 1, number as u8, running as u8]
}

fn called(name: &str, count: u8) -> Vec<u8> {
    [&[2 + name.len() as u8, 4, count], name.as_bytes()].concat()
}

fn taken([kind, p, q, elem]: [u32; 4]) -> Vec<u8> {
    let p = p.to_be_bytes();
    [&[8, 6, kind as u8], &p[..], &[q as u8, elem as u8]].concat()
}

/// The answer of a sheet over the table, which it leaves as it was, the same in both profiles.
fn answered(version: u8, items: &[Vec<u8>]) -> Answer {
    let items = items.concat();
    let bytes = [&[version], &(items.len() as u16).to_be_bytes()[..], &items].concat();
    let [base, subgroups] = PROFILES.map(|profile| {
        let mut words = table(&ENTRIES, 256);
        let before = words.clone();
        let answer = sheet(&mut words, TYPES, profile, &bytes);
        assert_eq!(words, before);
        answer
    });
    assert_eq!(base, subgroups);
    base
}

#[test]
fn sheets_call_on_memory() {
    let load = || called("atomicLoad", 1);
    let store = || called("atomicStore", 2);
    let one = ABSTRACT_INT;
    assert_eq!(answered(1, &[push(STORAGE_I32), load()]), is(I32, TYPES));
    let added = [push(STORAGE_U32), push(one), called("atomicAdd", 2)];
    assert_eq!(answered(1, &added), is(U32, TYPES));
    // A store is the last item, and no value stands below it. What else is wrong with it comes before.
    let stored = [push(STORAGE_U32), push(one), store()];
    assert_eq!(answered(1, &stored), Answer::NoValue { used: TYPES });
    let below = [push(F32), push(STORAGE_U32), push(one), store()];
    assert_eq!(answered(1, &below), refused(Reason::Stack, 12, TYPES));
    let more = [push(STORAGE_U32), push(one), store(), push(F32)];
    assert_eq!(answered(1, &more), refused(Reason::Stack, 9, TYPES));
    let wrong = [push(STORAGE_READ), push(one), store(), push(F32)];
    assert_eq!(answered(1, &wrong), refused(NoOverload, 9, TYPES));
    let reference = [push(F32), push(REF_ATOMIC), push(one), store()];
    assert_eq!(answered(1, &reference), refused(Reference, 12, TYPES));
    let short = [push(STORAGE_U32), store()];
    assert_eq!(answered(1, &short), refused(Reason::Stack, 6, TYPES));
    let compared = [push(STORAGE_U32), push(one), push(U32), called(COMPARE, 3)];
    assert_eq!(answered(1, &compared), is(EXCHANGE_U32, TYPES));
    // In version 2 a value is running, and a store has no mark.
    let loaded = [marked(STORAGE_U32, false), load()];
    assert_eq!(answered(2, &loaded), runs(U32, TYPES));
    let stored = |running| [marked(STORAGE_U32, true), marked(one, running), store()];
    let nothing = Answer::NoValue { used: TYPES };
    assert_eq!(answered(2, &stored(false)), nothing);
    let abstract_one = refused(RunningAbstract, 11, TYPES);
    assert_eq!(answered(2, &stored(true)), abstract_one);
    let left = || vec![2, 3, BinaryOp::ShiftLeft as u8];
    let shifted = [
        marked(one, false),
        marked(STORAGE_U32, false),
        load(),
        left(),
    ];
    assert_eq!(answered(2, &shifted), runs(I32, TYPES));
    let shifted = [push(one), push(STORAGE_U32), load(), left()];
    assert_eq!(answered(1, &shifted), is(ABSTRACT_INT, TYPES));
}

#[test]
fn takes_of_the_type_of_a_compare() {
    let take = |words: &mut [u32], used, e| {
        let bytes = [&[1, 0, 9], &taken(e)[..]].concat();
        sheet(words, used, Profile::BASE, &bytes)
    };
    let mut words = table(&[], 256);
    assert_eq!(take(&mut words, 7, [EXCHANGE, 0, 0, U32]), is(7, 8));
    assert_eq!(words[28..32], [EXCHANGE, 0, 0, U32]);
    assert_eq!(take(&mut words, 8, [EXCHANGE, 0, 0, U32]), is(7, 8));
    for wrong in [
        [EXCHANGE, 0, 0, F32],
        [EXCHANGE, 1, 0, I32],
        [EXCHANGE, 0, 1, I32],
        [EXCHANGE, 0, 0, 7],
        [17, 0, 0, I32],
    ] {
        let broken = refused(Template, 3, 8);
        assert_eq!(take(&mut words, 8, wrong), broken, "{wrong:?}");
    }
    let tight = take(&mut words[..32], 8, [EXCHANGE, 0, 0, I32]);
    assert_eq!(tight, lacks(3, 8));
}
