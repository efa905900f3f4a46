//! What a call and an item cost: the crate's three files over their own types, and Swartabelk over its table, on the same questions.
//!
//! `bench` measures both sides in turn, by this thread's processor time, and prints the median of the rounds. `bench count rust|ours PATTERN ITEMS ENTRIES` types one sheet, to count
//! its instructions.

use compare::call_ty::type_builtin_fn;
use compare::case::profile::{BASE, SUBGROUPS};
use compare::case::{Answer, Case, Operation};
use compare::domain::simples;
use compare::ops_ty::type_binary_op;
use compare::oracle::{binary_operator, from_rust, to_rust};
use compare::ours;
use compare::ours::table::Table;
use compare::sheets::{
    PATTERNS, Pattern, Sheet, all_names, kinds, table_with, two_in_turn, type_sheet,
};
use compare::standard::{NAMES, SUBGROUP_NAMES, Standard};
use compare::ty::Type;
use compare::types::WType;
use std::hint::black_box;

const ROUNDS: usize = 9;

/// Each round of a side lasts about so many nanoseconds.
const ROUND_NS: f64 = 4_000_000.0;

/// Questions of single calls: the sign, and the operands.
const CALLS: [(&str, &[&str]); 14] = [
    ("+", &["f32", "f32"]),
    ("+", &["AbstractInt", "f32"]),
    ("<", &["i32", "i32"]),
    ("<<", &["i32", "u32"]),
    ("==", &["bool", "bool"]),
    ("+", &["vec3<f32>", "vec3<f32>"]),
    ("*", &["vec3<f32>", "f32"]),
    ("*", &["vec3<AbstractInt>", "f32"]),
    ("*", &["mat4x4<f32>", "vec4<f32>"]),
    ("*", &["mat4x4<f32>", "mat4x4<f32>"]),
    ("sqrt", &["f32"]),
    ("sqrt", &["vec3<f32>"]),
    ("clamp", &["AbstractInt", "AbstractFloat", "f16"]),
    ("mix", &["vec3<f32>", "vec3<f32>", "f32"]),
];

/// Names of one row, by where they stand among the names, and one that stands nowhere.
const PLACES: [(&str, &str); 4] = [
    ("of the first", "acos"),
    ("of the middle", "log2"),
    ("of the last", "trunc"),
    ("of none", "trunk"),
];

/// `struct timespec` of C.
#[repr(C)]
struct Timespec {
    seconds: i64,
    nanoseconds: i64,
}

unsafe extern "C" {
    fn clock_gettime(clock: i32, time: *mut Timespec) -> i32;
}

/// Nanoseconds of processor time that this thread has had, so that other work on the machine counts little.
fn now() -> f64 {
    const CLOCK_THREAD_CPUTIME_ID: i32 = 3;
    let mut time = Timespec {
        seconds: 0,
        nanoseconds: 0,
    };
    // SAFETY: the structure is lent for the call and has the layout that Linux on 64 bits asks for.
    let failed = unsafe { clock_gettime(CLOCK_THREAD_CPUTIME_ID, &mut time) };
    assert_eq!(failed, 0);
    time.seconds as f64 * 1e9 + time.nanoseconds as f64
}

/// Nanoseconds of one run of `work`, over as many runs as fill a round.
fn time(runs: usize, work: &mut dyn FnMut()) -> f64 {
    let start = now();
    for _ in 0..runs {
        work();
    }
    (now() - start) / runs as f64
}

/// How many runs fill a round.
fn runs_of(work: &mut dyn FnMut()) -> usize {
    let mut runs = 1;
    loop {
        let ns = time(runs, work) * runs as f64;
        if ns > ROUND_NS / 8.0 {
            return ((runs as f64 * ROUND_NS / ns) as usize).max(1);
        }
        runs *= 4;
    }
}

fn median(mut of: Vec<f64>) -> f64 {
    of.sort_by(f64::total_cmp);
    of[of.len() / 2]
}

/// The medians of both sides, measured in turn.
fn both(rust: &mut dyn FnMut(), ours: Option<&mut dyn FnMut()>) -> (f64, Option<f64>) {
    let rust_runs = runs_of(rust);
    let Some(ours) = ours else {
        let rounds = (0..ROUNDS).map(|_| time(rust_runs, rust)).collect();
        return (median(rounds), None);
    };
    let ours_runs = runs_of(ours);
    let (mut of_rust, mut of_ours) = (Vec::new(), Vec::new());
    for _ in 0..ROUNDS {
        of_rust.push(time(rust_runs, rust));
        of_ours.push(time(ours_runs, ours));
    }
    (median(of_rust), Some(median(of_ours)))
}

fn line(what: &str, entries: usize, per: f64, (rust, ours): (f64, Option<f64>)) {
    let rust = rust / per;
    match ours.map(|ours| ours / per) {
        Some(ours) => println!(
            "{what:<44} {entries:>7} {rust:>9.1} {ours:>9.1} {:>9.3}",
            ours / rust
        ),
        None => println!("{what:<44} {entries:>7} {rust:>9.1} {:>9} {:>9}", "-", "-"),
    }
}

fn head(title: &str) {
    println!(
        "\n{title:<44} {:>7} {:>9} {:>9} {:>9}",
        "entries", "Rust", "ours", "ours/Rust"
    );
}

/// The crate's answer to a question of `CALLS`.
fn rust_call(operation: Operation, operands: &[Type]) -> Option<Type> {
    match operation {
        Operation::Binary(op) => {
            type_binary_op(binary_operator(op), &operands[0], &operands[1]).ok()
        }
        Operation::Call(name) => type_builtin_fn(name, None, operands).ok().flatten(),
        _ => None,
    }
}

#[cfg(swartabelk)]
mod side {
    //! Swartabelk's side.
    use super::*;
    use compare::ours::linked;

    pub const IS: bool = true;

    pub fn call(table: &mut Table, operation: Operation, numbers: &[u32]) -> u32 {
        let reply = match operation {
            Operation::Binary(op) => linked::binary(table, op as u32, numbers[0], numbers[1]),
            Operation::Call(name) => linked::call(table, BASE, name, &[], numbers),
            _ => unreachable!("no other operation is measured"),
        };
        assert_eq!(reply.refusal, 0);
        reply.ty
    }

    /// Whether a name is answered.
    pub fn knows(table: &mut Table, name: &str, numbers: &[u32]) -> bool {
        linked::call(table, BASE, name, &[], numbers).refusal == 0
    }

    /// How long the text is that tells why of a binary operator.
    pub fn why(table: &Table, op: u32, numbers: &[u32], out: &mut [u8]) -> u32 {
        let spelled = linked::why_binary(table, op, numbers[0], numbers[1], out);
        assert_eq!(spelled.refusal, 0);
        spelled.length
    }

    #[inline(never)]
    pub fn sheet(table: &mut Table, profile: u32, sheet: &[u8]) -> (u32, u32) {
        let reply = linked::sheet(table, profile, sheet);
        assert_eq!(reply.refusal, 0, "{reply:?}");
        (reply.ty, reply.used)
    }
}

#[cfg(not(swartabelk))]
mod side {
    //! No library is linked: nothing here is called.
    use super::*;

    pub const IS: bool = false;

    pub fn call(_: &mut Table, _: Operation, _: &[u32]) -> u32 {
        0
    }

    pub fn knows(_: &mut Table, _: &str, _: &[u32]) -> bool {
        false
    }

    pub fn why(_: &Table, _: u32, _: &[u32], _: &mut [u8]) -> u32 {
        0
    }

    pub fn sheet(_: &mut Table, _: u32, _: &[u8]) -> (u32, u32) {
        (0, 0)
    }
}

#[inline(never)]
fn rust_sheet(table: &[Type], sheet: &[u8]) -> Option<Type> {
    type_sheet(table, sheet).expect("a sheet that has a type")
}

fn single_calls() {
    head("ns a call");
    let standard = Standard::default();
    let simples = simples();
    let named = |name: &&str| -> WType {
        let found = simples.iter().find(|ty| ty.to_string() == **name);
        found.expect("one of the 55").clone()
    };
    for (sign, operands) in CALLS {
        let position = compare::case::BINARY.iter().position(|op| *op == sign);
        let operation = position.map_or(Operation::Call(sign), Operation::Binary);
        let operands: Vec<WType> = operands.iter().map(named).collect();
        let refs: Vec<&WType> = operands.iter().collect();
        let case = Case {
            operation,
            template: &[],
            operands: &refs,
            running: &[],
        };
        let rust_operands: Vec<Type> = operands.iter().map(to_rust).collect();
        let made = rust_call(operation, &rust_operands).expect("a call that is accepted");
        assert_eq!(Answer::Type(from_rust(&made)), standard.answer(&case));
        for entries in [7, 20, 200] {
            let (mut table, _, numbers) = table_with(&operands, entries);
            let entries = table.used as usize;
            let mut rust = || {
                black_box(rust_call(black_box(operation), black_box(&rust_operands)));
            };
            let mut ours = || {
                black_box(side::call(
                    &mut table,
                    black_box(operation),
                    black_box(&numbers),
                ));
            };
            let ours: Option<&mut dyn FnMut()> = if side::IS { Some(&mut ours) } else { None };
            line(&case.to_string(), entries, 1.0, both(&mut rust, ours));
            if !side::IS {
                break;
            }
        }
    }
}

fn sheets() {
    head("ns an item");
    for pattern in PATTERNS {
        for items in [20, 2_000, 20_000] {
            for entries in [7, 20, 200] {
                let (mut table, rust_table, numbers) = table_with(&pattern.types(), entries);
                let entries = table.used as usize;
                let sheet = pattern.sheet(items, &numbers);
                let bytes = sheet.bytes();
                let mut rust = || {
                    black_box(rust_sheet(black_box(&rust_table), black_box(&bytes)));
                };
                let mut ours = || {
                    black_box(side::sheet(&mut table, BASE, black_box(&bytes)));
                };
                let ours: Option<&mut dyn FnMut()> = if side::IS { Some(&mut ours) } else { None };
                let what = format!("{} sheet of {} items", pattern.name(), sheet.items);
                let per = sheet.items as f64;
                line(&what, entries, per, both(&mut rust, ours));
            }
        }
    }
}

/// How long a name is looked for: in a single call and in a full sheet of that call, by where it stands; and in sheets of all names, of which no run meets a call twice.
fn searches() {
    head("names, ns a call");
    let f32 = WType::Scalar(compare::types::Scalar::F32);
    let operands = [to_rust(&f32)];
    let (mut table, rust_table, numbers) = table_with(&[f32], 7);
    for (place, name) in PLACES {
        let known = type_builtin_fn(name, None, &operands).is_ok();
        assert!(!side::IS || side::knows(&mut table, name, &numbers) == known);
        let mut rust = || {
            black_box(type_builtin_fn(black_box(name), None, black_box(&operands))).ok();
        };
        let mut ours = || {
            black_box(side::knows(
                &mut table,
                black_box(name),
                black_box(&numbers),
            ));
        };
        let ours: Option<&mut dyn FnMut()> = if side::IS { Some(&mut ours) } else { None };
        let what = format!("`{name}(f32)`, {place}");
        line(&what, 7, 1.0, both(&mut rust, ours));
    }
    for (place, name) in &PLACES[..3] {
        let sheet = Sheet::of_calls(name, numbers[0]);
        let bytes = sheet.bytes();
        let mut rust = || {
            black_box(rust_sheet(black_box(&rust_table), black_box(&bytes)));
        };
        let mut ours = || {
            black_box(side::sheet(&mut table, BASE, black_box(&bytes)));
        };
        let ours: Option<&mut dyn FnMut()> = if side::IS { Some(&mut ours) } else { None };
        let calls = sheet.items - 1;
        let what = format!("{calls} calls of `{name}`, {place}");
        line(&what, 7, calls as f64, both(&mut rust, ours));
    }
    let all = [&NAMES[..], &SUBGROUP_NAMES].concat();
    for (profile, names) in [(BASE, &NAMES[..]), (SUBGROUPS, &all)] {
        let (mut table, rust_table, sheets, calls) = all_names(names);
        let bytes: Vec<Vec<u8>> = sheets.iter().map(Sheet::bytes).collect();
        let entries = table.used as usize;
        let mut rust = || {
            for bytes in &bytes {
                black_box(rust_sheet(black_box(&rust_table), black_box(bytes)));
            }
        };
        let mut ours = || {
            for bytes in &bytes {
                black_box(side::sheet(&mut table, profile, black_box(bytes)));
            }
        };
        let ours: Option<&mut dyn FnMut()> = if side::IS { Some(&mut ours) } else { None };
        let what = format!("all of profile {profile}, {} sheets", sheets.len());
        line(&what, entries, calls as f64, both(&mut rust, ours));
    }
}

/// Inputs that were chosen to be slow: tables for the soundness test, and sheets for the memo.
fn hard() {
    head("chosen to be slow, ns a call or an item");
    let f32 = WType::Scalar(compare::types::Scalar::F32);
    let operands = [to_rust(&f32), to_rust(&f32)];
    for step in [1, 256] {
        let array = |i: u64| WType::Array(Box::new(f32.clone()), Some(step * i));
        let arrays: Vec<WType> = (1..=200).map(array).collect();
        let (mut table, _, _) = table_with(&arrays, arrays.len() + 7);
        let number = table.number(&f32);
        let entries = table.used as usize;
        let mut rust = || {
            black_box(rust_call(Operation::Binary(2), black_box(&operands)));
        };
        let mut ours = || {
            black_box(side::call(
                &mut table,
                Operation::Binary(2),
                &[number, number],
            ));
        };
        let ours: Option<&mut dyn FnMut()> = if side::IS { Some(&mut ours) } else { None };
        let what = format!("`f32 + f32`, arrays of {step} * i");
        line(&what, entries, 1.0, both(&mut rust, ours));
    }
    for (what, (mut table, rust_table, sheet)) in [
        ("operators of 108 kinds", kinds(108)),
        ("two keys of one slot in turn", two_in_turn()),
    ] {
        let entries = table.used as usize;
        let bytes = sheet.bytes();
        let mut rust = || {
            black_box(rust_sheet(black_box(&rust_table), black_box(&bytes)));
        };
        let mut ours = || {
            black_box(side::sheet(&mut table, BASE, black_box(&bytes)));
        };
        let ours: Option<&mut dyn FnMut()> = if side::IS { Some(&mut ours) } else { None };
        let what = format!("{what}, {} items", sheet.items);
        line(&what, entries, sheet.items as f64, both(&mut rust, ours));
    }
}

/// The longest listing of scalars: the 249 overloads of `*` at bool and bool. The crate says that it refuses, and no more.
fn told() {
    head("told why, ns a call");
    let bool = WType::Scalar(compare::types::Scalar::Bool);
    let operands = [to_rust(&bool), to_rust(&bool)];
    let (mut table, _, _) = table_with(&[], 7);
    let number = table.number(&bool);
    let mut out = vec![0u8; 16384];
    let mut rust = || {
        black_box(rust_call(Operation::Binary(4), black_box(&operands)));
    };
    let mut ours = || {
        black_box(side::why(&table, 4, &[number, number], &mut out));
    };
    let ours: Option<&mut dyn FnMut()> = if side::IS { Some(&mut ours) } else { None };
    line("`bool * bool`, 249 lines", 7, 1.0, both(&mut rust, ours));
}

/// Types one sheet on one side and writes its result, so that a counter of instructions sees nothing else in the function of that side.
fn count(words: &[String]) -> Option<()> {
    let [which, pattern, items, entries] = words else {
        return None;
    };
    let pattern: Pattern = PATTERNS.into_iter().find(|one| one.name() == pattern)?;
    let (mut table, rust_table, numbers) = table_with(&pattern.types(), entries.parse().ok()?);
    let sheet = pattern.sheet(items.parse().ok()?, &numbers);
    let bytes = sheet.bytes();
    let result = match which.as_str() {
        "rust" => from_rust(&rust_sheet(&rust_table, &bytes)?),
        "ours" if side::IS => {
            let (ty, used) = side::sheet(&mut table, BASE, &bytes);
            table.used = used;
            table.read(ty).ok()?
        }
        _ => return None,
    };
    println!("{} items: {result}", sheet.items);
    Some(())
}

fn main() {
    let words: Vec<String> = std::env::args().skip(1).collect();
    if words.first().is_some_and(|word| word == "count") {
        if count(&words[1..]).is_none() {
            eprintln!("bench count rust|ours scalars|vectors|calls ITEMS ENTRIES");
            std::process::exit(2);
        }
        return;
    }
    let library = if ours::LINKED {
        "the library is linked"
    } else {
        "no library is linked, so the Rust alone"
    };
    println!("median of {ROUNDS} rounds, both sides in turn; {library}");
    single_calls();
    sheets();
    searches();
    hard();
    told();
    println!(
        "
Instructions, which do not depend on what else the machine does:
  valgrind --tool=callgrind --callgrind-out-file=/dev/null --toggle-collect='*rust_sheet*' target/release/bench count rust vectors 2000 20
  valgrind --tool=callgrind --callgrind-out-file=/dev/null --toggle-collect='*side::sheet*' target/release/bench count ours vectors 2000 20
`Collected` over the item count is the instructions an item."
    );
}
