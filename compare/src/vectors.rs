//! Stored answers of a WGSL compiler, as rows of three columns; they judge `standard`, and Swartabelk where it is linked.

use crate::case::{Answer, BINARY, Case, Operation, UNARY};
use crate::domain::{PLAINS, simples};
use crate::ours;
use crate::parts::{THREE, TWO};
use crate::standard::refusal::{NONE_FITS, OPERANDS};
use crate::standard::{NAMES, Standard, names};
use crate::types::WType;
use std::collections::{BTreeSet, HashMap};

/// Crate rules, which no compiler was asked for.
const NOT_RULED: [&str; 4] = [
    "bitcast",
    "storageBarrier",
    "textureBarrier",
    "workgroupBarrier",
];

/// Ruled since document 02: of these the compiler was asked for a sample alone, as `check_listed` reads it.
const SAMPLED: [&str; 2] = ["arrayLength", "ldexp"];

/// The rows of the files.
fn rows(files: &[String]) -> Vec<[String; 3]> {
    let mut rows = Vec::new();
    for file in files {
        let text = std::fs::read_to_string(file).unwrap_or_else(|why| panic!("{file}: {why}"));
        for line in text.lines().filter(|line| !line.starts_with('#')) {
            let [sign, operands, result] = line.split('\t').collect::<Vec<_>>()[..] else {
                panic!("{file}: no three columns: {line}");
            };
            rows.push([sign, operands, result].map(str::to_string));
        }
    }
    rows
}

/// Holds every row of the files' domain to them. A row that no file lists was refused. True where all agree.
pub fn check(files: &[String]) -> bool {
    let mut listed: HashMap<(String, String), String> = HashMap::new();
    for [sign, operands, result] in rows(files) {
        listed.insert((sign, operands), result);
    }
    // The names of three operands for which rows are at hand; only these were asked for.
    let three: BTreeSet<&str> = listed
        .keys()
        .filter_map(|(sign, _)| THREE.into_iter().find(|name| name == sign))
        .collect();
    let mut held = Held {
        standard: Standard::default(),
        rows: 0,
        accepted: 0,
        wrong: 0,
        listed,
    };
    let types = simples();
    for (op, sign) in UNARY.into_iter().enumerate().take(3) {
        held.one(Operation::Unary(op), sign, &types);
    }
    for (op, sign) in BINARY.into_iter().enumerate() {
        held.two(Operation::Binary(op), sign, &types);
    }
    let asked = |name: &&str| !NOT_RULED.contains(name) && !SAMPLED.contains(name);
    for name in NAMES.into_iter().filter(asked) {
        match name {
            name if TWO.contains(&name) => held.two(Operation::Call(name), name, &types),
            name if THREE.contains(&name) || name == "insertBits" => {}
            name => held.one(Operation::Call(name), name, &types),
        }
    }
    for name in three {
        held.three(name, &types[..PLAINS]);
    }
    let unread = held.listed.len();
    println!(
        "{} rows, {} accepted, {} wrong; {unread} listed rows outside of the domain",
        held.rows, held.accepted, held.wrong
    );
    held.wrong == 0 && unread == 0
}

/// Holds every row of the files to them: refused ones are listed as `refused`, and those without value as `none`. A `*` behind an operand marks one that is known only when
/// running; what stands behind one in parentheses is a remark. Rows of the crate rules are left out, and those with a type that no table holds. True where all agree.
pub fn check_listed(files: &[String]) -> bool {
    let mut held = Held {
        standard: Standard::default(),
        rows: 0,
        accepted: 0,
        wrong: 0,
        listed: HashMap::new(),
    };
    let (mut left_out, mut foreign) = (0, 0);
    for [sign, operands, result] in rows(files) {
        if NOT_RULED.contains(&&sign[..]) {
            left_out += 1;
            continue;
        }
        let operands = without_remarks(&operands);
        let operands: Vec<&str> = operands.split_whitespace().collect();
        let running: Vec<bool> = operands.iter().map(|word| word.ends_with('*')).collect();
        let read = operands
            .iter()
            .map(|word| WType::read(word.trim_end_matches('*')));
        let Some(types) = read.collect::<Option<Vec<WType>>>() else {
            foreign += 1;
            continue;
        };
        let types: Vec<&WType> = types.iter().collect();
        let expected = Some(result).filter(|result| result != "refused");
        held.hold(
            operation(&sign, operands.len()),
            &types,
            &running,
            expected,
            &[OPERANDS, NONE_FITS],
        );
    }
    println!(
        "{} rows, {} accepted, {} wrong; {left_out} of crate rules left out, {foreign} of types that no table holds",
        held.rows, held.accepted, held.wrong
    );
    held.wrong == 0
}

/// The operands without what stands in parentheses: how the compiler was given one.
fn without_remarks(operands: &str) -> String {
    let parts = operands.split('(').enumerate();
    let kept = parts.map(|(i, part)| match part.split_once(')') {
        Some((_, after)) if i > 0 => after,
        _ => part,
    });
    kept.collect()
}

/// The operator of that sign, or the builtin of that name.
fn operation(sign: &str, operands: usize) -> Operation {
    let place = |signs: &[&str]| signs.iter().position(|one| *one == sign);
    let operator = match operands {
        1 => place(&UNARY).map(Operation::Unary),
        2 => place(&BINARY).map(Operation::Binary),
        _ => None,
    };
    let builtin = || names().find(|name| *name == sign).map(Operation::Call);
    let found = operator.or_else(builtin);
    found.unwrap_or_else(|| panic!("no operator and no builtin: {sign}"))
}

struct Held {
    standard: Standard,
    rows: u64,
    accepted: u64,
    wrong: u64,
    listed: HashMap<(String, String), String>,
}

impl Held {
    fn ask(&mut self, operation: Operation, sign: &str, operands: &[&WType]) {
        let spelled: Vec<String> = operands.iter().map(|ty| ty.to_string()).collect();
        let expected = self.listed.remove(&(sign.to_string(), spelled.join(" ")));
        self.hold(operation, operands, &[], expected, &[NONE_FITS]);
    }

    /// Holds the answers to the type that is listed, or to one of some refusals where there is none.
    fn hold(
        &mut self,
        operation: Operation,
        operands: &[&WType],
        running: &[bool],
        expected: Option<String>,
        refusals: &[u32],
    ) {
        let case = Case {
            operation,
            template: &[],
            operands,
            running,
        };
        self.rows += 1;
        self.accepted += u64::from(expected.is_some());
        let mut hold = |whose: &str, answer: Answer| {
            let as_listed = match (&answer, &expected) {
                (Answer::Type(ty), Some(listed)) => ty.to_string() == *listed,
                (Answer::NoValue, Some(listed)) => listed == "none",
                (Answer::Refused(number), None) => refusals.contains(number),
                _ => false,
            };
            if !as_listed {
                println!("WRONG {whose} {case}: {answer}, listed {expected:?}");
                self.wrong += 1;
            }
        };
        hold("standard", self.standard.answer(&case));
        match ours::answer(&case) {
            None => {}
            Some(Ok(answer)) => hold("ours", answer),
            Some(Err(why)) => panic!("{case}: {why}"),
        }
    }

    fn one(&mut self, operation: Operation, sign: &str, types: &[WType]) {
        for a in types {
            self.ask(operation, sign, &[a]);
        }
    }

    fn two(&mut self, operation: Operation, sign: &str, types: &[WType]) {
        for a in types {
            for b in types {
                self.ask(operation, sign, &[a, b]);
            }
        }
    }

    fn three(&mut self, name: &'static str, types: &[WType]) {
        for a in types {
            for b in types {
                for c in types {
                    self.ask(Operation::Call(name), name, &[a, b, c]);
                }
            }
        }
    }
}
