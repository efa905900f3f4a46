//! The comparison: each question is put to the crate's files, to `standard` and to Swartabelk, and every disagreement to the classes.

use crate::case::{Answer, Case, Operation};
use crate::classes::{CLASSES, Seen};
use crate::oracle::{oracle_binary, oracle_call, oracle_template, oracle_unary};
use crate::ours;
use crate::standard::{Standard, names};
use crate::tplt::TpltParam;
use crate::ty::Type;
use std::time::Instant;

/// At most so many failures are printed.
const SHOWN: u64 = 40;

/// The crate's answer to a question whose types are at hand as the crate's own.
pub fn oracle(case: &Case, template: &[TpltParam], operands: &[Type]) -> Answer {
    match case.operation {
        Operation::Unary(op) => oracle_unary(op, &operands[0]),
        Operation::Binary(op) => oracle_binary(op, &operands[0], &operands[1]),
        Operation::Call(name) => oracle_call(name, template, operands),
        Operation::Template(head) => oracle_template(head, template),
    }
}

/// How small a question is: fewer operands, then a shorter spelling, then the earlier sign.
type Size = (usize, usize, usize);

/// What a class has met.
#[derive(Clone, Default)]
struct Met {
    /// Rows of the exhaustive parts, each met once but for those of pointers to six plain types, which two parts have.
    listed: u64,
    /// Rows of the sampled parts, in which one may stand twice.
    sampled: u64,
    /// The smallest question, and what was answered.
    smallest: Option<(Size, String, String)>,
}

/// The counts of a run.
pub struct Run {
    standard: Standard,
    part: u64,
    part_agreed: u64,
    rows: u64,
    agreed: u64,
    failed: u64,
    /// Whether the part is a sampled one.
    pub sampling: bool,
    met: Vec<Met>,
    started: Instant,
}

impl Default for Run {
    fn default() -> Self {
        Run {
            standard: Standard::default(),
            part: 0,
            part_agreed: 0,
            rows: 0,
            agreed: 0,
            failed: 0,
            sampling: false,
            met: vec![Met::default(); CLASSES.len()],
            started: Instant::now(),
        }
    }
}

impl Run {
    fn fail(&mut self, what: &str) {
        self.failed += 1;
        if self.failed <= SHOWN {
            println!("FAILED {what}");
        }
    }

    /// Puts one question to all.
    pub fn ask(&mut self, case: &Case, template: &[TpltParam], operands: &[Type]) {
        self.part += 1;
        let rust = oracle(case, template, operands);
        let standard = self.standard.answer(case);
        let ours = match ours::answer(case) {
            None => standard,
            Some(Ok(ours)) => {
                if ours != standard {
                    self.fail(&format!("{case}: ours {ours}, document 01 {standard}"));
                }
                ours
            }
            Some(Err(why)) => return self.fail(&format!("{case}: {why}")),
        };
        if rust.agrees(&ours) {
            self.part_agreed += 1;
        } else {
            self.classify(case, &rust, &ours);
        }
    }

    fn classify(&mut self, case: &Case, rust: &Answer, ours: &Answer) {
        let seen = Seen { case, rust, ours };
        let holding: Vec<usize> = (0..CLASSES.len())
            .filter(|&i| (CLASSES[i].holds)(&seen))
            .collect();
        let [class] = holding[..] else {
            let names: Vec<&str> = holding.iter().map(|&i| CLASSES[i].name).collect();
            return self.fail(&format!(
                "{case}: the Rust {rust}, ours {ours}, in {} classes {names:?}",
                holding.len()
            ));
        };
        let spelled = case.to_string();
        let size = (case.operands.len(), spelled.len(), sign_number(case));
        let met = &mut self.met[class];
        if self.sampling {
            met.sampled += 1;
        } else {
            met.listed += 1;
        }
        let smaller = met
            .smallest
            .as_ref()
            .is_none_or(|(least, _, _)| size < *least);
        if smaller {
            met.smallest = Some((size, spelled, format!("the Rust {rust}, ours {ours}")));
        }
    }

    /// Ends a part and prints its line.
    pub fn end(&mut self, title: &str) {
        println!(
            "{title}: {} rows, {} agreed, {} not [{:.1} s]",
            self.part,
            self.part_agreed,
            self.part - self.part_agreed,
            self.started.elapsed().as_secs_f64()
        );
        self.rows += self.part;
        self.agreed += self.part_agreed;
        self.part = 0;
        self.part_agreed = 0;
    }

    /// Prints the classes and the verdict; true where nothing failed.
    pub fn verdict(mut self) -> bool {
        println!(
            "\nclass, rows of the exhaustive parts, rows of the sampled parts, smallest input"
        );
        for (class, met) in CLASSES.iter().zip(self.met.clone()) {
            let (smallest, answers) = match met.smallest {
                Some((_, case, answers)) => (case, answers),
                None => ("none".to_string(), String::new()),
            };
            println!(
                "{:<26} {:>7} {:>7}  {smallest}: {answers}",
                class.name, met.listed, met.sampled
            );
            if smallest != class.smallest {
                self.fail(&format!(
                    "class {}: the smallest is {smallest}, the list says {}",
                    class.name, class.smallest
                ));
            }
        }
        println!();
        let classed: u64 = self.met.iter().map(|met| met.listed + met.sampled).sum();
        println!(
            "{} rows: {} agreed, {classed} in {} classes, {} failed [{:.1} s]",
            self.rows,
            self.agreed,
            CLASSES.len(),
            self.failed,
            self.started.elapsed().as_secs_f64()
        );
        self.failed == 0
    }
}

/// Where the sign of a question stands among its fellows.
fn sign_number(case: &Case) -> usize {
    match case.operation {
        Operation::Unary(op) | Operation::Binary(op) => op,
        Operation::Call(name) => names()
            .position(|other| other == name)
            .unwrap_or(usize::MAX),
        Operation::Template(_) => 0,
    }
}
