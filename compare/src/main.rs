//! `compare quick`, `compare full`, `compare sample`, `compare classes`, `compare vectors FILE..`, `compare listed FILE..`; README.md says what each does.

use compare::{classes, oracle, parts, sample, vectors};
use std::process::ExitCode;

/// The seed where none is given.
const SEED: u64 = 1;

fn main() -> ExitCode {
    oracle::quiet();
    let words: Vec<String> = std::env::args().skip(1).collect();
    let seed = || words.get(1).map_or(Ok(SEED), |word| word.parse::<u64>());
    let passed = match (words.first().map(String::as_str), seed()) {
        (Some("vectors"), _) if words.len() > 1 => vectors::check(&words[1..]),
        (Some("listed"), _) if words.len() > 1 => vectors::check_listed(&words[1..]),
        (Some("quick"), Ok(seed)) => parts::quick(seed),
        (Some("full"), Ok(seed)) => parts::full(seed),
        (Some("classes"), _) => {
            print!("{}", classes::as_table());
            true
        }
        (Some("sample"), Ok(seed)) => {
            print!("{}", sample::write(seed));
            true
        }
        _ => {
            eprintln!(
                "compare quick|full|sample [SEED], or compare classes, or compare vectors|listed FILE.."
            );
            return ExitCode::from(2);
        }
    };
    if passed {
        ExitCode::SUCCESS
    } else {
        ExitCode::FAILURE
    }
}
