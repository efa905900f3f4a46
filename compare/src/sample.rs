//! A fixed list of the crate's answers, for a program that replays them without Rust at hand.
//!
//! A row is the operator or builtin, its operand types with a blank between them, and the type of the result or `-` where it is refused; tabs stand
//! between the three, as in the lists of the WGSL compiler's answers. Only rows on which the crate and `standard` agree are in it. The rows are
//! drawn by a seed from every operator but unary `&` and `*`, and from every builtin of document 01 but `bitcast` and the barriers, over the 55 types that are no
//! array and no pointer; calls of three and four operands over the 28 plain ones.

use crate::case::{Answer, Case, Operation};
use crate::domain::{PLAINS, simples};
use crate::oracle::to_rust;
use crate::ours;
use crate::parts::{FOUR, THREE, TWO};
use crate::random::Random;
use crate::run::oracle;
use crate::standard::{NAMES, Standard};
use crate::ty::Type;
use crate::types::WType;
use std::collections::BTreeSet;

/// The list is no longer than this.
pub const MOST_BYTES: usize = 60_000;

/// How many rows of an operation are drawn: accepted ones, refused ones of operands alike in width, and any refused ones.
struct Quota {
    accepted: usize,
    near: usize,
    far: usize,
}

/// Calls that the row's form has no place for.
const NOT_DRAWN: [&str; 4] = [
    "bitcast",
    "storageBarrier",
    "textureBarrier",
    "workgroupBarrier",
];

/// Every operation that is drawn from, with its operand count.
fn operations() -> Vec<(Operation, usize)> {
    let unary = (0..3).map(|op| (Operation::Unary(op), 1));
    let binary = (0..18).map(|op| (Operation::Binary(op), 2));
    let names = NAMES.into_iter().filter(|name| !NOT_DRAWN.contains(name));
    let calls = names.map(|name| {
        let count = match name {
            FOUR => 4,
            name if THREE.contains(&name) => 3,
            name if TWO.contains(&name) => 2,
            _ => 1,
        };
        (Operation::Call(name), count)
    });
    unary.chain(binary).chain(calls).collect()
}

fn quota(operation: Operation, count: usize) -> Quota {
    let (accepted, near, far) = match (operation, count) {
        (Operation::Binary(_), _) => (21, 13, 4),
        (_, 1) => (6, 2, 1),
        (_, 2) => (12, 7, 3),
        (_, 3) => (15, 9, 2),
        _ => (20, 12, 3),
    };
    Quota {
        accepted,
        near,
        far,
    }
}

/// Lists of operands by their types' numbers: all of them, or so many by the seed where there are too many.
fn lists(count: usize, random: &mut Random) -> Vec<Vec<usize>> {
    let types = if count <= 2 { simples().len() } else { PLAINS };
    if count < 4 {
        let mut lists = vec![Vec::new()];
        for _ in 0..count {
            lists = lists
                .into_iter()
                .flat_map(|list| (0..types).map(move |ty| [&list[..], &[ty]].concat()))
                .collect();
        }
        return lists;
    }
    let drawn: BTreeSet<Vec<usize>> = (0..200_000)
        .map(|_| {
            let width = random.below(4);
            let one = |_| 7 * width + random.below(7);
            let mut list: Vec<usize> = (0..2).map(one).collect();
            list.extend((2..count).map(|_| random.below(7)));
            list
        })
        .collect();
    drawn.into_iter().collect()
}

/// Operands that are scalars, or vectors of one width, or matrices of one shape.
fn alike(operands: &[&WType]) -> bool {
    let shape = |ty: &WType| match ty {
        WType::Matrix(c, r, _) => (*c, *r),
        ty => (ty.as_wide().map_or(0, |(width, _)| width), 0),
    };
    let first = operands.iter().map(|ty| shape(ty)).max();
    let mut shapes = operands.iter().map(|ty| shape(ty));
    shapes.all(|shape| Some(shape) == first || shape == (1, 0))
}

/// The list.
pub fn write(seed: u64) -> String {
    let mut random = Random::new(seed);
    let standard = Standard::default();
    let types = simples();
    let rust: Vec<Type> = types.iter().map(to_rust).collect();
    let mut text = String::new();
    let (mut rows, mut accepted_rows) = (0, 0);
    for (operation, count) in operations() {
        // Accepted, refused near, refused far.
        let mut found: [Vec<String>; 3] = Default::default();
        for list in lists(count, &mut random) {
            let operands: Vec<&WType> = list.iter().map(|&ty| &types[ty]).collect();
            let rust: Vec<Type> = list.iter().map(|&ty| rust[ty].clone()).collect();
            let case = Case {
                operation,
                template: &[],
                operands: &operands,
                running: &[],
            };
            let answer = standard.answer(&case);
            let agreed = oracle(&case, &[], &rust).agrees(&answer)
                && ours::answer(&case).is_none_or(|ours| ours.as_ref() == Ok(&answer));
            if !agreed {
                continue;
            }
            let (bin, result) = match &answer {
                Answer::Type(ty) => (0, ty.to_string()),
                _ => (if alike(&operands) { 1 } else { 2 }, "-".to_string()),
            };
            let spelled: Vec<String> = operands.iter().map(|ty| ty.to_string()).collect();
            found[bin].push(format!(
                "{}\t{}\t{result}\n",
                case.sign(),
                spelled.join(" ")
            ));
        }
        let quota = quota(operation, count);
        for (bin, most) in [quota.accepted, quota.near, quota.far]
            .into_iter()
            .enumerate()
        {
            let drawn = draw(&found[bin], most, &mut random);
            rows += drawn.len();
            accepted_rows += if bin == 0 { drawn.len() } else { 0 };
            text.extend(drawn);
        }
    }
    assert!(text.len() <= MOST_BYTES, "{} bytes", text.len());
    eprintln!(
        "seed {seed}: {rows} rows, {accepted_rows} accepted, {} bytes",
        text.len()
    );
    text
}

/// So many rows of a list, in its order.
fn draw<'a>(found: &'a [String], most: usize, random: &mut Random) -> Vec<&'a str> {
    let mut left = most.min(found.len());
    let mut drawn = Vec::new();
    for (at, row) in found.iter().enumerate() {
        if random.below(found.len() - at) < left {
            drawn.push(row.as_str());
            left -= 1;
        }
    }
    drawn
}
