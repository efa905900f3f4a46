//! What is asked: the parts of the domain, and the two runs over them.

use crate::case::{Argument, Case, Operation};
use crate::domain::{self, PLAINS, SIMPLES};
use crate::oracle::{argument_to_rust, to_rust};
use crate::ours;
use crate::random::Random;
use crate::run::Run;
use crate::standard::{MEMORY_NAMES, SIZED_HEADS, names};
use crate::tplt::TpltParam;
use crate::ty::Type;
use crate::types::{SCALARS, Scalar, WType};

/// The builtins of two, three and four operands.
pub const TWO: [&str; 12] = [
    "atan2",
    "cross",
    "distance",
    "dot",
    "dot4I8Packed",
    "dot4U8Packed",
    "ldexp",
    "max",
    "min",
    "pow",
    "reflect",
    "step",
];
pub const THREE: [&str; 8] = [
    "clamp",
    "extractBits",
    "faceForward",
    "fma",
    "mix",
    "refract",
    "select",
    "smoothstep",
];
pub const FOUR: &str = "insertBits";

impl Run {
    /// Asks every operation of a list with one list of operands.
    fn ask_all(&mut self, operations: &[Operation], operands: &[&WType], rust: &[Type]) {
        for &operation in operations {
            let case = Case {
                operation,
                template: &[],
                operands,
                running: &[],
            };
            self.ask(&case, &[], rust);
        }
    }

    /// Asks a question whose types are not at hand as the crate's own.
    fn ask_fresh(&mut self, operation: Operation, template: &[Argument], operands: &[&WType]) {
        let case = Case {
            operation,
            template,
            operands,
            running: &[],
        };
        let params: Vec<TpltParam> = template.iter().map(argument_to_rust).collect();
        let rust: Vec<Type> = operands.iter().map(|ty| to_rust(ty)).collect();
        self.ask(&case, &params, &rust);
    }

    /// Calls without operand, calls and operators of one, over every type.
    fn none_and_one(&mut self, types: &[WType]) {
        let calls: Vec<Operation> = names().map(Operation::Call).collect();
        self.ask_all(&calls, &[], &[]);
        self.end("no operand");
        let mut all: Vec<Operation> = (0..5).map(Operation::Unary).collect();
        all.extend(calls);
        for ty in types {
            self.ask_all(&all, &[ty], &[to_rust(ty)]);
        }
        self.end("one operand");
        for ty in &domain::references() {
            self.ask_all(&[Operation::Unary(3)], &[ty], &[to_rust(ty)]);
        }
        self.end("unary & on references");
    }

    /// The operators and every name, over all pairs.
    fn two(&mut self, types: &[WType]) {
        let mut all: Vec<Operation> = (0..18).map(Operation::Binary).collect();
        all.extend(names().map(Operation::Call));
        let rust: Vec<Type> = types.iter().map(to_rust).collect();
        for (a, rust_a) in types.iter().zip(&rust) {
            let mut pair = [rust_a.clone(), rust_a.clone()];
            for (b, rust_b) in types.iter().zip(&rust) {
                pair[1] = rust_b.clone();
                self.ask_all(&all, &[a, b], &pair);
            }
        }
        self.end("two operands");
    }

    /// Every name and unary operator on one operand of calls on memory; these calls on two, of which the second is any of the 55 too; and on three, of which the others
    /// are some of the plain types, an atomic or a result of a compare.
    fn on_memory(&mut self, types: &[WType]) {
        let operands = domain::on_memory();
        let rust: Vec<Type> = operands.iter().map(to_rust).collect();
        let mut all: Vec<Operation> = (0..5).map(Operation::Unary).collect();
        all.extend(names().map(Operation::Call));
        for (ty, rust) in operands.iter().zip(&rust) {
            self.ask_all(&all, &[ty], std::slice::from_ref(rust));
        }
        self.end("one operand of calls on memory");
        let calls = MEMORY_NAMES.map(Operation::Call);
        let mut seconds: Vec<(&WType, Type)> = Vec::new();
        for ty in types[..SIMPLES].iter().chain(&operands) {
            seconds.push((ty, to_rust(ty)));
        }
        for (a, rust_a) in operands.iter().zip(&rust) {
            for (b, rust_b) in &seconds {
                self.ask_all(&calls, &[a, b], &[rust_a.clone(), rust_b.clone()]);
            }
        }
        self.end("calls on memory of two operands");
        // The scalars, the vectors of two, an atomic, a result of a compare.
        let others = || seconds[..14].iter().chain(&seconds[SIMPLES..][1..3]);
        for (a, rust_a) in operands.iter().zip(&rust) {
            for (b, rust_b) in others() {
                for (c, rust_c) in others() {
                    let rust = [rust_a, rust_b, rust_c].map(Type::clone);
                    self.ask_all(&calls, &[a, b, c], &rust);
                }
            }
        }
        self.end("calls on memory of three operands");
    }

    /// Some names over all triples of the plain types.
    fn triples(&mut self, types: &[WType], called: &[&'static str]) {
        let calls: Vec<Operation> = called.iter().copied().map(Operation::Call).collect();
        let plains = &types[..PLAINS];
        for a in plains {
            for b in plains {
                for c in plains {
                    self.ask_all(&calls, &[a, b, c], &[a, b, c].map(to_rust));
                }
            }
        }
        self.end(&format!(
            "{} names on all triples of the plain types",
            called.len()
        ));
    }

    /// insertBits over all pairs of the plain types, with some types as its third and fourth operand.
    fn fours(&mut self, types: &[WType], ends: &[WType]) {
        let plains = &types[..PLAINS];
        for a in plains {
            for b in plains {
                for c in ends {
                    for d in ends {
                        let rust = [a, b, c, d].map(to_rust);
                        self.ask_all(&[Operation::Call(FOUR)], &[a, b, c, d], &rust);
                    }
                }
            }
        }
        self.end(&format!(
            "insertBits on all pairs of the plain types by all pairs of {}",
            ends.len()
        ));
    }

    /// Lists of three and four by a seed: so many over the whole domain, and as many over types that are likely to fit together.
    fn sampled(&mut self, types: &[WType], lists: usize, random: &mut Random) {
        let three: Vec<Operation> = THREE.map(Operation::Call).to_vec();
        let every: Vec<&'static str> = names().collect();
        self.sampling = true;
        for near in [false, true] {
            for index in 0..lists {
                let count = 3 + index % 2;
                let operands: Vec<&WType> = if near {
                    let width = 1 + random.below(4) as u8;
                    let one = |_| near_operand(types, width, random);
                    (0..count).map(one).collect()
                } else {
                    (0..count).map(|_| random.pick(types)).collect()
                };
                let rust: Vec<Type> = operands.iter().map(|ty| to_rust(ty)).collect();
                if count == 3 {
                    self.ask_all(&three, &operands, &rust);
                } else {
                    self.ask_all(&[Operation::Call(FOUR)], &operands, &rust);
                }
                // A name of any operand count.
                let any = Operation::Call(*random.pick(&every));
                self.ask_all(&[any], &operands, &rust);
            }
            let from = if near {
                "near types"
            } else {
                "the whole domain"
            };
            self.end(&format!("{lists} lists of three and four over {from}"));
        }
        self.sampling = false;
    }

    /// Calls with a template list: bitcast at every type, and lists that are not wanted.
    fn call_templates(&mut self, types: &[WType]) {
        let f32 = WType::Scalar(Scalar::F32);
        let of = |ty: &WType| Argument::Type(ty.clone());
        let bitcast = Operation::Call("bitcast");
        for ty in types {
            for operand in types[..SIMPLES].iter().chain(&types[types.len() - 2..]) {
                self.ask_fresh(bitcast, &[of(ty)], &[operand]);
            }
            self.ask_fresh(bitcast, &[of(ty)], &[]);
            self.ask_fresh(bitcast, &[of(ty)], &[&f32, &f32]);
            self.ask_fresh(bitcast, &[of(ty), of(&f32)], &[&f32]);
        }
        for name in names().filter(|name| *name != "bitcast") {
            for count in 0..4 {
                self.ask_fresh(Operation::Call(name), &[of(&f32)], &vec![&f32; count]);
            }
        }
        self.end("calls with a template list");
    }

    /// Template types: every head with every type, every pair and a list of literals.
    fn template_types(&mut self, types: &[WType]) {
        let mut arguments: Vec<Argument> = types.iter().cloned().map(Argument::Type).collect();
        let references = domain::references().into_iter().take(2);
        arguments.extend(references.map(Argument::Type));
        for of in [Scalar::I32, Scalar::U32] {
            arguments.extend([WType::Atomic(of), WType::Exchange(of)].map(Argument::Type));
        }
        let nested = WType::Array(Box::new(types[SIMPLES].clone()), Some(3));
        arguments.push(Argument::Type(nested));
        let literals = literals();
        let heads = SIZED_HEADS.map(|(head, _, _)| head).into_iter();
        for head in heads.chain(["atomic", "array", "vec5", "mat2", "Array", "vec2f"]) {
            let head = Operation::Template(head);
            self.ask_fresh(head, &[], &[]);
            for first in arguments.iter().chain(&literals) {
                self.ask_fresh(head, std::slice::from_ref(first), &[]);
                for second in &literals {
                    self.ask_fresh(head, &[first.clone(), second.clone()], &[]);
                }
                for of in SCALARS {
                    let second = Argument::Type(WType::Scalar(of));
                    self.ask_fresh(head, &[first.clone(), second], &[]);
                }
                let third = Argument::AbstractInt(2);
                self.ask_fresh(head, &[first.clone(), third.clone(), third], &[]);
            }
        }
        self.end("template types");
    }
}

/// A scalar or a vector of a width; now and then any type.
fn near_operand<'a>(types: &'a [WType], width: u8, random: &mut Random) -> &'a WType {
    match random.below(16) {
        0 => random.pick(types),
        1..=5 => &types[random.below(7)],
        _ => &types[7 * (width as usize - 1) + random.below(7)],
    }
}

/// Literals around every bound of a count.
fn literals() -> Vec<Argument> {
    let mut list: Vec<Argument> = [
        i64::MIN,
        -3,
        -1,
        0,
        1,
        4,
        4_294_967_295,
        4_294_967_296,
        4_294_967_297,
        i64::MAX,
    ]
    .map(Argument::AbstractInt)
    .to_vec();
    list.extend([i32::MIN, -3, 0, 1, 4, i32::MAX].map(Argument::I32));
    list.extend([0, 1, 4, 0x8000_0000, u32::MAX].map(Argument::U32));
    list.push(Argument::Bool(true));
    list.push(Argument::F32(1.0f32.to_bits()));
    list
}

/// No, one and two operands over the small domain, templates, and some lists of three and four.
pub fn quick(seed: u64) -> bool {
    println!("quick, seed {seed}; {}", whose());
    let types = domain::small();
    println!("{} types", types.len());
    let mut run = Run::default();
    run.none_and_one(&types);
    run.two(&types);
    run.on_memory(&types);
    run.call_templates(&types);
    run.template_types(&types);
    run.triples(&types, &THREE);
    run.fours(
        &types,
        &[Scalar::AbstractInt, Scalar::U32].map(WType::Scalar),
    );
    run.sampled(&types, 100_000, &mut Random::new(seed));
    run.verdict()
}

/// The whole domain.
pub fn full(seed: u64) -> bool {
    println!("full, seed {seed}; {}", whose());
    let types = domain::whole();
    println!("{} types", types.len());
    let mut run = Run::default();
    run.none_and_one(&types);
    run.two(&types);
    run.on_memory(&types);
    run.call_templates(&types);
    run.template_types(&types);
    run.triples(&types, &names().collect::<Vec<_>>());
    run.fours(&types, &types[..PLAINS]);
    run.sampled(&types, 1_000_000, &mut Random::new(seed));
    run.verdict()
}

fn whose() -> &'static str {
    if ours::LINKED {
        "ours is the linked library, held to document 01's lists too"
    } else {
        "no library is linked: document 01's lists stand for ours"
    }
}
