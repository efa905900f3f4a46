//! The classes of disagreement between the crate's three files and Swartabelk.
//!
//! A class says exactly which questions it covers, what the crate's line answers there and what the standard does: a predicate tests all three. Two
//! classes never hold of one question. docs/DIFFERENCES.md tells the same to a reader.

use crate::case::{Answer, Case};

mod holds;

/// A question on which the two disagree.
pub struct Seen<'a> {
    pub case: &'a Case<'a>,
    pub rust: &'a Answer,
    pub ours: &'a Answer,
}

/// A class.
pub struct Class {
    pub name: &'static str,
    /// The smallest question of the class; `run` tests that it is met and that none smaller is.
    pub smallest: &'static str,
    pub standard: &'static str,
    pub rust: &'static str,
    pub ours: &'static str,
    pub holds: fn(&Seen) -> bool,
}

/// Every class.
#[rustfmt::skip]
pub const CLASSES: [Class; 41] = [
    Class {
        name: "not-any-vector", smallest: "!vec2<i32>",
        standard: "refused", rust: "vec2 i32: any vector", ours: "refused 8", holds: holds::not_any_vector,
    },
    Class {
        name: "minus-vector", smallest: "-vec2<i32>",
        standard: "vec2 i32", rust: "refused: scalars only", ours: "vec2 i32", holds: holds::minus_vector,
    },
    Class {
        name: "minus-any-scalar", smallest: "-u32",
        standard: "refused", rust: "u32: any scalar, bool too", ours: "refused 8", holds: holds::minus_any_scalar,
    },
    Class {
        name: "bool-arithmetic", smallest: "bool + bool",
        standard: "refused", rust: "bool: scalars and vectors of bool pass `+ - * / %`", ours: "refused 8", holds: holds::bool_arithmetic,
    },
    Class {
        name: "matrix-sum", smallest: "mat2x3<f32> + mat2x3<f32>",
        standard: "mat2x3 f32", rust: "mat2x2 f32: it answers (c1, c2), for `+` and `-`", ours: "mat2x3 f32", holds: holds::matrix_sum,
    },
    Class {
        name: "matrix-vector-refused", smallest: "vec2<f32> * mat3x2<f32>",
        standard: "vec3 f32", rust: "refused: it wants vecC by matCxR, and matCxR by vecR", ours: "vec3 f32", holds: holds::matrix_vector_refused,
    },
    Class {
        name: "matrix-vector-taken", smallest: "vec2<f32> * mat2x3<f32>",
        standard: "refused", rust: "vec3 f32: the same exchange of columns and rows", ours: "refused 8", holds: holds::matrix_vector_taken,
    },
    Class {
        name: "bool-ordering", smallest: "bool < bool",
        standard: "refused", rust: "bool: the four orderings take any scalar or vector", ours: "refused 8", holds: holds::bool_ordering,
    },
    Class {
        name: "bool-bits", smallest: "bool | bool",
        standard: "bool", rust: "refused: bool only in vectors, for `|` and `&`", ours: "bool", holds: holds::bool_bits,
    },
    Class {
        name: "bits-left-type", smallest: "AbstractInt | i32",
        standard: "i32", rust: "AbstractInt: `|`, `&` and `^` give the left type unconverted", ours: "i32", holds: holds::bits_left_type,
    },
    Class {
        name: "shift-by-vector", smallest: "i32 << vec2<u32>",
        standard: "refused", rust: "i32: any left type beside a vector that converts to u32", ours: "refused 8", holds: holds::shift_by_vector,
    },
    Class {
        name: "float-abstract-int", smallest: "cos(AbstractInt)",
        standard: "AbstractFloat", rust: "refused: it asks the first operand for a float, and AbstractInt is none", ours: "AbstractFloat",
        holds: holds::float_abstract_int,
    },
    Class {
        name: "float-vector-abstract-int", smallest: "normalize(vec2<AbstractInt>)",
        standard: "vec2 AbstractFloat", rust: "refused: likewise, for cross, faceForward, normalize, reflect", ours: "vec2 AbstractFloat",
        holds: holds::float_vector_abstract_int,
    },
    Class {
        name: "third-abstract-int", smallest: "mix(vec2<f32>, vec2<f32>, AbstractInt)",
        standard: "vec2 f32", rust: "refused: beside two vectors it asks the third operand for a float, in mix and refract", ours: "vec2 f32",
        holds: holds::third_abstract_int,
    },
    Class {
        name: "pow-any", smallest: "pow(i32, i32)",
        standard: "refused", rust: "i32: any two types with a common type, pointers and arrays too", ours: "refused 8", holds: holds::pow_any,
    },
    Class {
        name: "pow-abstract-int", smallest: "pow(AbstractInt, AbstractInt)",
        standard: "AbstractFloat", rust: "AbstractInt: the common type", ours: "AbstractFloat", holds: holds::pow_abstract_int,
    },
    Class {
        name: "cross-width", smallest: "cross(vec2<f32>, vec2<f32>)",
        standard: "refused", rust: "vec2 f32: vectors of any width", ours: "refused 8", holds: holds::cross_width,
    },
    Class {
        name: "determinant-matrix", smallest: "determinant(mat2x2<f32>)",
        standard: "f32", rust: "mat2x2 f32: the matrix itself", ours: "f32", holds: holds::determinant_matrix,
    },
    Class {
        name: "reverse-bits-abstract", smallest: "reverseBits(AbstractInt)",
        standard: "i32", rust: "AbstractInt: the operand's type, where its five fellows concretize", ours: "i32", holds: holds::reverse_bits_abstract,
    },
    Class {
        name: "insert-bits-float", smallest: "insertBits(AbstractInt, f32, u32, u32)",
        standard: "refused", rust: "f32: it asks the first operand alone for an integer", ours: "refused 8", holds: holds::insert_bits_float,
    },
    Class {
        name: "quantize-abstract-float", smallest: "quantizeToF16(AbstractFloat)",
        standard: "f32", rust: "AbstractFloat: the operand's type", ours: "f32", holds: holds::quantize_abstract_float,
    },
    Class {
        name: "quantize-abstract-int", smallest: "quantizeToF16(AbstractInt)",
        standard: "f32", rust: "refused: AbstractInt concretizes to i32", ours: "f32", holds: holds::quantize_abstract_int,
    },
    Class {
        name: "derivative-f16", smallest: "dpdx(f16)",
        standard: "refused", rust: "a panic: it unwraps a conversion to f32 that f16 lacks", ours: "refused 8", holds: holds::derivative_f16,
    },
    Class {
        name: "pack-clamp-refused", smallest: "pack4xI8Clamp(vec4<i32>)",
        standard: "u32", rust: "refused: pack4xI8Clamp and pack4xU8Clamp want f32", ours: "u32", holds: holds::pack_clamp_refused,
    },
    Class {
        name: "pack-clamp-float", smallest: "pack4xI8Clamp(vec4<f32>)",
        standard: "refused", rust: "u32: both take f32", ours: "refused 8", holds: holds::pack_clamp_float,
    },
    Class {
        name: "all-any", smallest: "all(i32)",
        standard: "refused", rust: "bool: any operand", ours: "refused 8", holds: holds::all_any,
    },
    Class {
        name: "select-width", smallest: "select(vec2<i32>, vec2<i32>, vec3<bool>)",
        standard: "refused", rust: "vec2 i32: it does not compare the widths", ours: "refused 8", holds: holds::select_width,
    },
    Class {
        name: "shuffle-by-i32", smallest: "subgroupShuffleUp(i32, i32)",
        standard: "refused", rust: "i32: subgroupShuffleDown, Up and Xor take any integer scalar as their second operand, which is u32", ours: "refused 8",
        holds: holds::shuffle_by_i32,
    },
    Class {
        name: "matrix-of-abstract", smallest: "mat2x2<AbstractFloat>",
        standard: "refused", rust: "mat2x2 AbstractFloat: any float", ours: "refused 5", holds: holds::matrix_of_abstract,
    },
    Class {
        name: "array-count-wide", smallest: "array<i32,4294967296>",
        standard: "refused", rust: "that array: any count above 0", ours: "refused 6", holds: holds::array_count_wide,
    },
    Class {
        name: "array-element", smallest: "array<array<i32>>",
        standard: "refused", rust: "that array: any element, a pointer, a reference or an array without count too", ours: "refused 5",
        holds: holds::array_element,
    },
    Class {
        name: "atomic-any-pointer", smallest: "atomicLoad(ptr<private,atomic<i32>,read>)",
        standard: "refused", rust: "i32: a pointer to an atomic in any space, with any access", ours: "refused 8", holds: holds::atomic_any_pointer,
    },
    Class {
        name: "atomic-any-value", smallest: "atomicOr(ptr<storage,atomic<i32>,read_write>, u32)",
        standard: "refused", rust: "i32: values of any type", ours: "refused 8", holds: holds::atomic_any_value,
    },
    Class {
        name: "atomic-store-count", smallest: "atomicStore(ptr<private,atomic<i32>,read>)",
        standard: "refused", rust: "no value: atomicStore takes any number of values", ours: "refused 7", holds: holds::atomic_store_count,
    },
    Class {
        name: "uniform-load-access", smallest: "workgroupUniformLoad(ptr<workgroup,i32,read>)",
        standard: "refused", rust: "i32: any access", ours: "refused 8", holds: holds::uniform_load_access,
    },
    Class {
        name: "uniform-load-element", smallest: "workgroupUniformLoad(ptr<workgroup,array<f32>,read_write>)",
        standard: "refused", rust: "array f32: any element, arrays without count and of atomics too", ours: "refused 8", holds: holds::uniform_load_element,
    },
    Class {
        name: "uniform-load-atomic", smallest: "workgroupUniformLoad(ptr<workgroup,atomic<i32>,read_write>)",
        standard: "i32", rust: "atomic i32: the element, unloaded", ours: "i32", holds: holds::uniform_load_atomic,
    },
    Class {
        name: "ldexp-mixed", smallest: "ldexp(f32, AbstractInt)",
        standard: "f32", rust: "refused: it asks that both operands are abstract, or neither, before any conversion", ours: "f32", holds: holds::ldexp_mixed,
    },
    Class {
        name: "ldexp-abstract-int", smallest: "ldexp(AbstractInt, i32)",
        standard: "f32", rust: "refused: it asks the first operand for a float, and AbstractInt is none", ours: "f32", holds: holds::ldexp_abstract_int,
    },
    Class {
        name: "ldexp-width", smallest: "ldexp(vec2<f32>, vec3<i32>)",
        standard: "refused", rust: "vec2 f32: it does not compare the widths", ours: "refused 8", holds: holds::ldexp_width,
    },
    Class {
        name: "array-length-any", smallest: "arrayLength(i32)",
        standard: "refused", rust: "u32: any operand", ours: "refused 8", holds: holds::array_length_any,
    },
];

/// A row of the list in docs/DIFFERENCES.md, but for its counts.
fn as_row(class: &Class) -> String {
    let Class {
        name,
        smallest,
        standard,
        rust,
        ours,
        ..
    } = class;
    let cell = |text: &str| text.replace('|', "\\|");
    format!(
        "| {name} | `{}` | {standard} | {} | {ours} |",
        cell(smallest),
        cell(rust)
    )
}

/// Every class as a row of docs/DIFFERENCES.md.
pub fn as_table() -> String {
    let rows: Vec<String> = CLASSES.iter().map(|class| as_row(class) + "\n").collect();
    rows.concat()
}

#[cfg(test)]
mod tests {
    use super::*;

    /// The page lists every class in these words, and no other.
    #[test]
    fn the_page_lists_every_class() {
        let page = include_str!("../../docs/DIFFERENCES.md");
        for class in &CLASSES {
            let row = as_row(class);
            assert!(page.contains(&row), "not in docs/DIFFERENCES.md: {row}");
        }
        let listed = page.lines().filter(|line| {
            let name = line
                .strip_prefix("| ")
                .and_then(|rest| rest.split(' ').next());
            name.is_some_and(|name| name.contains('-') && !name.starts_with('-'))
        });
        assert_eq!(listed.count(), CLASSES.len());
    }
}
