//! Document 01's domain: the 28 scalar and vector types, the 27 matrices, and arrays of and pointers to those, one level deep. And operands of document 02's calls on
//! memory.

use crate::types::{ACCESSES, Access, FLOATS, SCALARS, SPACES, Scalar, Space, WIDTHS, WType};

/// How many of the types are plain, and how many are plain or matrices; these come first.
pub const PLAINS: usize = 28;
pub const SIMPLES: usize = 55;

/// The 55 types that are no array and no pointer, in document 01's order of plain numbers, then by columns, rows, component.
pub fn simples() -> Vec<WType> {
    let mut types: Vec<WType> = [1, 2, 3, 4]
        .into_iter()
        .flat_map(|width| SCALARS.map(|of| WType::wide(width, of)))
        .collect();
    for c in WIDTHS {
        for r in WIDTHS {
            types.extend(FLOATS.map(|of| WType::Matrix(c, r, of)));
        }
    }
    types
}

/// Every space a pointer may have, with every access.
pub fn pointer_forms() -> Vec<(Space, Access)> {
    let spaces = SPACES.into_iter().filter(|&space| space != Space::Handle);
    spaces
        .flat_map(|space| ACCESSES.map(|access| (space, access)))
        .collect()
}

/// The domain with arrays of some counts and pointers of some forms.
fn with(counts: &[Option<u64>], forms: &[(Space, Access)]) -> Vec<WType> {
    let simples = simples();
    let mut types = simples.clone();
    for elem in &simples {
        types.extend(
            counts
                .iter()
                .map(|&count| WType::Array(Box::new(elem.clone()), count)),
        );
    }
    for elem in simples.iter().filter(|elem| !elem.is_abstract()) {
        types.extend(
            forms
                .iter()
                .map(|&(space, access)| WType::Pointer(space, Box::new(elem.clone()), access)),
        );
    }
    types
}

/// The whole domain. Of arrays, which have too many counts for any list, those of 1, of 4 and without count.
pub fn whole() -> Vec<WType> {
    with(&[Some(1), Some(4), None], &pointer_forms())
}

/// The domain with two forms of pointers and two of arrays.
pub fn small() -> Vec<WType> {
    with(
        &[Some(4), None],
        &[
            (Space::Workgroup, Access::Read),
            (Space::Storage, Access::ReadWrite),
        ],
    )
}

/// What calls on memory may point to beside the 55: atomics, results of a compare, arrays.
fn elements_in_memory() -> Vec<WType> {
    let arrays =
        |elem: &WType| [Some(4), None].map(|count| WType::Array(Box::new(elem.clone()), count));
    let components = [Scalar::I32, Scalar::U32];
    let atomics = components.map(WType::Atomic);
    let mut types = [atomics.clone(), components.map(WType::Exchange)].concat();
    types.extend(types.clone().iter().flat_map(arrays));
    types.extend(atomics.iter().map(|atomic| {
        let inner = WType::Array(Box::new(atomic.clone()), Some(4));
        WType::Array(Box::new(inner), Some(3))
    }));
    types
}

/// Operands of calls on memory: atomics, results of a compare and arrays of both, and pointers of every form to those, to arrays of f32 and to some of the 55.
pub fn on_memory() -> Vec<WType> {
    let mut types = elements_in_memory();
    let mut pointed = types.clone();
    let f32 = WType::Scalar(Scalar::F32);
    pointed.extend([Some(4), None].map(|count| WType::Array(Box::new(f32.clone()), count)));
    pointed.extend([Scalar::Bool, Scalar::I32, Scalar::U32, Scalar::F32].map(WType::Scalar));
    pointed.extend([
        WType::Vector(2, Scalar::U32),
        WType::Matrix(2, 2, Scalar::F32),
    ]);
    for elem in pointed {
        let pointer = |(space, access)| WType::Pointer(space, Box::new(elem.clone()), access);
        types.extend(pointer_forms().into_iter().map(pointer));
    }
    types
}

/// References to the concrete types among the 55.
pub fn references() -> Vec<WType> {
    let mut types = Vec::new();
    for elem in simples().iter().filter(|elem| !elem.is_abstract()) {
        for space in SPACES {
            types.extend(
                ACCESSES.map(|access| WType::Reference(space, Box::new(elem.clone()), access)),
            );
        }
    }
    types
}
