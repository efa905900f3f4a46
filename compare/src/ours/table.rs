//! A type table laid out as document 01 says: four words an entry.

use crate::types::{ACCESSES, SCALARS, SPACES, Scalar, WType};

/// Kinds of entries.
pub mod kind {
    pub const VECTOR: u32 = 7;
    pub const MATRIX: u32 = 8;
    pub const ARRAY: u32 = 9;
    pub const ARRAY_WITHOUT_COUNT: u32 = 10;
    pub const ATOMIC: u32 = 11;
    pub const POINTER: u32 = 12;
    pub const REFERENCE: u32 = 13;
    pub const FREXP: u32 = 14;
    pub const MODF: u32 = 15;
    pub const EXCHANGE: u32 = 16;
}

/// Entries enough for any case, its result included.
pub const ENTRIES: usize = 32;

/// Words, of which the first `used` entries are in use.
#[derive(Clone)]
pub struct Table {
    pub words: Vec<u32>,
    pub used: u32,
}

impl Table {
    /// The seven scalars, in a slice of so many entries.
    pub fn new(entries: usize) -> Self {
        let mut table = Table {
            words: vec![0; 4 * entries],
            used: 0,
        };
        for of in SCALARS {
            table.add([of as u32, 0, 0, 0]);
        }
        table
    }

    /// The same table in a slice of so many entries.
    pub fn in_slice(&self, entries: u32) -> Self {
        let mut words = self.words.clone();
        words.resize(4 * entries as usize, 0);
        let used = self.used;
        Table { words, used }
    }

    /// An entry by its four words.
    pub fn entry(&self, number: u32) -> [u32; 4] {
        let at = 4 * number as usize;
        [0, 1, 2, 3].map(|i| self.words[at + i])
    }

    /// The number of an entry, which is added where it is absent.
    fn add(&mut self, entry: [u32; 4]) -> u32 {
        if let Some(number) = (0..self.used).find(|&number| self.entry(number) == entry) {
            return number;
        }
        let at = 4 * self.used as usize;
        self.words[at..at + 4].copy_from_slice(&entry);
        self.used += 1;
        self.used - 1
    }

    /// The number of a type, whose entries are added where they are absent.
    pub fn number(&mut self, ty: &WType) -> u32 {
        let entry = match ty {
            WType::Scalar(of) => return *of as u32,
            WType::Vector(n, of) => [kind::VECTOR, u32::from(*n), 0, *of as u32],
            WType::Matrix(c, r, of) => [kind::MATRIX, u32::from(*c), u32::from(*r), *of as u32],
            WType::Array(elem, Some(count)) => {
                let count = u32::try_from(*count).expect("a count of 32 bits");
                [kind::ARRAY, count, 0, self.number(elem)]
            }
            WType::Array(elem, None) => [kind::ARRAY_WITHOUT_COUNT, 0, 0, self.number(elem)],
            WType::Atomic(of) => [kind::ATOMIC, 0, 0, *of as u32],
            WType::Pointer(space, elem, access) => {
                let elem = self.number(elem);
                [kind::POINTER, *space as u32, *access as u32, elem]
            }
            WType::Reference(space, elem, access) => {
                let elem = self.number(elem);
                [kind::REFERENCE, *space as u32, *access as u32, elem]
            }
            WType::Frexp(fract) => [kind::FREXP, 0, 0, self.number(fract)],
            WType::Modf(fract) => [kind::MODF, 0, 0, self.number(fract)],
            WType::Exchange(of) => [kind::EXCHANGE, 0, 0, *of as u32],
            WType::Foreign(name) => panic!("no entry for {name}"),
        };
        self.add(entry)
    }

    /// The type of a number, or what is wrong with its entry.
    pub fn read(&self, number: u32) -> Result<WType, String> {
        if number >= self.used {
            return Err(format!("number {number} of {} entries", self.used));
        }
        let [kind, p, q, elem] = self.entry(number);
        let wrong = || format!("entry {number}: {kind} {p} {q} {elem}");
        let scalar = |number: u32| -> Result<Scalar, String> {
            SCALARS.get(number as usize).copied().ok_or_else(wrong)
        };
        let below = || -> Result<Box<WType>, String> {
            if elem >= number {
                return Err(wrong());
            }
            self.read(elem).map(Box::new)
        };
        let size = |n: u32| -> Result<u8, String> {
            let n = u8::try_from(n).ok();
            n.filter(|n| (2..=4).contains(n)).ok_or_else(wrong)
        };
        let space = || SPACES.get(p as usize).copied().ok_or_else(wrong);
        let access = || ACCESSES.get(q as usize).copied().ok_or_else(wrong);
        match kind {
            0..=6 if [p, q, elem] == [0, 0, 0] && number == kind => scalar(kind).map(WType::Scalar),
            kind::VECTOR if q == 0 => Ok(WType::Vector(size(p)?, scalar(elem)?)),
            kind::MATRIX => Ok(WType::Matrix(size(p)?, size(q)?, scalar(elem)?)),
            kind::ARRAY if p > 0 && q == 0 => Ok(WType::Array(below()?, Some(u64::from(p)))),
            kind::ARRAY_WITHOUT_COUNT if [p, q] == [0, 0] => Ok(WType::Array(below()?, None)),
            kind::ATOMIC if [p, q] == [0, 0] => Ok(WType::Atomic(scalar(elem)?)),
            kind::POINTER => Ok(WType::Pointer(space()?, below()?, access()?)),
            kind::REFERENCE => Ok(WType::Reference(space()?, below()?, access()?)),
            kind::FREXP if [p, q] == [0, 0] => Ok(WType::Frexp(below()?)),
            kind::MODF if [p, q] == [0, 0] => Ok(WType::Modf(below()?)),
            kind::EXCHANGE if [p, q] == [0, 0] => Ok(WType::Exchange(scalar(elem)?)),
            _ => Err(wrong()),
        }
    }
}

#[cfg(test)]
mod tests {
    use super::*;
    use crate::domain::{on_memory, references, whole};

    #[test]
    fn every_type_comes_back() {
        for ty in whole().iter().chain(&references()).chain(&on_memory()) {
            let mut table = Table::new(ENTRIES);
            let number = table.number(ty);
            assert_eq!(table.read(number).as_ref(), Ok(ty));
        }
    }
}
