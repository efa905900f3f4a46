//! Swartabelk through its C header. The library is linked where `SWARTABELK_LIB` named its folder; else nothing here is called.

use crate::case::{Answer, Case};

#[cfg(swartabelk)]
pub mod linked;
pub mod table;

/// Swartabelk's answer, or `None` where the library is not linked. The error says which promise of the header a reply broke.
#[cfg(not(swartabelk))]
pub fn answer(_case: &Case) -> Option<Result<Answer, String>> {
    None
}

/// Swartabelk's answer, or `None` where the library is not linked. The error says which promise of the header a reply broke.
#[cfg(swartabelk)]
pub fn answer(case: &Case) -> Option<Result<Answer, String>> {
    Some(linked::answer(case))
}

/// Whether the library is linked.
pub const LINKED: bool = cfg!(swartabelk);
