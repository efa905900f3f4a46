//! Stand-ins for the modules of wgsl-types 0.3.2 that were not supplied.
//!
//! They are written from the WGSL standard, as small as the three supplied files allow. Where the real module departs from the standard, a run over
//! these cannot show it; the head of each file says what that is.

pub mod conv;
pub mod error;
pub mod inst;
pub mod syntax;
pub mod ty;

pub use error::{CallSignature, Error};
