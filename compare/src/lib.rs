//! Three files of wgsl-types 0.3.2 as an oracle, a reading of document 01, and the comparison of both with Swartabelk.
//!
//! | module | whose lines |
//! |---|---|
//! | `call_ty`, `ops_ty`, `tplt` | the crate's, unchanged, from docs/src |
//! | `standin` | ours: the modules that those three ask for and that were not supplied |
//! | all others | ours |

// The crate's files. The formatter leaves them alone.
#[path = "../../docs/src/src/builtin/call_ty.rs"]
#[rustfmt::skip]
pub mod call_ty;
#[path = "../../docs/src/src/builtin/ops_ty.rs"]
#[rustfmt::skip]
pub mod ops_ty;
#[path = "../../docs/src/src/tplt.rs"]
#[rustfmt::skip]
pub mod tplt;

// What they ask for as `crate::..`.
pub mod standin;
pub use standin::{CallSignature, Error, conv, inst, syntax, ty};

// The comparison.
pub mod case;
pub mod classes;
pub mod domain;
pub mod oracle;
pub mod ours;
pub mod parts;
pub mod random;
pub mod run;
pub mod sample;
pub mod sheets;
pub mod standard;
pub mod types;
pub mod vectors;
