//! The ported Rust, unchanged: formulas, proofs, sequents and terms of docs/src.

#[path = "../../../../docs/src/crates/lolli-core/src/formula.rs"]
pub mod formula;
#[path = "../../../../docs/src/crates/lolli-core/src/proof.rs"]
pub mod proof;
#[path = "../../../../docs/src/crates/lolli-core/src/sequent.rs"]
pub mod sequent;
#[path = "../../../../docs/src/crates/lolli-core/src/term.rs"]
pub mod term;

pub use formula::Formula;
pub use proof::{Proof, Rule};
pub use sequent::{Sequent, TwoSidedSequent};
pub use term::Term;
