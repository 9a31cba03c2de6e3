//! Inputs for differential runs and benchmarks: formulas, terms, proofs, stored files, and damaged copies. All from fixed seeds.

pub mod bad;
pub mod damage;
pub mod feeds;
pub mod files;
pub mod formulas;
pub mod inputs;
pub mod names;
pub mod proofs;
pub mod rng;
pub mod straight;
pub mod terms;

pub use rng::Rng;
