//! Document 01, with request (i) of 02, in Rust: what every public call answers, and what it leaves in the buffers that it is lent.
//! On legal input the results are those of the ported Rust, called unchanged; byte forms, refusals, limits, counts and places are written
//! here from the documents, and not from the port.

pub mod calls;
pub mod extract;
pub mod form;
pub mod free;
pub mod limits;
pub mod names;
pub mod program;
pub mod read;
pub mod reduce;
pub mod refusal;
pub mod stored;
pub mod straight;

pub use limits::Limits;
pub use refusal::{Answer, Refusal};
