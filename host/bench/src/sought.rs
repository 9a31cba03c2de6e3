//! Terms of the greatest size that have a sought name nowhere, once or everywhere, and a variable that is put in for it.

use crate::by_parts::{self, Written};
use crate::calls::{self, Lent};
use crate::families;
use lolli_core::Term;
use patch_model::form::{term_bytes, term_nodes};

pub const OFTEN: [&str; 3] = ["nowhere", "once", "everywhere"];
pub const NODES: usize = 512;

pub const NAME: &str = "feed_main_out";
/// As long as the sought variable, so that the new term fits too.
pub const VALUE: &[u8] = b"\x01\x0dfeed_side_out";

/// The value as the Rust takes it.
pub fn value() -> Term {
    Term::Var("feed_side_out".to_string())
}

/// The term that has the name so often, with its bytes.
pub fn input(often: &str) -> Vec<(Term, Vec<u8>)> {
    let is_sought = |i: usize| often == "everywhere" || often == "once" && i == 128;
    let name = |i: usize| if is_sought(i) { NAME.to_string() } else { format!("feed_{i:03}_left") };
    let term = Term::Promote(Box::new(families::wide(256, &mut 0, &name)));
    let bytes = term_bytes(&term);
    assert_eq!((bytes.len(), term_nodes(&term)), (patch::OUTPUT_ROOM, NODES));
    compare(&term, &bytes);
    vec![(term, bytes)]
}

/// The port, the Rust and a copy by parts make the same term, the last of one piece for each node.
fn compare(term: &Term, bytes: &[u8]) {
    let (mut port, mut parts) = (calls::VARIABLE_PUT_IN.lent(), calls::VARIABLE_PUT_IN.lent());
    (calls::VARIABLE_PUT_IN.run)(bytes, &mut port);
    let Written { length, pieces } = put_in_by_parts(bytes, &mut parts);
    assert_eq!(port.out, term_bytes(&term.substitute(NAME, &value())));
    assert_eq!((parts.out, length, pieces), (port.out, patch::OUTPUT_ROOM, NODES));
}

/// What the port's call does, with the term copied part by part.
pub fn put_in_by_parts(term: &[u8], lent: &mut Lent) -> Written {
    by_parts::substitute_to(term, NAME.as_bytes(), VALUE, &mut lent.out, &mut lent.scratch).unwrap()
}
