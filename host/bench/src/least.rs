//! Where the port is nearest to the Rust, or behind it: terms, formulas and proofs of 50 nodes or more, each way of nesting by itself and random ones.

use crate::calls::{self, kept, Call, Lent};
use crate::{shapes, timing};
use lolli_core::{Formula, Proof, Term};
use lolli_extract::{is_normal, normalize_bounded, step, Extractor};
use std::cell::RefCell;
use std::hint::black_box;

/// What a call is tried on: how it was made, its nodes, the value that the Rust takes and the bytes that the port takes.
pub struct Shape<T> {
    pub name: String,
    pub nodes: usize,
    pub value: T,
    pub bytes: Vec<u8>,
}

/// How many of each call are shown.
const SHOWN: usize = 5;
const ROUNDS: usize = 5;
/// How long one side of a round runs.
const NANOS: f64 = 2e5;
/// Enough for any reduction that ends here; one that does not is as long on both sides.
const STEPS: u32 = 100;

pub fn table() {
    println!(
        "{:<14} {:>6} {:>5} {:>7}  {:<38} {:>6} {:>6} {:>10} {:>10} {:>7}",
        "call", "tried", "part", "slower", "nearest", "nodes", "bytes", "Rust ns", "port ns", "ratio"
    );
    let terms = shapes::terms();
    let of_terms = |name, call, rust: &dyn Fn(&Term)| row(name, &terms, calls::CHECK_TERM, call, rust);
    of_terms("text", calls::TERM_TEXT, &|t| kept(t.pretty()));
    of_terms("free names", calls::FREE_NAMES, &|t| kept(t.free_vars()));
    of_terms("substitution", calls::UNIT_PUT_IN, &|t| kept(t.substitute("x", &Term::Unit)));
    of_terms("is normal", calls::IS_NORMAL, &|t| kept(is_normal(t)));
    of_terms("step", calls::STEP, &|t| kept(step(t)));
    of_terms("reduction", Call { run: reduce, ..calls::REDUCTION }, &|t| kept(normalize_bounded(t, STEPS as usize)));
    row("formula text", &shapes::formulas(), calls::CHECK_FORMULA, calls::FORMULA_TEXT, &|f: &Formula| kept(f.pretty()));
    row("extraction", &shapes::proofs(), calls::CHECK_PROOF, calls::EXTRACTION, &|p: &Proof| kept(Extractor::new().extract(p)));
    println!("ratio: how often the port does it while the Rust does it once");
    println!("part: inputs of which the Rust sees a part only and is done before the port has read them; they are not in what follows");
    println!("slower: how many of the others have a ratio under 1");
}

fn reduce(term: &[u8], lent: &mut Lent) {
    kept(patch::normalize_bounded_to(term, STEPS, &mut lent.out, &mut lent.scratch).is_ok());
}

/// The inputs of a call on which the port is least faster.
fn row<T>(name: &str, shapes: &[Shape<T>], check: Call, call: Call, rust: &dyn Fn(&T)) {
    let mut seen: Vec<(f64, f64, &Shape<T>)> = shapes.iter().filter_map(|shape| tried(shape, &check, &call, rust)).collect();
    seen.sort_by(|a, b| (a.0 / a.1).total_cmp(&(b.0 / b.1)));
    let slower = seen.iter().filter(|(its, ours, _)| its < ours).count();
    for (i, (its, ours, shape)) in seen.iter().take(SHOWN).enumerate() {
        let first = || format!("{name:<14} {:>6} {:>5} {slower:>7}", shapes.len(), shapes.len() - seen.len());
        let head = if i == 0 { first() } else { " ".repeat(35) };
        println!("{head}  {:<38} {:>6} {:>6} {its:>10.0} {ours:>10.0} {:>7.2}", shape.name, shape.nodes, shape.bytes.len(), its / ours);
    }
}

/// Both times, unless the Rust is done before the port has read its input.
fn tried<'a, T>(shape: &'a Shape<T>, check: &Call, call: &Call, rust: &dyn Fn(&T)) -> Option<(f64, f64, &'a Shape<T>)> {
    let lent = RefCell::new(call.lent());
    let other = || rust(black_box(&shape.value));
    let port = |call: &Call| (call.run)(black_box(&shape.bytes), &mut lent.borrow_mut());
    let (its, ours) = timing::both(&other, &|| port(call), ROUNDS, NANOS);
    let (again, reading) = timing::both(&other, &|| port(check), ROUNDS, NANOS);
    (reading <= again).then_some((its, ours, shape))
}
