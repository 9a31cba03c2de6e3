//! Prints crates/vectors/stdin: answers for every public call, larger than antt can compute, which the program crates/vectors replays.
//! A record is a call's number and six fields, each a length in two bytes, low first, and the bytes:
//!   numbers   the call's own number (a step limit, a counter, which child), and the lengths lent of output, scratch and row
//!   wanted    what is left in output and scratch (0 as it was, 1 the answer and then zeros), then the answer as C is told it; of an Extractor
//!             two answers, each with the counter after it, and what is left in the row (1 as it was, 2 zeros)
//!   output    the bytes of the answer; of an Extractor the last one
//!   three inputs
//! A number has four bytes, low first. `make vectors` prints the list anew; `cargo test -p cases` compares.

#[allow(dead_code)]
#[path = "../../make.rs"]
mod make;

mod extractions;
mod faults;
mod patches;
mod record;
mod rounds;

use record::{Call, Case, CALLS};
use std::collections::{BTreeMap, BTreeSet};
use std::io::Write;

/// What the program reads at once.
#[cfg(test)]
const MOST: usize = 300_000;

/// The records so far, how many there are of each call, and which refusals are among their answers (0 for none).
#[derive(Default)]
pub struct List {
    bytes: Vec<u8>,
    records: BTreeMap<Call, usize>,
    met: BTreeSet<(Call, u64)>,
}

impl List {
    fn put(&mut self, case: Case) {
        let wanted = case.wanted();
        self.bytes.extend(case.record(&wanted));
        *self.records.entry(case.call).or_default() += 1;
        self.met.extend(wanted.refusals.into_iter().map(|number| (case.call, number)));
    }
}

fn printed() -> List {
    let mut list = List::default();
    rounds::all(&mut list);
    patches::all(&mut list);
    extractions::all(&mut list);
    faults::all(&mut list);
    list
}

/// What the program prints if all is right.
fn said(list: &List) -> String {
    let line = |name: &str, records: usize| format!("{name}: {records} of {records} right\n");
    let each = CALLS.iter().map(|(call, name)| line(name, list.records[call]));
    line("all calls", list.records.values().sum()) + &each.collect::<String>()
}

/// The list; with the word `said`, what the program prints if all is right.
fn main() {
    let list = printed();
    let told = if std::env::args().any(|word| word == "said") { said(&list).into_bytes() } else { list.bytes };
    std::io::stdout().write_all(&told).unwrap();
}

#[cfg(test)]
mod tests {
    use super::*;

    const PROGRAM: &str = concat!(env!("CARGO_MANIFEST_DIR"), "/../../crates/vectors/");

    #[test]
    fn the_list_is_what_is_printed() {
        let list = printed();
        let file = |name: &str| std::fs::read(format!("{PROGRAM}{name}")).unwrap();
        assert!(file("stdin") == list.bytes && file("stdout") == said(&list).as_bytes(), "print it anew");
        assert!(list.bytes.len() <= MOST);
    }

    #[test]
    fn every_call_gives_each_answer_that_it_can() {
        let met = printed().met;
        for (call, numbers) in faults::GIVEN {
            for number in [&[0], numbers].concat() {
                assert!(met.contains(&(call, number)), "{call:?} never gives {number}");
            }
        }
    }
}
