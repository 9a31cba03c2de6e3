//! What `patchrun` prints for its standard input (01, "Run").

use crate::limits::Limits;
use crate::read;
use crate::reduce::{reduce, Reduced};
use crate::refusal::Refusal;
use crate::stored::{content, Kind};
use lolli_core::Term;

pub const STEPS: u32 = 1000;

pub fn patchrun(limits: &Limits, input: &[u8]) -> Vec<u8> {
    match reduced(limits, input) {
        Ok((told, term)) => format!("{}\n{}", term.pretty(), counts_line(&told)).into_bytes(),
        Err(refusal) => format!("refused {} at {}\n", refusal.number, refusal.place).into_bytes(),
    }
}

fn reduced(limits: &Limits, input: &[u8]) -> Result<(Reduced, Term), Refusal> {
    let term = read::term(limits, 1, &content(limits, Kind::Term, input)?)?;
    let (told, last) = reduce(limits, term, STEPS);
    Ok((told?, last))
}

fn counts_line(told: &Reduced) -> String {
    let names = ["app", "let", "case", "fst", "snd", "derelict", "copy", "discard"];
    let mut line = format!("steps {}", told.steps);
    for (name, count) in names.iter().zip(told.counts) {
        line += &format!(" {name} {count}");
    }
    line + if told.normal { " normal yes\n" } else { " normal no\n" }
}
