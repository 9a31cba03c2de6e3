//! The readers of formulas and terms, and the bad inputs that every call on them has to refuse alike.

use crate::case::{Call, Case};
use crate::run::{listed, random};
use patch_generate::bad::{bad_inputs, FORMULAS, TERMS};
use patch_generate::damage::mostly_damaged;
use patch_generate::inputs::{formula, term};
use patch_generate::{terms, Rng};
use patch_harness::Verdict;
use patch_model::form::term_bytes;

/// A call on these inputs with buffers of all lengths near the least, and with none.
pub fn lent_lengths(call: Call, inputs: &[Vec<u8>]) -> Vec<Case> {
    let mut cases = Vec::new();
    for input in inputs {
        for at in 0..call.rooms().len() {
            let room = call.rooms()[at];
            for length in [0, 1, room / 2, room - 2, room - 1, room, room + 1, room + 17, room + 1000] {
                let mut case = Case::new(call, vec![input.clone()]);
                case.lent[at] = length;
                cases.push(case);
            }
        }
    }
    cases
}

pub fn all() -> Verdict {
    let check = |call: Call, bytes: Vec<u8>| Case::new(call, vec![bytes]);
    let bad_formulas: Vec<Case> = bad_inputs(&FORMULAS).into_iter().map(|bytes| check(Call::CheckFormula, bytes)).collect();
    let bad_terms: Vec<Case> = bad_inputs(&TERMS).into_iter().map(|bytes| check(Call::CheckTerm, bytes)).collect();
    let small: Vec<Case> =
        (1..=3).flat_map(|nodes| terms::all(nodes, &["x", "y"])).map(|t| check(Call::CheckTerm, term_bytes(&t))).collect();
    Ok(listed("check of bad formulas", &bad_formulas)?
        + listed("check of bad terms", &bad_terms)?
        + listed("check of every term to 3 nodes over two names", &small)?
        + random("check of formulas, whole and damaged", 100_000, |index| {
            let mut rng = Rng::new(0x6368_6563, index);
            let bytes = formula(&mut rng);
            check(Call::CheckFormula, mostly_damaged(&mut rng, bytes))
        })?
        + random("check of terms, whole and damaged", 200_000, |index| {
            let mut rng = Rng::new(0x7465_726d, index);
            let bytes = term(&mut rng);
            check(Call::CheckTerm, mostly_damaged(&mut rng, bytes))
        })?)
}
