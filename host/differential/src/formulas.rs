//! The text of formulas.

use crate::case::{Call, Case};
use crate::readers::lent_lengths;
use crate::run::{listed, random};
use patch_generate::bad::{bad_inputs, FORMULAS};
use patch_generate::damage::damage;
use patch_generate::inputs::formula;
use patch_generate::{formulas, Rng};
use patch_harness::Verdict;
use patch_model::form::formula_bytes;

pub fn all() -> Verdict {
    let text = |bytes: Vec<u8>| Case::new(Call::FormulaText, vec![bytes]);
    let small: Vec<Case> =
        (1..=5).flat_map(|nodes| formulas::all(nodes, &["A", "b_1"])).map(|formula| text(formula_bytes(&formula))).collect();
    let mut bad: Vec<Case> = bad_inputs(&FORMULAS).into_iter().map(text).collect();
    bad.extend(lent_lengths(Call::FormulaText, &[vec![13, 1, 1, b'A', 5], vec![13, 1, 1, b'A'], vec![5; 4097]]));
    Ok(listed("text of every formula to 5 nodes over two atoms", &small)?
        + listed("text of bad inputs, and buffers of all lengths near the least", &bad)?
        + random("text of random formulas, up to the limits and one over", 100_000, |index| {
            let mut rng = Rng::new(0x7465_7874, index);
            text(formula(&mut rng)).lent_by(&mut rng)
        })?
        + random("text of damaged formulas", 100_000, |index| {
            let mut rng = Rng::new(0x6461_6d61, index);
            let mut bytes = formula(&mut rng);
            damage(&mut rng, &mut bytes);
            text(bytes).lent_by(&mut rng)
        })?)
}
