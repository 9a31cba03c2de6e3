//! Calls on terms that take no step: text, free names, substitution, child; and whether a term is normal or straight.

use crate::case::{Call, Case};
use crate::readers::lent_lengths;
use crate::run::{listed, random};
use patch_generate::bad::{bad_inputs, bare_names, TERMS};
use patch_generate::damage::{damage, mostly_damaged};
use patch_generate::inputs::term;
use patch_generate::{names, straight, terms, Rng};
use patch_harness::Verdict;
use patch_model::form::term_bytes;
use patch_model::Limits;

const L: Limits = Limits::BASE;
const ONE_INPUT: [Call; 4] = [Call::TermText, Call::FreeVars, Call::IsNormal, Call::IsStraight];

const NAMES: [&str; 3] = ["x", "y", "z"];

/// `\x. (x y)`, the same without its end, and too many bytes.
pub fn probes() -> [Vec<u8>; 3] {
    let whole = vec![5, 1, b'x', 6, 1, 1, b'x', 1, 1, b'y'];
    let cut = whole[..9].to_vec();
    [whole, cut, vec![2; 4097]]
}

pub fn all() -> Verdict {
    let small: Vec<Vec<u8>> = (1..=4).flat_map(|nodes| terms::all(nodes, &NAMES)).map(|t| term_bytes(&t)).collect();
    let mut cases = 0;
    for call in ONE_INPUT {
        let one = |bytes: Vec<u8>| Case::new(call, vec![bytes]);
        let all: Vec<Case> = small.iter().cloned().map(one).collect();
        cases += listed(&format!("{call:?} of every term to 4 nodes over three names"), &all)?;
        let mut bad: Vec<Case> = bad_inputs(&TERMS).into_iter().map(one).collect();
        bad.extend(lent_lengths(call, &probes()));
        cases += listed(&format!("{call:?} of bad inputs"), &bad)?;
        cases += random(&format!("{call:?} of random terms"), 200_000, |index| {
            let mut rng = Rng::new(0x7465_7800 + call as u64, index);
            let mut bytes = if call == Call::IsStraight { straight::nearly(&mut rng) } else { term(&mut rng) };
            if rng.one_in(4) {
                damage(&mut rng, &mut bytes);
            }
            one(bytes).lent_by(&mut rng)
        })?;
    }
    Ok(cases + substitution(&small)? + children(&small)?)
}

fn substitution(small: &[Vec<u8>]) -> Verdict {
    let call = Call::Substitute;
    let mut listed_cases = Vec::new();
    let values: Vec<Vec<u8>> = (1..=2).flat_map(|nodes| terms::all(nodes, &NAMES)).map(|t| term_bytes(&t)).collect();
    let every = random(
        "Substitute in every term to 4 nodes over three names, every value to 2 nodes",
        small.len() as u64 * values.len() as u64,
        |index| {
            let (t, v) = (index as usize / values.len(), index as usize % values.len());
            Case::new(call, vec![small[t].clone(), b"x".to_vec(), values[v].clone()])
        },
    )?;
    let [whole, cut, long] = probes();
    // the first fault in the order of the arguments, wherever others stand
    for t in [&whole, &cut, &long] {
        for name in bare_names() {
            for value in [&whole, &cut, &long] {
                listed_cases.push(Case::new(call, vec![t.clone(), name.clone(), value.clone()]));
            }
        }
    }
    for mut case in lent_lengths(call, &probes()) {
        case.inputs.extend([b"y".to_vec(), vec![2]]);
        listed_cases.push(case);
    }
    Ok(every
        + listed("Substitute with bad arguments", &listed_cases)?
        + random("Substitute in random terms", 200_000, |index| {
            let mut rng = Rng::new(0x7375_6273, index);
            let style = terms::Style::random(&mut rng);
            let (nodes, size) = (rng.size(L.nodes), rng.size(200));
            let (whole, value) = (style.of_nodes(&mut rng, nodes), style.of_nodes(&mut rng, size));
            let mut inputs = vec![term_bytes(&whole), rng.pick(&style.pool).clone().into_bytes(), term_bytes(&value)];
            match rng.below(16) {
                0 | 1 => inputs[1] = names::of_length(&mut rng, 3).into_bytes(),
                2 => inputs[1] = names::word(&mut rng).into_bytes(),
                _ => {}
            }
            if rng.one_in(4) {
                let at = rng.below(3);
                damage(&mut rng, &mut inputs[at]);
            }
            Case::new(call, inputs).lent_by(&mut rng)
        })?)
}

fn children(small: &[Vec<u8>]) -> Verdict {
    let child = |bytes: Vec<u8>, number| Case { number, ..Case::new(Call::Child, vec![bytes]) };
    let mut cases: Vec<Case> = small.iter().flat_map(|bytes| (0..=3).map(|k| child(bytes.clone(), k))).collect();
    cases.extend([4, 255, 256, u32::MAX as u64, u64::MAX].map(|k| child(probes()[0].clone(), k)));
    cases.extend(bad_inputs(&TERMS).into_iter().map(|bytes| child(bytes, 0)));
    Ok(listed("Child of every term to 4 nodes, and of bad inputs", &cases)?
        + random("Child of random terms", 50_000, |index| {
            let mut rng = Rng::new(0x6368_696c, index);
            let bytes = term(&mut rng);
            let bytes = if rng.one_in(2) { bytes } else { mostly_damaged(&mut rng, bytes) };
            child(bytes, rng.below(4) as u64)
        })?)
}
