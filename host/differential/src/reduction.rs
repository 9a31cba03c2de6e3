//! Step and bounded reduction.

use crate::case::{Call, Case};
use crate::readers::lent_lengths;
use crate::run::{listed, random};
use crate::terms::probes;
use patch_generate::bad::{bad_inputs, TERMS};
use patch_generate::damage::damage;
use patch_generate::inputs::{doubled, reducible};
use patch_generate::{terms, Rng};
use patch_harness::Verdict;
use patch_model::form::term_bytes;
use patch_model::reduce::reduce;
use patch_model::{read, Limits};

const L: Limits = Limits::BASE;

/// Every term to 5 nodes over two names.
fn small() -> Vec<Vec<u8>> {
    (1..=5).flat_map(|nodes| terms::all(nodes, &["x", "y"])).map(|t| term_bytes(&t)).collect()
}

pub fn steps() -> Verdict {
    let step = |bytes: Vec<u8>| Case::new(Call::Step, vec![bytes]);
    let normal = |bytes: Vec<u8>| Case::new(Call::IsNormal, vec![bytes]);
    let small = small();
    let every = small.len() as u64;
    let mut bad: Vec<Case> = bad_inputs(&TERMS).into_iter().map(step).collect();
    bad.extend(lent_lengths(Call::Step, &probes()));
    bad.extend((250..=258).map(|n| step(doubled(n))));
    Ok(random("Step of every term to 5 nodes over two names", every, |index| step(small[index as usize].clone()))?
        + random("IsNormal of every term to 5 nodes over two names", every, |index| normal(small[index as usize].clone()))?
        + listed("Step of bad inputs, and of copies near the limit", &bad)?
        + random("Step of random terms", 100_000, |index| {
            let mut rng = Rng::new(0x7374_6570, index);
            step(reducible(&mut rng, L.nodes)).lent_by(&mut rng)
        })?
        + random("IsNormal of random terms", 50_000, |index| {
            let mut rng = Rng::new(0x7374_6572, index);
            normal(reducible(&mut rng, L.nodes))
        })?
        + random("Step of damaged terms", 30_000, |index| {
            let mut rng = Rng::new(0x7374_6571, index);
            let mut bytes = reducible(&mut rng, 60);
            damage(&mut rng, &mut bytes);
            step(bytes).lent_by(&mut rng)
        })?)
}

/// Step limits; the last is tried where the reduction ends.
const STEP_LIMITS: [u32; 6] = [0, 1, 2, 10, 1_000, u32::MAX];

/// Whether a term comes to an end within so many steps.
fn ends(bytes: &[u8], steps: u32) -> bool {
    let Ok(term) = read::term(&L, 1, bytes) else {
        return true;
    };
    reduce(&L, term, steps).0.is_ok_and(|told| told.normal)
}

pub fn reductions() -> Verdict {
    let reduced = |bytes: Vec<u8>, limit: u32| Case { number: limit as u64, ..Case::new(Call::NormalizeBounded, vec![bytes]) };
    let small = small();
    let every = (small.len() * STEP_LIMITS.len()) as u64;
    let mut bad: Vec<Case> = bad_inputs(&TERMS).into_iter().map(|bytes| reduced(bytes, 5)).collect();
    bad.extend(lent_lengths(Call::NormalizeBounded, &probes()).into_iter().map(|case| Case { number: u32::MAX as u64, ..case }));
    bad.extend((250..=258).flat_map(|n| STEP_LIMITS.map(|limit| reduced(doubled(n), limit))));
    Ok(random("NormalizeBounded of every term to 5 nodes over two names, six limits", every, |index| {
        let (t, limit) = (index as usize / STEP_LIMITS.len(), index as usize % STEP_LIMITS.len());
        // no term so small goes on for ever
        reduced(small[t].clone(), STEP_LIMITS[limit])
    })? + listed("NormalizeBounded of bad inputs, and of copies near the limit", &bad)?
        + random("NormalizeBounded of random terms", 60_000, |index| {
            let mut rng = Rng::new(0x7265_6475, index);
            let most = *rng.pick(&[20, 20, 60, 60, 200, 512]);
            let limit = *rng.pick(&[0, 1, 2, 3, 7, 10, 30, 100]);
            let mut bytes = reducible(&mut rng, most);
            if rng.one_in(20) {
                damage(&mut rng, &mut bytes);
            }
            reduced(bytes, limit).lent_by(&mut rng)
        })?
        + random("NormalizeBounded of random terms, 1,000 steps", 20_000, |index| {
            let mut rng = Rng::new(0x7265_6476, index);
            reduced(reducible(&mut rng, 60), 1_000).lent_by(&mut rng)
        })?
        + random("NormalizeBounded of random terms to the end, where it comes", 20_000, |index| {
            let mut rng = Rng::new(0x7265_6477, index);
            let bytes = reducible(&mut rng, 200);
            let limit = if ends(&bytes, 100) { u32::MAX } else { 100 };
            reduced(bytes, limit)
        })?
        + random("NormalizeBounded of straight terms to the end", 3_000, |index| {
            let mut rng = Rng::new(0x7374_7261, index);
            let nodes = rng.size(300);
            reduced(term_bytes(&terms::straight(&mut rng, nodes)), u32::MAX)
        })?)
}
