//! Proofs: their reader, and extraction.

use crate::case::{Call, Case};
use crate::readers::lent_lengths;
use crate::run::{listed, random};
use patch_generate::bad::bad_proofs;
use patch_generate::damage::damage;
use patch_generate::inputs::proof;
use patch_generate::{proofs, Rng};
use patch_harness::Verdict;

/// All that may stand before the count of premises: an Axiom over each list of at most two of A, A⊥ and 1, a Cut on one of these, on a Tensor and
/// on a Plus, and each other rule.
fn conclusions() -> Vec<Vec<u8>> {
    let signed: [&[u8]; 3] = [&[1, 1, b'A'], &[2, 1, b'A'], &[5]];
    let mut tops = vec![vec![1, 0]];
    for a in signed {
        tops.push([&[1, 1], a].concat());
        tops.extend(signed.map(|b| [&[1, 2], a, b].concat()));
        tops.push([&[2], a, &[0]].concat());
    }
    tops.extend([vec![2, 3, 5, 5, 0], vec![2, 8, 5, 5, 0]]);
    tops.extend((3..=18).map(|tag| if tag == 16 || tag == 17 { vec![tag, 0, 0, 0] } else { vec![tag, 0] }));
    tops
}

/// Proof number `index` of those of at most 3 rules over these conclusions.
fn small(tops: &[Vec<u8>], index: u64) -> Vec<u8> {
    let n = tops.len() as u64;
    let top = |digit: u64| &tops[(index / n.pow(digit as u32) % n) as usize][..];
    match index / n.pow(3) {
        0 => [top(0), &[1], top(1), &[1], top(2), &[0]].concat(),
        1 => [top(0), &[2], top(1), &[0], top(2), &[0]].concat(),
        _ if index < 2 * n.pow(3) + n.pow(2) => [top(0), &[1], top(1), &[0]].concat(),
        _ => [top(0), &[0]].concat(),
    }
}

pub fn all() -> Verdict {
    let tops = conclusions();
    let every = 2 * (tops.len() as u64).pow(3) + (tops.len() as u64).pow(2) + tops.len() as u64;
    let check = |bytes: Vec<u8>| Case::new(Call::CheckProof, vec![bytes]);
    let extract = |bytes: Vec<u8>, counter: u32| Case { number: counter as u64, ..Case::new(Call::Extract, vec![bytes]) };
    let checked: Vec<Case> = bad_proofs().into_iter().map(check).collect();
    let mut extracted: Vec<Case> = bad_proofs().into_iter().map(|bytes| extract(bytes, 7)).collect();
    let probes = [vec![1, 1, 5, 0], vec![1, 1, 5], [vec![2, 8, 5, 5, 0, 2, 3, 0, 0].repeat(30), vec![3, 0, 0]].concat()];
    extracted.extend(lent_lengths(Call::Extract, &probes));
    for counter in [0, 9, 99_999_998, 99_999_999, 100_000_000, 100_000_001, u32::MAX - 1, u32::MAX] {
        extracted.extend(probes.iter().map(|bytes| extract(bytes.clone(), counter)));
    }
    Ok(listed("CheckProof of bad inputs", &checked)?
        + listed("Extract of bad inputs, short buffers and counters at the edge", &extracted)?
        + random("CheckProof, whole and damaged", 60_000, |index| {
            let mut rng = Rng::new(0x7072_6f6f, index);
            let mut bytes = proof(&mut rng);
            if !rng.one_in(4) {
                damage(&mut rng, &mut bytes);
            }
            check(bytes)
        })?
        + random("Extract of every proof to 3 rules over a small alphabet", every, |index| {
            extract(small(&tops, index), (index % 12) as u32)
        })?
        + random("Extract of random proofs", 200_000, |index| {
            let mut rng = Rng::new(0x6578_7472, index);
            let mut bytes = proof(&mut rng);
            if rng.one_in(8) {
                damage(&mut rng, &mut bytes);
            }
            let counter = proofs::counter(&mut rng);
            extract(bytes, counter).lent_by(&mut rng)
        })?)
}
