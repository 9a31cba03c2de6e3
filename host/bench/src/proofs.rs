//! Families of proofs, each with about so many rules.

use lolli_core::{Formula, Proof, Rule, Sequent};
use patch_generate::{proofs, Rng};
use patch_model::form::proof_bytes;

pub const NAMES: [&str; 4] = ["cut chain", "tensor tower", "contractions", "random"];

const RANDOM: u64 = 16;

pub fn inputs(family: &str, rules: usize) -> Vec<(Proof, Vec<u8>)> {
    if family == "random" {
        return (0..RANDOM).filter_map(|i| random(i, rules)).collect();
    }
    let atom = |i: usize| format!("A{}", i % 10);
    let axiom = ruled(Rule::Axiom, vec![Formula::NegAtom(atom(0)), Formula::Atom(atom(1))], vec![]);
    let one = || ruled(Rule::OneIntro, vec![], vec![]);
    let made = match family {
        "cut chain" => (0..rules / 2).fold(axiom, |p, i| ruled(Rule::Cut(Formula::Atom(atom(i))), vec![], vec![one(), p])),
        "tensor tower" => (0..rules / 2).fold(axiom.clone(), |p, _| ruled(Rule::TensorIntro, vec![], vec![axiom.clone(), p])),
        // a contraction makes some 18 bytes, so of 500 rules a third may be such
        _ => (0..rules).fold(axiom, |p, i| ruled(if i % 3 == 0 { Rule::Contraction } else { Rule::BottomIntro }, vec![], vec![p])),
    };
    vec![(made.clone(), proof_bytes(&made))]
}

/// Any rule over any number of premises; none whose term outgrows the limits.
fn random(seed: u64, rules: usize) -> Option<(Proof, Vec<u8>)> {
    let proof = proofs::of_rules(&mut Rng::new(0x7072_6f6f, seed), rules, rules);
    let bytes = proof_bytes(&proof);
    let (mut out, mut scratch) = (vec![0; patch::OUTPUT_ROOM], vec![0; patch::SCRATCH_ROOM]);
    patch::Extractor { counter: 0 }.extract_to(&bytes, &mut out, &mut scratch).ok()?;
    Some((proof, bytes))
}

fn ruled(rule: Rule, linear: Vec<Formula>, premises: Vec<Proof>) -> Proof {
    Proof { conclusion: Sequent::new(linear), rule, premises }
}
