//! Random terms, formulas and proofs, from fixed seeds. What the Rust answers is held against what the model does.

use crate::make::{self, Rng};
use crate::record::{Call, Case, L};
use crate::List;
use lolli_core::{Proof, Term};
use lolli_extract::{counter_of, extractor_at, is_normal, normalize_bounded, step};
use patch_model::calls::fits;
use patch_model::form::{formula_bytes, proof_bytes, put_name, term_bytes};
use patch_model::reduce::reduce;

const LARGE_ROUNDS: usize = 55;
const SMALL_ROUNDS: usize = 12;

impl List {
    /// A record whose output is to be what the Rust answered.
    fn answered(&mut self, case: Case, rust: &[u8]) {
        assert!(case.wanted().output == rust, "the Rust answers otherwise than the model: {:?}", case.call);
        self.put(case);
    }
}

fn names(term: &Term) -> Vec<u8> {
    let mut names: Vec<String> = term.free_vars().into_iter().collect();
    names.sort();
    let mut list = Vec::new();
    for name in names {
        put_name(&name, &mut list);
    }
    list
}

/// Free names, substitution and both texts; whether all of it fits.
fn large(list: &mut List, rng: &mut Rng, depth: usize) -> bool {
    let term = make::term(rng, depth);
    let (name, value) = (make::name(rng), make::term(rng, 2));
    let formula = make::formula(rng, depth);
    let put = term.substitute(&name, &value);
    let bytes = term_bytes(&term);
    if bytes.len() > L.bytes || term_bytes(&put).len() > L.bytes {
        return false;
    }
    list.answered(Case::new(Call::FreeVars, &[&bytes]), &names(&term));
    list.answered(Case::new(Call::Substitute, &[&bytes, name.as_bytes(), &term_bytes(&value)]), &term_bytes(&put));
    list.answered(Case::new(Call::TermText, &[&bytes]), term.pretty().as_bytes());
    list.answered(Case::new(Call::FormulaText, &[&formula_bytes(&formula)]), formula.pretty().as_bytes());
    true
}

fn steps(list: &mut List, term: &Term) {
    let bytes = term_bytes(term);
    let next = step(term).map_or(Vec::new(), |next| term_bytes(&next));
    list.answered(Case::new(Call::Step, &[&bytes]), &next);
    let normal = Case::new(Call::IsNormal, &[&bytes]);
    // behind what is left in two buffers and the three numbers of a refusal
    assert_eq!(normal.wanted().numbers[5], is_normal(term) as u64);
    list.put(normal);
}

/// None if a term on the way outgrows the limits.
fn reduction(list: &mut List, term: &Term, limit: u32) {
    if reduce(&L, term.clone(), limit).0.is_ok() {
        let last = normalize_bounded(term, limit as usize);
        list.answered(Case::new(Call::NormalizeBounded, &[&term_bytes(term)]).with(limit), &term_bytes(&last));
    }
}

/// By value each, and one after the other by one extractor.
fn extraction(list: &mut List, proofs: [&Proof; 2], counter: u32) {
    let bytes = proofs.map(proof_bytes);
    let mut extractor = extractor_at(counter as usize);
    let terms = proofs.map(|proof| extractor.extract(proof));
    if !terms.iter().all(|term| fits(&L, term)) || counter_of(extractor) > 100_000_000 {
        return;
    }
    let made = terms.map(|term| term_bytes(&term));
    list.answered(Case::new(Call::Extract, &[&bytes[0]]).with(counter), &made[0]);
    // what is refused after it leaves all as the first left it
    list.answered(Case::new(Call::Extractor, &[&bytes[0], &[]]).with(counter), &made[0]);
    list.answered(Case::new(Call::Extractor, &[&bytes[0], &bytes[1]]).with(counter), &made[1]);
}

/// Steps, reductions and extractions, and what is said of a term, a formula and a proof.
fn small(list: &mut List, rng: &mut Rng) {
    let term = make::term(rng, 3);
    for stepped in [&term, &make::in_turn(rng), &make::half_way(rng), &make::in_parts(rng)] {
        steps(list, stepped);
    }
    for _ in 0..2 {
        let limit = [0, 1, 2, 3, 5, 30][rng.below(6)];
        reduction(list, &make::term(rng, 3), limit);
    }
    let counter = [0, 0, 7, 9, 98, 99_999_980][rng.below(6)];
    let height = 1 + rng.below(4);
    let proofs = [make::cuts(rng, height), make::proof(rng, 3)];
    extraction(list, [&proofs[0], &proofs[1]], counter);
    let bytes = term_bytes(&term);
    list.put(Case::new(Call::CheckTerm, &[&bytes]));
    list.put(Case::new(Call::IsStraight, &[&bytes]));
    let k = rng.below(3) as u32;
    for call in [Call::ChildFault, Call::Child] {
        list.put(Case::new(call, &[&bytes]).with(k));
    }
    list.put(Case::new(Call::CheckFormula, &[&formula_bytes(&make::formula(rng, 3))]));
    list.put(Case::new(Call::CheckProof, &[&proof_bytes(&proofs[1])]));
}

pub fn all(list: &mut List) {
    let mut rng = Rng(0x7665_6374_6f72_7321);
    let fitting = (0..).filter(|k| large(list, &mut rng, 2 + k % 5)).take(LARGE_ROUNDS);
    assert_eq!(fitting.count(), LARGE_ROUNDS);
    let mut rng = Rng(0x736d_616c_6c20_6f6e);
    for _ in 0..SMALL_ROUNDS {
        small(list, &mut rng);
    }
}
