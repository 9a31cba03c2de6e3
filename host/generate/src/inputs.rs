//! Inputs as bytes: of any size, at a limit, or one over.

use crate::{formulas, proofs, terms, Rng};
use lolli_core::Term;
use patch_model::form::{formula_bytes, proof_bytes, term_bytes};
use patch_model::Limits;

const L: Limits = Limits::BASE;

/// A formula of any size, or at a limit, or one over.
pub fn formula(rng: &mut Rng) -> Vec<u8> {
    let made = match rng.below(50) {
        0 => formulas::of_nodes(rng, &["A".into(), "b".into()], L.formulas),
        1 => formulas::of_nodes(rng, &["A".into(), "b".into()], L.formulas + 1),
        2 => formulas::of_bytes(rng, L.bytes, L.formulas),
        3 => formulas::of_bytes(rng, L.bytes + 1, L.formulas),
        4 => {
            let bytes = rng.within(100, L.bytes + 8);
            formulas::of_bytes(rng, bytes, L.formulas)
        }
        _ => formulas::random(rng, L.formulas + 2),
    };
    formula_bytes(&made)
}

/// A term of any size, or at a limit, or one over.
pub fn term(rng: &mut Rng) -> Vec<u8> {
    let made = match rng.below(50) {
        0 => terms::Style::random(rng).of_nodes(rng, L.nodes),
        1 => terms::Style::random(rng).of_nodes(rng, L.nodes + 1),
        2 => terms::of_bytes(rng, L.bytes, L.nodes),
        3 => terms::of_bytes(rng, L.bytes + 1, L.nodes),
        4 => {
            let bytes = rng.within(200, L.bytes + 8);
            terms::of_bytes(rng, bytes, L.nodes)
        }
        _ => terms::random(rng, L.nodes + 2),
    };
    term_bytes(&made)
}

/// A term to step: random, near a limit, largest half-way, or straight.
pub fn reducible(rng: &mut Rng, most: usize) -> Vec<u8> {
    let made = match rng.below(16) {
        0 | 1 => terms::near_limit(rng, L.nodes, L.bytes),
        2 => terms::half_way(rng),
        3 => {
            let nodes = rng.size(most);
            terms::straight(rng, nodes)
        }
        4 => return term(rng),
        _ => terms::random(rng, most),
    };
    term_bytes(&made)
}

/// `copy !v as (x, y) in (x y)` for v of n Promotes and a Unit.
pub fn doubled(promotes: usize) -> Vec<u8> {
    let value = (0..=promotes).fold(Term::Unit, |e, _| Term::Promote(Box::new(e)));
    let body = Term::App(Box::new(Term::Var("x".into())), Box::new(Term::Var("y".into())));
    term_bytes(&Term::Copy(Box::new(value), "x".into(), "y".into(), Box::new(body)))
}

/// A proof of any size, at a limit, or one over.
pub fn proof(rng: &mut Rng) -> Vec<u8> {
    let made = match rng.below(30) {
        0 => proofs::of_rules(rng, L.rules, 200),
        1 => proofs::of_rules(rng, L.rules + 1, 200),
        2 => proofs::of_rules(rng, 100, L.formulas + 40),
        3 | 4 => {
            let height = rng.within(1, 40);
            proofs::doubling(rng, height)
        }
        _ => proofs::random(rng, L.rules),
    };
    proof_bytes(&made)
}
