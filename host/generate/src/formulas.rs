//! Formulas: all small ones, random ones of a given size, and those at a limit.

use crate::names;
use crate::rng::Rng;
use lolli_core::Formula;
use patch_model::names::Spelling;

type Two = fn(Box<Formula>, Box<Formula>) -> Formula;
type One = fn(Box<Formula>) -> Formula;

const TWOS: [Two; 5] = [Formula::Tensor, Formula::Par, Formula::With, Formula::Plus, Formula::Lolli];
const ONES: [One; 2] = [Formula::OfCourse, Formula::WhyNot];
const CONSTANTS: [Formula; 4] = [Formula::One, Formula::Bottom, Formula::Top, Formula::Zero];

/// Every formula of exactly so many nodes over these atoms.
pub fn all(nodes: usize, atoms: &[&str]) -> Vec<Formula> {
    if nodes == 1 {
        let signed = atoms.iter().flat_map(|a| [Formula::atom(*a), Formula::neg_atom(*a)]);
        return signed.chain(CONSTANTS).collect();
    }
    let mut made = Vec::new();
    for part in all(nodes - 1, atoms) {
        made.extend(ONES.iter().map(|make| make(Box::new(part.clone()))));
    }
    for left in 1..nodes.saturating_sub(1) {
        let rights = all(nodes - 1 - left, atoms);
        for a in all(left, atoms) {
            for b in &rights {
                made.extend(TWOS.iter().map(|make| make(Box::new(a.clone()), Box::new(b.clone()))));
            }
        }
    }
    made
}

fn leaf(rng: &mut Rng, pool: &[String]) -> Formula {
    match rng.below(6) {
        0 | 1 => Formula::Atom(rng.pick(pool).clone()),
        2 | 3 => Formula::NegAtom(rng.pick(pool).clone()),
        _ => rng.pick(&CONSTANTS).clone(),
    }
}

/// A formula of exactly so many nodes.
pub fn of_nodes(rng: &mut Rng, pool: &[String], nodes: usize) -> Formula {
    if nodes == 1 {
        return leaf(rng, pool);
    }
    if nodes == 2 || rng.one_in(4) {
        let make = *rng.pick(&ONES);
        return make(Box::new(of_nodes(rng, pool, nodes - 1)));
    }
    let make = *rng.pick(&TWOS);
    let (a, b) = rng.split(nodes - 1);
    let left = of_nodes(rng, pool, a);
    make(Box::new(left), Box::new(of_nodes(rng, pool, b)))
}

pub fn random(rng: &mut Rng, most_nodes: usize) -> Formula {
    let pool = names::pool(rng, Spelling::Atom);
    let nodes = rng.size(most_nodes);
    of_nodes(rng, &pool, nodes)
}

/// A formula of exactly so many bytes and at most so many nodes, all its leaves atoms; 100 bytes or more.
pub fn of_bytes(rng: &mut Rng, bytes: usize, most_nodes: usize) -> Formula {
    let lengths = names::lengths(rng, Spelling::Atom, bytes, most_nodes);
    over(rng, &lengths)
}

/// A formula whose leaves are atoms of these lengths, from the left.
fn over(rng: &mut Rng, lengths: &[usize]) -> Formula {
    if let [length] = lengths {
        let name = names::of_length(rng, *length);
        return if rng.one_in(2) { Formula::Atom(name) } else { Formula::NegAtom(name) };
    }
    let make = *rng.pick(&TWOS);
    let (first, _) = rng.split(lengths.len());
    let left = over(rng, &lengths[..first]);
    make(Box::new(left), Box::new(over(rng, &lengths[first..])))
}
