//! Two feeds for one template: a for x and b for y. Few names, so that binders of the template catch names of a value and hide x and y.

use crate::names;
use crate::rng::Rng;
use crate::terms::{half_way, Style};
use lolli_core::Term;
use patch_model::names::Spelling;

pub struct Feeds {
    pub template: Term,
    pub x: String,
    pub a: Term,
    pub y: String,
    pub b: Term,
}

/// A template of at most so many nodes. Of two triples about one has two names, and neither free in what goes in for the other.
pub fn random(rng: &mut Rng, most_nodes: usize) -> Feeds {
    if rng.one_in(32) {
        return from_pair(half_way(rng));
    }
    let pool = three_names(rng);
    let x = pool[0].clone();
    let y = if rng.one_in(8) { x.clone() } else { pool[1].clone() };
    let apart = rng.one_in(2);
    let nodes = 6 + rng.size(most_nodes - 6);
    let template = Style { pool: pool.clone(), redexes: 8 }.of_nodes(rng, nodes);
    let a = value(rng, &pool, apart.then_some(&y));
    let b = value(rng, &pool, apart.then_some(&x));
    Feeds { template, x, a, y, b }
}

/// Three names or more, no two alike.
fn three_names(rng: &mut Rng) -> Vec<String> {
    let mut pool: Vec<String> = Vec::new();
    while pool.len() < 3 {
        for name in names::pool(rng, Spelling::Name) {
            if !pool.contains(&name) {
                pool.push(name);
            }
        }
    }
    pool
}

/// What goes in, without a name that must not be free in it.
fn value(rng: &mut Rng, pool: &[String], without: Option<&String>) -> Term {
    let pool = pool.iter().filter(|name| Some(*name) != without).cloned().collect();
    let nodes = rng.size(60);
    Style { pool, redexes: 8 }.of_nodes(rng, nodes)
}

/// The body of a Copy or LetPair and what goes in there: a makes it longer, b shorter, and half-way it may be too long.
fn from_pair(term: Term) -> Feeds {
    match term {
        Term::Copy(a, x, y, body) => Feeds { template: *body, x, a: *a, y, b: Term::Unit },
        Term::LetPair(x, y, a, body) => Feeds { template: *body, x, a: *a, y, b: Term::Unit },
        other => unreachable!("{other:?} is largest half-way"),
    }
}
