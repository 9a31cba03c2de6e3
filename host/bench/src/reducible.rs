//! Families of terms that reduce: each is a shape that a search or a substitution could be slow on.

use lolli_core::Term;
use patch_generate::{terms, Rng};
use patch_model::form::{term_bytes, term_nodes};
use patch_model::reduce::reduce;
use patch_model::Limits;

pub const NAMES: [&str; 8] = [
    "applications",
    "let-pairs",
    "case ladder",
    "applications at the root",
    "let-pairs at the root",
    "cases at the root",
    "copies",
    "straight",
];

/// Above every reduction here.
pub const STEPS: u32 = 1_000;

const STRAIGHT: u64 = 8;

/// Terms of that family with about so many nodes ("copies": at their largest), with their bytes, as the port takes them.
pub fn inputs(family: &str, nodes: usize) -> Vec<(Term, Vec<u8>)> {
    let made = match family {
        "applications" => vec![(0..nodes / 3).fold(Term::Unit, applied)],
        "let-pairs" => vec![(0..nodes / 4).fold(pair(var("a"), var("b")), paired)],
        "case ladder" => vec![(0..nodes / 5).fold(Term::Inl(boxed(var("a"))), cased)],
        "applications at the root" => vec![nested(nodes / 5)],
        "let-pairs at the root" => vec![tower(nodes / 4)],
        "cases at the root" => vec![stairs(nodes / 4)],
        "copies" => vec![(1..).map(copies).take_while(|t| largest(t) <= nodes).last().unwrap()],
        _ => (0..STRAIGHT).map(|i| straight(i, nodes)).collect(),
    };
    made.into_iter().map(|term| (term.clone(), term_bytes(&term))).collect()
}

fn var(name: &str) -> Term {
    Term::Var(name.to_string())
}

fn boxed(term: Term) -> Box<Term> {
    Box::new(term)
}

fn pair(a: Term, b: Term) -> Term {
    Term::Pair(boxed(a), boxed(b))
}

/// `((\x. x) t)`: one in the argument of the other.
fn applied(t: Term, i: usize) -> Term {
    let x = format!("x{i}");
    Term::App(boxed(Term::Abs(x.clone(), boxed(Term::Var(x)))), boxed(t))
}

/// `let (x, y) = t in (y, x)`: one in the pair of the other.
fn paired(t: Term, i: usize) -> Term {
    let (x, y) = (format!("x{i}"), format!("y{i}"));
    Term::LetPair(x.clone(), y.clone(), boxed(t), boxed(pair(Term::Var(y), Term::Var(x))))
}

/// `((\x0. ((\x1. .. (x0, (x1, ..)) ()) ())`: one in the body of the other, each value used at the bottom.
fn nested(levels: usize) -> Term {
    let name = |i: usize| format!("x{i}");
    let used = (0..levels).rev().fold(Term::Unit, |rest, i| pair(Term::Var(name(i)), rest));
    (0..levels).rev().fold(used, |body, i| Term::App(boxed(Term::Abs(name(i), boxed(body))), boxed(Term::Unit)))
}

/// `case inl a of { inl l0 => case inl l0 of { .. } | inr r0 => r0 }`: one in the branch of the other.
fn stairs(levels: usize) -> Term {
    let name = |i: usize| format!("l{i}");
    (0..levels).rev().fold(Term::Var(name(levels - 1)), |body, i| {
        let value = if i == 0 { var("a") } else { Term::Var(name(i - 1)) };
        let r = format!("r{i}");
        Term::Case(boxed(Term::Inl(boxed(value))), name(i), boxed(body), r.clone(), boxed(Term::Var(r)))
    })
}

/// `let (x1, y1) = (x0, y0) in let (x2, y2) = (y1, x1) in ..`
fn tower(levels: usize) -> Term {
    let name = |part: &str, i: usize| format!("{part}{i}");
    let last = Term::App(boxed(Term::Var(name("x", levels))), boxed(Term::Var(name("y", levels))));
    (0..levels).rev().fold(last, |body, i| {
        let value = pair(Term::Var(name("y", i)), Term::Var(name("x", i)));
        Term::LetPair(name("x", i + 1), name("y", i + 1), boxed(value), boxed(body))
    })
}

/// `case t of { inl l => inl l | inr r => inl r }`, or with inr and inl: one in the scrutinee of the other.
fn cased(t: Term, i: usize) -> Term {
    let (l, r) = (format!("l{i}"), format!("r{i}"));
    let (left, right) = if i % 2 == 0 { (Term::Inr as fn(_) -> _, Term::Inl as fn(_) -> _) } else { (Term::Inl as _, Term::Inr as _) };
    Term::Case(boxed(t), l.clone(), boxed(left(boxed(Term::Var(l)))), r.clone(), boxed(right(boxed(Term::Var(r)))))
}

/// `copy !() as (x0, y0) in copy !(x0, y0) as (x1, y1) in ..`: what is put in doubles each time.
fn copies(levels: usize) -> Term {
    let both = |i: usize| pair(Term::Var(format!("x{i}")), Term::Var(format!("y{i}")));
    (0..levels).rev().fold(both(levels - 1), |body, i| {
        let value = if i == 0 { Term::Unit } else { both(i - 1) };
        Term::Copy(boxed(Term::Promote(boxed(value))), format!("x{i}"), format!("y{i}"), boxed(body))
    })
}

/// The nodes that it comes to; too many if it outgrows the limits.
fn largest(term: &Term) -> usize {
    let (told, last) = reduce(&Limits::BASE, term.clone(), STEPS);
    told.map_or(usize::MAX, |_| term_nodes(term).max(term_nodes(&last)))
}

/// Of many, made for fewer nodes and for more, the one that comes nearest.
fn straight(seed: u64, nodes: usize) -> Term {
    let tries = (0..16).map(|i| terms::straight(&mut Rng::new(0x7374_7261 + seed, i), (nodes * (i as usize + 2)).div_ceil(16)));
    let fits = tries.filter(|t| term_nodes(t) <= 512 && term_bytes(t).len() <= 4096);
    fits.min_by_key(|t| term_nodes(t).abs_diff(nodes)).unwrap()
}
