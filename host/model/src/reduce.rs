//! Step and bounded reduction (01, "Reduction (000, 001)"). What a step makes is the Rust's; its rule, place and half-way body are found here.

use crate::calls::{fill, fits};
use crate::form::term_bytes;
use crate::limits::Limits;
use crate::read;
use crate::refusal::{clears_scratch, refuse, short, Refusal};
use lolli_core::Term;

/// The rules of reduction, in the order of their counts.
#[derive(Clone, Copy, Debug, PartialEq, Eq)]
pub enum Rule {
    App,
    Let,
    Case,
    Fst,
    Snd,
    Derelict,
    Copy,
    Discard,
}

/// What a step contracts: the rule, the offset of the contracted node's tag, and the node.
pub struct Redex<'a> {
    pub rule: Rule,
    pub place: usize,
    pub node: &'a Term,
}

/// The rule that contracts a node itself.
fn rule_of(node: &Term) -> Option<Rule> {
    match node {
        Term::App(f, _) if matches!(**f, Term::Abs(..)) => Some(Rule::App),
        Term::LetPair(_, _, pair, _) if matches!(**pair, Term::Pair(..)) => Some(Rule::Let),
        Term::Case(scrut, ..) if matches!(**scrut, Term::Inl(_) | Term::Inr(_)) => Some(Rule::Case),
        Term::Fst(e) if matches!(**e, Term::Pair(..)) => Some(Rule::Fst),
        Term::Snd(e) if matches!(**e, Term::Pair(..)) => Some(Rule::Snd),
        Term::Derelict(e) if matches!(**e, Term::Promote(_)) => Some(Rule::Derelict),
        Term::Copy(src, ..) if matches!(**src, Term::Promote(_)) => Some(Rule::Copy),
        Term::Discard(e, _) if matches!(**e, Term::Promote(_)) => Some(Rule::Discard),
        _ => None,
    }
}

fn name_size(name: &str) -> usize {
    1 + name.len()
}

/// Where the first part of a node begins, and the parts that a step may enter, in order. Abort is never entered; Case and Copy in their first part alone.
fn entered(node: &Term) -> (usize, Vec<&Term>) {
    match node {
        Term::Var(_) | Term::Unit | Term::Trivial | Term::Abort(_) => (1, vec![]),
        Term::Pair(a, b) | Term::App(a, b) | Term::Discard(a, b) => (1, vec![a, b]),
        Term::LetPair(x, y, pair, body) => (1 + name_size(x) + name_size(y), vec![pair, body]),
        Term::Case(scrut, x, _, y, _) => (1 + name_size(x) + name_size(y), vec![scrut]),
        Term::Copy(src, x, y, _) => (1 + name_size(x) + name_size(y), vec![src]),
        Term::Abs(x, body) => (1 + name_size(x), vec![body]),
        Term::Inl(e) | Term::Inr(e) | Term::Fst(e) | Term::Snd(e) | Term::Derelict(e) | Term::Promote(e) => (1, vec![e]),
    }
}

/// What a step contracts in a term whose tag stands at `place`.
pub fn redex(term: &Term, place: usize) -> Option<Redex<'_>> {
    if let Some(rule) = rule_of(term) {
        return Some(Redex { rule, place, node: term });
    }
    let (offset, parts) = entered(term);
    let mut at = place + offset;
    for (i, part) in parts.iter().enumerate() {
        if let Some(found) = redex(part, at) {
            return Some(found);
        }
        if i + 1 < parts.len() {
            at += size(part);
        }
    }
    None
}

/// How many bytes a term has.
pub fn size(term: &Term) -> usize {
    let names = match term {
        Term::Var(x) | Term::Abs(x, _) => name_size(x),
        Term::LetPair(x, y, ..) | Term::Case(_, x, _, y, _) | Term::Copy(_, x, y, _) => name_size(x) + name_size(y),
        _ => 0,
    };
    1 + names + crate::form::parts(term).into_iter().map(size).sum::<usize>()
}

/// The body after the first of the two substitutions, in LetPair and Copy.
pub fn half_way(node: &Term) -> Option<Term> {
    match node {
        Term::LetPair(x, _, pair, body) => match &**pair {
            Term::Pair(a, _) => Some(body.substitute(x, a)),
            _ => None,
        },
        Term::Copy(src, x, _, body) => Some(body.substitute(x, src)),
        _ => None,
    }
}

/// What a contracted node becomes, by 01's words: the second route to what `step` makes.
pub fn contracted(node: &Term) -> Option<Term> {
    Some(match (rule_of(node)?, node) {
        (Rule::App, Term::App(f, arg)) => match &**f {
            Term::Abs(x, body) => body.substitute(x, arg),
            _ => return None,
        },
        (Rule::Let, Term::LetPair(_, y, pair, _)) => match &**pair {
            Term::Pair(_, b) => half_way(node)?.substitute(y, b),
            _ => return None,
        },
        (Rule::Case, Term::Case(scrut, x, left, y, right)) => match &**scrut {
            Term::Inl(v) => left.substitute(x, v),
            Term::Inr(v) => right.substitute(y, v),
            _ => return None,
        },
        (Rule::Fst, Term::Fst(e)) => match &**e {
            Term::Pair(a, _) => (**a).clone(),
            _ => return None,
        },
        (Rule::Snd, Term::Snd(e)) => match &**e {
            Term::Pair(_, b) => (**b).clone(),
            _ => return None,
        },
        (Rule::Derelict, Term::Derelict(e)) => match &**e {
            Term::Promote(v) => (**v).clone(),
            _ => return None,
        },
        (Rule::Copy, Term::Copy(src, _, y, _)) => half_way(node)?.substitute(y, src),
        (Rule::Discard, Term::Discard(_, body)) => (**body).clone(),
        _ => return None,
    })
}

#[derive(Clone, Debug, PartialEq, Eq)]
pub enum Stepped {
    Normal,
    Found { rule: Rule, place: usize, length: usize },
}

/// A step taken within the limits; `None` where 8 is given.
fn taken(limits: &Limits, term: &Term, redex: &Redex) -> Option<Term> {
    if let Some(half) = half_way(redex.node) {
        if !fits(limits, &half) {
            return None;
        }
    }
    // Two substitutions into what fits: no more than 512 times a term.
    let next = lolli_extract::step(term).expect("a redex, and no step");
    fits(limits, &next).then_some(next)
}

pub fn step(limits: &Limits, term: &[u8], out: &mut [u8], scratch: &mut [u8]) -> Result<Stepped, Refusal> {
    let answer = step_answer(limits, term, out, scratch.len());
    if clears_scratch(&answer) {
        scratch.fill(0);
    }
    answer
}

fn step_answer(limits: &Limits, term: &[u8], out: &mut [u8], scratch: usize) -> Result<Stepped, Refusal> {
    if out.len() < limits.output_room() || scratch < limits.scratch_room {
        return short();
    }
    let term = read::term(limits, 1, term)?;
    let Some(redex) = redex(&term, 0) else {
        return Ok(Stepped::Normal);
    };
    let Some(next) = taken(limits, &term, &redex) else {
        return refuse(8, 0, 0);
    };
    let bytes = term_bytes(&next);
    fill(out, &bytes);
    Ok(Stepped::Found { rule: redex.rule, place: redex.place, length: bytes.len() })
}

#[derive(Clone, Copy, Debug, Default, PartialEq, Eq)]
pub struct Reduced {
    pub steps: u32,
    /// one for each rule
    pub counts: [u32; 8],
    /// whether no step remains
    pub normal: bool,
}

/// The answer, and the length of what stands in the output: after success, and after 8.
pub fn normalize_bounded(
    limits: &Limits,
    term: &[u8],
    limit: u32,
    out: &mut [u8],
    scratch: &mut [u8],
) -> (Result<Reduced, Refusal>, usize) {
    if out.len() < limits.output_room() || scratch.len() < limits.scratch_room {
        return (short(), 0);
    }
    let term = match read::term(limits, 1, term) {
        Ok(term) => term,
        Err(refusal) => return (Err(refusal), 0),
    };
    let (answer, last) = reduce(limits, term, limit);
    let bytes = term_bytes(&last);
    fill(out, &bytes);
    scratch.fill(0);
    (answer, bytes.len())
}

/// Each step taken is tested for 8; a step past the limit is not tried.
pub fn reduce(limits: &Limits, term: Term, limit: u32) -> (Result<Reduced, Refusal>, Term) {
    let mut term = term;
    let mut told = Reduced::default();
    while told.steps < limit {
        let Some(redex) = redex(&term, 0) else {
            break;
        };
        let Some(next) = taken(limits, &term, &redex) else {
            return (refuse(8, told.steps as usize, 0), term);
        };
        told.counts[redex.rule as usize] += 1;
        told.steps += 1;
        term = next;
    }
    told.normal = redex(&term, 0).is_none();
    (Ok(told), term)
}

pub fn is_normal(limits: &Limits, term: &[u8]) -> Result<bool, Refusal> {
    Ok(lolli_extract::is_normal(&read::term(limits, 1, term)?))
}
