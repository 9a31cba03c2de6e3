//! The public calls on formulas and terms that take no step: check, text, free names, substitution, child; and what calls leave in buffers.

use crate::form::{formula_nodes, parts, proof_rules, put_name, term_bytes, term_nodes};
use crate::limits::Limits;
use crate::read;
use crate::refusal::{clears_scratch, refuse, short, Answer, Refusal};
use lolli_core::Term;
use std::ops::Range;

/// After success the output is the answer, then zeros.
pub fn fill(out: &mut [u8], answer: &[u8]) {
    out[..answer.len()].copy_from_slice(answer);
    out[answer.len()..].fill(0);
}

/// A call with an output: 1, then the work; a refusal leaves the output untouched.
pub fn written(out: &mut [u8], room: usize, work: impl FnOnce() -> Result<Vec<u8>, Refusal>) -> Answer {
    if out.len() < room {
        return short();
    }
    let answer = work()?;
    fill(out, &answer);
    Ok(answer.len())
}

/// A call with an output and a scratch.
pub fn worked(limits: &Limits, out: &mut [u8], scratch: &mut [u8], work: impl FnOnce() -> Result<Vec<u8>, Refusal>) -> Answer {
    if scratch.len() < limits.scratch_room {
        return short();
    }
    let answer = written(out, limits.output_room(), work);
    if clears_scratch(&answer) {
        scratch.fill(0);
    }
    answer
}

/// A term breaks no limit.
pub fn fits(limits: &Limits, term: &Term) -> bool {
    term_nodes(term) <= limits.nodes && term_bytes(term).len() <= limits.bytes
}

pub fn check_term(limits: &Limits, term: &[u8]) -> Answer {
    Ok(term_nodes(&read::term(limits, 1, term)?))
}

pub fn check_formula(limits: &Limits, formula: &[u8]) -> Answer {
    Ok(formula_nodes(&read::formula(limits, 1, formula)?))
}

pub fn check_proof(limits: &Limits, proof: &[u8]) -> Answer {
    Ok(proof_rules(&read::proof(limits, 1, proof)?))
}

pub fn formula_text(limits: &Limits, formula: &[u8], out: &mut [u8]) -> Answer {
    written(out, limits.formula_text_room, || Ok(read::formula(limits, 1, formula)?.pretty().into_bytes()))
}

pub fn term_text(limits: &Limits, term: &[u8], out: &mut [u8]) -> Answer {
    written(out, limits.text_room, || Ok(read::term(limits, 1, term)?.pretty().into_bytes()))
}

/// Each free name once, as names, ascending by the bytes after the length byte, a name that begins another first.
pub fn name_list(term: &Term) -> Vec<u8> {
    let mut names: Vec<String> = term.free_vars().into_iter().collect();
    names.sort_by(|a, b| a.as_bytes().cmp(b.as_bytes()));
    let mut list = Vec::new();
    for name in &names {
        put_name(name, &mut list);
    }
    list
}

pub fn free_vars(limits: &Limits, term: &[u8], out: &mut [u8]) -> Answer {
    written(out, limits.output_room(), || Ok(name_list(&read::term(limits, 1, term)?)))
}

/// Inputs: 1 the term, 2 the name, 3 what is put in.
pub fn substitute(limits: &Limits, term: &[u8], name: &[u8], value: &[u8], out: &mut [u8], scratch: &mut [u8]) -> Answer {
    worked(limits, out, scratch, || {
        let term = read::term(limits, 1, term)?;
        let name = read::name(2, name)?;
        let value = read::term(limits, 3, value)?;
        grown(limits, &term.substitute(&name, &value))
    })
}

/// 8 outside reduction, if the finished term breaks a limit; else its bytes.
pub fn grown(limits: &Limits, term: &Term) -> Result<Vec<u8>, Refusal> {
    if fits(limits, term) {
        Ok(term_bytes(term))
    } else {
        refuse(8, 0, 0)
    }
}

/// The part of the caller's bytes that is child k, counted from 0; 14 if the term has no such child.
pub fn child(limits: &Limits, term: &[u8], k: u64) -> Result<Range<usize>, Refusal> {
    let term = read::term(limits, 1, term)?;
    let sizes: Vec<usize> = parts(&term).into_iter().map(|part| term_bytes(part).len()).collect();
    if k >= sizes.len() as u64 {
        return refuse(14, 0, 0);
    }
    let behind: usize = sizes[k as usize..].iter().sum();
    let start = term_bytes(&term).len() - behind;
    Ok(start..start + sizes[k as usize])
}
