//! Step and bounded reduction.

use crate::{raw, told, Refusal, OUTPUT_ROOM, SCRATCH_ROOM};

/// The rules of reduction.
#[derive(Clone, Copy, Debug, PartialEq, Eq)]
pub enum Rule {
    App,
    Let,
    Case,
    Fst,
    Snd,
    Derelict,
    Copy,
    Discard,
}

/// In the order of their counts.
pub const RULES: [Rule; 8] = [Rule::App, Rule::Let, Rule::Case, Rule::Fst, Rule::Snd, Rule::Derelict, Rule::Copy, Rule::Discard];

/// The rule of a step, the place of the contracted node's tag in the given term, and the length of the next term.
#[derive(Clone, Copy, Debug, PartialEq, Eq)]
pub struct Found {
    pub rule: Rule,
    pub place: usize,
    pub length: usize,
}

#[derive(Clone, Copy, Debug, PartialEq, Eq)]
pub enum Stepped {
    Normal,
    Found(Found),
}

/// The steps taken, one count for each rule, whether no step remains, and the length of the term.
#[derive(Clone, Copy, Debug, PartialEq, Eq)]
pub struct Reduction {
    pub steps: u32,
    pub counts: [u32; 8],
    pub normal: bool,
    pub length: usize,
}

/// One step of a term, to an output of at least [`OUTPUT_ROOM`] bytes, by way of a scratch of at least [`SCRATCH_ROOM`]. Normal leaves the output.
pub fn step_to(term: &[u8], out: &mut [u8], scratch: &mut [u8]) -> Result<Stepped, Refusal> {
    let [rule, place, length, ..] = told(raw::step(term, out, scratch))?;
    Ok(match rule {
        0 => Stepped::Normal,
        _ => Stepped::Found(Found { rule: RULES[rule as usize - 1], place: place as usize, length: length as usize }),
    })
}

/// One step of a term: what was found and the next term, or nothing for a normal term.
pub fn step(term: &[u8]) -> Result<Option<(Found, Vec<u8>)>, Refusal> {
    let mut out = vec![0; OUTPUT_ROOM];
    let Stepped::Found(found) = step_to(term, &mut out, &mut [0; SCRATCH_ROOM])? else {
        return Ok(None);
    };
    out.truncate(found.length);
    Ok(Some((found, out)))
}

/// At most so many steps of a term, to an output of at least [`OUTPUT_ROOM`] bytes, by way of a scratch of at least [`SCRATCH_ROOM`].
/// A step that outgrows the limits is a refusal at the steps done, and leaves the last term that fitted, then zeros; the length of it stands beside.
pub fn normalize_bounded_to(term: &[u8], limit: u32, out: &mut [u8], scratch: &mut [u8]) -> Result<Reduction, (Refusal, usize)> {
    let answer = raw::normalize_bounded(term, limit, out, scratch);
    let [steps, normal, length, counts @ .., _, _] = told(answer).map_err(|refusal| (refusal, answer[3] as usize))?;
    Ok(Reduction { steps: steps as u32, counts: counts.map(|n| n as u32), normal: normal == 1, length: length as usize })
}

/// At most so many steps of a term: what they came to, and the last term.
pub fn normalize_bounded(term: &[u8], limit: u32) -> Result<(Reduction, Vec<u8>), Refusal> {
    let mut out = vec![0; OUTPUT_ROOM];
    let reduction = normalize_bounded_to(term, limit, &mut out, &mut [0; SCRATCH_ROOM]).map_err(|(refusal, _)| refusal)?;
    out.truncate(reduction.length);
    Ok((reduction, out))
}

/// Whether no step finds anything in a term.
pub fn is_normal(term: &[u8]) -> Result<bool, Refusal> {
    Ok(told(raw::is_normal(term))?[0] == 1)
}
