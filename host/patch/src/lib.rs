//! The engine for Rust programs: safe functions over the C entry points (include/patch.h).
//! Every function takes whatever bytes it is handed and ends. Those that are lent an output (`.._to`) leave in it the answer and then zeros, or,
//! refused, what was there ([`normalize_bounded_to`] says its exception); the others lend it themselves.

mod raw;
mod reduction;
mod refusal;

pub use reduction::{is_normal, normalize_bounded, normalize_bounded_to, step, step_to, Found, Reduction, Rule, Stepped, RULES};
pub use refusal::{Reason, Refusal};

/// The least lengths of a lent output: for a term, a name list or the content of a file, for printed terms, for printed
/// formulas and for files.
pub const OUTPUT_ROOM: usize = 4096;
pub const TEXT_ROOM: usize = 20480;
pub const FORMULA_TEXT_ROOM: usize = 11264;
pub const STORED_ROOM: usize = 4608;

/// The least length of a lent scratch.
pub const SCRATCH_ROOM: usize = 8192;

/// A count (the bytes written, or the nodes of what was read), or a refusal.
pub type Answer = Result<usize, Refusal>;

/// What an entry point told: its values, or the refusal.
fn told(answer: raw::Told) -> Result<[u64; 13], Refusal> {
    let [number, place, input, values @ ..] = answer;
    match Refusal::told(number, place, input) {
        Some(refusal) => Err(refusal),
        None => Ok(values),
    }
}

fn count(answer: raw::Told) -> Answer {
    Ok(told(answer)?[0] as usize)
}

/// The answer of a call that writes to an output of this room.
fn written(room: usize, call: impl FnOnce(&mut [u8]) -> Answer) -> Result<Vec<u8>, Refusal> {
    let mut out = vec![0; room];
    let length = call(&mut out)?;
    out.truncate(length);
    Ok(out)
}

/// Whether a formula is legal: its nodes, or a refusal.
pub fn check_formula(formula: &[u8]) -> Answer {
    count(raw::check_formula(formula))
}

/// Whether a term is legal: its nodes, or a refusal.
pub fn check_term(term: &[u8]) -> Answer {
    count(raw::check_term(term))
}

/// Whether a proof is legal: its rules, or a refusal.
pub fn check_proof(proof: &[u8]) -> Answer {
    count(raw::check_proof(proof))
}

/// The printed text of a formula, to an output of at least [`FORMULA_TEXT_ROOM`] bytes: its length.
pub fn formula_text_to(formula: &[u8], out: &mut [u8]) -> Answer {
    count(raw::formula_text(formula, out))
}

/// The printed text of a formula.
pub fn formula_text(formula: &[u8]) -> Result<String, Refusal> {
    let text = written(FORMULA_TEXT_ROOM, |out| formula_text_to(formula, out))?;
    Ok(String::from_utf8(text).expect("printed text is UTF-8"))
}

/// The printed text of a term, to an output of at least [`TEXT_ROOM`] bytes: its length.
pub fn term_text_to(term: &[u8], out: &mut [u8]) -> Answer {
    count(raw::term_text(term, out))
}

/// The printed text of a term.
pub fn term_text(term: &[u8]) -> Result<String, Refusal> {
    let text = written(TEXT_ROOM, |out| term_text_to(term, out))?;
    Ok(String::from_utf8(text).expect("printed text is UTF-8"))
}

/// The part of a term that is its child k, counted from 0.
pub fn child(term: &[u8], k: usize) -> Result<&[u8], Refusal> {
    let [start, length, ..] = told(raw::child(term, k))?;
    Ok(&term[start as usize..][..length as usize])
}

/// The free names of a term, each as its length and its bytes, ascending, to an output of at least [`OUTPUT_ROOM`] bytes: the length of all.
pub fn free_vars_to(term: &[u8], out: &mut [u8]) -> Answer {
    count(raw::free_vars(term, out))
}

/// The free names of a term, ascending.
pub fn free_vars(term: &[u8]) -> Result<Vec<String>, Refusal> {
    let list = written(OUTPUT_ROOM, |out| free_vars_to(term, out))?;
    let mut names = Vec::new();
    let mut rest = list.as_slice();
    while let [length, after @ ..] = rest {
        let (name, next) = after.split_at(*length as usize);
        names.push(String::from_utf8(name.to_vec()).expect("a name is ASCII"));
        rest = next;
    }
    Ok(names)
}

/// The term with the value for the name, to an output of at least [`OUTPUT_ROOM`] bytes, by way of a scratch of at least [`SCRATCH_ROOM`].
pub fn substitute_to(term: &[u8], name: &[u8], value: &[u8], out: &mut [u8], scratch: &mut [u8]) -> Answer {
    count(raw::substitute(term, name, value, out, scratch))
}

/// The term with the value for the name. Two values may go in in either order if their names differ and neither name is free in the other
/// value: where no call is refused, both orders give the same bytes. For a name that is not free the term comes back as it is.
pub fn substitute(term: &[u8], name: &[u8], value: &[u8]) -> Result<Vec<u8>, Refusal> {
    written(OUTPUT_ROOM, |out| substitute_to(term, name, value, out, &mut [0; SCRATCH_ROOM]))
}

/// Whether a term is straight: it has no case, fst, snd, discard or copy, and each name at a binder stands at that one place only and is used as a
/// variable exactly once, inside what it covers.
pub fn is_straight(term: &[u8]) -> Result<bool, Refusal> {
    Ok(told(raw::is_straight(term))?[0] == 1)
}

/// Makes terms of proofs. Its counter numbers the names, and rises with each that is taken; a refusal leaves it as it was.
#[derive(Clone, Copy, Debug, PartialEq, Eq)]
pub struct Extractor {
    pub counter: u32,
}

impl Extractor {
    /// The term of a proof, to an output of at least [`OUTPUT_ROOM`] bytes, by way of a scratch of at least [`SCRATCH_ROOM`]: its length.
    pub fn extract_to(&mut self, proof: &[u8], out: &mut [u8], scratch: &mut [u8]) -> Answer {
        let [length, counter, ..] = told(raw::extract(proof, self.counter, out, scratch))?;
        self.counter = counter as u32;
        Ok(length as usize)
    }

    /// The term of a proof.
    pub fn extract(&mut self, proof: &[u8]) -> Result<Vec<u8>, Refusal> {
        written(OUTPUT_ROOM, |out| self.extract_to(proof, out, &mut [0; SCRATCH_ROOM]))
    }
}

/// What a stored file holds.
#[derive(Clone, Copy, Debug, PartialEq, Eq)]
pub enum Kind {
    Term,
    Proof,
}

/// The stored form of a legal term or proof, to an output of at least [`STORED_ROOM`] bytes: its length.
pub fn store_to(kind: Kind, content: &[u8], out: &mut [u8]) -> Answer {
    count(match kind {
        Kind::Term => raw::store_term(content, out),
        Kind::Proof => raw::store_proof(content, out),
    })
}

/// The stored form of a legal term or proof.
pub fn store(kind: Kind, content: &[u8]) -> Result<Vec<u8>, Refusal> {
    written(STORED_ROOM, |out| store_to(kind, content, out))
}

/// The term or proof in a stored file, to an output of at least [`OUTPUT_ROOM`] bytes: its length.
pub fn load_to(kind: Kind, file: &[u8], out: &mut [u8]) -> Answer {
    count(match kind {
        Kind::Term => raw::load_term(file, out),
        Kind::Proof => raw::load_proof(file, out),
    })
}

/// The term or proof in a stored file.
pub fn load(kind: Kind, file: &[u8]) -> Result<Vec<u8>, Refusal> {
    written(OUTPUT_ROOM, |out| load_to(kind, file, out))
}
