//! The public calls, as they are timed: each on an input and what it is lent. The lent buffers are as long as asked, and not cleared in between.

use crate::reducible::STEPS;
use crate::sought;
use std::hint::black_box;

pub struct Lent {
    pub out: Vec<u8>,
    pub scratch: Vec<u8>,
}

pub struct Call {
    /// the entry point, as include/patch.h declares it
    pub symbol: &'static str,
    /// the least lengths of the output and the scratch
    pub room: (usize, usize),
    pub run: fn(&[u8], &mut Lent),
}

impl Call {
    pub fn lent(&self) -> Lent {
        Lent { out: vec![0; self.room.0], scratch: vec![0; self.room.1] }
    }
}

/// A result that the compiler may not leave out.
pub fn kept<T>(result: T) {
    black_box(result);
}

const NONE: (usize, usize) = (0, 0);
const OUTPUT: (usize, usize) = (patch::OUTPUT_ROOM, 0);
const STORED: (usize, usize) = (patch::STORED_ROOM, 0);
const WORK: (usize, usize) = (patch::OUTPUT_ROOM, patch::SCRATCH_ROOM);

pub const CHECK_FORMULA: Call =
    Call { symbol: "patch_check_formula", room: NONE, run: |formula, _| kept(patch::check_formula(formula).unwrap()) };
pub const CHECK_TERM: Call = Call { symbol: "patch_check_term", room: NONE, run: |term, _| kept(patch::check_term(term).unwrap()) };
pub const CHECK_PROOF: Call = Call { symbol: "patch_check_proof", room: NONE, run: |proof, _| kept(patch::check_proof(proof).unwrap()) };
pub const FORMULA_TEXT: Call = Call {
    symbol: "patch_formula_text",
    room: (patch::FORMULA_TEXT_ROOM, 0),
    run: |formula, lent| kept(patch::formula_text_to(formula, &mut lent.out).unwrap()),
};
pub const TERM_TEXT: Call = Call {
    symbol: "patch_term_text",
    room: (patch::TEXT_ROOM, 0),
    run: |term, lent| kept(patch::term_text_to(term, &mut lent.out).unwrap()),
};
/// The second child, of terms that have two.
pub const CHILD: Call = Call { symbol: "patch_child", room: NONE, run: |term, _| kept(patch::child(term, 1).unwrap()) };
pub const FREE_NAMES: Call =
    Call { symbol: "patch_free_vars", room: OUTPUT, run: |term, lent| kept(patch::free_vars_to(term, &mut lent.out).unwrap()) };
/// `fst y` for x.
pub const SUBSTITUTION: Call = Call { symbol: "patch_substitute", room: WORK, run: |term, lent| put(term, "x", &[11, 1, 1, b'y'], lent) };
/// `()` for x.
pub const UNIT_PUT_IN: Call = Call { symbol: "patch_substitute", room: WORK, run: |term, lent| put(term, "x", &[2], lent) };
/// `feed_side_out` for feed_main_out.
pub const VARIABLE_PUT_IN: Call =
    Call { symbol: "patch_substitute", room: WORK, run: |term, lent| put(term, sought::NAME, sought::VALUE, lent) };
pub const STEP: Call =
    Call { symbol: "patch_step", room: WORK, run: |term, lent| kept(patch::step_to(term, &mut lent.out, &mut lent.scratch).unwrap()) };
/// To the end.
pub const REDUCTION: Call = Call {
    symbol: "patch_normalize_bounded",
    room: WORK,
    run: |term, lent| {
        let told = patch::normalize_bounded_to(term, STEPS, &mut lent.out, &mut lent.scratch).unwrap();
        assert!(told.normal);
        kept(told)
    },
};
pub const IS_NORMAL: Call = Call { symbol: "patch_is_normal", room: NONE, run: |term, _| kept(patch::is_normal(term).unwrap()) };
pub const IS_STRAIGHT: Call = Call { symbol: "patch_is_straight", room: NONE, run: |term, _| kept(patch::is_straight(term).unwrap()) };
pub const EXTRACTION: Call = Call {
    symbol: "patch_extract",
    room: WORK,
    run: |proof, lent| kept(patch::Extractor { counter: 0 }.extract_to(proof, &mut lent.out, &mut lent.scratch).unwrap()),
};
pub const STORE_TERM: Call = Call { symbol: "patch_store_term", room: STORED, run: |term, lent| store(patch::Kind::Term, term, lent) };
pub const STORE_PROOF: Call = Call { symbol: "patch_store_proof", room: STORED, run: |proof, lent| store(patch::Kind::Proof, proof, lent) };
pub const LOAD_TERM: Call = Call { symbol: "patch_load_term", room: OUTPUT, run: |file, lent| load(patch::Kind::Term, file, lent) };
pub const LOAD_PROOF: Call = Call { symbol: "patch_load_proof", room: OUTPUT, run: |file, lent| load(patch::Kind::Proof, file, lent) };

fn put(term: &[u8], name: &str, value: &[u8], lent: &mut Lent) {
    kept(patch::substitute_to(term, name.as_bytes(), value, &mut lent.out, &mut lent.scratch).unwrap())
}

fn store(kind: patch::Kind, content: &[u8], lent: &mut Lent) {
    kept(patch::store_to(kind, content, &mut lent.out).unwrap())
}

fn load(kind: patch::Kind, file: &[u8], lent: &mut Lent) {
    kept(patch::load_to(kind, file, &mut lent.out).unwrap())
}
