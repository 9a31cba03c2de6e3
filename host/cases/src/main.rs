//! Prints crates/cases/specs/RustCases.antt: what the Rust answers to small terms, formulas and proofs, from a fixed seed.
//! In host/: `cargo run --release -p cases > ../crates/cases/specs/RustCases.antt`; `cargo test -p cases` compares.

mod make;

use lolli_core::{Proof, Term};
use lolli_extract::{counter_of, extractor_at, is_normal, normalize_bounded, step};
use make::Rng;
use patch_model::form::{formula_bytes, proof_bytes, put_name, term_bytes};

const ROUNDS: usize = 50;

/// What a case may have in bytes: antt's memory bounds the list.
const MOST_BYTES: usize = 120;

const HEAD: &str = "\
-- What the Rust as published answers, held against the definitions: every case is right. Printed by host/cases; not to be edited.
use Rattle.std.specs.Prelude.{◌≡◌, refl, true, false, List, [], ◌∷◌}
use Rattle.cases.specs.Rust.{Case, free_names, put, printed, printed_formula, is_normal_term, steps, reduces, extracts, right, wrong}

abbrev pub cases : List Case
cases =
";

const TAIL: &str = "    ∷ []

pub rust-agrees : wrong right cases ≡ []
unfolding right
rust-agrees = refl
";

fn hex(bytes: &[u8]) -> String {
    let digits: String = bytes.iter().map(|b| format!("{b:02x}")).collect();
    format!("\"{digits}\"")
}

fn term_hex(term: &Term) -> String {
    hex(&term_bytes(term))
}

fn small(term: &Term) -> bool {
    term_bytes(term).len() <= MOST_BYTES
}

fn free_names(term: &Term) -> String {
    let mut names: Vec<String> = term.free_vars().into_iter().collect();
    names.sort();
    let mut list = Vec::new();
    for name in names {
        put_name(&name, &mut list);
    }
    format!("free_names {} {}", term_hex(term), hex(&list))
}

fn substitution(term: &Term, name: &str, value: &Term) -> String {
    let answer = term.substitute(name, value);
    format!("put {} {} {} {}", term_hex(term), hex(name.as_bytes()), term_hex(value), term_hex(&answer))
}

fn stepped(term: &Term) -> String {
    match step(term) {
        None => format!("is_normal_term {}", term_hex(term)),
        Some(next) => format!("steps {} {}", term_hex(term), term_hex(&next)),
    }
}

/// Bounded reduction; none if a term on the way is large.
fn reduction(term: &Term, limit: usize) -> Option<String> {
    if !(0..=limit).all(|k| small(&normalize_bounded(term, k))) {
        return None;
    }
    let last = normalize_bounded(term, limit);
    Some(format!("reduces {} {limit} {} {}", term_hex(term), term_hex(&last), is_normal(&last)))
}

fn extraction(proof: &Proof, counter: usize) -> Option<String> {
    let mut extractor = extractor_at(counter);
    let answer = extractor.extract(proof);
    let bytes = proof_bytes(proof);
    if bytes.len() > MOST_BYTES || !small(&answer) {
        return None;
    }
    Some(format!("extracts {} {counter} {} {}", hex(&bytes), term_hex(&answer), counter_of(extractor)))
}

/// The first that is small enough.
fn tried<T>(mut make: impl FnMut() -> Option<T>) -> T {
    loop {
        if let Some(made) = make() {
            return made;
        }
    }
}

fn term(rng: &mut Rng, depth: usize) -> Term {
    tried(|| Some(make::term(rng, depth)).filter(small))
}

/// Fourteen cases.
fn round(rng: &mut Rng) -> Vec<String> {
    let mut made = vec![free_names(&term(rng, 3))];
    for _ in 0..2 {
        let (body, name, value) = (term(rng, 3), make::name(rng), term(rng, 1));
        made.push(substitution(&body, &name, &value));
    }
    let shown = term(rng, 2);
    made.push(format!("printed {} {}", term_hex(&shown), hex(shown.pretty().as_bytes())));
    let formula = make::formula(rng, 3);
    made.push(format!("printed_formula {} {}", hex(&formula_bytes(&formula)), hex(formula.pretty().as_bytes())));
    made.push(stepped(&term(rng, 3)));
    made.push(stepped(&make::in_turn(rng)));
    made.push(stepped(&make::half_way(rng)));
    made.push(stepped(&make::in_parts(rng)));
    for _ in 0..2 {
        let limit = [0, 1, 2, 3, 5, 30][rng.below(6)];
        made.push(tried(|| reduction(&make::term(rng, 3), limit)));
    }
    let counter = [0, 0, 7, 9, 98, 99_999_990][rng.below(6)];
    for _ in 0..2 {
        let height = 1 + rng.below(4);
        made.push(tried(|| extraction(&make::cuts(rng, height), counter)));
    }
    made.push(tried(|| extraction(&make::proof(rng, 3), counter)));
    made
}

fn printed() -> String {
    let mut rng = Rng(0x7061_7463_6865_7321);
    let cases: Vec<String> = (0..ROUNDS).flat_map(|_| round(&mut rng)).collect();
    format!("{HEAD}    {}\n{TAIL}", cases.join("\n    ∷ "))
}

fn main() {
    print!("{}", printed());
}

#[cfg(test)]
mod tests {
    #[test]
    fn the_file_is_what_is_printed() {
        let file = concat!(env!("CARGO_MANIFEST_DIR"), "/../../crates/cases/specs/RustCases.antt");
        let text = std::fs::read_to_string(file).unwrap();
        assert!(text == super::printed(), "print it anew");
    }
}
