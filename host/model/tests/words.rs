//! Words that are not names (02, (i)), held against the model.

use patch_model::calls::{check_formula, check_proof, check_term, child, formula_text, free_vars, substitute, term_text};
use patch_model::extract::{extract, Entry};
use patch_model::names::WORDS;
use patch_model::program::patchrun;
use patch_model::reduce::{is_normal, normalize_bounded, step};
use patch_model::stored::{blocks, load, store, Kind};
use patch_model::straight::is_straight;
use patch_model::{Limits, Refusal};

const L: Limits = Limits::BASE;

/// The bytes before a name, the name with its length, and the bytes behind it.
fn around(before: &[u8], name: &str, behind: &[u8]) -> Vec<u8> {
    [before, &[name.len() as u8], name.as_bytes(), behind].concat()
}
fn var(name: &str) -> Vec<u8> {
    around(&[1], name, &[])
}
fn refused<T>(number: u8, place: usize) -> Result<T, Refusal> {
    Err(Refusal { number, place, input: 1 })
}
/// As it is, with a capital, in capitals, and with a small letter first.
fn cases(word: &str) -> [String; 4] {
    let (first, rest) = word.split_at(1);
    [word.into(), first.to_uppercase() + rest, word.to_uppercase(), first.to_string() + &rest.to_uppercase()]
}

/// Var, Abs, and both names of LetPair, Case and Copy.
const IN_TERMS: [(&[u8], &[u8]); 8] = [
    (&[1], &[]),
    (&[5], &[2]),
    (&[4], &[1, b'y', 2, 2]),
    (&[4, 1, b'x'], &[2, 2]),
    (&[9], &[1, b'y', 2, 2, 2]),
    (&[9, 1, b'x'], &[2, 2, 2]),
    (&[17], &[1, b'y', 2, 2]),
    (&[17, 1, b'x'], &[2, 2]),
];

/// In a Cut, in a list, and in a premise that extraction does not visit, of both signs.
const IN_PROOFS: [(&[u8], &[u8]); 6] = [
    (&[2, 1], &[0, 0]),
    (&[2, 2], &[0, 2, 3, 0, 0, 3, 0, 0]),
    (&[1, 1, 1], &[0]),
    (&[1, 2, 5, 2], &[0]),
    (&[3, 0, 1, 1, 1, 1], &[0]),
    (&[5, 0, 3, 3, 0, 0, 3, 0, 0, 2, 2], &[0, 0]),
];

#[test]
fn the_words_are_those_of_the_document() {
    assert_eq!(WORDS.join(" "), "let in case of inl inr fst snd absurd derelict copy as discard");
}

#[test]
fn a_name_is_compared_as_it_is() {
    for word in WORDS {
        for (before, behind) in IN_TERMS {
            let [small, others @ ..] = cases(word);
            assert_eq!(check_term(&L, &around(before, &small, behind)), refused(15, before.len() + 1));
            for other in others {
                assert!(check_term(&L, &around(before, &other, behind)).is_ok());
            }
        }
    }
}

#[test]
fn an_atom_is_compared_in_lower_case() {
    for atom in WORDS.iter().flat_map(|word| cases(word)) {
        for tag in [1, 2] {
            assert_eq!(check_formula(&L, &around(&[tag], &atom, &[])), refused(15, 2));
        }
        for (before, behind) in IN_PROOFS {
            assert_eq!(check_proof(&L, &around(before, &atom, behind)), refused(15, before.len() + 1));
        }
    }
}

#[test]
fn nearly_a_word_is_a_name() {
    for name in ["in1", "inn", "le", "i", "in_", "_in", "derelicts", "inlet", "IN1", "Inn", "LE"] {
        assert_eq!(check_term(&L, &var(name)), Ok(1));
        assert_eq!(check_formula(&L, &var(name)), Ok(1));
    }
    for name in ["Let", "In", "IN", "OF"] {
        assert_eq!(check_term(&L, &var(name)), Ok(1));
        assert_eq!(check_formula(&L, &var(name)), refused(15, 2));
    }
}

#[test]
fn in_a_name_it_comes_after_3_and_5() {
    for check in [check_term, check_formula] {
        assert_eq!(check(&L, &[1]), refused(3, 1));
        assert_eq!(check(&L, &[1, 0, b'i', b'n']), refused(5, 1));
        assert_eq!(check(&L, &[1, 3, b'i', b'n']), refused(3, 4));
        assert_eq!(check(&L, &var("in-")), refused(5, 4));
        assert_eq!(check(&L, &var("in")), refused(15, 2));
    }
}

#[test]
fn the_first_fault_from_the_left_is_told() {
    let pair = |a: &[u8], b: &[u8]| [&[3], a, b].concat();
    for check in [check_term, check_formula] {
        assert_eq!(check(&L, &pair(&var("of"), &[99])), refused(15, 3));
        assert_eq!(check(&L, &pair(&var("of"), &var("in-"))), refused(15, 3));
        assert_eq!(check(&L, &pair(&var("of"), &[])), refused(15, 3));
        assert_eq!(check(&L, &pair(&[99], &var("of"))), refused(4, 1));
        assert_eq!(check(&L, &pair(&var("in-"), &var("of"))), refused(5, 5));
        assert_eq!(check(&L, &pair(&var("of"), &var("in"))), refused(15, 3));
        assert_eq!(check(&L, &[var("as"), vec![2]].concat()), refused(15, 2));
        assert_eq!(check(&L, &[var("as"), vec![2; 4096]].concat()), refused(2, 4096));
    }
    assert_eq!(check_term(&L, &[vec![14; 511], var("as")].concat()), refused(15, 513));
    assert_eq!(check_term(&L, &[vec![14; 512], var("as")].concat()), refused(6, 512));
}

/// Every call that reads a term, on one with a word.
#[test]
fn each_call_on_terms_refuses_a_word() {
    let word = around(&[5], "copy", &[2]);
    let (mut out, mut scratch) = (vec![9; L.text_room], vec![9; L.scratch_room]);
    assert_eq!(term_text(&L, &word, &mut out), refused(15, 2));
    assert_eq!(free_vars(&L, &word, &mut out), refused(15, 2));
    assert_eq!(child(&L, &word, 7), refused(15, 2));
    assert_eq!(is_normal(&L, &word), refused(15, 2));
    assert_eq!(is_straight(&L, &word), refused(15, 2));
    assert_eq!(step(&L, &word, &mut out, &mut scratch), refused(15, 2));
    assert_eq!(normalize_bounded(&L, &word, 5, &mut out, &mut scratch), (refused(15, 2), 0));
    assert_eq!(formula_text(&L, &var("Copy"), &mut out), refused(15, 2));
    assert!(out.iter().chain(&scratch).all(|&b| b == 9));
}

#[test]
fn substitution_tells_which_input_has_the_word() {
    let (mut out, mut scratch) = (vec![9; L.bytes], vec![9; L.scratch_room]);
    let mut put = |term: &str, name: &str, value: &str| substitute(&L, &var(term), name.as_bytes(), &var(value), &mut out, &mut scratch);
    let of_input = |place, input| Err(Refusal { number: 15, place, input });
    assert_eq!(put("fst", "in", "snd"), of_input(2, 1));
    assert_eq!(put("x", "in", "snd"), of_input(0, 2));
    assert_eq!(put("x", "x", "snd"), of_input(2, 3));
    assert_eq!(put("x", "in-", "snd"), Err(Refusal { number: 5, place: 2, input: 2 }));
    assert!(out.iter().chain(&scratch).all(|&b| b == 9));
    assert_eq!(substitute(&L, &var("In"), b"In", &var("Snd"), &mut out, &mut scratch), Ok(5));
    assert!(out.starts_with(&var("Snd")) && scratch.iter().all(|&b| b == 0));
}

#[test]
fn extraction_leaves_all_as_it_was() {
    let full = Entry { place: 7, counter: 9 };
    let (mut out, mut scratch, mut entries) = (vec![9; L.bytes], vec![9; L.scratch_room], vec![full; L.entry_room]);
    for (before, behind) in IN_PROOFS {
        let mut counter = u32::MAX;
        let proof = around(before, "Discard", behind);
        let answer = extract(&L, &mut counter, &proof, &mut out, &mut scratch, &mut entries);
        assert_eq!((answer, counter), (refused(15, before.len() + 1), u32::MAX));
    }
    assert!(out.iter().chain(&scratch).all(|&b| b == 9) && entries.iter().all(|entry| *entry == full));
}

#[test]
fn places_are_counted_in_the_stored_content() {
    // behind 505 Promotes the name stands in the second block
    let term = [vec![14; 505], var("in")].concat();
    let proof = around(&[1, 1, 2], "In", &[0]);
    let mut out = vec![9; L.stored_room];
    for (kind, content, place) in [(Kind::Term, &term, 507), (Kind::Proof, &proof, 4)] {
        assert_eq!(store(&L, kind, content, &mut out), refused(15, place));
        assert_eq!(load(&L, kind, &blocks(kind as u8, content), &mut out), refused(15, place));
    }
    assert!(out.iter().all(|&b| b == 9));
    assert_eq!(patchrun(&L, &blocks(1, &term)), b"refused 15 at 507\n");
}
