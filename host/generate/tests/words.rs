//! Pools have names that are nearly words and no words; bad and damaged inputs have words wherever a name stands.

use patch_generate::bad::{bad_inputs, bad_proofs, bare_names, FORMULAS, TERMS};
use patch_generate::damage::damage;
use patch_generate::{inputs, names, Rng};
use patch_model::calls::{check_formula, check_proof, check_term};
use patch_model::names::{Spelling, WORDS};
use patch_model::{read, Answer, Limits};
use std::collections::{BTreeMap, BTreeSet};

const L: Limits = Limits::BASE;

/// How often each number is answered, 0 for a good input.
fn answers(inputs: impl IntoIterator<Item = Vec<u8>>, check: fn(&Limits, &[u8]) -> Answer) -> BTreeMap<u8, usize> {
    let mut met = BTreeMap::new();
    for input in inputs {
        *met.entry(check(&L, &input).map_or_else(|refusal| refusal.number, |_| 0)).or_default() += 1;
    }
    met
}

/// Every number that a reading may give, with 0 for a good input.
const READING: [u8; 8] = [0, 2, 3, 4, 5, 6, 7, 15];

#[test]
fn pools_have_no_word_and_what_is_nearly_one() {
    for spelling in [Spelling::Name, Spelling::Atom] {
        let pools: BTreeSet<String> = (0..100_000).flat_map(|index| names::pool(&mut Rng::new(1, index), spelling)).collect();
        assert!(pools.iter().all(|name| !spelling.is_word(name.as_bytes()) && name.len() <= spelling.most()));
        for name in ["in1", "inn", "le", "i", "in_", "_in", "derelicts", "IN1", "Inn", "LE"] {
            assert!(pools.contains(name), "{name}");
        }
        for name in ["Let", "In", "IN", "OF"] {
            assert_eq!(pools.contains(name), spelling == Spelling::Name, "{name}");
        }
    }
}

#[test]
fn names_of_a_length_are_no_words() {
    for index in 0..100_000 {
        let rng = &mut Rng::new(2, index);
        let length = rng.within(1, 8);
        assert!(!Spelling::Atom.is_word(names::of_length(rng, length).as_bytes()));
    }
}

#[test]
fn words_stand_wherever_a_name_may() {
    // `in` is also `inl` and `inr` cut short
    let (as_it_is, in_any_case) = (WORDS.len() + 2, 4 * WORDS.len() + 2);
    let at_least = |made, check, times| {
        let met = answers(made, check);
        assert!(met[&15] >= times && READING.iter().all(|number| met.contains_key(number)), "{met:?}");
    };
    at_least(bad_inputs(&TERMS), check_term, 8 * as_it_is);
    at_least(bad_inputs(&FORMULAS), check_formula, 2 * in_any_case);
    at_least(bad_proofs(), check_proof, 11 * in_any_case);
    let refused = bare_names().iter().filter(|name| read::name(2, name).is_err_and(|refusal| refusal.number == 15)).count();
    assert_eq!(refused, as_it_is);
}

#[test]
fn damaged_inputs_meet_each_refusal_of_a_reading() {
    let damaged = |make: fn(&mut Rng) -> Vec<u8>| {
        (0..20_000).map(move |index| {
            let rng = &mut Rng::new(3, index);
            let mut bytes = make(rng);
            damage(rng, &mut bytes);
            bytes
        })
    };
    for met in [
        answers(damaged(inputs::term), check_term),
        answers(damaged(inputs::formula), check_formula),
        answers(damaged(inputs::proof), check_proof),
    ] {
        assert!(READING.iter().all(|number| met.contains_key(number)) && met[&15] > 200, "{met:?}");
    }
}
