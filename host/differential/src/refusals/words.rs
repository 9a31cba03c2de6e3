//! The rows about words (15): wherever a name stands, and, of any two faults that can compete, which comes first.

use super::{short, Fault, Form, Table};
use crate::case::{Call, Case};
use patch_model::stored::{blocks, seal};

/// A word and what competes with it.
pub fn faults(form: &Form) -> Vec<Fault> {
    let Form { one, two, leaf, named, bad_tag, nodes, .. } = *form;
    let word = &[named, 2, b'i', b'n'][..];
    let pair = |a: &[u8], b: &[u8]| [&[two], a, b].concat();
    let ones = |n: usize, last: &[u8]| [vec![one; n], last.to_vec()].concat();
    vec![
        ("15", word.to_vec(), 15, 2),
        ("15 at the last node", ones(nodes - 1, word), 15, nodes as u64 + 1),
        ("2 before 15", [word, &vec![leaf; 4093]].concat(), 2, 4096),
        ("3 before 15: missing bytes before a word", vec![named, 3, b'i', b'n'], 3, 4),
        ("5 before 15: a bad byte before a word", vec![named, 3, b'i', b'n', b'-'], 5, 4),
        ("6 before 15", ones(nodes, word), 6, nodes as u64),
        ("15 before 3 further right", pair(word, &[]), 15, 3),
        ("15 before 4 further right", pair(word, &[bad_tag]), 15, 3),
        ("15 before 5 further right", pair(word, &[named, 0]), 15, 3),
        ("15 before 6 further right", pair(word, &vec![one; nodes]), 15, 3),
        ("15 before 7", [word, &[leaf]].concat(), 15, 2),
        ("15 before 15 further right", pair(word, word), 15, 3),
        ("4 before 15 further right", pair(&[bad_tag], word), 4, 1),
        ("5, a length, before 15 further right", pair(&[named, 0], word), 5, 2),
        ("5, a bad byte, before 15 further right", pair(&[named, 1, b'-'], word), 5, 3),
        ("15, though all before it is good", pair(&[named, 3, b'i', b'n', b'n'], word), 15, 8),
    ]
}

/// A word as each name of a node.
pub fn in_terms() -> Vec<Fault> {
    vec![
        ("15 of an Abs", vec![5, 2, b'o', b'f', 2], 15, 2),
        ("15 of a LetPair's x", vec![4, 2, b'o', b'f', 1, b'y', 2, 2], 15, 2),
        ("15 of a LetPair's y", vec![4, 1, b'x', 2, b'o', b'f', 2, 2], 15, 4),
        ("15 of a Case's x", vec![9, 2, b'o', b'f', 1, b'y', 2, 2, 2], 15, 2),
        ("15 of a Case's y", vec![9, 1, b'x', 2, b'o', b'f', 2, 2, 2], 15, 4),
        ("15 of a Copy's x", vec![17, 2, b'o', b'f', 1, b'y', 2, 2], 15, 2),
        ("15 of a Copy's y", vec![17, 1, b'x', 2, b'o', b'f', 2, 2], 15, 4),
        ("15 of x before 3 of y", vec![17, 2, b'o', b'f'], 15, 2),
        ("15 of x before 5 of y", vec![4, 2, b'o', b'f', 0], 15, 2),
        ("5 of x before 15 of y", vec![9, 1, b'7', 2, b'o', b'f', 2, 2, 2], 5, 2),
        ("15 of y before 4 of a part", vec![4, 1, b'x', 2, b'o', b'f', 18], 15, 4),
    ]
}

/// A word as an atom of either sign, in any case.
pub fn in_formulas() -> Vec<Fault> {
    vec![
        ("15 of an Atom with a capital", vec![1, 3, b'L', b'e', b't'], 15, 2),
        ("15 of an Atom in capitals", vec![1, 2, b'O', b'F'], 15, 2),
        ("15 of a NegAtom", vec![2, 2, b'o', b'f'], 15, 2),
        ("15 of a NegAtom in capitals", vec![2, 2, b'A', b'S'], 15, 2),
        ("5 before 15, in capitals", vec![2, 3, b'I', b'N', b'-'], 5, 4),
    ]
}

/// A word in a Cut, in a list, and in premises, whether extraction visits them or not.
pub fn in_proofs() -> Vec<Fault> {
    vec![
        ("15 in a Cut of none", vec![2, 1, 2, b'o', b'f', 0, 0], 15, 3),
        ("15 in a Cut of two", vec![2, 2, 2, b'O', b'f', 0, 2, 3, 0, 0, 3, 0, 0], 15, 3),
        ("15 deep in a Cut's formula", vec![2, 3, 5, 11, 1, 2, b'o', b'f', 0, 0], 15, 6),
        ("15 in a list", vec![1, 1, 1, 2, b'O', b'F', 0], 15, 4),
        ("15 in a list, of a NegAtom", vec![3, 2, 5, 2, 2, b'o', b'f', 0], 15, 5),
        ("15 in a producer", vec![2, 5, 0, 2, 1, 1, 1, 2, b'o', b'f', 0, 3, 0, 0], 15, 8),
        ("15 in a consumer", vec![2, 5, 0, 2, 3, 0, 0, 1, 1, 1, 2, b'o', b'f', 0], 15, 11),
        ("15 under a OneIntro, which reads no premise", vec![3, 0, 1, 1, 1, 1, 2, b'o', b'f', 0], 15, 7),
        ("15 under a TopIntro, which reads no premise", vec![7, 0, 1, 2, 1, 2, b'o', b'f', 0, 0], 15, 6),
        ("15 in the second premise of a BottomIntro", vec![4, 0, 2, 3, 0, 0, 1, 1, 1, 2, b'o', b'f', 0], 15, 10),
        ("15 in the third premise of a TensorIntro", vec![5, 0, 3, 3, 0, 0, 3, 0, 0, 1, 1, 2, 2, b'o', b'f', 0], 15, 13),
        ("15 in the only premise of a Cut", vec![2, 5, 0, 1, 1, 1, 1, 2, b'o', b'f', 0], 15, 8),
    ]
}

/// A word and what competes with it in a proof.
pub fn among_proof_faults() -> Vec<Fault> {
    let word = &[1, 2, b'o', b'f'][..];
    let listed = |before: &[u8], behind: &[u8]| [&[3, 2], before, word, behind].concat();
    vec![
        ("2 before 15", [&[3, 1], word, &[0; 4091]].concat(), 2, 4096),
        ("3 before 15: missing bytes before a word", vec![3, 1, 1, 3, b'o', b'f'], 3, 6),
        ("5 before 15: a bad byte before a word", vec![3, 1, 1, 3, b'o', b'f', b'-', 0], 5, 6),
        ("15 before 3 further right", listed(&[], &[]), 15, 4),
        ("15 before 4 further right, a formula", listed(&[], &[14, 0]), 15, 4),
        ("15 before 4 further right, a premise count", listed(&[5], &[4]), 15, 5),
        ("15 before 5 further right", listed(&[], &[1, 17]), 15, 4),
        ("4 before 15 further right", listed(&[14], &[0]), 4, 2),
        ("5 before 15 further right", listed(&[1, 1, b'7'], &[0]), 5, 4),
        ("15 before 7", listed(&[5], &[0, 3]), 15, 5),
        ("15 in the last rule", [&[4, 0, 1].repeat(511)[..], &[1, 1], word, &[0]].concat(), 15, 1537),
        ("6 before 15, rules", [&[4, 0, 1].repeat(512)[..], &[1, 1], word, &[0]].concat(), 6, 1536),
        ("15 in the last formula node", [&[2], &[11; 1023][..], word, &[0, 0]].concat(), 15, 1026),
        ("6 before 15, formula nodes", [&[2], &[11; 1024][..], word, &[0, 0]].concat(), 6, 1025),
    ]
}

/// A content with a word, and what comes before it in a file.
pub fn in_files(table: &mut Table, call: Call, kind: u8) {
    let load = |bytes: Vec<u8>| Case::new(call, vec![bytes]);
    // a word of which one letter stands in block 0 and one in block 1
    let content = if kind == 1 {
        [vec![14; 503], vec![1, 2, b'i', b'n']].concat()
    } else {
        [[4, 0, 1].repeat(167), vec![1, 1, 1, 2, b'I', b'n', 0]].concat()
    };
    let file = blocks(kind, &content);
    let changed = |at: usize, to: u8| {
        let mut file = file.clone();
        file[at] = to;
        file
    };
    let sealed = |at: usize, to: u8| {
        let mut file = changed(at, to);
        seal(&mut file[512..]);
        file
    };
    table.expect("15, its first letter in another block than its last", load(file.clone()), [15, 505, 1]);
    table.expect("1 before 15", short(load(file.clone()), 0), [1, 0, 0]);
    table.expect("10 before 15", load([&file[..], &[0]].concat()), [10, 0, 1]);
    table.expect("11 before 15", load(changed(1022, file[1022] ^ 1)), [11, 1, 1]);
    table.expect("12 before 15", load(sealed(513, 0)), [12, 1, 1]);
    table.expect("13 before 15", load(sealed(1000, 7)), [13, 1, 1]);
}

/// The words by hand, as document 02 lists them.
const WORDS: &str = "let in case of inl inr fst snd absurd derelict copy as discard";

/// Each word, in small letters, with a capital and in capitals; then what is nearly a word.
pub fn each(table: &mut Table) {
    let named = |name: &str| [&[1, name.len() as u8], name.as_bytes()].concat();
    let term = |name: &str| Case::new(Call::CheckTerm, vec![named(name)]);
    let formula = |name: &str| Case::new(Call::CheckFormula, vec![named(name)]);
    let bare = |name: &str| Case::new(Call::Substitute, vec![vec![2], name.into(), vec![2]]);
    for word in WORDS.split(' ') {
        table.expect("15, a name", term(word), [15, 2, 1]);
        table.expect("15, a bare name", bare(word), [15, 0, 2]);
        table.expect("15, an atom", formula(word), [15, 2, 1]);
        for other in [word[..1].to_uppercase() + &word[1..], word.to_uppercase()] {
            table.expect("a good name in another case", term(&other), [0; 3]);
            table.expect("a good bare name in another case", bare(&other), [0; 3]);
            table.expect("15, an atom in another case", formula(&other), [15, 2, 1]);
        }
    }
    for name in ["in1", "inn", "le", "i", "in_", "_in", "derelicts", "IN1", "Inn", "LE", "inlet", "discar"] {
        table.expect("a good name, nearly a word", term(name), [0; 3]);
        table.expect("a good bare name, nearly a word", bare(name), [0; 3]);
        table.expect("a good atom, nearly a word", formula(name), [0; 3]);
    }
}
