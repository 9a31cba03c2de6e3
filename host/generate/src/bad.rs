//! Bad inputs: one for each rule of refusal, at its edges.

use patch_model::names::{Spelling, WORDS};
use patch_model::Limits;

const L: Limits = Limits::BASE;

/// Where a name stands: the bytes before it, and those behind it.
type Around = (&'static [u8], &'static [u8]);

/// What the list of bad inputs has to know of a form.
pub struct Form {
    /// a node with one part, one with two, one without, one with a name
    pub one: u8,
    two: u8,
    pub leaf: u8,
    named: u8,
    nodes: usize,
    spelling: Spelling,
    names: &'static [Around],
}

pub const FORMULAS: Form = Form { one: 11, two: 3, leaf: 5, named: 1, nodes: 1024, spelling: Spelling::Atom, names: &IN_FORMULAS };
pub const TERMS: Form = Form { one: 14, two: 3, leaf: 2, named: 1, nodes: 512, spelling: Spelling::Name, names: &IN_TERMS };

const IN_FORMULAS: [Around; 2] = [(&[1], &[]), (&[2], &[])];

/// Var, Abs, and both names of LetPair, Case and Copy.
const IN_TERMS: [Around; 8] = [
    (&[1], &[]),
    (&[5], &[2]),
    (&[4], &[1, b'y', 2, 2]),
    (&[4, 1, b'x'], &[2, 2]),
    (&[9], &[1, b'y', 2, 2, 2]),
    (&[9, 1, b'x'], &[2, 2, 2]),
    (&[17], &[1, b'y', 2, 2]),
    (&[17, 1, b'x'], &[2, 2]),
];

/// Atoms of both signs in a Cut, in a list and in a premise; then in premises that extraction does not visit: under a OneIntro and a TopIntro, the
/// second of a BottomIntro, the third of a TensorIntro, the only one of a Cut.
const IN_PROOFS: [Around; 11] = [
    (&[2, 1], &[0, 2, 3, 0, 0, 3, 0, 0]),
    (&[2, 3, 5, 2], &[0, 0]),
    (&[1, 1, 1], &[0]),
    (&[1, 2, 5, 2], &[0]),
    (&[3, 1, 2], &[0]),
    (&[4, 0, 1, 1, 1, 1], &[0]),
    (&[3, 0, 1, 1, 1, 1], &[0]),
    (&[7, 0, 1, 1, 1, 2], &[0]),
    (&[4, 0, 2, 3, 0, 0, 2, 2], &[0, 0]),
    (&[5, 0, 3, 3, 0, 0, 3, 0, 0, 1, 1, 1], &[0]),
    (&[2, 5, 0, 1, 1, 1, 1], &[0]),
];

/// One input for each rule of refusal, at its edges.
pub fn bad_inputs(form: &Form) -> Vec<Vec<u8>> {
    let mut bad = vec![vec![]];
    for byte in 0..=255 {
        bad.push(vec![byte]);
        bad.push(vec![byte, form.leaf]);
        bad.push(vec![byte, form.leaf, form.leaf, form.leaf]);
        bad.push(vec![form.two, form.leaf, byte]);
        // as a tag before names and parts
        bad.push([&[byte][..], &[1, b'x', 1, b'y', form.leaf, form.leaf, form.leaf]].concat());
        // as the length of a name, with bytes enough and too few
        bad.push([&[form.named, byte][..], &[b'x'; 255]].concat());
        bad.push([&[form.named, byte][..], &vec![b'x'; byte.saturating_sub(1) as usize]].concat());
        // in a name: first, second, last; and where the name is cut short
        bad.push(vec![form.named, 3, byte, b'a', b'b']);
        bad.push(vec![form.named, 3, b'a', byte, b'b']);
        bad.push(vec![form.named, 3, b'a', b'b', byte]);
        bad.push(vec![form.named, 3, b'a', byte]);
        bad.push(vec![form.two, form.named, 1, byte, form.leaf]);
    }
    let most = form.spelling.most();
    for length in [1, 2, most - 1, most, most + 1] {
        bad.push([&[form.named, length as u8][..], &vec![b'Z'; length]].concat());
        bad.push([&[form.named, length as u8][..], &vec![b'Z'; length - 1]].concat());
    }
    bad.extend(at_limits(form));
    bad.extend(with_words(form));
    bad
}

/// Bytes and nodes at their limits, and one over.
fn at_limits(form: &Form) -> Vec<Vec<u8>> {
    let mut bad = Vec::new();
    for length in [L.bytes - 1, L.bytes, L.bytes + 1, L.bytes + 100] {
        bad.push(vec![form.leaf; length]);
        bad.push(vec![form.two; length]);
        bad.push(vec![0; length]);
    }
    for ones in form.nodes - 2..=form.nodes + 1 {
        let chain = vec![form.one; ones];
        bad.push(chain.clone());
        for last in [form.leaf, form.named, 0, 18, 255] {
            bad.push([&chain[..], &[last]].concat());
            bad.push([&chain[..], &[last, form.leaf]].concat());
        }
    }
    for parts in form.nodes / 2 - 1..=form.nodes / 2 + 1 {
        bad.push([vec![form.two; parts], vec![form.leaf; parts + 1]].concat());
        bad.push([vec![form.two; parts], vec![form.leaf; parts]].concat());
        bad.push([vec![form.two; parts], vec![form.leaf; parts], vec![0]].concat());
    }
    bad
}

/// A word as it is and with capitals; what is nearly one; and one with a bad byte.
fn spellings(word: &str) -> [String; 9] {
    let (first, rest) = word.split_at(1);
    [
        word.into(),
        first.to_uppercase() + rest,
        first.to_string() + &rest.to_uppercase(),
        word.to_uppercase(),
        word[..word.len() - 1].into(),
        format!("{word}1"),
        format!("{word}_"),
        format!("_{word}"),
        format!("{word}-"),
    ]
}

/// Each word and what is nearly one, wherever a name stands.
fn worded(places: &[Around]) -> Vec<Vec<u8>> {
    let put = |name: &str, (before, behind): Around| [before, &[name.len() as u8], name.as_bytes(), behind].concat();
    let names = WORDS.iter().flat_map(|word| spellings(word));
    names.flat_map(|name| places.iter().map(move |place| put(&name, *place))).collect()
}

/// Each word and what is nearly one, wherever a name stands; a word before and behind other faults, at the limits and past them.
pub fn with_words(form: &Form) -> Vec<Vec<u8>> {
    let mut bad = worded(form.names);
    let word = [form.named, 2, b'o', b'f'];
    for other in [&[][..], &[form.leaf], &[0], &[form.named, 0], &[form.named, 1, b'7'], &[form.named, 3, b'o', b'f'], &word] {
        bad.push([&word, other].concat());
        bad.push([&[form.two], &word[..], other].concat());
        bad.push([&[form.two], other, &word].concat());
    }
    for ones in form.nodes - 2..=form.nodes + 1 {
        bad.push([&vec![form.one; ones][..], &word].concat());
    }
    for length in [L.bytes - 1, L.bytes, L.bytes + 1] {
        bad.push([&word[..], &vec![form.leaf; length - word.len()]].concat());
        bad.push([long_pairs(form, length - word.len()), word.to_vec()].concat());
    }
    bad
}

/// So many bytes that are pairs of a name each, all but the last as long as allowed, without the last part.
fn long_pairs(form: &Form, bytes: usize) -> Vec<u8> {
    let pair = |length: usize| [vec![form.two, form.named, length as u8], vec![b'x'; length]].concat();
    let (most, each) = (form.spelling.most(), form.spelling.most() + 3);
    let last = (bytes - 4) % each + 1;
    assert!(last <= most);
    [pair(most).repeat((bytes - 4) / each), pair(last)].concat()
}

/// Bare names: as long as allowed and longer, with a bad byte, each word and what is nearly one.
pub fn bare_names() -> Vec<Vec<u8>> {
    let most = Spelling::Name.most();
    let mut names: Vec<Vec<u8>> = [&b"x"[..], b"", b"9", b"x-"].map(<[u8]>::to_vec).to_vec();
    names.extend([most, most + 1, 5000].map(|length| vec![b'x'; length]));
    names.extend(WORDS.iter().flat_map(|word| spellings(word)).map(String::into_bytes));
    names
}

/// The same of proofs.
pub fn bad_proofs() -> Vec<Vec<u8>> {
    let mut bad = vec![vec![]];
    for byte in 0..=255 {
        bad.push(vec![byte]);
        bad.push(vec![byte, 0, 0]);
        bad.push(vec![byte, 0, 0, 0, 0]);
        // as a count of formulas, with too few and with enough; as a count of premises
        bad.push(vec![3, byte, 5, 5, 0]);
        bad.push([vec![3, byte], vec![5; byte as usize], vec![0]].concat());
        bad.push([vec![3, 0, byte], [3, 0, 0].repeat(3)].concat());
        // as the formula of a cut, in a list, as either byte of an index
        bad.push(vec![2, byte, 0, 0]);
        bad.push(vec![1, 2, 5, byte, 0]);
        bad.push(vec![16, byte, 255, 0, 0]);
        bad.push(vec![17, 255, byte, 0, 0]);
        bad.push(vec![1, 1, 1, 1, byte, 0]);
    }
    for length in 1..12 {
        bad.push([2, 3, 1, 1, b'A', 5, 1, 6, 2, 3, 0, 0][..length].to_vec());
    }
    for length in [L.bytes, L.bytes + 1] {
        bad.push(vec![3; length]);
        bad.push(vec![0; length]);
    }
    // rules and formula nodes at their limits, and one over, with a last tag that is listed and one that is not
    for rules in L.rules - 1..=L.rules + 1 {
        for last in [3, 0, 19] {
            bad.push([[4, 0, 1].repeat(rules - 1), vec![last, 0, 0]].concat());
        }
    }
    for nodes in L.formulas - 1..=L.formulas + 1 {
        for last in [5, 0, 14] {
            // spread over a cut formula and four lists
            let mut proof = [vec![2], vec![11; nodes - 1021], vec![5]].concat();
            for list in 0..4 {
                proof.extend([255]);
                proof.extend(vec![6; 254]);
                proof.push(if list == 3 { last } else { 6 });
                proof.extend(if list == 3 { vec![0] } else { vec![1, 1] });
            }
            bad.push(proof);
        }
    }
    bad.extend(proofs_with_words());
    bad
}

/// The same of proofs.
pub fn proofs_with_words() -> Vec<Vec<u8>> {
    let mut bad = worded(&IN_PROOFS);
    let word = [1, 2, b'O', b'f'];
    for other in [&[][..], &[5], &[0], &[1, 0], &[1, 1, b'7'], &[1, 3, b'o', b'f'], &word] {
        bad.push([&[3, 1], &word[..], &[0], other].concat());
        bad.push([&[3, 2], &word[..], other, &[0]].concat());
        bad.push([&[3, 2], other, &word[..], &[0]].concat());
    }
    for rules in L.rules - 1..=L.rules + 1 {
        bad.push([[4, 0, 1].repeat(rules - 1), vec![1, 1], word.to_vec(), vec![0]].concat());
    }
    for nodes in L.formulas - 1..=L.formulas + 1 {
        bad.push([vec![2], vec![11; nodes - 1], word.to_vec(), vec![0, 0]].concat());
    }
    for length in [L.bytes, L.bytes + 1] {
        bad.push([vec![3, 1], word.to_vec(), vec![0; length - 6]].concat());
    }
    bad
}
