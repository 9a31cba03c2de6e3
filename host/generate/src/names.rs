//! Pools of names: few, so that they meet; some begin one another, some differ in case or in the last byte, some are as long as allowed, some are
//! nearly words. None is a word; words are made by themselves.

use crate::rng::Rng;
use patch_model::names::{Spelling, WORDS};

const SHORT: [&str; 12] = ["x", "y", "z", "a", "b", "_", "x1", "xx", "X", "x_", "A9", "Z"];
const LETTERS: &[u8] = b"abcxyzABCXYZ_";
const LATER: &[u8] = b"abcxyzABCXYZ_0189";

/// The first that is made and is no word.
fn no_word(spelling: Spelling, mut make: impl FnMut() -> String) -> String {
    loop {
        let name = make();
        if !spelling.is_word(name.as_bytes()) {
            return name;
        }
    }
}

/// A name of exactly so many bytes, which is a good atom too if it is not too long.
pub fn of_length(rng: &mut Rng, length: usize) -> String {
    let letter = |rng: &mut Rng, i: usize| *rng.pick(if i == 0 { LETTERS } else { LATER }) as char;
    no_word(Spelling::Atom, || (0..length).map(|i| letter(rng, i)).collect())
}

/// The lengths of names that, as leaves under nodes of two parts, come to exactly so many bytes and at most so many nodes.
pub fn lengths(rng: &mut Rng, spelling: Spelling, bytes: usize, most_nodes: usize) -> Vec<usize> {
    let most = spelling.most();
    // m leaves under m - 1 nodes: 3 m - 1 bytes and the m names
    let leaves = rng.within((bytes + 1).div_ceil(3 + most), ((bytes + 1) / 4).min(most_nodes.div_ceil(2)));
    let mut lengths = vec![1; leaves];
    for _ in 0..bytes - (4 * leaves - 1) {
        let mut i = rng.below(leaves);
        while lengths[i] == most {
            i = (i + 1) % leaves;
        }
        lengths[i] += 1;
    }
    lengths
}

/// One to four names.
pub fn pool(rng: &mut Rng, spelling: Spelling) -> Vec<String> {
    let count = rng.within(1, 4);
    let mut names: Vec<String> = Vec::new();
    for _ in 0..count {
        let name = match rng.below(8) {
            0 => {
                let length = rng.within(1, spelling.most());
                of_length(rng, length)
            }
            1 => of_length(rng, spelling.most()),
            2 if !names.is_empty() => no_word(spelling, || near(rng, &names[0], spelling.most())),
            3 => no_word(spelling, || near_word(rng)),
            _ => rng.pick(&SHORT).to_string(),
        };
        names.push(name);
    }
    names
}

/// A name that begins another, is begun by it, or differs in its last byte.
fn near(rng: &mut Rng, name: &str, most: usize) -> String {
    let mut near = name.to_string();
    match rng.below(3) {
        0 if near.len() < most => near.push('0'),
        1 if near.len() > 1 => {
            near.pop();
        }
        _ => {
            near.pop();
            near.push(*rng.pick(LETTERS) as char);
        }
    }
    near
}

/// A word cut short, made longer at either end, or as it is, in some case; it may still be one.
fn near_word(rng: &mut Rng) -> String {
    let word = *rng.pick(&WORDS);
    let near = match rng.below(4) {
        0 => word[..word.len() - 1].to_string(),
        1 => format!("{word}{}", rng.pick(&["1", "_", "n", "s", "t"])),
        2 => format!("{}{word}", rng.pick(&["_", "x"])),
        _ => word.to_string(),
    };
    in_some_case(rng, &near)
}

/// The same letters: as they are, with a capital, in capitals, or in any case each.
fn in_some_case(rng: &mut Rng, name: &str) -> String {
    let way = rng.below(5);
    let capital = |rng: &mut Rng, i: usize| match way {
        0 | 1 => false,
        2 => i == 0,
        3 => true,
        _ => rng.one_in(2),
    };
    name.chars().enumerate().map(|(i, c)| if capital(rng, i) { c.to_ascii_uppercase() } else { c }).collect()
}

/// A word in some case: as it is no name, in any no atom.
pub fn word(rng: &mut Rng) -> String {
    let word = *rng.pick(&WORDS);
    in_some_case(rng, word)
}

/// A bare name: mostly of one letter, so that terms have it, now and then a word.
pub fn bare(rng: &mut Rng) -> String {
    if rng.one_in(16) {
        word(rng)
    } else {
        of_length(rng, 1)
    }
}
