//! Damaged copies: cut short, made longer, a bit flipped, a tag, a length or a byte replaced, taken out, put in, a run repeated, a word for a name.

use crate::names;
use crate::rng::Rng;
use patch_model::names::{bad_byte, Spelling};
use std::ops::Range;

/// Bytes that stand at an edge of some rule.
const EDGES: [u8; 20] = [0, 1, 2, 3, 4, 5, 13, 14, 16, 17, 18, 19, 24, 25, b'0', b'9', b'_', b'{', 128, 255];

pub fn damage(rng: &mut Rng, bytes: &mut Vec<u8>) {
    for _ in 0..*rng.pick(&[1, 1, 1, 2, 3]) {
        once(rng, bytes);
    }
}

/// Damaged in three of four.
pub fn mostly_damaged(rng: &mut Rng, mut bytes: Vec<u8>) -> Vec<u8> {
    if !rng.one_in(4) {
        damage(rng, &mut bytes);
    }
    bytes
}

fn once(rng: &mut Rng, bytes: &mut Vec<u8>) {
    if bytes.is_empty() {
        return bytes.push(rng.byte());
    }
    let at = rng.below(bytes.len());
    match rng.below(11) {
        0 | 1 => bytes.truncate(at),
        2 => {
            for _ in 0..rng.within(1, 6) {
                let b = *rng.pick(&EDGES);
                bytes.push(b);
            }
        }
        3 => bytes[at] ^= 1 << rng.below(8),
        4 => bytes[at] = rng.byte(),
        5 => bytes[at] = rng.below(20) as u8,
        6 => bytes[at] = *rng.pick(&EDGES),
        7 => {
            bytes.remove(at);
        }
        8 => bytes.insert(at, *rng.pick(&EDGES)),
        9 => word_for_name(rng, bytes),
        _ => {
            let end = (at + rng.within(1, 9)).min(bytes.len());
            let run = bytes[at..end].to_vec();
            bytes.splice(at..at, run);
        }
    }
}

/// A word in the place of a name, or, where there is none, of the last byte as a variable or an atom.
fn word_for_name(rng: &mut Rng, bytes: &mut Vec<u8>) {
    let (names, word) = (names_in(bytes), names::word(rng));
    if names.is_empty() {
        bytes.pop();
        bytes.extend([&[1, word.len() as u8], word.as_bytes()].concat());
    } else {
        put_name(bytes, rng.pick(&names).clone(), &word);
    }
}

/// Another name in the place of one, with its length.
pub fn put_name(bytes: &mut Vec<u8>, place: Range<usize>, name: &str) {
    bytes.splice(place, [&[name.len() as u8], name.as_bytes()].concat());
}

/// Where the names of a term or a formula stand, each with its length byte: nothing else in them comes before letters. In a proof an index may.
pub fn names_in(bytes: &[u8]) -> Vec<Range<usize>> {
    let name = |(at, length): (usize, &u8)| {
        let place = at..at + 1 + *length as usize;
        let letters = bytes.get(at + 1..place.end)?;
        let is_name = (1..=Spelling::Name.most()).contains(&letters.len()) && bad_byte(letters).is_none();
        is_name.then_some(place)
    };
    bytes.iter().enumerate().filter_map(name).collect()
}
