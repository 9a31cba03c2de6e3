//! Straight terms within the limits, as bytes; and nearly straight ones, which differ from a straight one in a name, two names or one node.

use crate::rng::Rng;
use crate::terms;
use patch_model::calls::fits;
use patch_model::form::term_bytes;
use patch_model::Limits;
use std::ops::Range;

const L: Limits = Limits::BASE;

/// A straight term: mostly of at most 40 nodes, one in eight of any size.
pub fn random(rng: &mut Rng) -> Vec<u8> {
    loop {
        let most = if rng.one_in(8) { L.nodes } else { 40 };
        let nodes = rng.within(1, most);
        let term = terms::straight(rng, nodes);
        if fits(&L, &term) {
            return term_bytes(&term);
        }
    }
}

/// A straight term with one thing changed, after which it is seldom straight.
pub fn nearly(rng: &mut Rng) -> Vec<u8> {
    let mut bytes = random(rng);
    let places = Places::of(&bytes);
    let at = *rng.pick(&places.nodes);
    match rng.below(6) {
        0 | 1 if !places.names.is_empty() => rename(rng, &mut bytes, &places.names),
        2 | 3 if places.uses.len() > 1 => swap(rng, &mut bytes, &places.uses),
        4 => {
            let binder = bound_again(rng, &bytes, &places.names);
            bytes.splice(at..at, binder);
        }
        _ => {
            let node = rng.pick(&NOT_PLAIN).to_vec();
            bytes.splice(at..at, node);
        }
    }
    bytes
}

/// A node that no straight term has, up to its last part: Case, Fst, Snd, Discard, Copy.
const NOT_PLAIN: [&[u8]; 5] = [&[9, 1, b'p', 1, b'q', 2, 10], &[11], &[12], &[16, 2], &[17, 1, b'p', 1, b'q', 2]];

/// Where the nodes of a term stand, its names (each with its length byte), and those of them that are variables.
struct Places {
    nodes: Vec<usize>,
    names: Vec<Range<usize>>,
    uses: Vec<Range<usize>>,
}

impl Places {
    fn of(bytes: &[u8]) -> Places {
        let mut places = Places { nodes: Vec::new(), names: Vec::new(), uses: Vec::new() };
        let mut at = 0;
        while at < bytes.len() {
            let tag = bytes[at];
            places.nodes.push(at);
            at += 1;
            for _ in 0..names_after(tag) {
                let end = at + 1 + bytes[at] as usize;
                places.names.push(at..end);
                if tag == 1 {
                    places.uses.push(at..end);
                }
                at = end;
            }
        }
        places
    }
}

fn names_after(tag: u8) -> usize {
    match tag {
        1 | 5 => 1,
        4 | 9 | 17 => 2,
        _ => 0,
    }
}

/// Another name of the term, or a new one, in the place of a name: a name at two binders, used twice, or not at all.
fn rename(rng: &mut Rng, bytes: &mut Vec<u8>, names: &[Range<usize>]) {
    let place = rng.pick(names).clone();
    let name = if rng.one_in(4) { vec![1, b'n'] } else { bytes[rng.pick(names).clone()].to_vec() };
    bytes.splice(place, name);
}

/// Two variables in each other's place: every name is used as often as before, but perhaps outside what its binder covers.
fn swap(rng: &mut Rng, bytes: &mut Vec<u8>, uses: &[Range<usize>]) {
    let i = rng.below(uses.len() - 1);
    let j = rng.within(i + 1, uses.len() - 1);
    let (first, second) = (bytes[uses[i].clone()].to_vec(), bytes[uses[j].clone()].to_vec());
    bytes.splice(uses[j].clone(), first);
    bytes.splice(uses[i].clone(), second);
}

/// An Abs, or a LetPair over a Unit, that binds a name of the term once more, or a name that is not used.
fn bound_again(rng: &mut Rng, bytes: &[u8], names: &[Range<usize>]) -> Vec<u8> {
    let name = |rng: &mut Rng| if names.is_empty() { vec![1, b'n'] } else { bytes[rng.pick(names).clone()].to_vec() };
    if rng.one_in(2) {
        return [vec![5], name(rng)].concat();
    }
    [vec![4], name(rng), name(rng), vec![2]].concat()
}
