//! Stored files, and files that are damaged in ways that their checks do not show.

use crate::damage::damage;
use crate::rng::Rng;
use patch_model::stored::{blocks, seal, BLOCK};

/// A file of this content that has some fault, or none.
pub fn damaged(rng: &mut Rng, kind: u8, content: &[u8]) -> Vec<u8> {
    let mut content = content.to_vec();
    if rng.one_in(6) {
        damage(rng, &mut content);
        content.truncate(4608);
    }
    let mut file = blocks(kind, &content);
    if file.is_empty() {
        return file;
    }
    match rng.below(12) {
        0 => {
            let at = rng.below(file.len());
            file[at] ^= 1 << rng.below(8);
        }
        1 => file.truncate(rng.below(file.len())),
        2 => file.extend(vec![0; BLOCK * rng.within(1, 3)]),
        3 => file.truncate(BLOCK * rng.below(file.len() / BLOCK)),
        4 => file.rotate_left(BLOCK),
        5 => file.push(0),
        6 => head(rng, &mut file, 0),
        7 => head(rng, &mut file, 1),
        8 | 9 => head(rng, &mut file, 2),
        10 => {
            // a byte of the last block that may be unused
            let last = file.len() - BLOCK;
            let at = last + rng.within(4, 509);
            file[at] ^= 1 << rng.below(8);
            seal(&mut file[last..]);
        }
        _ => {}
    }
    file
}

/// A kind, a number or a length made wrong, in one block or in all, with checks that are right.
fn head(rng: &mut Rng, file: &mut [u8], at: usize) {
    let (at, byte) = (at + if at == 2 { rng.below(2) } else { 0 }, rng.below(20) as u8);
    let chosen = rng.below(file.len() / BLOCK);
    let every = rng.one_in(2);
    for (i, block) in file.chunks_mut(BLOCK).enumerate() {
        if every || i == chosen {
            block[at] = byte;
            seal(block);
        }
    }
}
