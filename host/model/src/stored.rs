//! The stored form: blocks of 512 bytes (01, "Stored form", refusals 10 to 13).

use crate::calls::written;
use crate::limits::Limits;
use crate::read;
use crate::refusal::{refuse, Answer, Refusal};

#[derive(Clone, Copy, Debug, PartialEq, Eq)]
pub enum Kind {
    Term = 1,
    Proof = 2,
}

pub const BLOCK: usize = 512;
pub const CONTENT: usize = 506;

/// The sum of (position + 1) times the byte over positions 0 to 509, modulo 65,521.
pub fn check(block: &[u8]) -> u16 {
    let sum: u64 = block[..510].iter().enumerate().map(|(i, &b)| (i as u64 + 1) * b as u64).sum();
    (sum % 65_521) as u16
}

/// A content as blocks, whatever it is.
pub fn blocks(kind: u8, content: &[u8]) -> Vec<u8> {
    let mut file = Vec::new();
    for (number, part) in content.chunks(CONTENT).enumerate() {
        let mut block = [0; BLOCK];
        block[0] = kind;
        block[1] = number as u8;
        block[2..4].copy_from_slice(&(content.len() as u16).to_le_bytes());
        block[4..4 + part.len()].copy_from_slice(part);
        seal(&mut block);
        file.extend_from_slice(&block);
    }
    file
}

/// A block with its check put right.
pub fn seal(block: &mut [u8]) {
    let sum = check(block).to_le_bytes();
    block[510..512].copy_from_slice(&sum);
}

fn read_kind(limits: &Limits, kind: Kind, content: &[u8]) -> Result<(), Refusal> {
    match kind {
        Kind::Term => read::term(limits, 1, content).map(|_| ()),
        Kind::Proof => read::proof(limits, 1, content).map(|_| ()),
    }
}

pub fn store(limits: &Limits, kind: Kind, content: &[u8], out: &mut [u8]) -> Answer {
    written(out, limits.stored_room, || {
        read_kind(limits, kind, content)?;
        Ok(blocks(kind as u8, content))
    })
}

/// 10; then block by block 11, 12, 13; then the content from 3 on, places counted in the content.
pub fn content(limits: &Limits, kind: Kind, file: &[u8]) -> Result<Vec<u8>, Refusal> {
    if file.is_empty() || file.len() % BLOCK != 0 || file.len() > limits.stored_room {
        return refuse(10, 0, 1);
    }
    let length_of = |block: &[u8]| u16::from_le_bytes([block[2], block[3]]) as usize;
    let count = file.len() / BLOCK;
    let length = length_of(file);
    let mut content = Vec::new();
    for (number, block) in file.chunks(BLOCK).enumerate() {
        if u16::from_le_bytes([block[510], block[511]]) != check(block) {
            return refuse(11, number, 1);
        }
        let here = length_of(block);
        let in_range = (1..=limits.bytes).contains(&here);
        if block[0] != kind as u8 || block[1] as usize != number || !in_range || here != length || here.div_ceil(CONTENT) != count {
            return refuse(12, number, 1);
        }
        let used = (length - number * CONTENT).min(CONTENT);
        if block[4 + used..510].iter().any(|&b| b != 0) {
            return refuse(13, number, 1);
        }
        content.extend_from_slice(&block[4..4 + used]);
    }
    read_kind(limits, kind, &content)?;
    Ok(content)
}

pub fn load(limits: &Limits, kind: Kind, file: &[u8], out: &mut [u8]) -> Answer {
    written(out, limits.output_room(), || content(limits, kind, file))
}
