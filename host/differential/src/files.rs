//! Stored forms.

use crate::case::{Call, Case};
use crate::readers::lent_lengths;
use crate::run::{listed, random};
use patch_generate::bad::{bad_inputs, proofs_with_words, with_words, TERMS};
use patch_generate::damage::mostly_damaged;
use patch_generate::inputs::term;
use patch_generate::{files, proofs, terms, Rng};
use patch_harness::Verdict;
use patch_model::form::{proof_bytes, term_bytes};
use patch_model::stored::{blocks, seal};
use patch_model::Limits;

const L: Limits = Limits::BASE;

fn one(call: Call, bytes: Vec<u8>) -> Case {
    Case::new(call, vec![bytes])
}

/// Buffers, lengths and contents at every edge.
fn edges() -> Vec<Case> {
    let mut cases: Vec<Case> = bad_inputs(&TERMS).into_iter().map(|bytes| one(Call::StoreTerm, bytes)).collect();
    cases.extend(lent_lengths(Call::StoreTerm, &[vec![2], vec![2, 2]]));
    cases.extend(lent_lengths(Call::LoadTerm, &[blocks(1, &[2]), vec![0; 512], vec![]]));
    // files of every length near a whole number of blocks
    for length in [0, 1, 511, 512, 513, 1023, 1024, 4607, 4608, 4609, 5120] {
        cases.push(one(Call::LoadTerm, vec![0; length]));
    }
    // contents at every edge of a block
    for length in [1, 505, 506, 507, 511, 512, 1011, 1012, 1013] {
        let content = [vec![14; length.min(512) - 1], vec![2]].concat();
        cases.push(one(Call::StoreTerm, content.clone()));
        cases.push(one(Call::LoadTerm, blocks(1, &content)));
        cases.push(one(Call::LoadProof, blocks(2, &content)));
        cases.push(one(Call::LoadProof, blocks(1, &content)));
    }
    // one block, each byte of it changed, with its check put right
    for at in 0..512 {
        let mut file = blocks(1, &[3, 2, 2]);
        file[at] ^= 1;
        seal(&mut file);
        cases.push(one(Call::LoadTerm, file));
    }
    cases.extend(words());
    cases
}

/// Contents with words, and with what is nearly one.
fn words() -> Vec<Case> {
    let mut cases: Vec<Case> = with_words(&TERMS).into_iter().map(|term| one(Call::LoadTerm, blocks(1, &term))).collect();
    for proof in proofs_with_words() {
        cases.push(one(Call::LoadProof, blocks(2, &proof)));
        cases.push(one(Call::StoreProof, proof));
    }
    cases
}

pub fn all() -> Verdict {
    Ok(listed("Store and Load at the edges", &edges())?
        + random("Store of a term of each length", L.bytes as u64, |index| one(Call::StoreTerm, of_length(index as usize + 1)))?
        + random("Load of a term of each length", L.bytes as u64, |index| one(Call::LoadTerm, blocks(1, &of_length(index as usize + 1))))?
        + random("Load of one block with any byte changed to any other", 512 * 255, |index| {
            one(Call::LoadTerm, changed(blocks(1, &[3, 2, 2]), (index / 255) as usize, (index % 255) as u8))
        })?
        + random("Load of nine blocks with any byte changed", L.stored_room as u64 * 4, |index| {
            one(
                Call::LoadTerm,
                changed(blocks(1, &of_length(L.bytes)), (index / 4) as usize, (index.wrapping_mul(0x9e37_79b9) >> 7) as u8 % 255),
            )
        })?
        + random("Store of terms and proofs, some damaged", 40_000, |index| {
            let mut rng = Rng::new(0x7374_6f72, index);
            let (call, bytes) = content(&mut rng);
            let bytes = if rng.one_in(2) { bytes } else { mostly_damaged(&mut rng, bytes) };
            one(call, bytes).lent_by(&mut rng)
        })?
        + random("Load of files, some damaged", 80_000, |index| {
            let mut rng = Rng::new(0x6c6f_6164, index);
            let (call, mut bytes) = content(&mut rng);
            bytes.truncate(L.stored_room);
            let (call, kind) = if call == Call::StoreTerm { (Call::LoadTerm, 1) } else { (Call::LoadProof, 2) };
            one(call, files::damaged(&mut rng, kind, &bytes)).lent_by(&mut rng)
        })?)
}

/// A legal term of so many bytes.
fn of_length(bytes: usize) -> Vec<u8> {
    if bytes < 4 {
        return [vec![TERMS.one; bytes - 1], vec![TERMS.leaf]].concat();
    }
    term_bytes(&terms::of_bytes(&mut Rng::new(0x6c65_6e67, bytes as u64), bytes, L.nodes))
}

/// The file with one byte changed, by one of the 255 ways.
fn changed(mut file: Vec<u8>, at: usize, way: u8) -> Vec<u8> {
    file[at] = file[at].wrapping_add(way + 1);
    file
}

fn content(rng: &mut Rng) -> (Call, Vec<u8>) {
    if rng.one_in(2) {
        (Call::StoreTerm, term(rng))
    } else {
        (Call::StoreProof, proof_bytes(&proofs::random(rng, 200)))
    }
}
