//! Each refusal by each call that can give it.

use crate::extractions::{p10, tower};
use crate::record::{Call, Case, L};
use crate::List;
use patch_model::stored::{blocks, seal};

/// Which refusals each call can give.
#[cfg(test)]
pub const GIVEN: [(Call, &[u64]); 19] = [
    (Call::CheckTerm, &[2, 3, 4, 5, 6, 7, 15]),
    (Call::CheckFormula, &[2, 3, 4, 5, 6, 7, 15]),
    (Call::CheckProof, &[2, 3, 4, 5, 6, 7, 15]),
    (Call::IsNormal, &[2, 3, 4, 5, 6, 7, 15]),
    (Call::IsStraight, &[2, 3, 4, 5, 6, 7, 15]),
    (Call::ChildFault, &[2, 3, 4, 5, 6, 7, 14, 15]),
    (Call::Child, &[2, 3, 4, 5, 6, 7, 14, 15]),
    (Call::FreeVars, &[1, 2, 3, 4, 5, 6, 7, 15]),
    (Call::TermText, &[1, 2, 3, 4, 5, 6, 7, 15]),
    (Call::FormulaText, &[1, 2, 3, 4, 5, 6, 7, 15]),
    (Call::StoreTerm, &[1, 2, 3, 4, 5, 6, 7, 15]),
    (Call::StoreProof, &[1, 2, 3, 4, 5, 6, 7, 15]),
    (Call::LoadTerm, &[1, 3, 4, 5, 6, 7, 10, 11, 12, 13, 15]),
    (Call::LoadProof, &[1, 3, 4, 5, 6, 7, 10, 11, 12, 13, 15]),
    (Call::Substitute, &[1, 2, 3, 4, 5, 6, 7, 8, 15]),
    (Call::Step, &[1, 2, 3, 4, 5, 6, 7, 8, 15]),
    (Call::NormalizeBounded, &[1, 2, 3, 4, 5, 6, 7, 8, 15]),
    (Call::Extract, &[1, 2, 3, 4, 5, 6, 7, 8, 9, 15]),
    (Call::Extractor, &[1, 2, 3, 4, 5, 6, 7, 8, 9, 15]),
];

/// One input for each of 2 to 7 and 15: a node with one part, one without, one with a name, a tag that is not listed, and the most nodes.
fn bad(one: u8, leaf: u8, named: u8, unlisted: u8, nodes: usize) -> Vec<Vec<u8>> {
    let too_many = [vec![one; nodes], vec![leaf]].concat();
    let word = vec![one, named, 2, b'i', b'n'];
    vec![vec![leaf; 4097], vec![one], vec![one, unlisted], vec![named, 1, b'7'], too_many, vec![leaf, leaf], word]
}

fn bad_terms() -> Vec<Vec<u8>> {
    bad(14, 2, 1, 18, 512)
}

fn bad_formulas() -> Vec<Vec<u8>> {
    bad(11, 5, 1, 14, 1024)
}

fn bad_proofs() -> Vec<Vec<u8>> {
    let too_many = [[4, 0, 1].repeat(512), vec![3, 0, 0]].concat();
    vec![vec![3; 4097], vec![], vec![3, 0, 4], vec![3, 1, 1, 17], too_many, vec![3, 0, 0, 3], WORD_IN_LIST.to_vec()]
}

/// A word in a list, and in a Cut.
const WORD_IN_LIST: [u8; 7] = [3, 1, 2, 2, b'O', b'f', 0];
const WORD_IN_CUT: [u8; 13] = [2, 1, 2, b'i', b'n', 0, 2, 3, 0, 0, 3, 0, 0];

/// Whatever is lent one byte too short, before any fault of the input.
fn short(list: &mut List, call: Call, input: &[u8]) {
    for which in 0..2 {
        let lent = Case::new(call, &[input]).lent[which];
        if lent > 0 {
            list.put(Case::new(call, &[input]).lending(which, lent - 1));
            list.put(Case::new(call, &[&[]]).lending(which, lent - 1));
            list.put(Case::new(call, &[input]).lending(which, lent + 128));
        }
    }
}

fn one_input(list: &mut List, calls: &[Call], good: &[u8], bad: &[Vec<u8>]) {
    for call in calls {
        list.put(Case::new(*call, &[good]));
        short(list, *call, good);
        for input in bad {
            list.put(Case::new(*call, &[input]));
        }
    }
}

/// The second input is a bare name, never 2 or 3.
fn substitution(list: &mut List) {
    let pair = [3, 1, 1, b'x', 1, 1, b'x'];
    let put = |name: &[u8], value: &[u8]| Case::new(Call::Substitute, &[&pair, name, value]);
    for which in 0..2 {
        let lent = put(b"x", &[2]).lent[which];
        list.put(put(b"x", &[2]).lending(which, lent - 1));
        list.put(put(b"x", &[2]).lending(which, lent + 128));
    }
    for term in bad_terms() {
        list.put(Case::new(Call::Substitute, &[&term, b"", &[18]]));
    }
    for value in &bad_terms()[1..] {
        list.put(put(b"x", value));
    }
    for name in [&b""[..], b"7x", b"x-", &[b'x'; 25], b"_", b"in", b"In"] {
        list.put(put(name, &[2]));
    }
    list.put(put(b"x", &[vec![14; 300], vec![2]].concat()));
}

/// 8 tells the steps done, and leaves the last term that fitted.
fn outgrown(list: &mut List) {
    let doubled = [vec![17, 1, b'x', 1, b'y'], vec![14; 254], vec![2, 6, 1, 1, b'x', 1, 1, b'y']].concat();
    let after = [vec![3, 15, 14, 2], doubled].concat();
    for limit in [1, 2, 1000, u32::MAX] {
        list.put(Case::new(Call::NormalizeBounded, &[&after]).with(limit));
    }
}

fn children(list: &mut List) {
    for call in [Call::ChildFault, Call::Child] {
        for k in [2, u32::MAX] {
            list.put(Case::new(call, &[&[3, 2, 2]]).with(k));
        }
        for term in bad_terms() {
            list.put(Case::new(call, &[&term]));
        }
    }
}

/// A block's byte changed, and the check put right or not.
fn changed(file: &[u8], at: usize, to: u8, sealed: bool) -> Vec<u8> {
    let mut file = file.to_vec();
    file[at] = to;
    if sealed {
        let from = at / 512 * 512;
        seal(&mut file[from..from + 512]);
    }
    file
}

/// 10 to 13, and the faults of a content that fits a file.
fn files(list: &mut List, call: Call, kind: u8, good: &[u8], bad: &[Vec<u8>]) {
    let two = blocks(kind, &[vec![14; 511], vec![2]].concat());
    let files = [
        vec![],
        vec![0; 511],
        changed(&two, 600, 99, false),
        changed(&two, 0, 3 - kind, true),
        changed(&two, 513, 0, true),
        changed(&two, 1000, 7, true),
        blocks(kind, good),
    ];
    for file in &files {
        list.put(Case::new(call, &[file]));
    }
    short(list, call, &blocks(kind, good));
    for content in bad.iter().filter(|content| !content.is_empty() && content.len() <= L.bytes) {
        list.put(Case::new(call, &[&blocks(kind, content)]));
    }
}

/// The second extraction goes on from where the first one was refused; refused too, it leaves all as it was.
fn extractors(list: &mut List) {
    for proof in bad_proofs() {
        list.put(Case::new(Call::Extractor, &[&proof, &p10()]).with(7));
    }
    list.put(Case::new(Call::Extractor, &[&WORD_IN_LIST, &WORD_IN_CUT]).with(7));
    list.put(Case::new(Call::Extract, &[&tower()]));
    list.put(Case::new(Call::Extract, &[&tower()]).with(100_000_000));
}

pub fn all(list: &mut List) {
    let terms = [Call::CheckTerm, Call::IsNormal, Call::IsStraight, Call::FreeVars, Call::TermText, Call::StoreTerm];
    one_input(list, &terms, &[2], &bad_terms());
    one_input(list, &[Call::Step, Call::NormalizeBounded], &[15, 14, 2], &bad_terms());
    one_input(list, &[Call::CheckFormula, Call::FormulaText], &[5], &bad_formulas());
    one_input(list, &[Call::CheckProof, Call::StoreProof, Call::Extract], &p10(), &bad_proofs());
    substitution(list);
    outgrown(list);
    children(list);
    files(list, Call::LoadTerm, 1, &[14, 2], &bad_terms());
    // no count of formulas stands for an empty input, which fits no file
    files(list, Call::LoadProof, 2, &p10(), &[bad_proofs(), vec![vec![3]]].concat());
    extractors(list);
}
