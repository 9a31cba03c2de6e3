//! Extractions by one Extractor over one row: the patches of document 01, chains, what each answer leaves, and rows of other lengths.

use crate::record::{Call, Case, L};
use crate::List;
use patch_model::read;

const ONE: [u8; 3] = [3, 0, 0];
/// Axiom with One only: `\x. x` of a new name.
const P12: [u8; 4] = [1, 1, 5, 0];

/// An atom's name as bytes.
fn name(atom: &str) -> Vec<u8> {
    [&[atom.len() as u8], atom.as_bytes()].concat()
}

/// A Cut on the formula, with these premises.
fn cut(formula: &[u8], producer: &[u8], consumer: &[u8]) -> Vec<u8> {
    [&[2], formula, &[0, 2], producer, consumer].concat()
}

fn cut_atom(atom: &str, consumer: &[u8]) -> Vec<u8> {
    cut(&[vec![1], name(atom)].concat(), &ONE, consumer)
}

/// An Axiom with NegAtom and then Atom of it.
fn axiom(atom: &str) -> Vec<u8> {
    [vec![1, 2, 2], name(atom), vec![1], name(atom), vec![0]].concat()
}

pub fn p10() -> Vec<u8> {
    cut(&[3, 5, 5], &ONE, &ONE)
}

/// Two entries that the Axiom may take: the oldest is taken.
fn p11() -> Vec<u8> {
    cut_atom("A", &cut_atom("A", &axiom("A")))
}

/// Plus cuts one in the other, so high that the term outgrows any limit.
pub fn tower() -> Vec<u8> {
    (0..60).fold(ONE.to_vec(), |made, _| cut(&[8, 5, 5], &ONE, &made))
}

/// Cuts one in the other, each with an entry; the Axiom at the end takes the oldest.
fn deep() -> Vec<u8> {
    (0..170).fold(axiom("A"), |made, _| cut_atom("A", &made))
}

fn chain(first: &[u8], second: &[u8], counter: u32) -> Case {
    Case::new(Call::Extractor, &[first, second]).with(counter)
}

/// By value, and held to what document 01 says of it: the term's text, and the counter after it.
fn as_told(list: &mut List, proof: &[u8], counter: u32, text: &str, after: u64) {
    let case = Case::new(Call::Extract, &[proof]).with(counter);
    let wanted = case.wanted();
    assert_eq!(read::term(&L, 1, &wanted.output).unwrap().pretty(), text);
    assert_eq!(wanted.numbers.last(), Some(&after));
    list.put(case);
}

/// The atoms `A1` at counter 0 and `A` at counter 10 both make `a10`.
fn a10(list: &mut List) {
    let (long, short) = (cut_atom("A1", &axiom("A1")), cut_atom("A", &axiom("A")));
    list.put(chain(&long, &short, 0));
    list.put(chain(&short, &long, 10));
    as_told(list, &long, 0, "(a10 ())", 1);
    as_told(list, &short, 10, "(a10 ())", 11);
}

/// The counter at its edge: 9 leaves all as it was, and so does what follows 9.
fn edges(list: &mut List) {
    for counter in [99_999_998, 99_999_999, 100_000_000, 100_000_001, u32::MAX] {
        list.put(chain(&P12, &P12, counter));
        list.put(chain(&ONE, &P12, counter));
        list.put(Case::new(Call::Extract, &[&P12]).with(counter));
    }
    list.put(chain(&tower(), &P12, 100_000_000));
}

/// Success and 8 set the row and the scratch to zeros, and 9 does not; a row that is longer too.
fn rows(list: &mut List) {
    for row in [L.entry_room, L.entry_room + 1, 600] {
        for (first, second) in [(p11(), vec![]), (tower(), vec![]), (p11(), tower()), (tower(), p11()), (vec![], p10())] {
            list.put(chain(&first, &second, 4).lending(2, row));
        }
        list.put(chain(&P12, &p10(), 100_000_000).lending(2, row));
    }
    for row in [1, L.entry_room - 1] {
        list.put(chain(&p11(), &P12, 4).lending(2, row));
        list.put(chain(&[], &tower(), 4).lending(2, row));
    }
}

/// Longer buffers have zeros to their ends; shorter ones are refused.
fn buffers(list: &mut List) {
    let case = || chain(&p11(), &p10(), 0);
    list.put(case().lending(0, 4352).lending(1, 8448));
    list.put(case().lending(0, L.output_room() - 1));
    list.put(case().lending(1, L.scratch_room - 1));
    list.put(Case::new(Call::Extract, &[&p11()]).lending(0, 4352).lending(1, 8448));
}

pub fn all(list: &mut List) {
    as_told(list, &p10(), 0, "let (x1, x2) = () in ()", 3);
    as_told(list, &p11(), 0, "((a0 ()) ())", 2);
    as_told(list, &P12, 0, "λx0. x0", 1);
    list.put(Case::new(Call::Extract, &[&deep()]));
    for proof in [p10(), p11(), P12.to_vec(), deep(), ONE.to_vec()] {
        list.put(chain(&proof, &[], 0));
        list.put(chain(&proof, &p11(), 0));
        list.put(chain(&P12, &proof, 0));
    }
    a10(list);
    edges(list);
    rows(list);
    buffers(list);
}
