//! The table of refusals: each number by each call that can give it, and, of any two that can compete, which comes first. What is expected is written
//! here by hand from documents 01 and 02; port and model are both held to it.

mod words;

use crate::case::{Call, Case};
use patch_harness::{hold, Verdict};
use patch_model::stored::{blocks, seal};
use std::collections::BTreeSet;

/// A number, a place and an input.
type Refused = [u64; 3];

/// Why an input is refused, the input, the number and the place.
type Fault = (&'static str, Vec<u8>, u64, u64);

struct Table {
    met: BTreeSet<(String, u64)>,
    cases: u64,
    wrong: Vec<String>,
}

impl Table {
    fn expect(&mut self, why: &str, case: Case, want: Refused) {
        let model = case.model();
        let port = case.port();
        self.cases += 1;
        self.met.insert((format!("{:?}", case.call), want[0]));
        let answers = |seen: &crate::case::Seen| seen.refusal() == want;
        if !answers(&model) || port != model {
            self.wrong.push(format!("{why}: expected {want:?}\n{case}"));
        }
    }
}

/// The faults of an input; in two-fault inputs the first number named comes before the second.
fn faults(form: &Form) -> Vec<Fault> {
    [plain_faults(form), words::faults(form), (form.words)()].concat()
}

fn plain_faults(form: &Form) -> Vec<Fault> {
    let Form { one, leaf, named, bad_tag, nodes, name_most, .. } = *form;
    let ones = |n: usize, last: &[u8]| [vec![one; n], last.to_vec()].concat();
    vec![
        ("2", vec![leaf; 4097], 2, 4096),
        ("2 before 4", vec![bad_tag; 4097], 2, 4096),
        ("2 before 7", vec![leaf; 5000], 2, 4096),
        ("3, empty", vec![], 3, 0),
        ("3", vec![one], 3, 1),
        ("4", vec![bad_tag], 4, 0),
        ("4, and 0 is no tag", vec![one, 0], 4, 1),
        ("5, a length of 0", vec![named, 0], 5, 1),
        ("5, a length too great", vec![named, name_most + 1], 5, 1),
        ("5 before 3: the length is read before the bytes are missed", vec![named, name_most + 1, b'x'], 5, 1),
        ("3 before 5: missing bytes before a bad one", vec![named, 2, b'-'], 3, 3),
        ("3, no length", vec![named], 3, 1),
        ("5, a bad byte", vec![named, 2, b'x', b'-'], 5, 3),
        ("5, a digit first", vec![named, 1, b'7'], 5, 2),
        ("6", ones(nodes, &[leaf]), 6, nodes as u64),
        ("6 before 4", ones(nodes, &[bad_tag]), 6, nodes as u64),
        ("3 before 6", ones(nodes, &[]), 3, nodes as u64),
        ("7", vec![leaf, leaf], 7, 1),
        ("7, whatever is left over", vec![leaf, bad_tag], 7, 1),
        ("4 before 7: the first from the left", vec![bad_tag, leaf], 4, 0),
    ]
}

#[derive(Clone, Copy)]
struct Form {
    one: u8,
    two: u8,
    leaf: u8,
    named: u8,
    bad_tag: u8,
    nodes: usize,
    name_most: u8,
    /// words where this form alone has names
    words: fn() -> Vec<Fault>,
}

const FORMULA: Form = Form { one: 11, two: 3, leaf: 5, named: 1, bad_tag: 14, nodes: 1024, name_most: 16, words: words::in_formulas };
const TERM: Form = Form { one: 14, two: 3, leaf: 2, named: 1, bad_tag: 18, nodes: 512, name_most: 24, words: words::in_terms };

/// `copy !v as (x, y) in (x y)` for v of so many Promotes and a Unit.
fn doubled(promotes: usize) -> Vec<u8> {
    [vec![17, 1, b'x', 1, b'y'], vec![14; promotes + 1], vec![2, 6, 1, 1, b'x', 1, 1, b'y']].concat()
}

fn short(mut case: Case, at: usize) -> Case {
    case.lent[at] -= 1;
    case
}

/// Each fault of one input, and 1 before it for each buffer.
fn one_input(table: &mut Table, call: Call, form: &Form) {
    for (why, bytes, number, place) in faults(form) {
        let case = Case::new(call, vec![bytes]);
        for at in 0..case.lent.len() {
            table.expect(&format!("1 before {why}"), short(case.clone(), at), [1, 0, 0]);
        }
        table.expect(why, case, [number, place, 1]);
    }
    let good = Case::new(call, vec![vec![form.leaf]]);
    for at in 0..good.lent.len() {
        table.expect("1", short(good.clone(), at), [1, 0, 0]);
    }
}

fn substitution(table: &mut Table) {
    let case = |t: &[u8], x: &[u8], v: &[u8]| Case::new(Call::Substitute, vec![t.to_vec(), x.to_vec(), v.to_vec()]);
    let pair = [3, 1, 1, b'x', 1, 1, b'x'];
    for (why, bytes, number, place) in faults(&TERM) {
        for at in 0..2 {
            table.expect(&format!("1 before {why}"), short(case(&bytes, b"", &bytes), at), [1, 0, 0]);
        }
        table.expect(&format!("{why} of input 1 before 2 and 3"), case(&bytes, b"", &[18]), [number, place, 1]);
        table.expect(&format!("{why} of input 1 before 15 of input 2"), case(&bytes, b"in", &[2]), [number, place, 1]);
        table.expect(&format!("{why} of input 3"), case(&pair, b"x", &bytes), [number, place, 3]);
        table.expect(&format!("5 of input 2 before {why} of input 3"), case(&pair, b"", &bytes), [5, 0, 2]);
        table.expect(&format!("15 of input 2 before {why} of input 3"), case(&pair, b"in", &bytes), [15, 0, 2]);
    }
    for (name, place) in [(&b""[..], 0), (&[b'x'; 25], 0), (&[b'x'; 5000], 0), (b"7x", 0), (b"x-", 1), (b"in-", 2)] {
        table.expect("5 of a bare name, never 2 or 3", case(&pair, name, &[2]), [5, place, 2]);
    }
    let half = [vec![14; 300], vec![2]].concat();
    let with_word = [vec![14; 300], vec![1, 2, b'i', b'n']].concat();
    table.expect("8", case(&pair, b"x", &half), [8, 0, 0]);
    table.expect("15 of input 3 before 8", case(&pair, b"x", &with_word), [15, 302, 3]);
    for at in 0..2 {
        table.expect("1 before 8", short(case(&pair, b"x", &half), at), [1, 0, 0]);
        table.expect("1 before 15 of input 2", short(case(&pair, b"in", &[2]), at), [1, 0, 0]);
    }
}

fn steps(table: &mut Table) {
    for call in [Call::Step, Call::NormalizeBounded] {
        let outgrown = Case { number: 9, ..Case::new(call, vec![doubled(254)]) };
        table.expect("8", outgrown.clone(), [8, 0, 0]);
        for at in 0..2 {
            table.expect("1 before 8", short(outgrown.clone(), at), [1, 0, 0]);
        }
        // the copy has 268 bytes
        let with_word = [vec![3], doubled(254), vec![1, 2, b'i', b'n']].concat();
        table.expect("15 before 8", Case { number: 9, ..Case::new(call, vec![with_word]) }, [15, 271, 1]);
    }
    // one step of Derelict, and then the copy outgrows
    let after = [vec![3, 15, 14, 2], doubled(253)].concat();
    table.expect("8 tells the steps done", Case { number: 9, ..Case::new(Call::NormalizeBounded, vec![after]) }, [8, 1, 0]);
}

fn children(table: &mut Table) {
    let child = |bytes: &[u8], k: u64| Case { number: k, ..Case::new(Call::Child, vec![bytes.to_vec()]) };
    table.expect("14", child(&[2], 0), [14, 0, 0]);
    table.expect("14", child(&[3, 2, 2], 2), [14, 0, 0]);
    for (why, bytes, number, place) in faults(&TERM) {
        table.expect(&format!("{why} before 14"), child(&bytes, 9), [number, place, 1]);
    }
}

fn proof_faults() -> Vec<Fault> {
    [plain_proof_faults(), words::in_proofs(), words::among_proof_faults()].concat()
}

fn plain_proof_faults() -> Vec<Fault> {
    let rules = |n: usize, last: &[u8]| [[4, 0, 1].repeat(n), last.to_vec()].concat();
    let list = |n: usize, last: u8| [vec![3, 2], vec![11; n], vec![5, last, 0]].concat();
    vec![
        ("2", vec![3; 4097], 2, 4096),
        ("3, empty", vec![], 3, 0),
        ("3, no count of formulas", vec![3], 3, 1),
        ("3, no count of premises", vec![3, 0], 3, 2),
        ("3, half an index", vec![16, 9], 3, 2),
        ("4, a rule", vec![19, 0, 0], 4, 0),
        ("4, a premise count", vec![3, 0, 4], 4, 2),
        ("4, a formula", vec![3, 1, 14, 0], 4, 2),
        ("5", vec![3, 1, 1, 17], 5, 3),
        ("6, rules", rules(512, &[3, 0, 0]), 6, 1536),
        ("6 before 4, rules", rules(512, &[19, 0, 0]), 6, 1536),
        ("3 before 6, rules", rules(512, &[]), 3, 1536),
        ("6, formula nodes", list(1023, 5), 6, 1026),
        ("6 before 4, formula nodes", list(1023, 99), 6, 1026),
        ("7", vec![3, 0, 0, 3], 7, 3),
    ]
}

fn proofs(table: &mut Table, call: Call) {
    for (why, bytes, number, place) in proof_faults() {
        let case = Case::new(call, vec![bytes]);
        for at in 0..case.lent.len() {
            table.expect(&format!("1 before {why}"), short(case.clone(), at), [1, 0, 0]);
        }
        table.expect(why, case, [number, place, 1]);
    }
}

/// Plus cuts one in the other, so high that the term outgrows any limit.
fn tower(height: usize) -> Vec<u8> {
    [vec![2, 8, 5, 5, 0, 2, 3, 0, 0].repeat(height), vec![3, 0, 0]].concat()
}

fn extraction(table: &mut Table) {
    let extract = |bytes: &[u8], counter: u64| Case { number: counter, ..Case::new(Call::Extract, vec![bytes.to_vec()]) };
    let axiom = [1, 0, 0];
    table.expect("9", extract(&axiom, 100_000_000), [9, 0, 0]);
    table.expect("9, though no name is taken", extract(&[3, 0, 0], 100_000_001), [9, 0, 0]);
    table.expect("8", extract(&tower(60), 0), [8, 0, 0]);
    table.expect("9 before 8", extract(&tower(60), 100_000_000), [9, 0, 0]);
    // the tower has 540 bytes before its last rule
    let with_word = [&tower(60)[..540], &[1, 1, 1, 2, b'o', b'f', 0]].concat();
    table.expect("15 before 8", extract(&with_word, 0), [15, 544, 1]);
    table.expect("15 before 9 and 8", extract(&with_word, 100_000_000), [15, 544, 1]);
    for (why, bytes, number, place) in proof_faults() {
        table.expect(&format!("{why} before 9"), extract(&bytes, 100_000_000), [number, place, 1]);
    }
    for at in 0..2 {
        table.expect("1 before 9", short(extract(&axiom, 100_000_000), at), [1, 0, 0]);
        table.expect("1 before 8", short(extract(&tower(60), 0), at), [1, 0, 0]);
    }
}

fn files(table: &mut Table, call: Call, kind: u8) {
    let load = |bytes: Vec<u8>| Case::new(call, vec![bytes]);
    let long = [vec![14; 511], vec![2]].concat();
    let two = blocks(kind, &long);
    let changed = |at: usize, to: u8| {
        let mut file = two.clone();
        file[at] = to;
        file
    };
    let sealed = |at: usize, to: u8| {
        let mut file = changed(at, to);
        let from = at / 512 * 512;
        seal(&mut file[from..from + 512]);
        file
    };
    for (why, file) in
        [("10, empty", vec![]), ("10, no whole block", vec![0; 511]), ("10, too long", vec![0; 5120]), ("10 before 11", vec![1; 700])]
    {
        table.expect("1 before 10", short(load(file.clone()), 0), [1, 0, 0]);
        table.expect(why, load(file), [10, 0, 1]);
    }
    table.expect("11", load(changed(510, two[510] ^ 1)), [11, 0, 1]);
    table.expect("11 before 12", load(changed(0, 9)), [11, 0, 1]);
    table.expect("11 before 13", load(changed(1000, 7)), [11, 1, 1]);
    for (why, file) in [("11", changed(510, two[510] ^ 1)), ("12", sealed(513, 0)), ("13", sealed(1000, 7)), ("4", blocks(kind, &[0]))] {
        table.expect(&format!("1 before {why}"), short(load(file), 0), [1, 0, 0]);
    }
    table.expect("11 of block 1", load(changed(600, 99)), [11, 1, 1]);
    table.expect("12, the kind", load(sealed(0, 3 - kind)), [12, 0, 1]);
    table.expect("12, the number", load(sealed(513, 0)), [12, 1, 1]);
    table.expect("12, the length", load(sealed(3, 255)), [12, 0, 1]);
    table.expect("13", load(sealed(1000, 7)), [13, 1, 1]);
    let mut both = sealed(1000, 7);
    both[512] = 9;
    seal(&mut both[512..1024]);
    table.expect("12 before 13", load(both), [12, 1, 1]);
    let mut first = blocks(kind, &[0]);
    first[300] = 1;
    seal(&mut first);
    table.expect("13 before the content", load(first), [13, 0, 1]);
    let mut earlier = sealed(0, 3 - kind);
    earlier[600] ^= 1;
    table.expect("12 of block 0 before 11 of block 1", load(earlier), [12, 0, 1]);
    for (why, content, number, place) in if kind == 1 { term_contents() } else { proof_contents() } {
        table.expect(&format!("{why} of the content"), load(blocks(kind, &content)), [number, place, 1]);
    }
}

/// Contents that fit a file: nothing longer than 4,096 bytes does, so 2 is not among their faults.
fn term_contents() -> Vec<Fault> {
    faults(&TERM).into_iter().filter(|(_, bytes, number, _)| *number != 2 && !bytes.is_empty()).collect()
}

fn proof_contents() -> Vec<Fault> {
    proof_faults().into_iter().filter(|(_, bytes, number, _)| *number != 2 && !bytes.is_empty()).collect()
}

/// Which numbers each call can give.
const GIVEN: [(Call, &[u64]); 17] = [
    (Call::CheckFormula, &[2, 3, 4, 5, 6, 7, 15]),
    (Call::CheckTerm, &[2, 3, 4, 5, 6, 7, 15]),
    (Call::CheckProof, &[2, 3, 4, 5, 6, 7, 15]),
    (Call::FormulaText, &[1, 2, 3, 4, 5, 6, 7, 15]),
    (Call::TermText, &[1, 2, 3, 4, 5, 6, 7, 15]),
    (Call::FreeVars, &[1, 2, 3, 4, 5, 6, 7, 15]),
    (Call::Substitute, &[1, 2, 3, 4, 5, 6, 7, 8, 15]),
    (Call::Child, &[2, 3, 4, 5, 6, 7, 14, 15]),
    (Call::Step, &[1, 2, 3, 4, 5, 6, 7, 8, 15]),
    (Call::NormalizeBounded, &[1, 2, 3, 4, 5, 6, 7, 8, 15]),
    (Call::IsNormal, &[2, 3, 4, 5, 6, 7, 15]),
    (Call::IsStraight, &[2, 3, 4, 5, 6, 7, 15]),
    (Call::Extract, &[1, 2, 3, 4, 5, 6, 7, 8, 9, 15]),
    (Call::StoreTerm, &[1, 2, 3, 4, 5, 6, 7, 15]),
    (Call::StoreProof, &[1, 2, 3, 4, 5, 6, 7, 15]),
    (Call::LoadTerm, &[1, 3, 4, 5, 6, 7, 10, 11, 12, 13, 15]),
    (Call::LoadProof, &[1, 3, 4, 5, 6, 7, 10, 11, 12, 13, 15]),
];

/// That every entry point of the header is a call that is tried here.
fn every_entry_point() -> Result<(), String> {
    let header = include_str!("../../../include/patch.h");
    let declared: BTreeSet<String> =
        header.lines().filter_map(|line| Some(line.strip_prefix("void ")?.split_once('(')?.0.into())).collect();
    let tried: BTreeSet<String> = Call::ALL.into_iter().map(Call::symbol).collect();
    hold(declared == tried, &format!("the header declares {declared:?}, and tried are {tried:?}"))
}

pub fn all() -> Verdict {
    every_entry_point()?;
    let mut table = Table { met: BTreeSet::new(), cases: 0, wrong: Vec::new() };
    for call in [Call::CheckFormula, Call::FormulaText] {
        one_input(&mut table, call, &FORMULA);
    }
    for call in [
        Call::CheckTerm,
        Call::TermText,
        Call::FreeVars,
        Call::Step,
        Call::NormalizeBounded,
        Call::IsNormal,
        Call::IsStraight,
        Call::StoreTerm,
    ] {
        one_input(&mut table, call, &TERM);
    }
    substitution(&mut table);
    steps(&mut table);
    children(&mut table);
    for call in [Call::CheckProof, Call::Extract, Call::StoreProof] {
        proofs(&mut table, call);
    }
    extraction(&mut table);
    for (call, kind) in [(Call::LoadTerm, 1), (Call::LoadProof, 2)] {
        files(&mut table, call, kind);
        words::in_files(&mut table, call, kind);
    }
    words::each(&mut table);
    for (call, numbers) in GIVEN {
        for number in numbers {
            if !table.met.contains(&(format!("{call:?}"), *number)) {
                table.wrong.push(format!("refusal {number} of {call:?} is not met"));
            }
        }
    }
    if let Some(first) = table.wrong.first() {
        return Err(format!("{} of {} expectations\n{first}", table.wrong.len(), table.cases));
    }
    println!("  each refusal by each call, and the order of any two that compete: {} cases as documents 01 and 02 have them", table.cases);
    Ok(table.cases)
}
