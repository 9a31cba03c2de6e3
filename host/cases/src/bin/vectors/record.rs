//! A record of the list: a call with what it is given and lent, and what it is to answer and to leave there. The answers are the model's,
//! which on legal input has them from the Rust.

use patch_model::extract::Entry;
use patch_model::reduce::{Reduced, Stepped};
use patch_model::stored::Kind;
use patch_model::{calls, extract, reduce, stored, straight, Answer, Limits, Refusal};

pub const L: Limits = Limits::BASE;

/// What the program fills lent buffers and rows with: no zeros, so that "as it was" and "zeros" can be told apart.
const FILLED: u8 = 170;
const FULL: Entry = Entry { place: 7, counter: 9 };

/// The calls by their numbers, as crates/vectors/src/call.rt has them.
#[derive(Clone, Copy, Debug, PartialEq, Eq, PartialOrd, Ord)]
pub enum Call {
    CheckTerm = 1,
    CheckFormula,
    CheckProof,
    IsNormal,
    IsStraight,
    /// with k, and the next
    ChildFault,
    Child,
    FreeVars,
    TermText,
    FormulaText,
    StoreTerm,
    StoreProof,
    LoadTerm,
    LoadProof,
    /// inputs: the term, the name, what is put in
    Substitute,
    Step,
    /// with a step limit
    NormalizeBounded,
    /// with a counter
    Extract,
    /// with a counter; inputs: two proofs
    Extractor,
}

/// The calls in the order of their numbers, by the names that the program prints.
pub const CALLS: [(Call, &str); 19] = [
    (Call::CheckTerm, "reader::check_term"),
    (Call::CheckFormula, "reader::check_formula"),
    (Call::CheckProof, "proof::check_proof"),
    (Call::IsNormal, "step::is_normal"),
    (Call::IsStraight, "straight::is_straight"),
    (Call::ChildFault, "term::child::child_fault"),
    (Call::Child, "term::child::child"),
    (Call::FreeVars, "free::free_vars"),
    (Call::TermText, "term_text::pretty"),
    (Call::FormulaText, "formula_text::pretty"),
    (Call::StoreTerm, "stored::store of a term"),
    (Call::StoreProof, "stored::store of a proof"),
    (Call::LoadTerm, "stored::load of a term"),
    (Call::LoadProof, "stored::load of a proof"),
    (Call::Substitute, "substitution::substitute"),
    (Call::Step, "step::step"),
    (Call::NormalizeBounded, "reduction::normalize_bounded"),
    (Call::Extract, "extract::extract"),
    (Call::Extractor, "extract::extractor::Extractor::extract, two by each Extractor"),
];

pub struct Case {
    pub call: Call,
    pub inputs: Vec<Vec<u8>>,
    /// a step limit, a counter, which child; 0 where the call takes none
    pub number: u32,
    /// the lengths of the output, the scratch and the row of cut entries that are lent
    pub lent: [usize; 3],
}

/// What a record asks for: the numbers, the bytes of the answer, and, of each extraction or the one call, the number of its refusal or 0.
pub struct Wanted {
    pub numbers: Vec<u64>,
    pub output: Vec<u8>,
    pub refusals: Vec<u64>,
}

/// What a call answers: a refusal's number, place and input, or three zeros; then the values. And how much of the output it writes.
struct Told {
    numbers: Vec<u64>,
    written: usize,
}

impl Case {
    pub fn new(call: Call, inputs: &[&[u8]]) -> Case {
        let lent = match call {
            Call::FreeVars | Call::LoadTerm | Call::LoadProof => [L.output_room(), 0, 0],
            Call::TermText => [L.text_room, 0, 0],
            Call::FormulaText => [L.formula_text_room, 0, 0],
            Call::StoreTerm | Call::StoreProof => [L.stored_room, 0, 0],
            Call::Substitute | Call::Step | Call::NormalizeBounded | Call::Extract => [L.output_room(), L.scratch_room, 0],
            Call::Extractor => [L.output_room(), L.scratch_room, L.entry_room],
            _ => [0; 3],
        };
        Case { call, inputs: inputs.iter().map(|bytes| bytes.to_vec()).collect(), number: 0, lent }
    }

    pub fn with(mut self, number: u32) -> Case {
        self.number = number;
        self
    }

    /// The same with more or less lent of the output, the scratch or the row.
    pub fn lending(mut self, which: usize, length: usize) -> Case {
        self.lent[which] = length;
        self
    }

    pub fn record(&self, wanted: &Wanted) -> Vec<u8> {
        let lent = self.lent.map(|n| n as u64);
        let mut bytes = vec![self.call as u8];
        put_field(&numbers(&[&[self.number as u64], &lent[..]].concat()), &mut bytes);
        put_field(&numbers(&wanted.numbers), &mut bytes);
        put_field(&wanted.output, &mut bytes);
        for i in 0..3 {
            put_field(self.inputs.get(i).map_or(&[], |input| input), &mut bytes);
        }
        bytes
    }

    pub fn wanted(&self) -> Wanted {
        match self.call {
            Call::Extractor => self.twice(),
            Call::Child => self.part(),
            _ => self.once(),
        }
    }

    fn once(&self) -> Wanted {
        let (mut out, mut scratch) = (vec![FILLED; self.lent[0]], vec![FILLED; self.lent[1]]);
        let told = self.ask(&mut out, &mut scratch);
        let output = out[..told.written].to_vec();
        let left = vec![left(&out, &output), left(&scratch, &[])];
        let refusals = vec![told.numbers[0]];
        Wanted { numbers: [left, told.numbers].concat(), output, refusals }
    }

    /// The part that is handed back stands for the output; what is refused hands back an empty one.
    fn part(&self) -> Wanted {
        let term = &self.inputs[0];
        let (output, refused) = match calls::child(&L, term, self.number as u64) {
            Ok(range) => (term[range].to_vec(), 0),
            Err(refusal) => (Vec::new(), refusal.number as u64),
        };
        let numbers = vec![left(&output, &output), 0, 0, 0, 0, output.len() as u64];
        Wanted { numbers, output, refusals: vec![refused] }
    }

    /// Both answers, each with the counter after it, and what is left in the row; the output and the scratch are the same for both.
    fn twice(&self) -> Wanted {
        let (mut out, mut scratch) = (vec![FILLED; self.lent[0]], vec![FILLED; self.lent[1]]);
        let (mut counter, mut row) = (self.number, vec![FULL; self.lent[2]]);
        let (mut numbers, mut written, mut refusals) = (Vec::new(), 0, Vec::new());
        for proof in &self.inputs {
            let told = count(extract::extract(&L, &mut counter, proof, &mut out, &mut scratch, &mut row));
            numbers.extend((0..4).map(|i| told.numbers.get(i).copied().unwrap_or(0)));
            numbers.push(counter as u64);
            refusals.push(told.numbers[0]);
            written = if told.numbers[0] == 0 { told.written } else { written };
        }
        let output = out[..written].to_vec();
        let left = vec![left(&out, &output), left(&scratch, &[])];
        Wanted { numbers: [left, numbers, vec![seen(&row)]].concat(), output, refusals }
    }

    fn ask(&self, out: &mut [u8], scratch: &mut [u8]) -> Told {
        let first = &self.inputs[0];
        let yes = |b: bool| vec![b as u64];
        match self.call {
            Call::CheckTerm => alone(calls::check_term(&L, first), |n| vec![n as u64]),
            Call::CheckFormula => alone(calls::check_formula(&L, first), |n| vec![n as u64]),
            Call::CheckProof => alone(calls::check_proof(&L, first), |n| vec![n as u64]),
            Call::IsNormal => alone(reduce::is_normal(&L, first), yes),
            Call::IsStraight => alone(straight::is_straight(&L, first), yes),
            Call::ChildFault => alone(calls::child(&L, first, self.number as u64), |_| vec![]),
            Call::FreeVars => count(calls::free_vars(&L, first, out)),
            Call::TermText => count(calls::term_text(&L, first, out)),
            Call::FormulaText => count(calls::formula_text(&L, first, out)),
            Call::StoreTerm => count(stored::store(&L, Kind::Term, first, out)),
            Call::StoreProof => count(stored::store(&L, Kind::Proof, first, out)),
            Call::LoadTerm => count(stored::load(&L, Kind::Term, first, out)),
            Call::LoadProof => count(stored::load(&L, Kind::Proof, first, out)),
            Call::Substitute => count(calls::substitute(&L, first, &self.inputs[1], &self.inputs[2], out, scratch)),
            Call::Step => stepped(reduce::step(&L, first, out, scratch)),
            Call::NormalizeBounded => reduced(reduce::normalize_bounded(&L, first, self.number, out, scratch)),
            Call::Extract => {
                let (mut counter, mut row) = (self.number, vec![FULL; L.entry_room]);
                let mut told = count(extract::extract(&L, &mut counter, first, out, scratch, &mut row));
                if told.numbers[0] == 0 {
                    told.numbers.push(counter as u64);
                }
                told
            }
            Call::Child | Call::Extractor => unreachable!("these have answers of their own"),
        }
    }
}

fn put_field(field: &[u8], to: &mut Vec<u8>) {
    to.extend(u16::try_from(field.len()).unwrap().to_le_bytes());
    to.extend(field);
}

/// Numbers of four bytes, low first; those that are not there count as zeros.
fn numbers(all: &[u64]) -> Vec<u8> {
    let many = all.iter().rposition(|n| *n != 0).map_or(0, |last| last + 1);
    all[..many].iter().flat_map(|n| u32::try_from(*n).unwrap().to_le_bytes()).collect()
}

/// 0 as it was filled, 1 the answer and then zeros.
fn left(buffer: &[u8], answer: &[u8]) -> u64 {
    if buffer.iter().all(|b| *b == FILLED) {
        return 0;
    }
    assert!(buffer.starts_with(answer) && buffer[answer.len()..].iter().all(|b| *b == 0), "neither as it was nor an answer");
    1
}

/// 1 all as they were filled, 2 all zeros.
fn seen(row: &[Entry]) -> u64 {
    if row.iter().all(|e| *e == FULL) {
        return 1;
    }
    assert!(row.iter().all(|e| *e == Entry::default()), "neither as it was nor zeros");
    2
}

fn alone<T>(outcome: Result<T, Refusal>, values: impl FnOnce(T) -> Vec<u64>) -> Told {
    let numbers = match outcome {
        Ok(value) => [vec![0; 3], values(value)].concat(),
        Err(r) => vec![r.number as u64, r.place as u64, r.input as u64],
    };
    Told { numbers, written: 0 }
}

fn count(answer: Answer) -> Told {
    let written = answer.unwrap_or(0);
    Told { written, ..alone(answer, |n| vec![n as u64]) }
}

fn stepped(answer: Result<Stepped, Refusal>) -> Told {
    let written = match answer {
        Ok(Stepped::Found { length, .. }) => length,
        _ => 0,
    };
    let values = |step| match step {
        Stepped::Normal => vec![],
        Stepped::Found { rule, place, length } => vec![rule as u64 + 1, place as u64, length as u64],
    };
    Told { written, ..alone(answer, values) }
}

fn reduced((answer, length): (Result<Reduced, Refusal>, usize)) -> Told {
    let refused = answer.is_err();
    let values = |told: Reduced| [&[told.steps as u64, told.normal as u64, length as u64], &told.counts.map(|n| n as u64)[..]].concat();
    let mut told = alone(answer, values);
    if refused {
        told.numbers.push(length as u64);
    }
    Told { written: length, ..told }
}
