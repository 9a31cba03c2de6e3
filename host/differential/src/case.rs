//! A case: a call, its inputs and what it is lent. Port and model are run on it alike, and what is seen afterwards is compared whole.

use crate::guarded::{self, Buffer, Side, AROUND};
use patch_generate::Rng;
use patch_model::extract::Entry;
use patch_model::reduce::{Reduced, Stepped};
use patch_model::stored::Kind;
use patch_model::{calls, extract, reduce, stored, straight, Answer, Limits, Refusal};
use std::fmt::{Display, Formatter, Write};

const L: Limits = Limits::BASE;

/// The public calls, as include/patch.h declares them.
#[derive(Clone, Copy, Debug, PartialEq, Eq)]
pub enum Call {
    CheckFormula,
    CheckTerm,
    CheckProof,
    FormulaText,
    TermText,
    FreeVars,
    /// inputs: the term, the name, what is put in
    Substitute,
    /// with k
    Child,
    Step,
    /// with a step limit
    NormalizeBounded,
    IsNormal,
    IsStraight,
    /// with a counter
    Extract,
    StoreTerm,
    StoreProof,
    LoadTerm,
    LoadProof,
}

impl Call {
    pub const ALL: [Call; 17] = [
        Call::CheckFormula,
        Call::CheckTerm,
        Call::CheckProof,
        Call::FormulaText,
        Call::TermText,
        Call::FreeVars,
        Call::Substitute,
        Call::Child,
        Call::Step,
        Call::NormalizeBounded,
        Call::IsNormal,
        Call::IsStraight,
        Call::Extract,
        Call::StoreTerm,
        Call::StoreProof,
        Call::LoadTerm,
        Call::LoadProof,
    ];

    /// Its name in C: `patch_check_term` for CheckTerm.
    pub fn symbol(self) -> String {
        let mut name = "patch".to_string();
        for c in format!("{self:?}").chars() {
            if c.is_uppercase() {
                name.push('_');
            }
            name.push(c.to_ascii_lowercase());
        }
        name
    }

    /// The least lengths of what the call is lent: output, scratch.
    pub fn rooms(self) -> Vec<usize> {
        match self {
            Call::CheckFormula | Call::CheckTerm | Call::CheckProof | Call::Child | Call::IsNormal | Call::IsStraight => vec![],
            Call::FormulaText => vec![L.formula_text_room],
            Call::TermText => vec![L.text_room],
            Call::FreeVars | Call::LoadTerm | Call::LoadProof => vec![L.output_room()],
            Call::StoreTerm | Call::StoreProof => vec![L.stored_room],
            Call::Substitute | Call::Step | Call::NormalizeBounded | Call::Extract => vec![L.output_room(), L.scratch_room],
        }
    }
}

#[derive(Clone, Debug)]
pub struct Case {
    pub call: Call,
    pub inputs: Vec<Vec<u8>>,
    /// a step limit, a counter, which child; 0 where the call takes none
    pub number: u64,
    /// the lengths of the lent buffers
    pub lent: Vec<usize>,
}

/// What a caller sees after a call: the answer as numbers (a refusal's number or 0, its place, its input, then the values), and the buffers with
/// the bytes around them.
#[derive(PartialEq, Eq)]
pub struct Seen {
    answer: Vec<u64>,
    lent: Vec<Buffer>,
}

impl Case {
    pub fn new(call: Call, inputs: Vec<Vec<u8>>) -> Case {
        Case { call, inputs, number: 0, lent: call.rooms() }
    }

    /// Buffers as they come: mostly as long as asked, now and then longer, seldom too short.
    pub fn lent_by(mut self, rng: &mut Rng) -> Case {
        for length in &mut self.lent {
            *length = match rng.below(64) {
                0 => rng.below(*length),
                1 => *length - 1,
                2..=9 => *length + rng.below(300),
                _ => *length,
            };
        }
        self
    }

    fn buffers(&self) -> Vec<Buffer> {
        self.lent.iter().map(|n| Buffer::new(*n)).collect()
    }

    pub fn model(&self) -> Seen {
        let mut buffers = self.buffers();
        let answer = {
            let mut lent = buffers.iter_mut().map(Buffer::lent_mut);
            let mut next = || lent.next().unwrap();
            self.ask_model(&mut next)
        };
        Seen { answer, lent: buffers }
    }

    fn ask_model<'a>(&self, lent: &mut dyn FnMut() -> &'a mut [u8]) -> Vec<u64> {
        let input = &self.inputs;
        let first = &input[0];
        match self.call {
            Call::CheckFormula => count(calls::check_formula(&L, first)),
            Call::CheckTerm => count(calls::check_term(&L, first)),
            Call::CheckProof => count(calls::check_proof(&L, first)),
            Call::FormulaText => count(calls::formula_text(&L, first, lent())),
            Call::TermText => count(calls::term_text(&L, first, lent())),
            Call::FreeVars => count(calls::free_vars(&L, first, lent())),
            Call::Substitute => count(calls::substitute(&L, first, &input[1], &input[2], lent(), lent())),
            Call::Child => numbers(calls::child(&L, first, self.number), |part| vec![part.start as u64, part.len() as u64]),
            Call::Step => numbers(reduce::step(&L, first, lent(), lent()), stepped),
            Call::NormalizeBounded => {
                let (answer, length) = reduce::normalize_bounded(&L, first, self.number as u32, lent(), lent());
                [numbers(answer, reduced), vec![length as u64]].concat()
            }
            Call::IsNormal => numbers(reduce::is_normal(&L, first), |yes| vec![yes as u64]),
            Call::IsStraight => numbers(straight::is_straight(&L, first), |yes| vec![yes as u64]),
            Call::Extract => {
                let mut counter = self.number as u32;
                // the cut entries are the entry point's own, so they are never too few
                let mut entries = vec![Entry { place: 0, counter: 0 }; L.entry_room];
                let answer = extract::extract(&L, &mut counter, first, lent(), lent(), &mut entries);
                [count(answer), vec![counter as u64]].concat()
            }
            Call::StoreTerm => count(stored::store(&L, Kind::Term, first, lent())),
            Call::StoreProof => count(stored::store(&L, Kind::Proof, first, lent())),
            Call::LoadTerm => count(stored::load(&L, Kind::Term, first, lent())),
            Call::LoadProof => count(stored::load(&L, Kind::Proof, first, lent())),
        }
    }

    /// What the port does, at one side of what nobody may touch or at the other.
    pub fn port(&self) -> Seen {
        let mut buffers = self.buffers();
        // by the bytes and not by the length alone, which is even for every whole file
        let sum = self.inputs[0].iter().fold(self.inputs[0].len(), |sum, byte| sum + *byte as usize);
        let side = if sum % 2 == 0 { Side::Start } else { Side::End };
        let answer = guarded::call(&self.inputs, &mut buffers, side, |inputs, lent| {
            let mut parts = lent.iter_mut().map(|part| &mut **part);
            self.ask_port(inputs, &mut || parts.next().unwrap())
        });
        Seen { answer, lent: buffers }
    }

    pub fn ask_port<'a>(&self, input: &[&[u8]], lent: &mut dyn FnMut() -> &'a mut [u8]) -> Vec<u64> {
        let first = input[0];
        match self.call {
            Call::CheckFormula => count(plain(patch::check_formula(first))),
            Call::CheckTerm => count(plain(patch::check_term(first))),
            Call::CheckProof => count(plain(patch::check_proof(first))),
            Call::FormulaText => count(plain(patch::formula_text_to(first, lent()))),
            Call::TermText => count(plain(patch::term_text_to(first, lent()))),
            Call::Child => numbers(plain(patch::child(first, self.number as usize)), |part| {
                // by the addresses, since equal bytes may stand elsewhere too
                vec![(part.as_ptr() as usize - first.as_ptr() as usize) as u64, part.len() as u64]
            }),
            Call::FreeVars => count(plain(patch::free_vars_to(first, lent()))),
            Call::Substitute => count(plain(patch::substitute_to(first, input[1], input[2], lent(), lent()))),
            Call::Step => numbers(plain(patch::step_to(first, lent(), lent())), |step| match step {
                patch::Stepped::Normal => vec![0],
                patch::Stepped::Found(found) => vec![1, found.rule as u64, found.place as u64, found.length as u64],
            }),
            Call::NormalizeBounded => match patch::normalize_bounded_to(first, self.number as u32, lent(), lent()) {
                Ok(told) => {
                    let values = reduced(Reduced { steps: told.steps, counts: told.counts, normal: told.normal });
                    [vec![0, 0, 0], values, vec![told.length as u64]].concat()
                }
                Err((refusal, length)) => [count(plain(Err(refusal))), vec![length as u64]].concat(),
            },
            Call::IsNormal => numbers(plain(patch::is_normal(first)), |yes| vec![yes as u64]),
            Call::IsStraight => numbers(plain(patch::is_straight(first)), |yes| vec![yes as u64]),
            Call::Extract => {
                let mut extractor = patch::Extractor { counter: self.number as u32 };
                let answer = extractor.extract_to(first, lent(), lent());
                [count(plain(answer)), vec![extractor.counter as u64]].concat()
            }
            Call::StoreTerm => count(plain(patch::store_to(patch::Kind::Term, first, lent()))),
            Call::StoreProof => count(plain(patch::store_to(patch::Kind::Proof, first, lent()))),
            Call::LoadTerm => count(plain(patch::load_to(patch::Kind::Term, first, lent()))),
            Call::LoadProof => count(plain(patch::load_to(patch::Kind::Proof, first, lent()))),
        }
    }

    /// Whether port and model are seen to do the same.
    pub fn agrees(&self, model: &Seen) -> bool {
        self.port() == *model
    }
}

/// The port's refusal in the model's words.
fn plain<T>(outcome: Result<T, patch::Refusal>) -> Result<T, Refusal> {
    outcome.map_err(|r| Refusal { number: r.reason as u8, place: r.place, input: r.input })
}

fn count(answer: Answer) -> Vec<u64> {
    numbers(answer, |n| vec![n as u64])
}

fn numbers<T>(outcome: Result<T, Refusal>, values: impl FnOnce(T) -> Vec<u64>) -> Vec<u64> {
    match outcome {
        Ok(value) => [vec![0, 0, 0], values(value)].concat(),
        Err(r) => vec![r.number as u64, r.place as u64, r.input as u64],
    }
}

fn stepped(step: Stepped) -> Vec<u64> {
    match step {
        Stepped::Normal => vec![0],
        Stepped::Found { rule, place, length } => vec![1, rule as u64, place as u64, length as u64],
    }
}

fn reduced(told: Reduced) -> Vec<u64> {
    let counts = told.counts.map(|n| n as u64);
    [&[told.steps as u64], &counts[..], &[told.normal as u64]].concat()
}

impl Seen {
    /// The refusal's number, place and input, or zeros.
    pub fn refusal(&self) -> [u64; 3] {
        [self.answer[0], self.answer[1], self.answer[2]]
    }

    /// The refusal's number, or 0.
    pub fn number(&self) -> u64 {
        self.answer[0]
    }

    /// The values of the answer, without the three numbers of a refusal.
    pub fn values(&self) -> &[u64] {
        &self.answer[3..]
    }

    /// What the output holds.
    pub fn output(&self) -> &[u8] {
        self.lent[0].lent()
    }

    /// Model against port, in words.
    pub fn against(&self, port: &Seen) -> String {
        let mut words = format!("  model answers {:?}\n  port  answers {:?}", self.answer, port.answer);
        for (i, (ours, theirs)) in self.lent.iter().zip(&port.lent).enumerate() {
            if let Some(at) = (0..ours.bytes.len()).find(|&at| ours.bytes[at] != theirs.bytes[at]) {
                let place = at as isize - AROUND as isize;
                write!(words, "\n  lent buffer {} differs at {place}: model {}, port {}", i + 1, ours.bytes[at], theirs.bytes[at]).unwrap();
            }
        }
        words
    }
}

impl Display for Case {
    fn fmt(&self, f: &mut Formatter) -> std::fmt::Result {
        write!(f, "  {:?}", self.call)?;
        if self.number != 0 {
            write!(f, " with {}", self.number)?;
        }
        if !self.lent.is_empty() {
            write!(f, " lent {:?}", self.lent)?;
        }
        for input in &self.inputs {
            write!(f, "\n  input of {} bytes:", input.len())?;
            for byte in input {
                write!(f, " {byte:02x}")?;
            }
        }
        Ok(())
    }
}
