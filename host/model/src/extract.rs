//! Extraction (01, "Extraction (002)"): 9, then 8, from sizes that are computed without building the term; the term itself is the Rust's.

use crate::calls::worked;
use crate::form::term_bytes;
use crate::limits::{Limits, MOST_COUNTER};
use crate::read;
use crate::refusal::{clears_scratch, refuse, short, Answer, Refusal};
use lolli_core::{Formula, Proof, Rule, Term};

/// A cut entry as it is lent: the formula's place, the name's counter.
#[derive(Clone, Copy, Debug, Default, PartialEq, Eq)]
pub struct Entry {
    pub place: usize,
    pub counter: usize,
}

/// Bytes and nodes of a term, at most so large that no sum wraps.
#[derive(Clone, Copy, Debug, PartialEq, Eq)]
pub struct Size {
    pub bytes: u64,
    pub nodes: u64,
}

impl Size {
    fn node(bytes: usize) -> Size {
        Size { bytes: bytes as u64, nodes: 1 }
    }

    fn and(self, part: Size) -> Size {
        Size { bytes: self.bytes.saturating_add(part.bytes), nodes: self.nodes.saturating_add(part.nodes) }
    }
}

const UNIT: Size = Size { bytes: 1, nodes: 1 };

/// What is left of a name when only its length counts.
struct Sizes {
    counter: u64,
    /// the cut entries, oldest first, with the length of their names
    entries: Vec<(Formula, usize)>,
}

impl Sizes {
    /// A generated name is a stem and the counter, which then rises by one; here its length, with the length byte.
    fn fresh(&mut self, stem: usize) -> usize {
        let length = 1 + stem + self.counter.to_string().len();
        self.counter += 1;
        length
    }

    fn proof(&mut self, proof: &Proof) -> Size {
        let premises = &proof.premises;
        match &proof.rule {
            Rule::Axiom => self.axiom(&proof.conclusion.linear),
            Rule::OneIntro | Rule::TopIntro => UNIT,
            Rule::BottomIntro | Rule::ParIntro | Rule::WhyNotIntro => self.first(premises),
            Rule::FocusPositive(_) | Rule::FocusNegative(_) | Rule::Blur => self.first(premises),
            Rule::PlusIntroLeft | Rule::PlusIntroRight | Rule::OfCourseIntro | Rule::Dereliction => Size::node(1).and(self.first(premises)),
            Rule::TensorIntro | Rule::WithIntro => match premises.as_slice() {
                [only] => self.proof(only),
                [a, b] => {
                    let left = self.proof(a);
                    Size::node(1).and(left).and(self.proof(b))
                }
                _ => UNIT,
            },
            Rule::Weakening => match premises.first() {
                Some(body) => Size::node(1).and(UNIT).and(self.proof(body)),
                None => UNIT,
            },
            Rule::Contraction => match premises.first() {
                Some(body) => {
                    let (x, y, source) = (self.fresh(1), self.fresh(1), self.fresh(1));
                    Size::node(1 + x + y).and(Size::node(1 + source)).and(self.proof(body))
                }
                None => UNIT,
            },
            Rule::Cut(formula) => match premises.as_slice() {
                [producer, consumer] => self.cut(formula, producer, consumer),
                _ => UNIT,
            },
        }
    }

    fn first(&mut self, premises: &[Proof]) -> Size {
        match premises.first() {
            Some(premise) => self.proof(premise),
            None => UNIT,
        }
    }

    fn axiom(&mut self, linear: &[Formula]) -> Size {
        for formula in linear {
            match formula {
                Formula::Atom(name) => {
                    let oldest = self.entries.iter().find(|(f, _)| *f == Formula::NegAtom(name.clone()));
                    return Size::node(1 + oldest.map_or(1 + name.len(), |(_, length)| *length));
                }
                Formula::NegAtom(name) => {
                    if let Some((_, length)) = self.entries.iter().find(|(f, _)| *f == Formula::Atom(name.clone())) {
                        return Size::node(1 + length);
                    }
                }
                _ => {}
            }
        }
        let name = self.fresh(1);
        Size::node(1 + name).and(Size::node(1 + name))
    }

    fn cut(&mut self, formula: &Formula, producer: &Proof, consumer: &Proof) -> Size {
        let stem = match formula {
            Formula::Atom(name) | Formula::NegAtom(name) => name.len(),
            _ => 1,
        };
        let name = self.fresh(stem);
        let producer = self.proof(producer);
        self.entries.push((formula.clone(), name));
        let consumer = self.proof(consumer);
        self.entries.pop();
        match formula {
            Formula::Tensor(..) => {
                let (x, y) = (self.fresh(1), self.fresh(1));
                Size::node(1 + x + y).and(producer).and(consumer)
            }
            Formula::Plus(..) => {
                let (x, y) = (self.fresh(1), self.fresh(1));
                Size::node(1 + x + y).and(producer).and(consumer).and(consumer)
            }
            _ => Size::node(1).and(consumer).and(producer),
        }
    }
}

/// How large the extracted term is, and the counter after it.
pub fn sizes(proof: &Proof, counter: u64) -> (Size, u64) {
    let mut work = Sizes { counter, entries: Vec::new() };
    let size = work.proof(proof);
    (size, work.counter)
}

/// 9, then 8; else the term and the counter after it.
pub fn extracted(limits: &Limits, proof: &Proof, counter: u32) -> Result<(Term, u32), Refusal> {
    let (size, next) = sizes(proof, counter as u64);
    if next > MOST_COUNTER {
        return refuse(9, 0, 0);
    }
    if size.bytes > limits.bytes as u64 || size.nodes > limits.nodes as u64 {
        return refuse(8, 0, 0);
    }
    let mut extractor = lolli_extract::extractor_at(counter as usize);
    let term = extractor.extract(proof);
    Ok((term, lolli_extract::counter_of(extractor) as u32))
}

/// A refusal leaves the counter as it was.
pub fn extract(limits: &Limits, counter: &mut u32, proof: &[u8], out: &mut [u8], scratch: &mut [u8], entries: &mut [Entry]) -> Answer {
    if entries.len() < limits.entry_room {
        return short();
    }
    let answer = worked(limits, out, scratch, || {
        let (term, next) = extracted(limits, &read::proof(limits, 1, proof)?, *counter)?;
        *counter = next;
        Ok(term_bytes(&term))
    });
    if clears_scratch(&answer) {
        entries.fill(Entry::default());
    }
    answer
}
