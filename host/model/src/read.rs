//! The readers: one reading from the left that stops at the first fault (01, "Refusal numbers", "Order"; 02, (i)).

use crate::limits::Limits;
use crate::names::{bad_byte, Spelling};
use crate::refusal::{refuse, Refusal};
use lolli_core::{Formula, Proof, Rule, Sequent, Term};

/// A fault: its number and its place.
struct Fault(u8, usize);

struct Reader<'a> {
    bytes: &'a [u8],
    at: usize,
    limits: &'a Limits,
    nodes: usize,
    rules: usize,
    formulas: usize,
}

impl<'a> Reader<'a> {
    fn new(limits: &'a Limits, bytes: &'a [u8]) -> Self {
        Reader { bytes, at: 0, limits, nodes: 0, rules: 0, formulas: 0 }
    }

    fn byte(&mut self) -> Result<u8, Fault> {
        match self.bytes.get(self.at) {
            Some(&b) => {
                self.at += 1;
                Ok(b)
            }
            None => Err(Fault(3, self.bytes.len())),
        }
    }

    /// At a node 3, then 6; that the tag is listed is tested by the caller.
    fn tag(&mut self, met: fn(&mut Self) -> &mut usize, most: usize) -> Result<u8, Fault> {
        let tag = self.byte()?;
        if *met(self) == most {
            return Err(Fault(6, self.at - 1));
        }
        *met(self) += 1;
        Ok(tag)
    }

    /// In a name: 3 for a missing length, 5 for a bad length, 3 for missing bytes, 5 for a bad byte, 15 for a word.
    fn spelled(&mut self, spelling: Spelling) -> Result<String, Fault> {
        let length = self.byte()? as usize;
        if length == 0 || length > spelling.most() {
            return Err(Fault(5, self.at - 1));
        }
        if self.bytes.len() - self.at < length {
            return Err(Fault(3, self.bytes.len()));
        }
        let start = self.at;
        self.at += length;
        in_full(spelling, &self.bytes[start..self.at]).map_err(|Fault(number, place)| Fault(number, start + place))
    }

    fn name(&mut self) -> Result<String, Fault> {
        self.spelled(Spelling::Name)
    }

    fn atom(&mut self) -> Result<String, Fault> {
        self.spelled(Spelling::Atom)
    }

    fn boxed(&mut self) -> Result<Box<Term>, Fault> {
        Ok(Box::new(self.term()?))
    }

    fn term(&mut self) -> Result<Term, Fault> {
        let place = self.at;
        let tag = self.tag(|r| &mut r.nodes, self.limits.nodes)?;
        Ok(match tag {
            1 => Term::Var(self.name()?),
            2 => Term::Unit,
            3 => Term::Pair(self.boxed()?, self.boxed()?),
            4 => Term::LetPair(self.name()?, self.name()?, self.boxed()?, self.boxed()?),
            5 => Term::Abs(self.name()?, self.boxed()?),
            6 => Term::App(self.boxed()?, self.boxed()?),
            7 => Term::Inl(self.boxed()?),
            8 => Term::Inr(self.boxed()?),
            9 => {
                let (x, y) = (self.name()?, self.name()?);
                let (scrut, left, right) = (self.boxed()?, self.boxed()?, self.boxed()?);
                Term::Case(scrut, x, left, y, right)
            }
            10 => Term::Trivial,
            11 => Term::Fst(self.boxed()?),
            12 => Term::Snd(self.boxed()?),
            13 => Term::Abort(self.boxed()?),
            14 => Term::Promote(self.boxed()?),
            15 => Term::Derelict(self.boxed()?),
            16 => Term::Discard(self.boxed()?, self.boxed()?),
            17 => {
                let (x, y) = (self.name()?, self.name()?);
                let (src, body) = (self.boxed()?, self.boxed()?);
                Term::Copy(src, x, y, body)
            }
            _ => return Err(Fault(4, place)),
        })
    }

    fn formula(&mut self) -> Result<Formula, Fault> {
        let place = self.at;
        let tag = self.tag(|r| &mut r.formulas, self.limits.formulas)?;
        let mut two = |make: fn(Box<Formula>, Box<Formula>) -> Formula| {
            let (a, b) = (self.formula()?, self.formula()?);
            Ok(make(Box::new(a), Box::new(b)))
        };
        match tag {
            1 => Ok(Formula::Atom(self.atom()?)),
            2 => Ok(Formula::NegAtom(self.atom()?)),
            3 => two(Formula::Tensor),
            4 => two(Formula::Par),
            5 => Ok(Formula::One),
            6 => Ok(Formula::Bottom),
            7 => two(Formula::With),
            8 => two(Formula::Plus),
            9 => Ok(Formula::Top),
            10 => Ok(Formula::Zero),
            11 => Ok(Formula::OfCourse(Box::new(self.formula()?))),
            12 => Ok(Formula::WhyNot(Box::new(self.formula()?))),
            13 => two(Formula::Lolli),
            _ => Err(Fault(4, place)),
        }
    }

    fn rule(&mut self) -> Result<Rule, Fault> {
        let place = self.at;
        let tag = self.tag(|r| &mut r.rules, self.limits.rules)?;
        Ok(match tag {
            1 => Rule::Axiom,
            2 => Rule::Cut(self.formula()?),
            3 => Rule::OneIntro,
            4 => Rule::BottomIntro,
            5 => Rule::TensorIntro,
            6 => Rule::ParIntro,
            7 => Rule::TopIntro,
            8 => Rule::WithIntro,
            9 => Rule::PlusIntroLeft,
            10 => Rule::PlusIntroRight,
            11 => Rule::OfCourseIntro,
            12 => Rule::WhyNotIntro,
            13 => Rule::Weakening,
            14 => Rule::Contraction,
            15 => Rule::Dereliction,
            16 => Rule::FocusPositive(self.index()?),
            17 => Rule::FocusNegative(self.index()?),
            18 => Rule::Blur,
            _ => return Err(Fault(4, place)),
        })
    }

    fn index(&mut self) -> Result<usize, Fault> {
        let (low, high) = (self.byte()?, self.byte()?);
        Ok(low as usize + 256 * high as usize)
    }

    fn proof(&mut self) -> Result<Proof, Fault> {
        let rule = self.rule()?;
        let mut linear = Vec::new();
        for _ in 0..self.byte()? {
            linear.push(self.formula()?);
        }
        let place = self.at;
        let count = self.byte()?;
        if count > 3 {
            return Err(Fault(4, place));
        }
        let mut premises = Vec::new();
        for _ in 0..count {
            premises.push(self.proof()?);
        }
        Ok(Proof { conclusion: Sequent::new(linear), rule, premises })
    }
}

/// A name of an allowed length, all its bytes there: 5 for a bad byte, then 15 for a word; places are counted in the name.
fn in_full(spelling: Spelling, bytes: &[u8]) -> Result<String, Fault> {
    if let Some(bad) = bad_byte(bytes) {
        return Err(Fault(5, bad));
    }
    if spelling.is_word(bytes) {
        return Err(Fault(15, 0));
    }
    Ok(String::from_utf8(bytes.to_vec()).unwrap())
}

/// 2, then one reading, then 7.
fn whole<'a, T>(limits: &'a Limits, input: u8, bytes: &'a [u8], item: fn(&mut Reader<'a>) -> Result<T, Fault>) -> Result<T, Refusal> {
    if bytes.len() > limits.bytes {
        return refuse(2, limits.bytes, input);
    }
    let mut reader = Reader::new(limits, bytes);
    match item(&mut reader) {
        Err(Fault(number, place)) => refuse(number, place, input),
        Ok(_) if reader.at < bytes.len() => refuse(7, reader.at, input),
        Ok(value) => Ok(value),
    }
}

pub fn term(limits: &Limits, input: u8, bytes: &[u8]) -> Result<Term, Refusal> {
    whole(limits, input, bytes, |r| r.term())
}

pub fn formula(limits: &Limits, input: u8, bytes: &[u8]) -> Result<Formula, Refusal> {
    whole(limits, input, bytes, |r| r.formula())
}

pub fn proof(limits: &Limits, input: u8, bytes: &[u8]) -> Result<Proof, Refusal> {
    whole(limits, input, bytes, |r| r.proof())
}

/// A bare name argument has no length byte and is never 2 or 3; empty or over 24 bytes, however long, is 5 at 0; a word is 15 at 0.
pub fn name(input: u8, bytes: &[u8]) -> Result<String, Refusal> {
    if bytes.is_empty() || bytes.len() > Spelling::Name.most() {
        return refuse(5, 0, input);
    }
    in_full(Spelling::Name, bytes).or_else(|Fault(number, place)| refuse(number, place, input))
}
