//! Proofs: any rule over any number of premises, few atoms, so that axioms find cut entries; towers of Plus, which double; proofs at a limit.

use crate::formulas;
use crate::names;
use crate::rng::Rng;
use lolli_core::{Formula, Proof, Rule, Sequent};
use patch_model::names::Spelling;

const PLAIN: [Rule; 14] = [
    Rule::OneIntro,
    Rule::BottomIntro,
    Rule::TensorIntro,
    Rule::ParIntro,
    Rule::TopIntro,
    Rule::WithIntro,
    Rule::PlusIntroLeft,
    Rule::PlusIntroRight,
    Rule::OfCourseIntro,
    Rule::WhyNotIntro,
    Rule::Weakening,
    Rule::Contraction,
    Rule::Dereliction,
    Rule::Blur,
];

/// How a random proof is made: its atoms, how many formula nodes it may still have, and one cut in so many rules.
struct Style {
    pool: Vec<String>,
    formulas: usize,
    cuts: usize,
}

impl Style {
    fn signed(&self, rng: &mut Rng) -> Formula {
        let name = rng.pick(&self.pool).clone();
        if rng.one_in(2) {
            Formula::Atom(name)
        } else {
            Formula::NegAtom(name)
        }
    }

    fn formula(&mut self, rng: &mut Rng) -> Formula {
        let nodes = if rng.one_in(2) { 1 } else { rng.within(1, 4) };
        self.formulas = self.formulas.saturating_sub(nodes);
        if nodes == 1 && !rng.one_in(4) {
            return self.signed(rng);
        }
        formulas::of_nodes(rng, &self.pool, nodes)
    }

    fn linear(&mut self, rng: &mut Rng, most: usize) -> Vec<Formula> {
        let mut list = Vec::new();
        while self.formulas > 8 && list.len() < most && !rng.one_in(3) {
            list.push(self.formula(rng));
        }
        list
    }

    fn cut_formula(&mut self, rng: &mut Rng) -> Formula {
        let part = |style: &mut Style, rng: &mut Rng| Box::new(style.signed(rng));
        match rng.below(8) {
            0..=3 => self.signed(rng),
            4 => Formula::Tensor(part(self, rng), part(self, rng)),
            5 => Formula::Plus(part(self, rng), part(self, rng)),
            _ => self.formula(rng),
        }
    }

    /// A proof of exactly so many rules.
    fn proof(&mut self, rng: &mut Rng, rules: usize) -> Proof {
        if rules == 1 {
            let rule = if rng.one_in(4) { rng.pick(&PLAIN).clone() } else { Rule::Axiom };
            return self.ruled(rng, rule, vec![]);
        }
        if rules >= 3 && self.formulas > 8 && rng.one_in(self.cuts) {
            let (a, b) = rng.split(rules - 1);
            let formula = self.cut_formula(rng);
            self.formulas = self.formulas.saturating_sub(3);
            let premises = vec![self.proof(rng, a), self.proof(rng, b)];
            return self.ruled(rng, Rule::Cut(formula), premises);
        }
        let rule = match rng.below(12) {
            0 => Rule::FocusPositive(rng.below(65536)),
            1 => Rule::FocusNegative(rng.below(65536)),
            2 => Rule::Axiom,
            3 => Rule::Cut(self.formula(rng)),
            _ => rng.pick(&PLAIN).clone(),
        };
        let two = matches!(rule, Rule::TensorIntro | Rule::WithIntro | Rule::Cut(_));
        let premises = match (if two { 2 } else { 1 }, rng.below(8)) {
            (_, 0) if rules >= 4 => {
                let (a, rest) = rng.split(rules - 2);
                let (b, c) = rng.split(rest + 1);
                vec![self.proof(rng, a), self.proof(rng, b), self.proof(rng, c)]
            }
            (2, _) | (_, 1) if rules >= 3 => {
                let (a, b) = rng.split(rules - 1);
                vec![self.proof(rng, a), self.proof(rng, b)]
            }
            _ => vec![self.proof(rng, rules - 1)],
        };
        self.ruled(rng, rule, premises)
    }

    fn ruled(&mut self, rng: &mut Rng, rule: Rule, premises: Vec<Proof>) -> Proof {
        let most = if matches!(rule, Rule::Axiom) { 4 } else { 1 };
        Proof { conclusion: Sequent::new(self.linear(rng, most)), rule, premises }
    }
}

/// A proof of exactly so many rules, with at most about so many formula nodes.
pub fn of_rules(rng: &mut Rng, rules: usize, formulas: usize) -> Proof {
    let pool = names::pool(rng, Spelling::Atom);
    let cuts = *rng.pick(&[1, 2, 4]);
    Style { pool, formulas, cuts }.proof(rng, rules)
}

pub fn random(rng: &mut Rng, most_rules: usize) -> Proof {
    let rules = rng.size(most_rules);
    of_rules(rng, rules, 600)
}

/// So many Cuts on Plus, one in the consumer of the other: the term doubles with each.
pub fn doubling(rng: &mut Rng, height: usize) -> Proof {
    let leaf = |rng: &mut Rng| {
        let mut style = Style { pool: vec!["A".into(), "B".into()], formulas: 10, cuts: 4 };
        style.proof(rng, 1)
    };
    let mut proof = leaf(rng);
    for _ in 0..height {
        let producer = leaf(rng);
        let rule = Rule::Cut(Formula::plus(Formula::One, Formula::atom("A")));
        proof = Proof { conclusion: Sequent::new(vec![]), rule, premises: vec![producer, proof] };
    }
    proof
}

/// A counter to start at: 0, small, where a digit is added, near the most, or over it.
pub fn counter(rng: &mut Rng) -> u32 {
    match rng.below(10) {
        0..=4 => 0,
        5 => rng.below(1000) as u32,
        6 => [9, 99, 999, 9_999, 9_999_999][rng.below(5)] - rng.below(4) as u32,
        7 => 100_000_000 - rng.below(8) as u32,
        8 => 99_999_999 - rng.below(600) as u32,
        _ => *rng.pick(&[100_000_001, u32::MAX, u32::MAX - 1, 1 << 31]),
    }
}
