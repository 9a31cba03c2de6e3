//! Small terms, formulas and proofs, rich in what tells one reading of the rules from another: few names, redexes, the order of two substitutions,
//! nested cuts on atoms of both signs. The generators of differential runs may change; these may not, or the printed file changes with them.

use lolli_core::{Formula, Proof, Rule, Sequent, Term};

/// splitmix64
pub struct Rng(pub u64);

impl Rng {
    fn next(&mut self) -> u64 {
        self.0 = self.0.wrapping_add(0x9e37_79b9_7f4a_7c15);
        let mut z = self.0;
        z = (z ^ (z >> 30)).wrapping_mul(0xbf58_476d_1ce4_e5b9);
        z = (z ^ (z >> 27)).wrapping_mul(0x94d0_49bb_1331_11eb);
        z ^ (z >> 31)
    }

    /// 0 to n - 1
    pub fn below(&mut self, n: usize) -> usize {
        (self.next() % n as u64) as usize
    }

    pub fn one_in(&mut self, n: usize) -> bool {
        self.below(n) == 0
    }

    pub fn pick<'a>(&mut self, from: &[&'a str]) -> &'a str {
        from[self.below(from.len())]
    }
}

/// Short names that begin one another or differ in case, and one as long as allowed.
const NAMES: [&str; 9] = ["x", "y", "x", "y", "x1", "x10", "X", "_", LONG];
const LONG: &str = "abcdefghijklmnopqrstuvwx";
const ATOMS: [&str; 6] = ["A", "B", "A", "A1", "a", "Z_z9"];

pub fn name(rng: &mut Rng) -> String {
    rng.pick(&NAMES).to_string()
}

fn var(x: &str) -> Box<Term> {
    Box::new(Term::Var(x.to_string()))
}

fn boxed(rng: &mut Rng, depth: usize) -> Box<Term> {
    Box::new(term(rng, depth))
}

/// A term of at most that depth, half of its nodes redexes.
pub fn term(rng: &mut Rng, depth: usize) -> Term {
    if depth == 0 {
        return match rng.below(6) {
            0 => Term::Unit,
            1 => Term::Trivial,
            _ => Term::Var(name(rng)),
        };
    }
    if rng.one_in(2) {
        return redex(rng, depth - 1);
    }
    let (d, x, y) = (depth - 1, name(rng), name(rng));
    match rng.below(14) {
        0 => Term::Pair(boxed(rng, d), boxed(rng, d)),
        1 => Term::LetPair(x, y, boxed(rng, d), boxed(rng, d)),
        2 => Term::Abs(x, boxed(rng, d)),
        3 => Term::App(boxed(rng, d), boxed(rng, d)),
        4 => Term::Inl(boxed(rng, d)),
        5 => Term::Inr(boxed(rng, d)),
        6 => Term::Case(boxed(rng, d), x, boxed(rng, d), y, boxed(rng, d)),
        7 => Term::Fst(boxed(rng, d)),
        8 => Term::Snd(boxed(rng, d)),
        9 => Term::Abort(boxed(rng, d)),
        10 => Term::Promote(boxed(rng, d)),
        11 => Term::Derelict(boxed(rng, d)),
        12 => Term::Discard(boxed(rng, d), boxed(rng, d)),
        _ => Term::Copy(boxed(rng, d), x, y, boxed(rng, d)),
    }
}

/// A node that a step contracts.
pub fn redex(rng: &mut Rng, depth: usize) -> Term {
    let (d, x, y) = (depth, name(rng), name(rng));
    let pair = |rng: &mut Rng| Box::new(Term::Pair(boxed(rng, d), boxed(rng, d)));
    let promote = |rng: &mut Rng| Box::new(Term::Promote(boxed(rng, d)));
    match rng.below(11) {
        0 | 1 => Term::App(Box::new(Term::Abs(x, boxed(rng, d))), boxed(rng, d)),
        2 | 3 => Term::LetPair(x, y, pair(rng), boxed(rng, d)),
        4 => Term::Case(Box::new(Term::Inl(boxed(rng, d))), x, boxed(rng, d), y, boxed(rng, d)),
        5 => Term::Case(Box::new(Term::Inr(boxed(rng, d))), x, boxed(rng, d), y, boxed(rng, d)),
        6 => Term::Fst(pair(rng)),
        7 => Term::Snd(pair(rng)),
        8 => Term::Derelict(promote(rng)),
        9 => Term::Discard(promote(rng), boxed(rng, d)),
        _ => Term::Copy(promote(rng), x, y, boxed(rng, d)),
    }
}

/// Variables and Unit in a row.
fn row(rng: &mut Rng, variables: &[&str]) -> Box<Term> {
    let mut made = Box::new(Term::Unit);
    for x in variables {
        made = Box::new(if rng.one_in(2) { Term::App(made, var(x)) } else { Term::Pair(var(x), made) });
    }
    made
}

/// A LetPair of a Pair or a Copy of a Promote, whose values hold both names: the order of the two substitutions shows.
pub fn in_turn(rng: &mut Rng) -> Term {
    let (x, y) = (name(rng), name(rng));
    let value = if rng.one_in(2) { row(rng, &[&y]) } else { row(rng, &[&y, &x]) };
    let body = match rng.below(3) {
        0 => row(rng, &[&x, &y]),
        1 => Box::new(Term::Abs(y.clone(), row(rng, &[&x, &y]))),
        _ => Box::new(Term::Case(var(&x), x.clone(), row(rng, &[&x, &y]), y.clone(), row(rng, &[&x, &y]))),
    };
    if rng.one_in(2) {
        let second = if rng.one_in(2) { Box::new(Term::Unit) } else { var("z") };
        Term::LetPair(x, y, Box::new(Term::Pair(value, second)), body)
    } else {
        Term::Copy(Box::new(Term::Promote(value)), x, y, body)
    }
}

/// A LetPair whose body is largest half-way: the second name is long, and what goes in for it short.
pub fn half_way(rng: &mut Rng) -> Term {
    let value = row(rng, &[LONG]);
    let body = match rng.below(2) {
        0 => row(rng, &["x", "x", "x"]),
        _ => Box::new(Term::Abs("w".into(), row(rng, &["x", LONG, "x"]))),
    };
    Term::LetPair("x".into(), LONG.into(), Box::new(Term::Pair(value, Box::new(Term::Unit))), body)
}

/// Redexes in the parts of a node, the first part's perhaps a variable: the order of parts shows, and which are not entered.
pub fn in_parts(rng: &mut Rng) -> Term {
    let (x, y) = (name(rng), name(rng));
    let first = if rng.one_in(3) { Box::new(redex(rng, 0)) } else { var(&x) };
    let (second, third) = (Box::new(redex(rng, 0)), Box::new(redex(rng, 0)));
    match rng.below(8) {
        0 => Term::Pair(first, second),
        1 => Term::App(first, second),
        2 => Term::Discard(first, second),
        3 => Term::LetPair(x, y, first, second),
        4 => Term::Copy(first, x, y, second),
        5 | 6 => Term::Case(first, x, second, y, third),
        _ => Term::Abort(second),
    }
}

fn atom(rng: &mut Rng) -> Formula {
    let name = rng.pick(&ATOMS);
    if rng.one_in(2) {
        Formula::atom(name)
    } else {
        Formula::neg_atom(name)
    }
}

pub fn formula(rng: &mut Rng, depth: usize) -> Formula {
    if depth == 0 || rng.one_in(4) {
        return match rng.below(8) {
            0 => Formula::One,
            1 => Formula::Bottom,
            2 => Formula::Top,
            3 => Formula::Zero,
            _ => atom(rng),
        };
    }
    let (a, b) = (formula(rng, depth - 1), formula(rng, depth - 1));
    match rng.below(7) {
        0 => Formula::tensor(a, b),
        1 => Formula::par(a, b),
        2 => Formula::with(a, b),
        3 => Formula::plus(a, b),
        4 => Formula::lolli(a, b),
        5 => Formula::of_course(a),
        _ => Formula::why_not(a),
    }
}

fn proof_of(linear: Vec<Formula>, rule: Rule, premises: Vec<Proof>) -> Proof {
    Proof { conclusion: Sequent::new(linear), rule, premises }
}

fn axiom(rng: &mut Rng) -> Proof {
    let mut linear = Vec::new();
    while linear.len() < 3 && !rng.one_in(4) {
        linear.push(if rng.one_in(5) { formula(rng, 1) } else { atom(rng) });
    }
    proof_of(linear, Rule::Axiom, vec![])
}

/// Cuts in each other's premises, mostly on atoms of both signs, with axioms at the ends.
pub fn cuts(rng: &mut Rng, height: usize) -> Proof {
    if height == 0 {
        return axiom(rng);
    }
    let cut = if rng.one_in(4) { formula(rng, 1) } else { atom(rng) };
    let producer = if rng.one_in(3) { rng.below(height) } else { 0 };
    let premises = vec![cuts(rng, producer), cuts(rng, height - 1)];
    proof_of(vec![], Rule::Cut(cut), premises)
}

/// Any rule over none to three premises.
pub fn proof(rng: &mut Rng, height: usize) -> Proof {
    if height == 0 {
        return axiom(rng);
    }
    let rule = match rng.below(18) {
        0 => Rule::Cut(formula(rng, 1)),
        1 => Rule::Cut(Formula::tensor(atom(rng), Formula::One)),
        2 => Rule::Cut(Formula::plus(Formula::One, atom(rng))),
        3 => Rule::OneIntro,
        4 => Rule::BottomIntro,
        5 => Rule::TensorIntro,
        6 => Rule::ParIntro,
        7 => Rule::TopIntro,
        8 => Rule::WithIntro,
        9 => Rule::PlusIntroLeft,
        10 => Rule::PlusIntroRight,
        11 => Rule::OfCourseIntro,
        12 => Rule::WhyNotIntro,
        13 => Rule::Weakening,
        14 => Rule::Contraction,
        15 => Rule::Dereliction,
        16 => Rule::FocusPositive(rng.below(65536)),
        _ => Rule::Blur,
    };
    let two = matches!(rule, Rule::Cut(_) | Rule::TensorIntro | Rule::WithIntro);
    let many = if rng.one_in(5) { rng.below(4) } else { 1 + two as usize };
    let premises = (0..many).map(|_| proof(rng, height - 1)).collect();
    let linear = if rng.one_in(3) { vec![atom(rng)] } else { vec![] };
    proof_of(linear, rule, premises)
}
