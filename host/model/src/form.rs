//! Terms, formulas and proofs as bytes, parent first (01, "Terms, formulas and proofs as bytes"), and how many nodes they have.
//! Proofs keep of a sequent its list `linear` alone.

use lolli_core::{Formula, Proof, Rule, Term};

pub fn put_name(name: &str, to: &mut Vec<u8>) {
    to.push(name.len() as u8);
    to.extend_from_slice(name.as_bytes());
}

pub fn put_term(term: &Term, to: &mut Vec<u8>) {
    match term {
        Term::Var(n) => {
            to.push(1);
            put_name(n, to);
        }
        Term::Unit => to.push(2),
        Term::Pair(a, b) => put_two(3, a, b, to),
        Term::LetPair(x, y, pair, body) => put_both(4, x, y, pair, body, to),
        Term::Abs(x, body) => {
            to.push(5);
            put_name(x, to);
            put_term(body, to);
        }
        Term::App(f, arg) => put_two(6, f, arg, to),
        Term::Inl(e) => put_one(7, e, to),
        Term::Inr(e) => put_one(8, e, to),
        Term::Case(scrut, x, left, y, right) => {
            to.push(9);
            put_name(x, to);
            put_name(y, to);
            put_term(scrut, to);
            put_term(left, to);
            put_term(right, to);
        }
        Term::Trivial => to.push(10),
        Term::Fst(e) => put_one(11, e, to),
        Term::Snd(e) => put_one(12, e, to),
        Term::Abort(e) => put_one(13, e, to),
        Term::Promote(e) => put_one(14, e, to),
        Term::Derelict(e) => put_one(15, e, to),
        Term::Discard(e, body) => put_two(16, e, body, to),
        Term::Copy(src, x, y, body) => put_both(17, x, y, src, body, to),
    }
}

fn put_one(tag: u8, e: &Term, to: &mut Vec<u8>) {
    to.push(tag);
    put_term(e, to);
}

fn put_two(tag: u8, a: &Term, b: &Term, to: &mut Vec<u8>) {
    to.push(tag);
    put_term(a, to);
    put_term(b, to);
}

fn put_both(tag: u8, x: &str, y: &str, e: &Term, body: &Term, to: &mut Vec<u8>) {
    to.push(tag);
    put_name(x, to);
    put_name(y, to);
    put_term(e, to);
    put_term(body, to);
}

pub fn put_formula(formula: &Formula, to: &mut Vec<u8>) {
    let (tag, parts): (u8, &[&Formula]) = match formula {
        Formula::Atom(n) => {
            to.push(1);
            return put_name(n, to);
        }
        Formula::NegAtom(n) => {
            to.push(2);
            return put_name(n, to);
        }
        Formula::Tensor(a, b) => (3, &[a, b]),
        Formula::Par(a, b) => (4, &[a, b]),
        Formula::One => (5, &[]),
        Formula::Bottom => (6, &[]),
        Formula::With(a, b) => (7, &[a, b]),
        Formula::Plus(a, b) => (8, &[a, b]),
        Formula::Top => (9, &[]),
        Formula::Zero => (10, &[]),
        Formula::OfCourse(a) => (11, &[a]),
        Formula::WhyNot(a) => (12, &[a]),
        Formula::Lolli(a, b) => (13, &[a, b]),
    };
    to.push(tag);
    for part in parts {
        put_formula(part, to);
    }
}

pub fn put_proof(proof: &Proof, to: &mut Vec<u8>) {
    to.push(rule_tag(&proof.rule));
    match &proof.rule {
        Rule::Cut(formula) => put_formula(formula, to),
        Rule::FocusPositive(i) | Rule::FocusNegative(i) => to.extend_from_slice(&(*i as u16).to_le_bytes()),
        _ => {}
    }
    to.push(proof.conclusion.linear.len() as u8);
    for formula in &proof.conclusion.linear {
        put_formula(formula, to);
    }
    to.push(proof.premises.len() as u8);
    for premise in &proof.premises {
        put_proof(premise, to);
    }
}

fn rule_tag(rule: &Rule) -> u8 {
    match rule {
        Rule::Axiom => 1,
        Rule::Cut(_) => 2,
        Rule::OneIntro => 3,
        Rule::BottomIntro => 4,
        Rule::TensorIntro => 5,
        Rule::ParIntro => 6,
        Rule::TopIntro => 7,
        Rule::WithIntro => 8,
        Rule::PlusIntroLeft => 9,
        Rule::PlusIntroRight => 10,
        Rule::OfCourseIntro => 11,
        Rule::WhyNotIntro => 12,
        Rule::Weakening => 13,
        Rule::Contraction => 14,
        Rule::Dereliction => 15,
        Rule::FocusPositive(_) => 16,
        Rule::FocusNegative(_) => 17,
        Rule::Blur => 18,
    }
}

pub fn term_bytes(term: &Term) -> Vec<u8> {
    let mut to = Vec::new();
    put_term(term, &mut to);
    to
}

pub fn formula_bytes(formula: &Formula) -> Vec<u8> {
    let mut to = Vec::new();
    put_formula(formula, &mut to);
    to
}

pub fn proof_bytes(proof: &Proof) -> Vec<u8> {
    let mut to = Vec::new();
    put_proof(proof, &mut to);
    to
}

/// the parts of a term, in the order of their bytes
pub fn parts(term: &Term) -> Vec<&Term> {
    match term {
        Term::Var(_) | Term::Unit | Term::Trivial => vec![],
        Term::Pair(a, b) | Term::App(a, b) | Term::Discard(a, b) => vec![a, b],
        Term::LetPair(_, _, a, b) | Term::Copy(a, _, _, b) => vec![a, b],
        Term::Case(scrut, _, left, _, right) => vec![scrut, left, right],
        Term::Abs(_, e) => vec![e],
        Term::Inl(e) | Term::Inr(e) | Term::Fst(e) | Term::Snd(e) => vec![e],
        Term::Abort(e) | Term::Promote(e) | Term::Derelict(e) => vec![e],
    }
}

pub fn term_nodes(term: &Term) -> usize {
    1 + parts(term).into_iter().map(term_nodes).sum::<usize>()
}

pub fn formula_nodes(formula: &Formula) -> usize {
    match formula {
        Formula::Atom(_) | Formula::NegAtom(_) => 1,
        Formula::One | Formula::Bottom | Formula::Top | Formula::Zero => 1,
        Formula::OfCourse(a) | Formula::WhyNot(a) => 1 + formula_nodes(a),
        Formula::Tensor(a, b) | Formula::Par(a, b) | Formula::With(a, b) | Formula::Plus(a, b) | Formula::Lolli(a, b) => {
            1 + formula_nodes(a) + formula_nodes(b)
        }
    }
}

pub fn proof_rules(proof: &Proof) -> usize {
    1 + proof.premises.iter().map(proof_rules).sum::<usize>()
}

pub fn proof_formula_nodes(proof: &Proof) -> usize {
    let own = match &proof.rule {
        Rule::Cut(formula) => formula_nodes(formula),
        _ => 0,
    };
    own + proof.conclusion.linear.iter().map(formula_nodes).sum::<usize>() + proof.premises.iter().map(proof_formula_nodes).sum::<usize>()
}
