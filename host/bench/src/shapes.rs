//! Terms, formulas and proofs of 50 nodes or more: nested in one way all through, and random ones.

use crate::least::Shape;
use lolli_core::{Formula, Proof, Rule, Sequent, Term};
use patch_generate::{self as generate, Rng};
use patch_model::form::{formula_bytes, proof_bytes, term_bytes};
use patch_model::names::Spelling;

const SIZES: [usize; 3] = [50, 150, 500];
const RANDOM: u64 = 200;
const SEED: u64 = 0x6c65_6173;
/// The port is not asked about what it refuses.
const MOST_BYTES: usize = 4096;

pub fn terms() -> Vec<Shape<Term>> {
    let mut made = Vec::new();
    for (way, each, put) in TERM_WAYS {
        for (names, x) in [("short names", "y".to_string()), ("long names", "y".repeat(Spelling::Name.most()))] {
            for nodes in SIZES {
                let term = (0..(nodes - 1) / each).fold(Term::Var("x".into()), |inner, _| put(x.clone(), Box::new(inner)));
                made.push(Shape { name: format!("{way}, {names}"), nodes, bytes: term_bytes(&term), value: term });
            }
        }
    }
    for i in 0..RANDOM {
        let rng = &mut Rng::new(SEED, i);
        let style = generate::terms::Style::random(rng);
        let nodes = rng.within(50, 500);
        let term = style.of_nodes(rng, nodes);
        made.push(Shape { name: format!("random {i}"), nodes, bytes: term_bytes(&term), value: term });
    }
    made.retain(|shape| takes(&shape.bytes));
    made
}

/// Whether the port takes the term and one step of it, with `()` for x, fits.
fn takes(term: &[u8]) -> bool {
    let (mut out, mut scratch) = (vec![0; patch::OUTPUT_ROOM], vec![0; patch::SCRATCH_ROOM]);
    term.len() <= MOST_BYTES && patch::check_term(term).is_ok() && patch::step_to(term, &mut out, &mut scratch).is_ok()
}

/// Each way to nest, the nodes that it adds, and what it puts round a term.
type Way = (&'static str, usize, fn(String, Box<Term>) -> Term);

fn y() -> Box<Term> {
    Box::new(Term::Var("y".into()))
}

const TERM_WAYS: [Way; 21] = [
    ("inl", 1, |_, t| Term::Inl(t)),
    ("fst", 1, |_, t| Term::Fst(t)),
    ("snd", 1, |_, t| Term::Snd(t)),
    ("abort", 1, |_, t| Term::Abort(t)),
    ("promote", 1, |_, t| Term::Promote(t)),
    ("derelict", 1, |_, t| Term::Derelict(t)),
    ("abs", 1, |x, t| Term::Abs(x, t)),
    ("pair, first part", 2, |_, t| Term::Pair(t, y())),
    ("pair, second part", 2, |_, t| Term::Pair(y(), t)),
    ("app, first part", 2, |_, t| Term::App(t, y())),
    ("app, second part", 2, |_, t| Term::App(y(), t)),
    ("discard, first part", 2, |_, t| Term::Discard(t, y())),
    ("discard, body", 2, |_, t| Term::Discard(y(), t)),
    ("let, pair", 2, |x, t| Term::LetPair(x, "z".into(), t, y())),
    ("let, body", 2, |x, t| Term::LetPair(x, "z".into(), y(), t)),
    ("copy, source", 2, |x, t| Term::Copy(t, x, "z".into(), y())),
    ("copy, body", 2, |x, t| Term::Copy(y(), x, "z".into(), t)),
    ("case, scrutinee", 3, |x, t| Term::Case(t, x, y(), "z".into(), y())),
    ("case, left", 3, |x, t| Term::Case(y(), x, t, "z".into(), y())),
    ("case, right", 3, |x, t| Term::Case(y(), x, y(), "z".into(), t)),
    ("applied abs", 3, |x, t| Term::App(Box::new(Term::Abs(x.clone(), Box::new(Term::Var(x)))), t)),
];

pub fn formulas() -> Vec<Shape<Formula>> {
    let mut made = Vec::new();
    for (way, each, put) in FORMULA_WAYS {
        for (names, x) in [("short atoms", "A".to_string()), ("long atoms", "A".repeat(Spelling::Atom.most()))] {
            for nodes in SIZES {
                let formula = (0..(nodes - 1) / each).fold(Formula::Atom(x.clone()), |inner, _| put(Formula::Atom(x.clone()), inner));
                made.push(Shape { name: format!("{way}, {names}"), nodes, bytes: formula_bytes(&formula), value: formula });
            }
        }
    }
    for i in 0..RANDOM {
        let rng = &mut Rng::new(SEED, i);
        let pool = generate::names::pool(rng, Spelling::Atom);
        let nodes = rng.within(50, 1000);
        let formula = generate::formulas::of_nodes(rng, &pool, nodes);
        made.push(Shape { name: format!("random {i}"), nodes, bytes: formula_bytes(&formula), value: formula });
    }
    made.retain(|shape| patch::check_formula(&shape.bytes).is_ok());
    made
}

const FORMULA_WAYS: [(&str, usize, fn(Formula, Formula) -> Formula); 4] = [
    ("of course", 1, |_, f| Formula::OfCourse(Box::new(f))),
    ("tensor, first part", 2, |a, f| Formula::Tensor(Box::new(f), Box::new(a))),
    ("tensor, second part", 2, |a, f| Formula::Tensor(Box::new(a), Box::new(f))),
    ("lolli, second part", 2, |a, f| Formula::Lolli(Box::new(a), Box::new(f))),
];

pub fn proofs() -> Vec<Shape<Proof>> {
    let mut made = Vec::new();
    for (way, each, put) in PROOF_WAYS {
        for nodes in SIZES {
            let proof = (0..(nodes - 1) / each).fold(axiom(), |inner, _| put(inner));
            made.push(Shape { name: way.to_string(), nodes, bytes: proof_bytes(&proof), value: proof });
        }
    }
    for i in 0..RANDOM {
        let rng = &mut Rng::new(SEED, i);
        let nodes = rng.within(50, 500);
        let proof = generate::proofs::of_rules(rng, nodes, nodes);
        made.push(Shape { name: format!("random {i}"), nodes, bytes: proof_bytes(&proof), value: proof });
    }
    let (mut out, mut scratch) = (vec![0; patch::OUTPUT_ROOM], vec![0; patch::SCRATCH_ROOM]);
    made.retain(|shape| patch::Extractor { counter: 0 }.extract_to(&shape.bytes, &mut out, &mut scratch).is_ok());
    made
}

fn axiom() -> Proof {
    ruled(Rule::Axiom, vec![Formula::Atom("A".into())], vec![])
}

fn ruled(rule: Rule, linear: Vec<Formula>, premises: Vec<Proof>) -> Proof {
    Proof { conclusion: Sequent::new(linear), rule, premises }
}

fn a() -> Formula {
    Formula::Atom("A".into())
}

const PROOF_WAYS: [(&str, usize, fn(Proof) -> Proof); 12] = [
    ("bottom", 1, |p| ruled(Rule::BottomIntro, vec![], vec![p])),
    ("of course", 1, |p| ruled(Rule::OfCourseIntro, vec![], vec![p])),
    ("dereliction", 1, |p| ruled(Rule::Dereliction, vec![], vec![p])),
    ("plus, left", 1, |p| ruled(Rule::PlusIntroLeft, vec![], vec![p])),
    ("contraction and two bottoms", 3, |p| {
        let bottom = |p| ruled(Rule::BottomIntro, vec![], vec![p]);
        ruled(Rule::Contraction, vec![], vec![bottom(bottom(p))])
    }),
    ("tensor, first part", 2, |p| ruled(Rule::TensorIntro, vec![], vec![p, axiom()])),
    ("tensor, second part", 2, |p| ruled(Rule::TensorIntro, vec![], vec![axiom(), p])),
    ("with, second part", 2, |p| ruled(Rule::WithIntro, vec![], vec![axiom(), p])),
    ("cut, producer", 2, |p| ruled(Rule::Cut(a()), vec![], vec![p, axiom()])),
    ("cut, consumer", 2, |p| ruled(Rule::Cut(a()), vec![], vec![axiom(), p])),
    ("cut on one, consumer", 2, |p| ruled(Rule::Cut(Formula::One), vec![], vec![axiom(), p])),
    ("cut without two", 1, |p| ruled(Rule::Cut(a()), vec![], vec![p])),
];
