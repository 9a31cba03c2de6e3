//! The patches and runs that document 01 gives, held against the model.

use lolli_core::{Formula, Proof, Rule as R, Sequent, Term};
use patch_model::calls::{check_formula, check_proof, check_term, substitute};
use patch_model::extract::{extracted, sizes};
use patch_model::form::{proof_bytes, term_bytes};
use patch_model::program::patchrun;
use patch_model::reduce::{normalize_bounded, reduce, step, Rule, Stepped};
use patch_model::stored::{blocks, check, load, store, Kind};
use patch_model::straight::straight;
use patch_model::{Limits, Refusal};

const L: Limits = Limits::BASE;

fn var(x: &str) -> Term {
    Term::Var(x.into())
}
fn abs(x: &str, e: Term) -> Term {
    Term::Abs(x.into(), e.into())
}
fn app(f: Term, a: Term) -> Term {
    Term::App(f.into(), a.into())
}
fn pair(a: Term, b: Term) -> Term {
    Term::Pair(a.into(), b.into())
}
fn let_pair(x: &str, y: &str, p: Term, e: Term) -> Term {
    Term::LetPair(x.into(), y.into(), p.into(), e.into())
}
fn copy(s: Term, x: &str, y: &str, e: Term) -> Term {
    Term::Copy(s.into(), x.into(), y.into(), e.into())
}
fn promotes(n: usize, e: Term) -> Term {
    (0..n).fold(e, |e, _| Term::Promote(e.into()))
}
fn rule(rule: R, linear: Vec<Formula>, premises: Vec<Proof>) -> Proof {
    Proof { conclusion: Sequent::new(linear), rule, premises }
}
fn refused(number: u8, place: usize) -> Refusal {
    Refusal { number, place, input: 1 }
}

/// A step, and the text of what it makes.
fn stepped(term: &Term) -> Option<(Rule, usize, String)> {
    let (mut out, mut scratch) = (vec![9; 4100], vec![9; 8200]);
    match step(&L, &term_bytes(term), &mut out, &mut scratch).unwrap() {
        Stepped::Normal => {
            assert!(out.iter().all(|&b| b == 9) && scratch.iter().all(|&b| b == 0));
            None
        }
        Stepped::Found { rule, place, length } => {
            assert!(out[length..].iter().all(|&b| b == 0) && scratch.iter().all(|&b| b == 0));
            Some((rule, place, patch_model::read::term(&L, 1, &out[..length]).unwrap().pretty()))
        }
    }
}

fn makes(term: &Term, rule: Rule, place: usize, text: &str) {
    assert_eq!(stepped(term), Some((rule, place, text.to_string())));
}

#[test]
fn p1_to_p9() {
    makes(&app(abs("x", abs("y", var("x"))), var("y")), Rule::App, 0, "λy. y");
    makes(&let_pair("x", "y", pair(var("y"), Term::Unit), app(var("x"), var("y"))), Rule::Let, 0, "(() ())");
    assert_eq!(stepped(&Term::Abort(app(abs("x", var("x")), Term::Unit).into())), None);
    assert_eq!(stepped(&copy(var("s"), "x", "y", app(abs("z", var("z")), var("x")))), None);
    let p5 = let_pair("x", "y", var("p"), Term::Fst(pair(var("u"), var("v")).into()));
    makes(&p5, Rule::Fst, 8, "let (x, y) = p in u");
    let (told, last) = reduce(&L, p5.clone(), 0);
    assert_eq!((told.unwrap().steps, last), (0, p5));
    let p7 = Term::Fst(app(abs("x", var("x")), pair(var("a"), var("b"))).into());
    let (told, last) = reduce(&L, p7, u32::MAX);
    let told = told.unwrap();
    assert_eq!((told.steps, told.counts, told.normal, last), (2, [1, 0, 0, 1, 0, 0, 0, 0], true, var("a")));
    let p8 = term_bytes(&abs("y", var("y")));
    let mut out = vec![9; 4096];
    assert_eq!(substitute(&L, &p8, b"y", &[2], &mut out, &mut vec![9; 8192]), Ok(p8.len()));
    assert_eq!(out[..p8.len()], p8);
    let p9 = app(app(abs("x", abs("y", app(var("x"), var("y")))), var("a")), var("b"));
    let nodes = |limit| patch_model::form::term_nodes(&reduce(&L, p9.clone(), limit).1);
    assert_eq!((nodes(0), nodes(1), nodes(2)), (9, 6, 3));
    assert_eq!(reduce(&L, p9, 9).1.pretty(), "(a b)");
}

#[test]
fn p10_to_p12() {
    let atom = || Formula::atom("A");
    let unit = || rule(R::OneIntro, vec![], vec![]);
    let text = |proof: &Proof, counter| {
        let (term, next) = extracted(&L, proof, counter).unwrap();
        let (size, after) = sizes(proof, counter as u64);
        assert_eq!((size.bytes as usize, after), (term_bytes(&term).len(), next as u64));
        (term.pretty(), next)
    };
    let p10 = rule(R::Cut(Formula::tensor(Formula::One, Formula::One)), vec![], vec![unit(), unit()]);
    assert_eq!(text(&p10, 0), ("let (x1, x2) = () in ()".into(), 3));
    let axiom = rule(R::Axiom, vec![Formula::neg_atom("A"), atom()], vec![]);
    let inner = rule(R::Cut(atom()), vec![], vec![unit(), axiom]);
    let p11 = rule(R::Cut(atom()), vec![], vec![unit(), inner]);
    assert_eq!(text(&p11, 0), ("((a0 ()) ())".into(), 2));
    assert_eq!(text(&rule(R::Axiom, vec![Formula::One], vec![]), 0), ("λx0. x0".into(), 1));
    // Atoms A1 at counter 0 and A at 10 both make a10.
    let cut = |name: &str| {
        let axiom = rule(R::Axiom, vec![Formula::neg_atom(name)], vec![]);
        rule(R::Cut(Formula::atom(name)), vec![], vec![unit(), axiom])
    };
    assert_eq!(text(&cut("A1"), 0).0, "(a10 ())");
    assert_eq!(text(&cut("A"), 10).0, "(a10 ())");
    // The counter may end at 100,000,000 and not over it.
    assert_eq!(text(&cut("A"), 99_999_999), ("(a99999999 ())".into(), 100_000_000));
    assert_eq!(extracted(&L, &cut("A"), 100_000_000), Err(Refusal { number: 9, place: 0, input: 0 }));
    assert_eq!(extracted(&L, &unit(), 100_000_001), Err(Refusal { number: 9, place: 0, input: 0 }));
    assert_eq!(extracted(&L, &unit(), 100_000_000), Ok((Term::Unit, 100_000_000)));
}

#[test]
fn a_plus_doubles_without_end() {
    let plus = || Formula::plus(Formula::One, Formula::One);
    let unit = || rule(R::OneIntro, vec![], vec![]);
    let mut proof = unit();
    for _ in 0..200 {
        proof = rule(R::Cut(plus()), vec![], vec![unit(), proof]);
    }
    assert_eq!(extracted(&L, &proof, 0), Err(Refusal { number: 8, place: 0, input: 0 }));
    assert_eq!(check_proof(&L, &proof_bytes(&proof)), Ok(401));
}

#[test]
fn run_list() {
    assert_eq!(check_term(&L, &[]), Err(refused(3, 0)));
    assert_eq!(check_term(&L, &[2, 2]), Err(refused(7, 1)));
    assert_eq!(check_term(&L, &[18]), Err(refused(4, 0)));
    assert_eq!(check_term(&L, &term_bytes(&promotes(511, Term::Unit))), Ok(512));
    assert_eq!(check_term(&L, &term_bytes(&promotes(512, Term::Unit))), Err(refused(6, 512)));
    assert_eq!(check_term(&L, &term_bytes(&var(&"x".repeat(24)))), Ok(1));
    assert_eq!(check_term(&L, &term_bytes(&var(&"x".repeat(25)))), Err(refused(5, 1)));
    assert_eq!(check_formula(&L, &[1, 16, b'x']), Err(refused(3, 3)));
    assert_eq!(check_term(&L, &vec![2; 4097]), Err(refused(2, 4096)));
    let copied = |n: usize| copy(promotes(n + 1, Term::Unit), "x", "y", app(var("x"), var("y")));
    let doubled = reduce(&L, copied(253), 1).0.unwrap();
    assert_eq!((doubled.steps, doubled.counts[6]), (1, 1));
    assert_eq!(reduce(&L, copied(254), 1).0, Err(Refusal { number: 8, place: 0, input: 0 }));
}

#[test]
fn eight_leaves_the_last_term_that_fitted() {
    let grows = copy(promotes(255, Term::Unit), "x", "y", app(var("x"), var("y")));
    let bytes = term_bytes(&grows);
    let (mut out, mut scratch) = (vec![9; 5000], vec![9; 9000]);
    let whole = term_bytes(&app(abs("z", grows.clone()), Term::Unit));
    let (answer, length) = normalize_bounded(&L, &whole, 5, &mut out, &mut scratch);
    assert_eq!(answer, Err(Refusal { number: 8, place: 1, input: 0 }));
    assert_eq!(out[..length], bytes);
    assert!(out[length..].iter().chain(&scratch).all(|&b| b == 0));
}

#[test]
fn stored_files() {
    let unit = blocks(1, &[2]);
    assert_eq!((unit.len(), check(&unit)), (512, 14));
    assert_eq!(
        patchrun(&L, &blocks(1, &term_bytes(&app(abs("x", var("x")), Term::Unit)))),
        b"()\nsteps 1 app 1 let 0 case 0 fst 0 snd 0 derelict 0 copy 0 discard 0 normal yes\n"
    );
    assert_eq!(patchrun(&L, &[]), b"refused 10 at 0\n");
    let long = term_bytes(&promotes(511, Term::Unit));
    let (mut file, mut back) = (vec![9; 4608], vec![9; 4096]);
    let length = store(&L, Kind::Term, &long, &mut file).unwrap();
    assert_eq!(length, 1024);
    assert_eq!(load(&L, Kind::Term, &file[..length], &mut back), Ok(512));
    assert_eq!(back[..512], long);
    assert_eq!(load(&L, Kind::Proof, &file[..length], &mut back), Err(refused(12, 0)));
    assert_eq!(load(&L, Kind::Term, &file, &mut back), Err(refused(12, 0)));
    file[1023] ^= 1;
    assert_eq!(load(&L, Kind::Term, &file[..length], &mut back), Err(refused(11, 1)));
    file[1000] = 1;
    patch_model::stored::seal(&mut file[512..1024]);
    assert_eq!(load(&L, Kind::Term, &file[..length], &mut back), Err(refused(13, 1)));
}

#[test]
fn straight_terms() {
    assert!(straight(&abs("x", var("x"))));
    assert!(straight(&app(var("x"), var("x"))));
    assert!(!straight(&abs("x", Term::Unit)));
    assert!(!straight(&abs("x", app(var("x"), var("x")))));
    assert!(!straight(&app(abs("x", var("x")), var("x"))));
    assert!(!straight(&app(abs("x", Term::Unit), var("x"))));
    assert!(!straight(&app(abs("x", var("x")), abs("x", var("x")))));
    assert!(straight(&let_pair("x", "y", pair(var("a"), var("a")), app(var("y"), var("x")))));
    assert!(!straight(&let_pair("x", "x", var("p"), var("x"))));
    assert!(!straight(&Term::Fst(var("p").into())));
}
