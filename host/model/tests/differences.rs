//! docs/DIFFERENCES.md: where the Rust departs from textbook substitution and reduction, each row run on the Rust itself.

use lolli_core::Term;
use lolli_extract::step;

fn var(x: &str) -> Term {
    Term::Var(x.into())
}
fn abs(x: &str, e: Term) -> Term {
    Term::Abs(x.into(), e.into())
}
fn app(f: Term, a: Term) -> Term {
    Term::App(f.into(), a.into())
}
fn identity() -> Term {
    abs("z", var("z"))
}

/// The text of what the Rust steps to, or that it is Normal.
fn steps(term: Term) -> String {
    step(&term).map_or("Normal".into(), |next| next.pretty())
}

fn let_pair(x: &str, y: &str, a: Term, b: Term, e: Term) -> Term {
    Term::LetPair(x.into(), y.into(), Term::Pair(a.into(), b.into()).into(), e.into())
}

#[test]
fn each_row_is_as_the_document_says() {
    assert_eq!(steps(app(abs("x", abs("y", var("x"))), var("y"))), "λy. y");
    assert_eq!(steps(let_pair("x", "y", var("y"), Term::Unit, app(var("x"), var("y")))), "(() ())");
    assert_eq!(steps(let_pair("x", "x", var("a"), var("b"), var("x"))), "a");
    assert_eq!(steps(Term::Abort(app(identity(), Term::Unit).into())), "Normal");
    assert_eq!(steps(Term::Copy(var("s").into(), "x".into(), "y".into(), app(identity(), var("x")).into())), "Normal");
    let branches = Term::Case(var("s").into(), "x".into(), app(identity(), var("x")).into(), "y".into(), var("y").into());
    assert_eq!(steps(branches), "Normal");
    let discard = Term::Discard(Term::Promote(Term::Unit.into()).into(), Term::Unit.into());
    assert_eq!(discard.pretty(), "discard in ()");
}
