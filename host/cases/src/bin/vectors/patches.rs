//! The patches that document 01 asks to try, each by every call on terms; and the longest content, stored and loaded.

use crate::record::{Call, Case};
use crate::List;
use lolli_core::Term;
use patch_model::form::term_bytes;
use patch_model::stored::blocks;

fn var(x: &str) -> Term {
    Term::Var(x.into())
}

fn abs(x: &str, body: Term) -> Term {
    Term::Abs(x.into(), Box::new(body))
}

fn app(f: Term, arg: Term) -> Term {
    Term::App(Box::new(f), Box::new(arg))
}

fn pair(a: Term, b: Term) -> Term {
    Term::Pair(Box::new(a), Box::new(b))
}

fn let_pair(of: Term, body: Term) -> Term {
    Term::LetPair("x".into(), "y".into(), Box::new(of), Box::new(body))
}

/// `copy e as (x, y) in body`
fn copy(e: Term, body: Term) -> Term {
    Term::Copy(Box::new(e), "x".into(), "y".into(), Box::new(body))
}

fn promotes(n: usize) -> Term {
    (0..n).fold(Term::Unit, |made, _| Term::Promote(Box::new(made)))
}

fn identity() -> Term {
    abs("x", var("x"))
}

/// P1 to P5, P7, P9: those that are a term.
fn terms() -> Vec<Term> {
    let redex = Term::Fst(Box::new(pair(var("u"), var("v"))));
    vec![
        app(abs("x", abs("y", var("x"))), var("y")),
        let_pair(pair(var("y"), Term::Unit), app(var("x"), var("y"))),
        Term::Abort(Box::new(app(identity(), Term::Unit))),
        copy(var("s"), app(abs("z", var("z")), var("x"))),
        let_pair(var("p"), redex),
        Term::Fst(Box::new(app(identity(), pair(var("a"), var("b"))))),
        app(app(abs("x", abs("y", app(var("x"), var("y")))), var("a")), var("b")),
    ]
}

fn by_every_call(list: &mut List, bytes: &[u8]) {
    for call in [Call::CheckTerm, Call::IsNormal, Call::IsStraight, Call::FreeVars, Call::TermText, Call::StoreTerm, Call::Step] {
        list.put(Case::new(call, &[bytes]));
    }
    for call in [Call::ChildFault, Call::Child] {
        for k in 0..2 {
            list.put(Case::new(call, &[bytes]).with(k));
        }
    }
    list.put(Case::new(Call::LoadTerm, &[&blocks(1, bytes)]));
    // P6: limit 0 gives the term back
    for limit in [0, 1, 1000] {
        list.put(Case::new(Call::NormalizeBounded, &[bytes]).with(limit));
    }
}

/// A term of 4,096 bytes, whose stored form has nine blocks.
fn longest() -> Vec<u8> {
    let name = |n: usize| Term::Var("a_name_of_14__"[..n].into());
    term_bytes(&(0..255).fold(name(14), |made, _| pair(name(13), made)))
}

pub fn all(list: &mut List) {
    for term in terms() {
        by_every_call(list, &term_bytes(&term));
    }
    // P8: () for y in \y. y changes nothing
    list.put(Case::new(Call::Substitute, &[&term_bytes(&abs("y", var("y"))), b"y", &[2]]));
    for v in [253, 254] {
        let doubled = copy(promotes(v + 1), app(var("x"), var("y")));
        list.put(Case::new(Call::Step, &[&term_bytes(&doubled)]));
        list.put(Case::new(Call::NormalizeBounded, &[&term_bytes(&doubled)]).with(9));
    }
    assert_eq!(longest().len(), 4096);
    list.put(Case::new(Call::StoreTerm, &[&longest()]));
    list.put(Case::new(Call::LoadTerm, &[&blocks(1, &longest())]));
}
