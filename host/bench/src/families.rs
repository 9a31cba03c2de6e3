//! Families of terms: each is a shape that a walk could be slow on.

use lolli_core::Term;
use patch_model::form::term_bytes;

pub const NAMES: [&str; 4] = ["deep", "wide", "many binders", "many names"];

/// The term of that family with about so many nodes.
pub fn term(family: &str, nodes: usize) -> Term {
    match family {
        "deep" => {
            (1..nodes).fold(var("x"), |inner, i| if i % 2 == 0 { Term::Promote(Box::new(inner)) } else { Term::Inl(Box::new(inner)) })
        }
        "wide" => wide(nodes.div_ceil(2), &mut 0, &|i| ["a", "b1", "in_left", "x"][i % 4].to_string()),
        "many binders" => (0..nodes / 3).rev().fold(var("x"), |rest, i| {
            let name = format!("v{i}");
            Term::Abs(name.clone(), Box::new(Term::App(Box::new(Term::Var(name)), Box::new(rest))))
        }),
        _ => wide(nodes.div_ceil(2), &mut 0, &|i| if i == 0 { "x".to_string() } else { format!("n{}", i * 7919 % 1000) }),
    }
}

/// With its bytes, as the port takes it.
pub fn input(family: &str, nodes: usize) -> Vec<(Term, Vec<u8>)> {
    let term = term(family, nodes);
    let bytes = term_bytes(&term);
    vec![(term, bytes)]
}

fn var(name: &str) -> Term {
    Term::Var(name.to_string())
}

/// A balanced tree of pairs over so many variables.
pub fn wide(leaves: usize, next: &mut usize, name: &dyn Fn(usize) -> String) -> Term {
    if leaves <= 1 {
        *next += 1;
        return Term::Var(name(*next - 1));
    }
    let left = wide(leaves / 2, next, name);
    Term::Pair(Box::new(left), Box::new(wide(leaves - leaves / 2, next, name)))
}
