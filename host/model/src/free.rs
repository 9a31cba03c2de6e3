//! How often each name is free in a term: LetPair and Copy cover their body only, Case's x its left, y its right.

use crate::form::parts;
use lolli_core::Term;
use std::collections::BTreeMap;

pub fn occurrences(term: &Term) -> BTreeMap<&str, usize> {
    let mut found = BTreeMap::new();
    count(term, &mut Vec::new(), &mut found);
    found
}

fn count<'a>(term: &'a Term, around: &mut Vec<&'a str>, found: &mut BTreeMap<&'a str, usize>) {
    match term {
        Term::Var(x) if around.contains(&x.as_str()) => {}
        Term::Var(x) => *found.entry(x).or_default() += 1,
        Term::Abs(x, body) => covered(&[x], body, around, found),
        Term::LetPair(x, y, first, body) | Term::Copy(first, x, y, body) => {
            count(first, around, found);
            covered(&[x, y], body, around, found);
        }
        Term::Case(scrut, x, left, y, right) => {
            count(scrut, around, found);
            covered(&[x], left, around, found);
            covered(&[y], right, around, found);
        }
        _ => parts(term).into_iter().for_each(|part| count(part, around, found)),
    }
}

fn covered<'a>(names: &[&'a str], body: &'a Term, around: &mut Vec<&'a str>, found: &mut BTreeMap<&'a str, usize>) {
    around.extend(names);
    count(body, around, found);
    around.truncate(around.len() - names.len());
}
