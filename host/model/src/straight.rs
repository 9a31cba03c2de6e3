//! Straight terms (demand 3): no case, fst, snd, discard or copy; each name at a binder stands at that one place only and is used as a
//! variable exactly once, inside what it covers.

use crate::form::parts;
use crate::limits::Limits;
use crate::read;
use crate::refusal::Refusal;
use lolli_core::Term;
use std::collections::HashMap;

#[derive(Default)]
struct Uses {
    /// at a binder
    bound: usize,
    /// as a variable, wherever it is
    used: usize,
    /// as a variable that this binder covers
    covered: usize,
}

fn count<'a>(term: &'a Term, around: &mut Vec<&'a str>, uses: &mut HashMap<&'a str, Uses>) -> bool {
    match term {
        Term::Case(..) | Term::Fst(_) | Term::Snd(_) | Term::Discard(..) | Term::Copy(..) => false,
        Term::Var(x) => {
            let covered = around.contains(&x.as_str()) as usize;
            let found = uses.entry(x).or_default();
            found.used += 1;
            found.covered += covered;
            true
        }
        Term::Abs(x, body) => {
            uses.entry(x).or_default().bound += 1;
            around.push(x);
            let fine = count(body, around, uses);
            around.pop();
            fine
        }
        Term::LetPair(x, y, pair, body) => {
            uses.entry(x).or_default().bound += 1;
            uses.entry(y).or_default().bound += 1;
            let fine = count(pair, around, uses);
            around.extend([x.as_str(), y.as_str()]);
            let also = count(body, around, uses);
            around.truncate(around.len() - 2);
            fine && also
        }
        _ => parts(term).into_iter().all(|part| count(part, around, uses)),
    }
}

pub fn straight(term: &Term) -> bool {
    let mut uses = HashMap::new();
    count(term, &mut Vec::new(), &mut uses)
        && uses.values().all(|name| name.bound == 0 || (name.bound == 1 && name.used == 1 && name.covered == 1))
}

pub fn is_straight(limits: &Limits, term: &[u8]) -> Result<bool, Refusal> {
    Ok(straight(&read::term(limits, 1, term)?))
}
