//! The order of two feeds (request (viii)), seen from outside: a for x and b for y in a template, by two calls, in both orders; and a
//! substitution for a name that is not free.

use crate::case::{Call, Case, Seen};
use crate::run::random;
use lolli_core::Term;
use patch_generate::damage::damage;
use patch_generate::feeds::{self, Feeds};
use patch_generate::{inputs, names, terms, Rng};
use patch_harness::{each, hold, many, Verdict};
use patch_model::form::{parts, term_bytes};
use patch_model::free::occurrences;
use patch_model::names::Spelling;
use patch_model::{read, Limits};
use std::sync::Mutex;

const L: Limits = Limits::BASE;
const SEED: u64 = 0x6665_6564_7300;
const NAMES: [&str; 3] = ["x", "y", "z"];
const BAD_NAMES: [&[u8]; 5] = [b"", b"9", b"x-", b"in", &[b'x'; Spelling::Name.most() + 1]];

pub fn all() -> Verdict {
    Ok(every_small()?
        + counted("two feeds in random templates", 100_000, |index| feeds::random(&mut Rng::new(SEED, index), L.nodes))?
        + random("Substitute for a name that is not free", 100_000, |index| not_free(&mut Rng::new(SEED + 1, index)))?
        + many("it gives the term's own bytes, and is never refused by 8", 100_000, SEED + 1, |rng| given_back(&not_free(rng)))?)
}

/// Every two values of one node, for two names and for one.
fn every_small() -> Verdict {
    let templates: Vec<Term> = (1..=3).flat_map(|nodes| terms::all(nodes, &NAMES)).collect();
    let values = terms::all(1, &NAMES);
    let count = templates.len() * values.len() * values.len() * 2;
    counted("two feeds in every template to 3 nodes over three names", count as u64, |index| {
        let (y, index) = (NAMES[index as usize % 2], index as usize / 2);
        let (b, index) = (values[index % values.len()].clone(), index / values.len());
        let (a, index) = (values[index % values.len()].clone(), index / values.len());
        Feeds { template: templates[index].clone(), x: "x".into(), a, y: y.into(), b }
    })
}

/// Which of the three conditions fails.
#[derive(Clone, Copy, PartialEq, Eq)]
enum Lacks {
    Nothing,
    TwoNames,
    XNotFreeInB,
    YNotFreeInA,
    Several,
}

impl Lacks {
    const ALL: [Lacks; 5] = [Lacks::Nothing, Lacks::TwoNames, Lacks::XNotFreeInB, Lacks::YNotFreeInA, Lacks::Several];

    fn in_words(self) -> &'static str {
        match self {
            Lacks::Nothing => "all three conditions hold",
            Lacks::TwoNames => "x and y are one name",
            Lacks::XNotFreeInB => "x is free in b",
            Lacks::YNotFreeInA => "y is free in a",
            Lacks::Several => "two or three fail",
        }
    }
}

fn lacks(feeds: &Feeds) -> Lacks {
    let x_in_b = occurrences(&feeds.b).contains_key(feeds.x.as_str());
    let y_in_a = occurrences(&feeds.a).contains_key(feeds.y.as_str());
    match (feeds.x == feeds.y, x_in_b, y_in_a) {
        (false, false, false) => Lacks::Nothing,
        (true, false, false) => Lacks::TwoNames,
        (false, true, false) => Lacks::XNotFreeInB,
        (false, false, true) => Lacks::YNotFreeInA,
        _ => Lacks::Several,
    }
}

/// What came of the two orders.
#[derive(Clone, Copy, PartialEq, Eq)]
enum Came {
    Equal,
    Different,
    RefusedInBoth,
    RefusedInOne,
}

/// How many triples there were, and what came of them.
#[derive(Default)]
struct Row {
    triples: u64,
    came: [u64; 4],
    /// a binder of the template caught a name of a or b
    caught: u64,
    /// a binder of the template hid an x or y
    hidden: u64,
}

/// Holds every triple to the law, and tells how many there were that it is about; where a condition fails, some must differ.
fn counted(label: &str, count: u64, make: impl Fn(u64) -> Feeds + Sync) -> Verdict {
    let rows = Mutex::new(Lacks::ALL.map(|_| Row::default()));
    let outcome = each(count, &|index| {
        let feeds = make(index);
        let (lacks, came) = (lacks(&feeds), both_orders(&feeds));
        hold(lacks != Lacks::Nothing || came != Came::Different, "the two orders differ")?;
        let Feeds { template, x, a, y, b } = &feeds;
        let caught = catches(template, x, a) || catches(template, y, b);
        let hidden = hides(template, x) || hides(template, y);
        let row = &mut rows.lock().unwrap()[lacks as usize];
        row.triples += 1;
        row.came[came as usize] += 1;
        row.caught += caught as u64;
        row.hidden += hidden as u64;
        Ok(())
    });
    outcome.map_err(|(index, said)| format!("{label}, case {index} of {count}: {said}\n{}", in_words(&make(index))))?;
    println!("  {label}: {count} cases");
    let rows = rows.into_inner().unwrap();
    for (lacks, row) in Lacks::ALL.into_iter().zip(&rows) {
        let Row { triples, came: [equal, different, both, one], caught, hidden } = *row;
        let words = lacks.in_words();
        println!(
            "    {words}: {triples}: {equal} equal, {different} different, {both} refused in both orders, {one} in one; \
             a name is caught in {caught}, hidden in {hidden}"
        );
        match lacks {
            Lacks::Nothing => hold(caught > 0 && hidden > 0, "nothing is caught, or nothing hidden")?,
            _ => hold(different > 0, &format!("none is different where {words}"))?,
        }
    }
    Ok(rows[Lacks::Nothing as usize].triples)
}

fn in_words(feeds: &Feeds) -> String {
    let Feeds { template, x, a, y, b } = feeds;
    format!("  {} for {x} and {} for {y} in {}", a.pretty(), b.pretty(), template.pretty())
}

fn put(template: &[u8], name: &str, value: &Term) -> Seen {
    Case::new(Call::Substitute, vec![template.to_vec(), name.into(), term_bytes(value)]).port()
}

/// The term that a call left, unless it was refused.
fn left(seen: &Seen) -> Option<&[u8]> {
    (seen.number() == 0).then(|| &seen.output()[..seen.values()[0] as usize])
}

fn both_orders(feeds: &Feeds) -> Came {
    let Feeds { template, x, a, y, b } = feeds;
    let template = term_bytes(template);
    let then_y = left(&put(&template, x, a)).map(|half| put(half, y, b));
    let then_x = left(&put(&template, y, b)).map(|half| put(half, x, a));
    match (&then_y, &then_x) {
        // where neither first call is refused, the second ones are compared whole, refused or not
        (Some(one), Some(other)) if one != other => Came::Different,
        (Some(one), Some(_)) if one.number() == 0 => Came::Equal,
        (Some(last), None) | (None, Some(last)) if last.number() == 0 => Came::RefusedInOne,
        _ => Came::RefusedInBoth,
    }
}

/// How often a name is free.
fn free(term: &Term, name: &str) -> usize {
    occurrences(term).get(name).copied().unwrap_or(0)
}

/// Whether a name of the value, put in for x, is free less often than it went in.
fn catches(template: &Term, x: &str, value: &Term) -> bool {
    let put_in = template.substitute(x, value);
    occurrences(value).into_iter().any(|(name, n)| {
        let others = if name == x { 0 } else { free(template, name) };
        free(&put_in, name) < others + free(template, x) * n
    })
}

/// Whether some x of the template is bound there.
fn hides(template: &Term, x: &str) -> bool {
    fn variables(term: &Term, name: &str) -> usize {
        match term {
            Term::Var(n) => (n == name) as usize,
            _ => parts(term).into_iter().map(|part| variables(part, name)).sum(),
        }
    }
    variables(template, x) > free(template, x)
}

/// A name that is not free in a term of any size, and any value; now and then a bad name or value, and a short buffer.
fn not_free(rng: &mut Rng) -> Case {
    let term = inputs::term(rng);
    let taken: Vec<String> = read::term(&L, 1, &term).map_or(vec![], |term| occurrences(&term).into_keys().map(String::from).collect());
    let mut name = names::pool(rng, Spelling::Name).remove(0);
    while taken.contains(&name) {
        name = names::of_length(rng, Spelling::Name.most());
    }
    let mut given = vec![term, name.into_bytes(), inputs::term(rng)];
    match rng.below(16) {
        0 => given[1] = rng.pick(&BAD_NAMES).to_vec(),
        1 => damage(rng, &mut given[2]),
        _ => {}
    }
    Case::new(Call::Substitute, given).lent_by(rng)
}

fn given_back(case: &Case) -> Result<(), String> {
    let seen = case.port();
    let Some(output) = left(&seen) else { return hold(seen.number() != 8, "refused by 8") };
    hold(output == case.inputs[0], "not the term's own bytes")?;
    hold(seen.output()[output.len()..].iter().all(|byte| *byte == 0), "no zeros behind them")
}
