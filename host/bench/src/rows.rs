//! What is compared: for each row the port, and beside it the ported Rust, a plain loop or a copy by parts, over the same inputs.

use crate::calls::{self, kept, Call};
use crate::{families, proofs, reducible, sought};
use lolli_core::{Formula, Proof, Term};
use patch_generate::{formulas, terms, Rng};
use patch_model::form::{formula_bytes, term_bytes};
use patch_model::stored::blocks;
use std::cell::RefCell;
use std::collections::BTreeSet;
use std::hint::black_box;
use std::rc::Rc;

/// A row before its inputs are made.
pub struct Row {
    pub name: String,
    pub nodes: usize,
    pub beside: &'static str,
    symbol: &'static str,
    make: Box<dyn FnOnce() -> Sides>,
}

/// Both sides of a row, over all its inputs.
pub struct Sides {
    /// of all inputs together
    pub bytes: usize,
    pub inputs: usize,
    pub other: Box<dyn Fn()>,
    pub port: Box<dyn Fn()>,
}

impl Row {
    fn new<T: 'static>(
        name: impl Into<String>,
        nodes: usize,
        call: Call,
        inputs: impl FnOnce() -> Vec<(T, Vec<u8>)> + 'static,
        beside: &'static str,
        other: impl Fn(&T, &[u8]) + 'static,
    ) -> Row {
        let symbol = call.symbol;
        let make = move || {
            let theirs = Rc::new(inputs());
            let ours = theirs.clone();
            let lent = RefCell::new(call.lent());
            Sides {
                bytes: ours.iter().map(|(_, bytes)| bytes.len()).sum(),
                inputs: ours.len(),
                other: Box::new(move || theirs.iter().for_each(|(value, bytes)| other(black_box(value), black_box(bytes)))),
                port: Box::new(move || ours.iter().for_each(|(_, bytes)| (call.run)(black_box(bytes), &mut lent.borrow_mut()))),
            }
        };
        Row { name: name.into(), nodes, beside, symbol, make: Box::new(make) }
    }

    /// Beside a loop over the bytes, for a call that the Rust has not.
    fn by_bytes<T: 'static>(name: &str, nodes: usize, call: Call, inputs: impl FnOnce() -> Vec<(T, Vec<u8>)> + 'static) -> Row {
        Row::new(name, nodes, call, inputs, "byte loop", |_, bytes| kept(byte_loop(bytes)))
    }

    pub fn sides(self) -> Sides {
        (self.make)()
    }
}

/// The rows that have the word in their name.
pub fn rows(word: &str) -> Vec<Row> {
    let mut rows: Vec<Row> =
        [any_input(), of_families(), of_sought(), of_reducibles(), of_proofs(), stored(), fixed()].into_iter().flatten().collect();
    let header = include_str!("../../../include/patch.h");
    let declared = header.lines().filter_map(|line| Some(line.strip_prefix("void ")?.split_once('(')?.0)).collect::<BTreeSet<&str>>();
    assert_eq!(declared, rows.iter().map(|row| row.symbol).collect(), "each public call has a row");
    rows.retain(|row| row.name.contains(word));
    rows
}

/// Calls on random formulas and terms.
fn any_input() -> Vec<Row> {
    let mut rows = Vec::new();
    for nodes in [1, 10, 100, 1024] {
        let inputs = move || some_formulas(nodes);
        rows.push(Row::new("text of formulas", nodes, calls::FORMULA_TEXT, inputs, "Rust", |f: &Formula, _| kept(f.pretty())));
    }
    for nodes in [10, 100, 1024] {
        rows.push(Row::by_bytes("check of formulas", nodes, calls::CHECK_FORMULA, move || some_formulas(nodes)));
    }
    for nodes in [10, 100, 512] {
        rows.push(Row::by_bytes("check of terms", nodes, calls::CHECK_TERM, move || some_terms(nodes)));
    }
    for nodes in [10, 100, 512] {
        rows.push(Row::new("free names", nodes, calls::FREE_NAMES, move || some_terms(nodes), "Rust", |t: &Term, _| kept(t.free_vars())));
    }
    for nodes in [10, 100, 400] {
        let value = Term::Fst(Box::new(Term::Var("y".into())));
        let put = move |term: &Term, _: &[u8]| kept(term.substitute("x", &value));
        rows.push(Row::new("substitution", nodes, calls::SUBSTITUTION, move || some_terms(nodes), "Rust", put));
    }
    rows
}

/// Calls on terms that take no step.
fn of_families() -> Vec<Row> {
    let mut rows = Vec::new();
    for family in families::NAMES {
        for nodes in [10, 100, 512] {
            let input = move || families::input(family, nodes);
            let named = |call: &str| format!("{call}, {family}");
            let unit_put_in = |t: &Term, _: &[u8]| kept(t.substitute("x", &Term::Unit));
            rows.extend([
                Row::by_bytes(&named("check"), nodes, calls::CHECK_TERM, input),
                Row::new(named("free names"), nodes, calls::FREE_NAMES, input, "Rust", |t: &Term, _| kept(t.free_vars())),
                Row::new(named("substitution"), nodes, calls::UNIT_PUT_IN, input, "Rust", unit_put_in),
                Row::new(named("text"), nodes, calls::TERM_TEXT, input, "Rust", |t: &Term, _| kept(t.pretty())),
            ]);
        }
    }
    for nodes in [10, 100, 512] {
        let wide = move || families::input("wide", nodes);
        rows.push(Row::new("is normal, wide", nodes, calls::IS_NORMAL, wide, "Rust", |t: &Term, _| kept(lolli_extract::is_normal(t))));
        rows.push(Row::by_bytes("child, wide", nodes, calls::CHILD, wide));
    }
    rows
}

/// Substitution in terms of the greatest size, beside the Rust and beside the same work with the term copied part by part.
fn of_sought() -> Vec<Row> {
    let mut rows = Vec::new();
    for often in sought::OFTEN {
        let input = move || sought::input(often);
        let value = sought::value();
        let put = move |t: &Term, _: &[u8]| kept(t.substitute(sought::NAME, &value));
        let lent = RefCell::new(calls::VARIABLE_PUT_IN.lent());
        let by_parts = move |_: &Term, term: &[u8]| kept(sought::put_in_by_parts(term, &mut lent.borrow_mut()));
        let named = |call: &str| format!("{call}, {often}");
        rows.extend([
            Row::new(named("substitution"), sought::NODES, calls::VARIABLE_PUT_IN, input, "Rust", put),
            Row::new(named("substitution by parts"), sought::NODES, calls::VARIABLE_PUT_IN, input, "parts", by_parts),
        ]);
    }
    rows
}

/// One step, and the whole reduction.
fn of_reducibles() -> Vec<Row> {
    let mut rows = Vec::new();
    for family in reducible::NAMES {
        for nodes in [10, 50, 100, 500] {
            let inputs = move || reducible::inputs(family, nodes);
            let reduce = |t: &Term, _: &[u8]| kept(lolli_extract::normalize_bounded(t, reducible::STEPS as usize));
            rows.extend([
                Row::new(format!("step, {family}"), nodes, calls::STEP, inputs, "Rust", |t: &Term, _| kept(lolli_extract::step(t))),
                Row::new(format!("reduction, {family}"), nodes, calls::REDUCTION, inputs, "Rust", reduce),
            ]);
        }
    }
    for nodes in [10, 100, 500] {
        rows.push(Row::by_bytes("is straight", nodes, calls::IS_STRAIGHT, move || reducible::inputs("straight", nodes)));
    }
    rows
}

fn of_proofs() -> Vec<Row> {
    let mut rows = Vec::new();
    for family in proofs::NAMES {
        for rules in [10, 100, 500] {
            let inputs = move || proofs::inputs(family, rules);
            let extract = |p: &Proof, _: &[u8]| kept(lolli_extract::Extractor::new().extract(p));
            rows.push(Row::new(format!("extraction, {family}"), rules, calls::EXTRACTION, inputs, "Rust", extract));
        }
    }
    for rules in [10, 100, 500] {
        rows.push(Row::by_bytes("check of proofs", rules, calls::CHECK_PROOF, move || proofs::inputs("random", rules)));
    }
    rows
}

fn stored() -> Vec<Row> {
    let mut rows = Vec::new();
    for nodes in [10, 100, 512] {
        rows.push(Row::by_bytes("store, terms", nodes, calls::STORE_TERM, move || some_terms(nodes)));
        rows.push(Row::by_bytes("load, terms", nodes, calls::LOAD_TERM, move || files(1, some_terms(nodes))));
    }
    for rules in [10, 100, 500] {
        rows.push(Row::by_bytes("store, proofs", rules, calls::STORE_PROOF, move || proofs::inputs("random", rules)));
        rows.push(Row::by_bytes("load, proofs", rules, calls::LOAD_PROOF, move || files(2, proofs::inputs("random", rules))));
    }
    rows
}

/// The smallest input of each call, beside the zeros that the rules ask for: behind the answer, and in the scratch.
fn fixed() -> Vec<Row> {
    let step = [15, 14, 2];
    let smallest: [(&str, Call, Vec<u8>, usize); 12] = [
        ("check", calls::CHECK_TERM, vec![2], 0),
        ("is normal", calls::IS_NORMAL, vec![2], 0),
        ("text of formulas", calls::FORMULA_TEXT, vec![5], 1),
        ("text of terms", calls::TERM_TEXT, vec![2], 2),
        ("free names", calls::FREE_NAMES, vec![2], 0),
        ("substitution", calls::UNIT_PUT_IN, vec![2], 1),
        ("step, none found", calls::STEP, vec![2], patch::OUTPUT_ROOM),
        ("step", calls::STEP, step.to_vec(), 1),
        ("reduction", calls::REDUCTION, vec![2], 1),
        ("extraction", calls::EXTRACTION, vec![3, 0, 0], 1),
        ("store", calls::STORE_TERM, vec![2], 512),
        ("load", calls::LOAD_TERM, blocks(1, &[2]), 1),
    ];
    let row = |(name, call, input, answer): (&str, Call, Vec<u8>, usize)| {
        let lent = RefCell::new(call.lent());
        let zeros = move |_: &(), _: &[u8]| {
            let lent = &mut *lent.borrow_mut();
            black_box(&mut lent.out[answer..]).fill(0);
            black_box(&mut lent.scratch).fill(0);
        };
        Row::new(format!("fixed, {name}"), 1, call, move || vec![((), input)], "zeros", zeros)
    };
    smallest.into_iter().map(row).collect()
}

/// The least that a reader does: each byte is looked up once.
fn byte_loop(bytes: &[u8]) -> u64 {
    static CLASSES: [u8; 256] = {
        let mut classes = [0; 256];
        let mut i = 0;
        while i < 256 {
            classes[i] = (i * 7 % 13) as u8;
            i += 1;
        }
        classes
    };
    let mut sum = 0;
    for &byte in bytes {
        sum += CLASSES[byte as usize] as u64;
    }
    sum
}

const INPUTS: u64 = 8;

fn some_formulas(nodes: usize) -> Vec<(Formula, Vec<u8>)> {
    let pool: Vec<String> = ["A", "B1", "in_left", "x"].map(String::from).to_vec();
    let make = |i| formulas::of_nodes(&mut Rng::new(0x6265_6e63, i), &pool, nodes);
    (0..INPUTS).map(make).map(|formula| (formula.clone(), formula_bytes(&formula))).collect()
}

fn some_terms(nodes: usize) -> Vec<(Term, Vec<u8>)> {
    let style = terms::Style { pool: ["a", "b1", "in_left", "x"].map(String::from).to_vec(), redexes: 4 };
    let make = |i| style.of_nodes(&mut Rng::new(0x6265_6e64, i), nodes);
    (0..INPUTS).map(make).map(|term| (term.clone(), term_bytes(&term))).collect()
}

/// The stored forms of these contents.
fn files<T>(kind: u8, contents: Vec<(T, Vec<u8>)>) -> Vec<(T, Vec<u8>)> {
    contents.into_iter().map(|(value, bytes)| (value, blocks(kind, &bytes))).collect()
}
