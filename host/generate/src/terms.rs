//! Terms: all small ones, random ones rich in redexes, few names and shadowing; straight ones; those at a limit.

use crate::names;
use crate::rng::Rng;
use lolli_core::Term;
use patch_model::names::Spelling;

type One = fn(Box<Term>) -> Term;
type Two = fn(Box<Term>, Box<Term>) -> Term;

const ONES: [One; 7] = [Term::Inl, Term::Inr, Term::Fst, Term::Snd, Term::Abort, Term::Promote, Term::Derelict];
const TWOS: [Two; 3] = [Term::Pair, Term::App, Term::Discard];

/// Every term of exactly so many nodes over these names.
pub fn all(nodes: usize, names: &[&str]) -> Vec<Term> {
    if nodes == 1 {
        let variables = names.iter().map(|x| Term::Var(x.to_string()));
        return variables.chain([Term::Unit, Term::Trivial]).collect();
    }
    let mut made = Vec::new();
    for e in all(nodes - 1, names) {
        made.extend(ONES.iter().map(|make| make(Box::new(e.clone()))));
        made.extend(names.iter().map(|x| Term::Abs(x.to_string(), Box::new(e.clone()))));
    }
    for left in 1..nodes.saturating_sub(1) {
        let rights = all(nodes - 1 - left, names);
        for a in all(left, names) {
            for b in &rights {
                made.extend(TWOS.iter().map(|make| make(Box::new(a.clone()), Box::new(b.clone()))));
                for x in names {
                    for y in names {
                        made.push(Term::LetPair(x.to_string(), y.to_string(), Box::new(a.clone()), Box::new(b.clone())));
                        made.push(Term::Copy(Box::new(a.clone()), x.to_string(), y.to_string(), Box::new(b.clone())));
                    }
                }
            }
        }
    }
    for (scrut, left, right) in three_parts(nodes - 1) {
        for s in all(scrut, names) {
            for l in all(left, names) {
                for r in all(right, names) {
                    for x in names {
                        for y in names {
                            let (s, l, r) = (Box::new(s.clone()), Box::new(l.clone()), Box::new(r.clone()));
                            made.push(Term::Case(s, x.to_string(), l, y.to_string(), r));
                        }
                    }
                }
            }
        }
    }
    made
}

fn three_parts(total: usize) -> Vec<(usize, usize, usize)> {
    let mut cuts = Vec::new();
    for a in 1..total {
        for b in 1..total.saturating_sub(a) {
            cuts.push((a, b, total - a - b));
        }
    }
    cuts
}

/// How a random term is made: its names, and one redex in so many nodes.
pub struct Style {
    pub pool: Vec<String>,
    pub redexes: usize,
}

impl Style {
    pub fn random(rng: &mut Rng) -> Style {
        let pool = names::pool(rng, Spelling::Name);
        let redexes = *rng.pick(&[1, 2, 3, 8]);
        Style { pool, redexes }
    }

    fn name(&self, rng: &mut Rng) -> String {
        rng.pick(&self.pool).clone()
    }

    fn part(&self, rng: &mut Rng, nodes: usize) -> Box<Term> {
        Box::new(self.of_nodes(rng, nodes))
    }

    fn leaf(&self, rng: &mut Rng) -> Term {
        match rng.below(8) {
            0 => Term::Unit,
            1 => Term::Trivial,
            _ => Term::Var(self.name(rng)),
        }
    }

    /// A term of exactly so many nodes.
    pub fn of_nodes(&self, rng: &mut Rng, nodes: usize) -> Term {
        if nodes >= 3 && rng.one_in(self.redexes) {
            return self.redex(rng, nodes);
        }
        match nodes {
            1 => self.leaf(rng),
            2 => self.one(rng, nodes),
            3 => match rng.below(2) {
                0 => self.one(rng, nodes),
                _ => self.two(rng, nodes),
            },
            _ => match rng.below(5) {
                0 | 1 => self.one(rng, nodes),
                2 | 3 => self.two(rng, nodes),
                _ => self.case(rng, nodes),
            },
        }
    }

    fn one(&self, rng: &mut Rng, nodes: usize) -> Term {
        let make = *rng.pick(&ONES);
        if rng.one_in(2) {
            let x = self.name(rng);
            return Term::Abs(x, self.part(rng, nodes - 1));
        }
        make(self.part(rng, nodes - 1))
    }

    fn two(&self, rng: &mut Rng, nodes: usize) -> Term {
        let (a, b) = rng.split(nodes - 1);
        let (x, y) = (self.name(rng), self.name(rng));
        let (left, right) = (self.part(rng, a), self.part(rng, b));
        match rng.below(8) {
            0 => Term::LetPair(x, y, left, right),
            1 => Term::Copy(left, x, y, right),
            2 => Term::Discard(left, right),
            3 | 4 => Term::Pair(left, right),
            _ => Term::App(left, right),
        }
    }

    fn case(&self, rng: &mut Rng, nodes: usize) -> Term {
        let (a, rest) = rng.split(nodes - 2);
        let (b, c) = rng.split(rest + 1);
        let (x, y) = (self.name(rng), self.name(rng));
        Term::Case(self.part(rng, a), x, self.part(rng, b), y, self.part(rng, c))
    }

    /// A node that a step contracts, if nothing before it is.
    fn redex(&self, rng: &mut Rng, nodes: usize) -> Term {
        let (x, y) = (self.name(rng), self.name(rng));
        let few = nodes - 2;
        if few == 1 || rng.one_in(8) {
            return Term::Derelict(Box::new(Term::Promote(self.part(rng, few))));
        }
        let (a, b) = rng.split(few);
        if few == 2 || rng.below(8) < 5 {
            return match rng.below(8) {
                0 => Term::Fst(Box::new(Term::Pair(self.part(rng, a), self.part(rng, b)))),
                1 => Term::Snd(Box::new(Term::Pair(self.part(rng, a), self.part(rng, b)))),
                2 => Term::Discard(Box::new(Term::Promote(self.part(rng, a))), self.part(rng, b)),
                3 | 4 => Term::Copy(Box::new(Term::Promote(self.part(rng, a))), x, y, self.part(rng, b)),
                _ => Term::App(Box::new(Term::Abs(x, self.part(rng, a))), self.part(rng, b)),
            };
        }
        let (c, d) = rng.split(few - 1);
        let (d, e) = rng.split(d + 1);
        match rng.below(4) {
            0 => Term::Case(Box::new(Term::Inl(self.part(rng, c))), x, self.part(rng, d), y, self.part(rng, e)),
            1 => Term::Case(Box::new(Term::Inr(self.part(rng, c))), x, self.part(rng, d), y, self.part(rng, e)),
            _ => Term::LetPair(x, y, Box::new(Term::Pair(self.part(rng, c), self.part(rng, d))), self.part(rng, e)),
        }
    }
}

pub fn random(rng: &mut Rng, most_nodes: usize) -> Term {
    let style = Style::random(rng);
    let nodes = rng.size(most_nodes);
    style.of_nodes(rng, nodes)
}

/// A term of exactly so many bytes and at most so many nodes, all its leaves variables; 200 bytes or more.
pub fn of_bytes(rng: &mut Rng, bytes: usize, most_nodes: usize) -> Term {
    let lengths = names::lengths(rng, Spelling::Name, bytes, most_nodes);
    over(rng, &lengths)
}

fn over(rng: &mut Rng, lengths: &[usize]) -> Term {
    if let [length] = lengths {
        return Term::Var(names::of_length(rng, *length));
    }
    let make = *rng.pick(&TWOS);
    let (first, _) = rng.split(lengths.len());
    let left = over(rng, &lengths[..first]);
    make(Box::new(left), Box::new(over(rng, &lengths[first..])))
}

/// A step that comes close to a limit on either side: what is put in goes to so many places that the outcome has about as many nodes or bytes as allowed.
pub fn near_limit(rng: &mut Rng, nodes: usize, bytes: usize) -> Term {
    let style = Style { pool: names::pool(rng, Spelling::Name), redexes: 8 };
    let (x, y) = (style.name(rng), style.name(rng));
    let places = rng.within(1, 12);
    let most = if rng.one_in(2) { nodes / (places + 1) } else { bytes / (8 * (places + 1)) };
    let size = (most + rng.below(9)).saturating_sub(4).clamp(1, nodes / 2);
    let value = style.of_nodes(rng, size);
    let mut body = style.leaf(rng);
    for _ in 0..places {
        let var = Term::Var(if rng.one_in(3) { y.clone() } else { x.clone() });
        body = match rng.below(3) {
            0 => Term::Pair(Box::new(body), Box::new(var)),
            1 => Term::App(Box::new(var), Box::new(body)),
            _ => Term::Inl(Box::new(Term::Pair(Box::new(var), Box::new(body)))),
        };
    }
    let (value, body) = (Box::new(value), Box::new(body));
    let made = match rng.below(4) {
        0 => Term::App(Box::new(Term::Abs(x, body)), value),
        1 => Term::LetPair(x, y, Box::new(Term::Pair(value.clone(), value)), body),
        2 => Term::Copy(Box::new(Term::Promote(value)), x, y, body),
        _ => Term::Case(Box::new(Term::Inr(value)), x, Box::new(Term::Unit), y, body),
    };
    match rng.below(3) {
        0 => Term::Abs("w".into(), Box::new(made)),
        1 => Term::Pair(Box::new(style.of_nodes(rng, 3)), Box::new(made)),
        _ => made,
    }
}

/// A LetPair or Copy whose body is largest half-way: the second name is long, and what goes in for it is short. Sizes lie on both sides of 4,096 bytes.
pub fn half_way(rng: &mut Rng) -> Term {
    let (x, long) = (names::of_length(rng, 1), names::of_length(rng, Spelling::Name.most()));
    let row = |rng: &mut Rng, firsts: usize, seconds: usize| {
        let mut left = [firsts, seconds];
        let mut row = Term::Unit;
        while left != [0, 0] {
            let pick = if left[0] == 0 || (left[1] > 0 && rng.one_in(2)) { 1 } else { 0 };
            left[pick] -= 1;
            let var = Term::Var(if pick == 0 { x.clone() } else { long.clone() });
            row = Term::Pair(Box::new(var), Box::new(row));
        }
        row
    };
    if rng.one_in(2) {
        let (places, within) = (rng.within(9, 15), rng.within(9, 15));
        let (value, body) = (row(rng, 0, within), row(rng, places, 0));
        Term::LetPair(x.clone(), long.clone(), Box::new(Term::Pair(Box::new(value), Box::new(Term::Unit))), Box::new(body))
    } else {
        let (firsts, seconds) = (rng.within(45, 65), rng.within(100, 112));
        let length = rng.within(16, 19);
        let value = Term::Promote(Box::new(Term::Var(names::of_length(rng, length))));
        Term::Copy(Box::new(value), x.clone(), long.clone(), Box::new(row(rng, firsts, seconds)))
    }
}

/// A straight term of about so many nodes: every bound name is new, and used once inside what it covers.
pub fn straight(rng: &mut Rng, nodes: usize) -> Term {
    let mut made = 0;
    linear(rng, Vec::new(), nodes, &mut made)
}

fn fresh(made: &mut usize) -> String {
    *made += 1;
    format!("v{made}")
}

/// Variables in a row, or a leaf if there are none.
fn row_of(rng: &mut Rng, uses: Vec<String>) -> Term {
    let mut left = uses.into_iter().map(Term::Var);
    let Some(first) = left.next() else {
        return match rng.below(4) {
            0 => Term::Unit,
            1 => Term::Trivial,
            _ => Term::Var(rng.pick(&["f", "g", "h"]).to_string()),
        };
    };
    left.fold(first, |a, b| if rng.one_in(2) { Term::Pair(Box::new(a), Box::new(b)) } else { Term::App(Box::new(b), Box::new(a)) })
}

/// A straight term that uses each of these names once.
fn linear(rng: &mut Rng, uses: Vec<String>, nodes: usize, made: &mut usize) -> Term {
    let boxed = |rng: &mut Rng, uses, nodes, made: &mut usize| Box::new(linear(rng, uses, nodes, made));
    if nodes <= 2 || nodes <= uses.len() {
        return row_of(rng, uses);
    }
    let (mut ours, mut theirs) = (Vec::new(), Vec::new());
    let (a, b) = rng.split(nodes);
    let choice = rng.below(10);
    if choice < 6 {
        for name in &uses {
            if rng.one_in(2) { &mut ours } else { &mut theirs }.push(name.clone());
        }
    }
    match choice {
        0 => Term::Pair(boxed(rng, ours, a, made), boxed(rng, theirs, b, made)),
        1 => Term::App(boxed(rng, ours, a, made), boxed(rng, theirs, b, made)),
        2 | 3 => {
            let x = fresh(made);
            ours.push(x.clone());
            Term::App(Box::new(Term::Abs(x, boxed(rng, ours, a, made))), boxed(rng, theirs, b, made))
        }
        4 | 5 => {
            let (x, y) = (fresh(made), fresh(made));
            let pair = if choice == 4 {
                let half = theirs.split_off(theirs.len() / 2);
                Box::new(Term::Pair(boxed(rng, theirs, b / 2, made), boxed(rng, half, b / 2, made)))
            } else {
                boxed(rng, theirs, b, made)
            };
            ours.extend([x.clone(), y.clone()]);
            Term::LetPair(x, y, pair, boxed(rng, ours, a, made))
        }
        6 => {
            let x = fresh(made);
            let mut inner = uses;
            inner.push(x.clone());
            Term::Abs(x, boxed(rng, inner, nodes - 1, made))
        }
        7 => Term::Derelict(Box::new(Term::Promote(boxed(rng, uses, nodes - 2, made)))),
        _ => {
            let make = *rng.pick(&[Term::Inl as One, Term::Inr, Term::Abort, Term::Promote, Term::Derelict]);
            make(boxed(rng, uses, nodes - 1, made))
        }
    }
}
