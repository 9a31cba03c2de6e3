//! Substitution in the steps of the port's call, but with the term copied part by part: each node's own bytes by themselves, as the Rust clones it.

use patch_model::names::{bad_byte, Spelling};
use patch_model::Limits;

/// How long the new term is, and how many pieces were copied to make it.
pub struct Written {
    pub length: usize,
    pub pieces: usize,
}

/// The term with the value for the name, if all three are legal and it fits, and zeros behind it and in the scratch. As the call promises, nothing
/// is written before it is known to fit: a first walk counts, a second one copies.
pub fn substitute_to(term: &[u8], name: &[u8], value: &[u8], out: &mut [u8], scratch: &mut [u8]) -> Option<Written> {
    let nodes = patch::check_term(term).ok()? as usize;
    is_name(name).then_some(())?;
    let added = patch::check_term(value).ok()? as usize;
    scratch.fill(0);
    let mut counting = Walk::new(name, value, &mut []);
    counting.part::<COUNTS>(term, false);
    let new_nodes = nodes - counting.values + counting.values * added;
    (new_nodes <= Limits::BASE.nodes && counting.length <= Limits::BASE.bytes).then_some(())?;
    let mut copying = Walk::new(name, value, out);
    copying.part::<COPIES>(term, false);
    let (length, pieces) = (copying.length, copying.pieces);
    out[length..].fill(0);
    Some(Written { length, pieces })
}

fn is_name(name: &[u8]) -> bool {
    (1..=Spelling::Name.most()).contains(&name.len()) && bad_byte(name).is_none() && !Spelling::Name.is_word(name)
}

const COUNTS: bool = false;
const COPIES: bool = true;

/// What is put in for which name, and what came of it so far.
struct Walk<'a> {
    name: &'a [u8],
    value: &'a [u8],
    out: &'a mut [u8],
    length: usize,
    pieces: usize,
    values: usize,
}

impl<'a> Walk<'a> {
    fn new(name: &'a [u8], value: &'a [u8], out: &'a mut [u8]) -> Walk<'a> {
        Walk { name, value, out, length: 0, pieces: 0, values: 0 }
    }

    /// Goes over the term that the bytes begin with, and answers the bytes behind it. A binder of the name may cover it.
    fn part<'t, const COPY: bool>(&mut self, bytes: &'t [u8], covered: bool) -> &'t [u8] {
        match bytes[0] {
            1 => self.variable::<COPY>(bytes, covered),
            2 | 10 => self.own::<COPY>(bytes, 1),
            3 | 6 | 16 => {
                let parts = self.own::<COPY>(bytes, 1);
                let second = self.part::<COPY>(parts, covered);
                self.part::<COPY>(second, covered)
            }
            4 | 17 => {
                let (x, y, parts) = self.two_names::<COPY>(bytes);
                let body = self.part::<COPY>(parts, covered);
                self.part::<COPY>(body, covered | x | y)
            }
            5 => {
                let (x, end) = self.named(bytes, 1);
                let body = self.own::<COPY>(bytes, end);
                self.part::<COPY>(body, covered | x)
            }
            9 => {
                let (x, y, parts) = self.two_names::<COPY>(bytes);
                let left = self.part::<COPY>(parts, covered);
                let right = self.part::<COPY>(left, covered | x);
                self.part::<COPY>(right, covered | y)
            }
            _ => {
                let part = self.own::<COPY>(bytes, 1);
                self.part::<COPY>(part, covered)
            }
        }
    }

    #[inline]
    fn variable<'t, const COPY: bool>(&mut self, bytes: &'t [u8], covered: bool) -> &'t [u8] {
        let (x, end) = self.named(bytes, 1);
        let (own, rest) = bytes.split_at(end);
        let is = x & !covered;
        self.values += is as usize;
        self.piece::<COPY>(if is { self.value } else { own });
        rest
    }

    /// The own bytes of a node with two names: whether each is the sought one, and the bytes of the parts.
    #[inline]
    fn two_names<'t, const COPY: bool>(&mut self, bytes: &'t [u8]) -> (bool, bool, &'t [u8]) {
        let (x, second) = self.named(bytes, 1);
        let (y, end) = self.named(bytes, second);
        (x, y, self.own::<COPY>(bytes, end))
    }

    /// Whether the name at `at` is the sought one, and where it ends.
    #[inline]
    fn named(&self, bytes: &[u8], at: usize) -> (bool, usize) {
        let end = at + 1 + bytes[at] as usize;
        (&bytes[at + 1..end] == self.name, end)
    }

    /// A node's own bytes, up to `end`.
    #[inline]
    fn own<'t, const COPY: bool>(&mut self, bytes: &'t [u8], end: usize) -> &'t [u8] {
        let (own, parts) = bytes.split_at(end);
        self.piece::<COPY>(own);
        parts
    }

    #[inline]
    fn piece<const COPY: bool>(&mut self, piece: &[u8]) {
        let end = self.length + piece.len();
        if COPY {
            self.out[self.length..end].copy_from_slice(piece);
        }
        self.length = end;
        self.pieces += 1;
    }
}
