//! Terms as people write them: as they are printed, but `\` may stand for the Abs sign, `<>` for Trivial, brackets may stand round any term, spaces
//! may stand between words, and a Discard names what it discards: `discard E in B`. No word is a name.

use lolli_core::Term;
use patch_model::names::Spelling;

/// What was expected, and where.
#[derive(Debug)]
pub struct Fault {
    at: usize,
    expected: &'static str,
}

impl Fault {
    /// The text, and under it a mark at the fault.
    pub fn shown_in(&self, text: &str) -> String {
        let line = text[..self.at].rfind('\n').map_or(0, |end| end + 1);
        let before = text[line..self.at].chars().count();
        let shown = text[line..].lines().next().unwrap_or("");
        format!("{shown}\n{}^ expected {}", " ".repeat(before), self.expected)
    }
}

type Parsed<T> = Result<T, Fault>;

pub fn term(text: &str) -> Parsed<Term> {
    let mut reader = Reader { text, at: 0 };
    let term = reader.term()?;
    reader.space();
    if reader.at < text.len() {
        return reader.fault("the end");
    }
    Ok(term)
}

struct Reader<'a> {
    text: &'a str,
    at: usize,
}

const ONES: [(&str, fn(Box<Term>) -> Term); 7] = [
    ("inl", Term::Inl),
    ("inr", Term::Inr),
    ("fst", Term::Fst),
    ("snd", Term::Snd),
    ("absurd", Term::Abort),
    ("!", Term::Promote),
    ("derelict", Term::Derelict),
];

impl<'a> Reader<'a> {
    fn rest(&self) -> &'a str {
        &self.text[self.at..]
    }

    fn fault<T>(&self, expected: &'static str) -> Parsed<T> {
        Err(Fault { at: self.at, expected })
    }

    fn space(&mut self) {
        self.at += self.rest().len() - self.rest().trim_start().len();
    }

    /// The letters, digits and `_` that come next.
    fn word(&self) -> &'a str {
        let rest = self.rest();
        let end = rest.find(|c: char| !c.is_ascii_alphanumeric() && c != '_').unwrap_or(rest.len());
        &rest[..end]
    }

    fn takes(&mut self, sign: &str) -> bool {
        self.space();
        let is = if sign.starts_with(char::is_alphabetic) && sign.is_ascii() { self.word() == sign } else { self.rest().starts_with(sign) };
        self.at += if is { sign.len() } else { 0 };
        is
    }

    fn expect(&mut self, sign: &'static str) -> Parsed<()> {
        if self.takes(sign) {
            Ok(())
        } else {
            self.fault(sign)
        }
    }

    /// A name; one that is too long is refused when it is stored.
    fn name(&mut self) -> Parsed<String> {
        self.space();
        let name = self.word();
        if name.is_empty() || name.starts_with(|c: char| c.is_ascii_digit()) || Spelling::Name.is_word(name.as_bytes()) {
            return self.fault("a name");
        }
        self.at += name.len();
        Ok(name.to_string())
    }

    fn boxed(&mut self) -> Parsed<Box<Term>> {
        Ok(Box::new(self.term()?))
    }

    /// `(x, y)`
    fn names(&mut self) -> Parsed<(String, String)> {
        self.expect("(")?;
        let x = self.name()?;
        self.expect(",")?;
        let y = self.name()?;
        self.expect(")")?;
        Ok((x, y))
    }

    fn term(&mut self) -> Parsed<Term> {
        for (sign, make) in ONES {
            if self.takes(sign) {
                return Ok(make(self.boxed()?));
            }
        }
        if self.takes("⟨⟩") || self.takes("<>") {
            return Ok(Term::Trivial);
        }
        if self.takes("λ") || self.takes("\\") {
            let x = self.name()?;
            self.expect(".")?;
            return Ok(Term::Abs(x, self.boxed()?));
        }
        if self.takes("let") {
            return self.let_pair();
        }
        if self.takes("copy") {
            return self.copy();
        }
        if self.takes("discard") {
            let e = self.boxed()?;
            self.expect("in")?;
            return Ok(Term::Discard(e, self.boxed()?));
        }
        if self.takes("case") {
            return self.case();
        }
        if self.takes("(") {
            return self.bracketed();
        }
        self.name().map(Term::Var).map_err(|fault| Fault { expected: "a term", ..fault })
    }

    /// After `let`: `(X, Y) = E in B`.
    fn let_pair(&mut self) -> Parsed<Term> {
        let (x, y) = self.names()?;
        self.expect("=")?;
        let e = self.boxed()?;
        self.expect("in")?;
        Ok(Term::LetPair(x, y, e, self.boxed()?))
    }

    /// After `copy`: `E as (X, Y) in B`.
    fn copy(&mut self) -> Parsed<Term> {
        let e = self.boxed()?;
        self.expect("as")?;
        let (x, y) = self.names()?;
        self.expect("in")?;
        Ok(Term::Copy(e, x, y, self.boxed()?))
    }

    /// After `case`: `E of { inl X => L | inr Y => R }`.
    fn case(&mut self) -> Parsed<Term> {
        let e = self.boxed()?;
        self.expect("of")?;
        self.expect("{")?;
        self.expect("inl")?;
        let x = self.name()?;
        self.expect("=>")?;
        let l = self.boxed()?;
        self.expect("|")?;
        self.expect("inr")?;
        let y = self.name()?;
        self.expect("=>")?;
        let r = self.boxed()?;
        self.expect("}")?;
        Ok(Term::Case(e, x, l, y, r))
    }

    /// After `(`: `)`, `E)`, `E, E)` or `E E)`.
    fn bracketed(&mut self) -> Parsed<Term> {
        if self.takes(")") {
            return Ok(Term::Unit);
        }
        let first = self.boxed()?;
        if self.takes(")") {
            return Ok(*first);
        }
        let make = if self.takes(",") { Term::Pair } else { Term::App };
        let second = self.boxed()?;
        self.expect(")")?;
        Ok(make(first, second))
    }
}

#[cfg(test)]
mod tests {
    use super::term;
    use patch_model::names::WORDS;

    /// What is printed is read as the same term, but for Discard.
    #[test]
    fn printed_terms_are_read() {
        for text in [
            "x",
            "()",
            "⟨⟩",
            "(λx. x ())",
            "λx. (x ())",
            "(a, (b c))",
            "let (x, y) = (y, ()) in (x y)",
            "!derelict z",
            "absurd inl inr fst snd u",
            "copy s as (x, y) in (λz. z x)",
            "case inl a of { inl x => x | inr y => (y y) }",
        ] {
            assert_eq!(term(text).unwrap().pretty(), text);
        }
    }

    #[test]
    fn hands_write_it_shorter() {
        assert_eq!(term("((\\x. x) ())").unwrap().pretty(), "(λx. x ())");
        assert_eq!(term(" discard !x in<> ").unwrap().pretty(), "discard in ⟨⟩");
    }

    #[test]
    fn words_are_no_names() {
        for word in WORDS {
            let shown = |text: String| term(&text).unwrap_err().shown_in(&text);
            assert_eq!(shown(format!("\\{word}. x")), format!("\\{word}. x\n ^ expected a name"));
            assert_eq!(shown(format!("let (x, {word}) = a in b")), format!("let (x, {word}) = a in b\n        ^ expected a name"));
            for text in [word.to_string(), format!("(x {word})"), format!("\"{word}\""), format!("copy a as ({word}, y) in b")] {
                assert!(term(&text).is_err(), "{text}");
            }
        }
    }

    #[test]
    fn nearly_a_word_is_a_name() {
        for name in ["In", "IN", "in1", "inn", "in_", "_in", "le", "lets", "x", "_1"] {
            let text = format!("let ({name}, y) = {name} in (y {name})");
            assert_eq!(term(&text).unwrap().pretty(), text);
        }
    }

    #[test]
    fn faults_are_shown_where_they_are() {
        assert_eq!(
            term("let (x, 1) = a in b").unwrap_err().shown_in("let (x, 1) = a in b"),
            "let (x, 1) = a in b\n        ^ expected a name"
        );
        assert_eq!(term("(a b").unwrap_err().shown_in("(a b"), "(a b\n    ^ expected )");
        assert_eq!(term("").unwrap_err().shown_in(""), "\n^ expected a term");
    }
}
