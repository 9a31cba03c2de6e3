//! Names and atoms: how long they may be, their bytes, and the words that are neither (01, "Terms, formulas and proofs as bytes"; 02, (i)).

/// The words that are not names.
pub const WORDS: [&str; 13] = ["let", "in", "case", "of", "inl", "inr", "fst", "snd", "absurd", "derelict", "copy", "as", "discard"];

/// Which of the two is spelled.
#[derive(Clone, Copy, Debug, PartialEq, Eq)]
pub enum Spelling {
    Name,
    Atom,
}

impl Spelling {
    /// The most bytes that it may have.
    pub const fn most(self) -> usize {
        match self {
            Spelling::Name => 24,
            Spelling::Atom => 16,
        }
    }

    /// Whether these bytes are a word: of a name as they are, of an atom in lower case.
    pub fn is_word(self, bytes: &[u8]) -> bool {
        WORDS.iter().any(|word| match self {
            Spelling::Name => word.as_bytes() == bytes,
            Spelling::Atom => word.as_bytes().eq_ignore_ascii_case(bytes),
        })
    }
}

fn leads(b: u8) -> bool {
    b.is_ascii_alphabetic() || b == b'_'
}

fn follows(b: u8) -> bool {
    leads(b) || b.is_ascii_digit()
}

/// The first byte of a name that may not stand there.
pub fn bad_byte(name: &[u8]) -> Option<usize> {
    name.iter().enumerate().position(|(i, &b)| !(if i == 0 { leads(b) } else { follows(b) }))
}
