//! Turns a term written by hand into a stored file: `write '((\x. x) ())' > file`, or the term on standard input.

mod parse;

use patch_model::form::term_bytes;
use std::io::{Error, Read, Write};
use std::process::ExitCode;

fn main() -> ExitCode {
    match written() {
        Ok(()) => ExitCode::SUCCESS,
        Err(said) => {
            eprintln!("{said}");
            ExitCode::FAILURE
        }
    }
}

fn written() -> Result<(), String> {
    let said = |e: Error| e.to_string();
    let mut text: String = std::env::args().skip(1).collect::<Vec<_>>().join(" ");
    if text.is_empty() {
        std::io::stdin().read_to_string(&mut text).map_err(said)?;
    }
    let term = parse::term(&text).map_err(|fault| fault.shown_in(&text))?;
    let file = patch::store(patch::Kind::Term, &term_bytes(&term)).map_err(|refusal| refusal.to_string())?;
    std::io::stdout().write_all(&file).map_err(said)
}
