//! Times the ported Rust and the port on the same inputs, in turns, and prints how they compare.
//!
//!   bench                             medians of interleaved runs
//!   bench only WORD                   the rows that have the word in their name
//!   bench least                       the inputs of 50 nodes or more on which the port is nearest to the Rust
//!   bench instructions [only WORD]    instructions for each byte of input, counted by valgrind

mod by_parts;
mod calls;
mod families;
mod floors;
mod instructions;
mod least;
mod proofs;
mod reducible;
mod rows;
mod shapes;
mod sought;
mod timing;

use rows::{rows, Row};
use std::process::ExitCode;

fn main() -> ExitCode {
    let words: Vec<String> = std::env::args().skip(1).collect();
    let words: Vec<&str> = words.iter().map(String::as_str).collect();
    match words.as_slice() {
        [] => timing::table(rows("")),
        ["only", word] => timing::table(rows(word)),
        ["least"] => least::table(),
        ["instructions"] => return instructions::table(""),
        ["instructions", "only", word] => return instructions::table(word),
        ["counted", word] => instructions::counted(word),
        _ => {
            eprintln!("usage: bench [least] | [instructions] [only WORD]");
            return ExitCode::from(2);
        }
    }
    ExitCode::SUCCESS
}

/// How wide the column of names is.
fn widest(rows: &[Row]) -> usize {
    rows.iter().map(|row| row.name.len()).max().unwrap_or(0)
}
