//! Holds the port to the model, which takes its results from the ported Rust: answers, places and every byte of every lent buffer.
//! Ends with status 1 at the first difference, made as small as it gets.

mod case;
mod died;
mod extraction;
mod feeds;
mod files;
mod formulas;
mod guarded;
mod readers;
mod reduction;
mod refusals;
mod run;
mod shrink;
mod soak;
mod stack;
mod straight;
mod terms;

use patch_harness::{families, Family};
use std::process::ExitCode;

const FAMILIES: [Family; 10] = [
    ("refusals", refusals::all),
    ("readers", readers::all),
    ("formulas", formulas::all),
    ("terms", terms::all),
    ("feeds", feeds::all),
    ("steps", reduction::steps),
    ("reduction", reduction::reductions),
    ("straight", straight::all),
    ("extraction", extraction::all),
    ("stored", files::all),
];

fn main() -> ExitCode {
    let asked: Vec<String> = std::env::args().skip(1).collect();
    let (word, numbers) = asked.split_first().map_or(("", &[][..]), |(word, numbers)| (word.as_str(), numbers));
    match word {
        "soak" => soak::all(numbers),
        "soak-part" => soak::part(numbers),
        "stack" => stack::all(!numbers.is_empty()),
        "stack-one" => stack::one(numbers),
        _ => families(&FAMILIES, &asked),
    }
}
