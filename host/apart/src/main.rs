//! What is held to the model without the library: the model itself, by second routes, and the program patchrun. It can run while the library is made.

mod itself;
mod program;

use patch_harness::{families, Family};
use std::process::ExitCode;

const FAMILIES: [Family; 2] = [("model", itself::all), ("program", program::all)];

fn main() -> ExitCode {
    families(&FAMILIES, &std::env::args().skip(1).collect::<Vec<String>>())
}
