//! Instructions for each byte of input. One run under valgrind goes over all rows; it counts inside `patch_bench_counted` alone and writes a file
//! each time that this is left, so each file has one side of one row.

use crate::rows::{rows, Row};
use std::hint::black_box;
use std::path::Path;
use std::process::{Command, ExitCode};

#[no_mangle]
#[inline(never)]
pub fn patch_bench_counted(side: &dyn Fn()) {
    side();
    // or it would be left before the side begins
    black_box(());
}

/// One side, once to warm up and once to be counted. It has a frame of its own, by whose end valgrind sees on every machine that the call is over.
#[inline(never)]
fn one(side: &dyn Fn()) {
    let frame = black_box([0u64; 4]);
    side();
    patch_bench_counted(side);
    black_box(frame);
}

/// What valgrind runs.
pub fn counted(word: &str) {
    for row in rows(word) {
        let sides = row.sides();
        one(&*sides.other);
        one(&*sides.port);
    }
}

pub fn table(word: &str) -> ExitCode {
    let folder = std::env::temp_dir().join(format!("patch-bench-{}", std::process::id()));
    let outcome = std::fs::create_dir_all(&folder).ok().and_then(|()| print(word, &folder));
    let _ = std::fs::remove_dir_all(&folder);
    if outcome.is_none() {
        eprintln!("valgrind did not count");
    }
    ExitCode::from(outcome.is_none() as u8)
}

fn print(word: &str, folder: &Path) -> Option<()> {
    let rows = rows(word);
    let mut out_file = std::ffi::OsString::from("--callgrind-out-file=");
    out_file.push(folder.join("count"));
    let counting = ["--tool=callgrind", "--toggle-collect=patch_bench_counted", "--dump-after=patch_bench_counted"];
    let ended =
        Command::new("valgrind").args(counting).arg(out_file).arg(std::env::current_exe().ok()?).args(["counted", word]).output().ok()?;
    ended.status.success().then_some(())?;
    let wide = crate::widest(&rows);
    println!("{:<wide$} {:>6} {:>6}  {:<10} {:>10} {:>10}", "call", "nodes", "bytes", "beside", "its", "port");
    for (i, row) in rows.into_iter().enumerate() {
        let Row { name, nodes, beside, .. } = &row;
        let head = format!("{name:<wide$} {nodes:>6}");
        let beside = *beside;
        let sides = row.sides();
        let per_byte = |part: usize| Some(count(&folder.join(format!("count.{part}")))? as f64 / sides.bytes as f64);
        println!("{head} {:>6}  {beside:<10} {:>10.2} {:>10.2}", sides.bytes / sides.inputs, per_byte(2 * i + 1)?, per_byte(2 * i + 2)?);
    }
    println!("instructions for each byte of input");
    Some(())
}

/// The total of one file.
fn count(file: &Path) -> Option<u64> {
    let text = std::fs::read_to_string(file).ok()?;
    text.lines().find_map(|line| line.strip_prefix("summary: ").or(line.strip_prefix("totals: "))?.trim().parse().ok())
}
