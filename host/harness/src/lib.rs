//! Families of cases, over a thread for each processor. A case is made from its index, so the first difference is the same whatever thread meets it. Fixed seeds.

mod pool;

use patch_generate::Rng;
use std::process::ExitCode;
use std::sync::atomic::{AtomicU64, Ordering};
use std::sync::Mutex;
use std::thread;
use std::time::Instant;

#[global_allocator]
static POOL: pool::Pool = pool::Pool;

/// How many cases were compared and equal, or the first difference in words.
pub type Verdict = Result<u64, String>;

/// What is tried at an index, and what is wrong with it.
pub type Tried<'a> = dyn Fn(u64) -> Result<(), String> + Sync + 'a;

const CHUNK: u64 = 32;
/// The Rust's walks call themselves, as deep as a term is.
pub const STACK: usize = 256 << 20;

/// Holds `try_one` to every index below `count`: the first index at which it fails, with what it says.
pub fn each(count: u64, try_one: &Tried) -> Result<(), (u64, String)> {
    let next = AtomicU64::new(0);
    let first = Mutex::new(None::<(u64, String)>);
    let work = || loop {
        let from = next.fetch_add(CHUNK, Ordering::Relaxed);
        if from >= count || first.lock().unwrap().as_ref().is_some_and(|(i, _)| *i < from) {
            return;
        }
        for index in from..(from + CHUNK).min(count) {
            if let Err(said) = try_one(index) {
                let mut first = first.lock().unwrap();
                if first.as_ref().is_none_or(|(i, _)| index < *i) {
                    *first = Some((index, said));
                }
                return;
            }
        }
    };
    thread::scope(|scope| {
        for _ in 0..thread::available_parallelism().map_or(1, usize::from) {
            thread::Builder::new().stack_size(STACK).spawn_scoped(scope, work).unwrap();
        }
    });
    first.into_inner().unwrap().map_or(Ok(()), Err)
}

/// `Err` with these words, unless the fact holds.
pub fn hold(fact: bool, what: &str) -> Result<(), String> {
    if fact {
        Ok(())
    } else {
        Err(what.into())
    }
}

/// Holds `try_one` to so many random cases.
pub fn many(label: &str, count: u64, seed: u64, try_one: impl Fn(&mut Rng) -> Result<(), String> + Sync) -> Verdict {
    match each(count, &|index| try_one(&mut Rng::new(seed, index))) {
        Ok(()) => {
            println!("  {label}: {count} cases");
            Ok(count)
        }
        Err((index, said)) => Err(format!("{label}, case {index} of {count}: {said}")),
    }
}

pub type Family = (&'static str, fn() -> Verdict);

/// Runs the families that are asked for, or all: status 1 at the first difference.
pub fn families(all: &[Family], asked: &[String]) -> ExitCode {
    if let Some(unknown) = asked.iter().find(|a| !all.iter().any(|(name, _)| name == a)) {
        let names: Vec<&str> = all.iter().map(|(name, _)| *name).collect();
        eprintln!("no family {unknown}; there are: {}", names.join(", "));
        return ExitCode::from(2);
    }
    for (name, family) in all.iter().filter(|(name, _)| asked.is_empty() || asked.iter().any(|a| a == name)) {
        let start = Instant::now();
        match family() {
            Ok(cases) => println!("{name}: {cases} cases equal ({:.1} s)", start.elapsed().as_secs_f32()),
            Err(difference) => {
                println!("{name}: DIFFERENT\n{difference}");
                return ExitCode::FAILURE;
            }
        }
    }
    ExitCode::SUCCESS
}
