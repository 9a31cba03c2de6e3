//! Any call on any input, whole, at a limit or damaged, for so many cases or seconds, whichever ends first, in a process for each processor.
//! A case is made from the seed and its index, so any number of processes tries the same cases.

use crate::case::{Call, Case};
use crate::{died, shrink};
use patch_generate::damage::damage;
use patch_generate::inputs::{formula, proof, reducible, term};
use patch_generate::{files, names, proofs, straight, Rng};
use patch_harness::STACK;
use patch_model::Limits;
use std::process::{Child, Command, ExitCode, Stdio};
use std::time::{Duration, Instant};

const L: Limits = Limits::BASE;

/// A small term, so that millions of them are soon done; now and then one of any size.
fn some_term(rng: &mut Rng) -> Vec<u8> {
    if rng.one_in(40) {
        return term(rng);
    }
    reducible(rng, 40)
}

fn inputs(rng: &mut Rng, call: Call) -> Vec<Vec<u8>> {
    match call {
        Call::CheckFormula | Call::FormulaText => vec![formula(rng)],
        Call::CheckProof | Call::Extract | Call::StoreProof => vec![proof(rng)],
        Call::Substitute => vec![some_term(rng), names::bare(rng).into_bytes(), some_term(rng)],
        Call::IsStraight => vec![if rng.one_in(2) { straight::nearly(rng) } else { some_term(rng) }],
        Call::LoadTerm => {
            let content = some_term(rng);
            vec![files::damaged(rng, 1, &content[..content.len().min(L.stored_room)])]
        }
        Call::LoadProof => {
            let content = proof(rng);
            vec![files::damaged(rng, 2, &content[..content.len().min(L.stored_room)])]
        }
        _ => vec![some_term(rng)],
    }
}

fn any(seed: u64, index: u64) -> Case {
    let mut rng = Rng::new(seed, index);
    let call = *rng.pick(&Call::ALL);
    let mut inputs = inputs(&mut rng, call);
    if rng.one_in(3) {
        let at = rng.below(inputs.len());
        damage(&mut rng, &mut inputs[at]);
    }
    let number = match call {
        Call::Child => rng.below(5) as u64,
        Call::NormalizeBounded => *rng.pick(&[0, 1, 2, 5, 20, 100]),
        Call::Extract => proofs::counter(&mut rng) as u64,
        _ => 0,
    };
    Case { number, ..Case::new(call, inputs) }.lent_by(&mut rng)
}

/// 0 where a call succeeded, and the refusals' numbers.
const ANSWERS: usize = 16;

/// How often each call gave each answer.
#[derive(Clone, Copy)]
struct Counts([[u64; ANSWERS]; Call::ALL.len()]);

impl Counts {
    const NONE: Counts = Counts([[0; ANSWERS]; Call::ALL.len()]);

    fn total(&self) -> u64 {
        self.0.iter().flatten().sum()
    }

    fn print(&self) {
        for (call, answers) in Call::ALL.iter().zip(&self.0) {
            let refused: Vec<String> = (1..ANSWERS).filter(|n| answers[*n] > 0).map(|n| format!(", {} refused {n}", answers[n])).collect();
            println!("  {call:?}: {} good{}", answers[0], refused.concat());
        }
    }

    /// One number to a line, as a process tells them.
    fn told(&self) -> String {
        self.0.iter().flatten().map(|n| format!("{n}\n")).collect()
    }

    fn add(&mut self, told: &str) -> Option<()> {
        let mut numbers = told.lines().map(|line| line.parse::<u64>().ok());
        for count in self.0.iter_mut().flatten() {
            *count += numbers.next()??;
        }
        Some(())
    }
}

fn numbers<const N: usize>(words: &[String]) -> Option<[u64; N]> {
    let numbers: Vec<u64> = words.iter().filter_map(|word| word.parse().ok()).collect();
    numbers.try_into().ok()
}

/// `soak SEED CASES SECONDS`
pub fn all(words: &[String]) -> ExitCode {
    let Some([seed, cases, seconds]) = numbers(words) else {
        eprintln!("soak takes three numbers: a seed, how many cases, how many seconds");
        return ExitCode::from(2);
    };
    let start = Instant::now();
    let processes = std::thread::available_parallelism().map_or(1, |n| n.get() as u64);
    let begin = |first: u64| {
        let words = [seed, first, processes, cases, seconds].map(|n| n.to_string());
        Command::new(std::env::current_exe().unwrap()).arg("soak-part").args(words).stdout(Stdio::piped()).spawn().unwrap()
    };
    let parts: Vec<Child> = (0..processes).map(begin).collect();
    let mut counts = Counts::NONE;
    let mut equal = true;
    for part in parts {
        let ended = part.wait_with_output().unwrap();
        let said = String::from_utf8_lossy(&ended.stdout);
        if !ended.status.success() || counts.add(&said).is_none() {
            println!("soak: {}\n{said}", ended.status);
            equal = false;
        }
    }
    counts.print();
    let (total, took) = (counts.total(), start.elapsed().as_secs_f32());
    let watched = if cfg!(feature = "sanitized") { ", AddressSanitizer on" } else { "" };
    println!("soak, seed {seed}: {total} of {cases} cases equal ({took:.1} s, {processes} processes{watched})");
    ExitCode::from(!equal as u8)
}

/// `soak-part SEED FIRST STEP CASES SECONDS`: every so many-th case, from the first, below `CASES`.
pub fn part(words: &[String]) -> ExitCode {
    let Some([seed, first, step, cases, seconds]) = numbers(words) else {
        return ExitCode::from(2);
    };
    died::tell();
    let work = move || run(seed, (first..cases).step_by(step as usize), Instant::now() + Duration::from_secs(seconds));
    match std::thread::Builder::new().stack_size(STACK).spawn(work).unwrap().join().unwrap() {
        Ok(counts) => {
            print!("{}", counts.told());
            ExitCode::SUCCESS
        }
        Err(difference) => {
            println!("{difference}");
            ExitCode::FAILURE
        }
    }
}

fn run(seed: u64, indices: impl Iterator<Item = u64>, end: Instant) -> Result<Counts, String> {
    let mut counts = Counts::NONE;
    for (tried, index) in indices.enumerate() {
        if tried % 256 == 0 && Instant::now() > end {
            break;
        }
        died::at(seed, index);
        let case = any(seed, index);
        let seen = case.model();
        if !case.agrees(&seen) {
            return Err(format!("DIFFERENT: seed {seed}, case {index}\n{}", shrink::smallest(case)));
        }
        counts.0[case.call as usize][seen.number() as usize] += 1;
    }
    Ok(counts)
}
