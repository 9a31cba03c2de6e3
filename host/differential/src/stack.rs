//! How much stack the calls take: the deepest legal inputs of each kind on a thread with so many bytes of stack. A call that needs more ends its
//! process, so each trial is a process of its own.

use crate::case::{Call, Case};
use std::process::{Command, ExitCode, Stdio};

/// Enough for every call on every input; `make test` shows it.
pub const ENOUGH: usize = 256 << 10;

/// A thread's whole stack, of which all but what is tried is used up first: the system's threads have a least stack of their own.
const STACK: usize = 1 << 20;
/// What stands above the first frame.
const MARGIN: usize = 4 << 10;

#[inline(never)]
fn address() -> usize {
    let here = 0u8;
    std::hint::black_box(&here) as *const u8 as usize
}

/// Does the work below this address.
#[inline(never)]
fn under<T>(below: usize, work: &mut Option<impl FnOnce() -> T>) {
    let pad = [0u8; 512];
    if address() > below {
        under(below, work);
    } else {
        std::hint::black_box(work.take().unwrap()());
    }
    std::hint::black_box(&pad);
}

/// So many levels, one in the other, by a way of nesting.
fn nested(before: &[u8], last: &[u8], behind: &[u8], levels: usize) -> (usize, Vec<u8>) {
    (levels, [before.repeat(levels), last.to_vec(), behind.repeat(levels)].concat())
}

/// Terms, formulas or proofs of a part of the full depth, in 256ths, each with its levels.
fn deep(call: Call, part: usize) -> Vec<(usize, Vec<u8>)> {
    let of = |full: usize| full * part / 256;
    match call {
        Call::CheckFormula | Call::FormulaText => {
            vec![nested(&[11], &[5], &[], of(1023)), nested(&[3], &[5], &[5], of(511)), nested(&[3, 5], &[5], &[], of(511))]
        }
        Call::CheckProof | Call::Extract | Call::StoreProof | Call::LoadProof => {
            vec![nested(&[4, 0, 1], &[3, 0, 0], &[], of(511)), nested(&[2, 5, 0, 2], &[3, 0, 0], &[3, 0, 0], of(255))]
        }
        _ => vec![
            nested(&[14], &[2], &[], of(511)),
            nested(&[3], &[2], &[2], of(255)),
            nested(&[3, 2], &[2], &[], of(255)),
            nested(&[5, 1, b'x'], &[1, 1, b'x'], &[], of(511)),
            nested(&[4, 1, b'x', 1, b'y'], &[1, 1, b'z'], &[2], of(255)),
            nested(&[9, 1, b'x', 1, b'y'], &[1, 1, b'z'], &[2, 2], of(170)),
            // a redex at the bottom, which the search has to go to
            nested(&[14], &[15, 14, 2], &[], of(509)),
            nested(&[3], &[15, 14, 2], &[2], of(254)),
        ],
    }
}

fn cases(call: Call, part: usize) -> Vec<Case> {
    let more = |input: Vec<u8>| match call {
        Call::Substitute => vec![input, b"z".to_vec(), vec![2]],
        Call::LoadTerm => vec![patch_model::stored::blocks(1, &input)],
        Call::LoadProof => vec![patch_model::stored::blocks(2, &input)],
        _ => vec![input],
    };
    deep(call, part).into_iter().map(|(_, input)| Case { number: 3, ..Case::new(call, more(input)) }).collect()
}

/// Runs one deep input of call number `call` on a thread of `bytes`; in a process of its own, since it may not come back.
pub fn one(numbers: &[String]) -> ExitCode {
    let numbers: Vec<usize> = numbers.iter().filter_map(|n| n.parse().ok()).collect();
    let [call, part, bytes, which] = numbers[..] else {
        return ExitCode::from(2);
    };
    if let Some(case) = cases(Call::ALL[call], part).into_iter().nth(which) {
        let inputs = case.inputs.clone();
        let mut lent: Vec<Vec<u8>> = case.lent.iter().map(|n| vec![0; *n]).collect();
        let work = move || {
            let inputs: Vec<&[u8]> = inputs.iter().map(Vec::as_slice).collect();
            let mut parts = lent.iter_mut().map(Vec::as_mut_slice);
            case.ask_port(&inputs, &mut || parts.next().unwrap())
        };
        let spare = move || {
            let top = address();
            under(top - (STACK - bytes - MARGIN), &mut Some(work));
        };
        std::thread::Builder::new().stack_size(STACK).spawn(spare).unwrap().join().unwrap();
    }
    ExitCode::SUCCESS
}

fn enough(call: usize, part: usize, bytes: usize, which: usize) -> bool {
    let own = std::env::current_exe().unwrap();
    let words = ["stack-one".to_string(), call.to_string(), part.to_string(), bytes.to_string(), which.to_string()];
    Command::new(own).args(words).stdout(Stdio::null()).stderr(Stdio::null()).status().unwrap().success()
}

/// The least stack that is enough, to the kilobyte.
fn least(call: usize, part: usize, which: usize) -> usize {
    let (mut low, mut high) = (0, ENOUGH >> 10);
    while high - low > 1 {
        let middle = (low + high) / 2;
        if enough(call, part, middle << 10, which) {
            high = middle;
        } else {
            low = middle;
        }
    }
    high
}

/// What the input that takes most has at full depth and without, in kilobytes, and so the bytes of a level.
fn measured(call: usize) -> (usize, usize, usize) {
    let inputs = deep(Call::ALL[call], 256);
    let takes = |(which, (levels, _)): (usize, &(usize, Vec<u8>))| {
        let (full, flat) = (least(call, 256, which), least(call, 0, which));
        (full, flat, ((full - flat) << 10) / levels)
    };
    inputs.iter().enumerate().map(takes).max().unwrap()
}

/// Whether all calls live with `ENOUGH`; with `measure`, what each takes at full depth, without, and for a level.
pub fn all(measure: bool) -> ExitCode {
    for (number, call) in Call::ALL.iter().enumerate() {
        if !(0..deep(*call, 256).len()).all(|which| enough(number, 256, ENOUGH, which)) {
            println!("{call:?} takes more than {} KB of stack", ENOUGH >> 10);
            return ExitCode::FAILURE;
        }
        if measure {
            let (full, flat, level) = measured(number);
            println!("{:18} {full:4} KB at full depth, {flat:4} KB without, {level:4} bytes a level", format!("{call:?}"));
        }
    }
    println!("stack: {} KB are enough for the deepest input of each call", ENOUGH >> 10);
    ExitCode::SUCCESS
}
