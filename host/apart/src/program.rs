//! The program patchrun itself, run by host/patchrun.sh: what it writes for its standard input is held to the model, byte for byte.

use lolli_core::Term;
use patch_generate::bad::{bad_inputs, TERMS};
use patch_generate::inputs::{doubled, reducible};
use patch_generate::{files, Rng};
use patch_harness::{each, Verdict};
use patch_model::form::term_bytes;
use patch_model::names::WORDS;
use patch_model::program::patchrun;
use patch_model::stored::{blocks, seal, BLOCK};
use patch_model::Limits;
use std::collections::BTreeMap;
use std::io::{ErrorKind, Write};
use std::process::{Command, Stdio};
use std::sync::Mutex;
use std::time::Duration;

const L: Limits = Limits::BASE;
const PROGRAM: &str = concat!(env!("CARGO_MANIFEST_DIR"), "/../patchrun.sh");

/// Every refusal that a stored term can meet: the program's buffers are long enough, content is never over 4,096 bytes, nothing is extracted,
/// no child is asked for.
const REFUSALS: [u8; 11] = [3, 4, 5, 6, 7, 8, 10, 11, 12, 13, 15];

pub fn all() -> Verdict {
    let edges = edges();
    let met = run("at the edges", edges.len() as u64, |index| edges[index as usize].clone())?;
    if met.keys().filter(|number| **number != 0).ne(&REFUSALS) {
        return Err(format!("the edges meet {met:?} and not every refusal"));
    }
    let random = |label, seed, most: &[usize], damaged: bool| {
        run(label, 1_000, |index| {
            let mut rng = Rng::new(seed, index);
            let most = *rng.pick(most);
            let content = reducible(&mut rng, most);
            if damaged {
                files::damaged(&mut rng, 1, &content)
            } else {
                blocks(1, &content)
            }
        })
    };
    random("on stored terms", 0x7061_7463, &[20, 20, 60, 60, 200, 512], false)?;
    random("on damaged files", 0x7061_7464, &[20, 60, 512], true)?;
    Ok(edges.len() as u64 + 2_000)
}

/// Runs the program on the inputs that `make` gives for the indices below `count`, and prints how they were answered: 0 for a term.
fn run(label: &str, count: u64, make: impl Fn(u64) -> Vec<u8> + Sync) -> Result<BTreeMap<u8, u64>, String> {
    let answers = Mutex::new(BTreeMap::new());
    let outcome = each(count, &|index| {
        let input = make(index);
        let wanted = patchrun(&L, &input);
        let wrote = written(&input, index % 50 == 0)?;
        if wrote != wanted {
            let words = |bytes: &[u8]| String::from_utf8_lossy(bytes).into_owned();
            return Err(format!("input of {} bytes: {input:02x?}\nmodel: {}\nprogram: {}", input.len(), words(&wanted), words(&wrote)));
        }
        *answers.lock().unwrap().entry(number(&wanted)).or_default() += 1;
        Ok(())
    });
    outcome.map_err(|(index, said)| format!("patchrun {label}, case {index} of {count}\n{said}"))?;
    let answers = answers.into_inner().unwrap();
    let words = |(number, cases): (&u8, &u64)| match number {
        0 => format!("{cases} reduced"),
        _ => format!("{cases} refused {number}"),
    };
    println!("  patchrun {label}: {count} cases: {}", answers.iter().map(words).collect::<Vec<_>>().join(", "));
    Ok(answers)
}

/// What the program writes, which ends with status 0. The input may come in two parts, so that a read is short.
fn written(input: &[u8], in_parts: bool) -> Result<Vec<u8>, String> {
    let said = |e: std::io::Error| format!("{PROGRAM}: {e}");
    let mut program = Command::new(PROGRAM).stdin(Stdio::piped()).stdout(Stdio::piped()).stderr(Stdio::piped()).spawn().map_err(said)?;
    let mut stdin = program.stdin.take().unwrap();
    let (first, second) = input.split_at(if in_parts { input.len() / 3 } else { 0 });
    for part in [first, second] {
        match stdin.write_all(part) {
            // it does not read on behind what is too long
            Err(e) if e.kind() != ErrorKind::BrokenPipe => return Err(said(e)),
            _ => {}
        }
        if in_parts {
            std::thread::sleep(Duration::from_millis(50));
        }
    }
    drop(stdin);
    let ended = program.wait_with_output().map_err(said)?;
    if !ended.status.success() || !ended.stderr.is_empty() {
        return Err(format!("{PROGRAM}: {}: {}", ended.status, String::from_utf8_lossy(&ended.stderr)));
    }
    Ok(ended.stdout)
}

/// The number of the refusal that is printed, or 0.
fn number(printed: &[u8]) -> u8 {
    let text = String::from_utf8_lossy(printed);
    text.strip_prefix("refused ").and_then(|rest| rest.split(' ').next()?.parse().ok()).unwrap_or(0)
}

/// Nothing, too much, no whole block, another kind; every way that content is refused; a limit that is met.
fn edges() -> Vec<Vec<u8>> {
    let good = blocks(1, &[6, 5, 1, b'x', 1, 1, b'x', 2]);
    let nine = blocks(1, &[vec![5; L.nodes - 1], vec![2]].concat());
    let mut edges = vec![good.clone(), blocks(2, &[2]), nine.clone()];
    edges.extend([0, 1, 511, 512, 513, 4607, 4608, 4609, 5119, 5120, 5121, 5632, 70_000].map(|length| vec![0; length]));
    for more in [1, 511, BLOCK, 9 * BLOCK, 10 * BLOCK] {
        edges.push([&good[..], &vec![0; more]].concat());
    }
    for at in [0, 1, 2, 3, 4, 11, 12, 509, 510, 511] {
        let mut file = good.clone();
        file[at] ^= 1;
        edges.push(file.clone());
        seal(&mut file);
        edges.push(file);
    }
    edges.extend([252, 253, 254].map(|promotes| blocks(1, &doubled(promotes))));
    edges.push(blocks(1, &endless()));
    edges.extend(WORDS.map(|word| blocks(1, &term_bytes(&Term::Var(word.into())))));
    // a sample of the bad inputs that the readers are held to
    edges.extend(bad_inputs(&TERMS).iter().step_by(23).map(|content| blocks(1, content)));
    edges
}

/// `((\x. (x x)) (\x. (x x)))`: a step always remains.
fn endless() -> Vec<u8> {
    let x = || Box::new(Term::Var("x".into()));
    let twice = || Box::new(Term::Abs("x".into(), Box::new(Term::App(x(), x()))));
    term_bytes(&Term::App(twice(), twice()))
}
