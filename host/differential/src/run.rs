//! Runs cases, and prints how they were answered.

use crate::case::Case;
use crate::shrink;
use patch_harness::{each, Verdict};
use std::collections::BTreeMap;
use std::sync::Mutex;

/// Runs the cases that `make` gives for the indices below `count`.
pub fn random(label: &str, count: u64, make: impl Fn(u64) -> Case + Sync) -> Verdict {
    compared(label, count, &make)
}

pub fn listed(label: &str, cases: &[Case]) -> Verdict {
    compared(label, cases.len() as u64, &|index| cases[index as usize].clone())
}

fn compared(label: &str, count: u64, make: &(dyn Fn(u64) -> Case + Sync)) -> Verdict {
    let answers = Mutex::new(BTreeMap::<u64, u64>::new());
    let outcome = each(count, &|index| {
        let case = make(index);
        let seen = case.model();
        if !case.agrees(&seen) {
            return Err(String::new());
        }
        *answers.lock().unwrap().entry(seen.number()).or_default() += 1;
        Ok(())
    });
    if let Err((index, _)) = outcome {
        return Err(format!("{label}, case {index} of {count}\n{}", shrink::smallest(make(index))));
    }
    let words = |(number, cases): (u64, u64)| match number {
        0 => format!("{cases} good"),
        _ => format!("{cases} refused {number}"),
    };
    let answers: Vec<String> = answers.into_inner().unwrap().into_iter().map(words).collect();
    println!("  {label}: {count} cases: {}", answers.join(", "));
    Ok(count)
}
