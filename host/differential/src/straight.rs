//! Straight terms (demand 3): which terms are straight, and what bounded reduction makes of one that is, seen from outside.

use crate::case::{Call, Case};
use crate::run::random;
use patch_generate::{straight, Rng};
use patch_harness::{hold, many, Verdict};
use patch_model::form::term_nodes;
use patch_model::free::occurrences;
use patch_model::{read, Limits};

const L: Limits = Limits::BASE;

pub fn all() -> Verdict {
    let asked = |bytes: Vec<u8>| Case::new(Call::IsStraight, vec![bytes]);
    Ok(random("IsStraight of straight terms", 100_000, |index| asked(straight::random(&mut Rng::new(SEED, index))))?
        + random("IsStraight of nearly straight terms", 100_000, |index| asked(straight::nearly(&mut Rng::new(SEED + 1, index))))?
        + many("straight terms reduce as demand 3 says", 100_000, SEED, reduces_as_promised)?)
}

const SEED: u64 = 0x7374_7261_6900;

/// What bounded reduction answers and leaves in its output, as numbers and bytes.
struct Reduced {
    steps: u64,
    counts: [u64; 8],
    normal: bool,
    term: Vec<u8>,
}

fn reduced(term: &[u8], limit: u64) -> Result<Reduced, String> {
    let case = Case { number: limit, ..Case::new(Call::NormalizeBounded, vec![term.to_vec()]) };
    let seen = case.port();
    if seen.number() != 0 {
        return Err(format!("refused {}", seen.number()));
    }
    let [steps, counts @ .., normal, length] = seen.values() else { return Err("not the values of bounded reduction".into()) };
    let counts = counts.try_into().map_err(|_| "not eight counts")?;
    Ok(Reduced { steps: *steps, counts, normal: *normal == 1, term: seen.output()[..*length as usize].to_vec() })
}

fn reduces_as_promised(rng: &mut Rng) -> Result<(), String> {
    let bytes = straight::random(rng);
    hold(patch::is_straight(&bytes) == Ok(true), "not straight")?;
    let before = read::term(&L, 1, &bytes).map_err(|r| format!("not legal {r:?}"))?;
    let nodes = term_nodes(&before);
    let enough = (nodes as u64 - 1).div_ceil(2);
    let limit = match rng.below(4) {
        0 => rng.below(nodes) as u64,
        1 => u32::MAX as u64,
        _ => enough,
    };
    let told = reduced(&bytes, limit)?;
    let after = read::term(&L, 1, &told.term).map_err(|r| format!("the result is not legal {r:?}"))?;
    let [app, pairs, case, fst, snd, derelict, copy, discard] = told.counts;
    hold(patch::is_straight(&told.term) == Ok(true), "no longer straight")?;
    hold(occurrences(&after) == occurrences(&before), "an unbound name occurs more or less often")?;
    hold(case + fst + snd + copy + discard == 0, "a rule that straight terms have not")?;
    hold(app + pairs + derelict == told.steps && told.steps <= limit, "the counts are not those of the steps")?;
    hold(nodes - term_nodes(&after) == (3 * app + 4 * pairs + 2 * derelict) as usize, "nodes lost")?;
    hold(told.normal || limit < enough, "a step remains")
}
