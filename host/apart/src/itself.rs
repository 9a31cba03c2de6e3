//! The model against the ported Rust and against itself: what it adds to the Rust has a second route here, so that a slip in it shows
//! without the port.

use lolli_core::Term;
use patch_generate::damage::{damage, names_in, put_name};
use patch_generate::{files, formulas, names, proofs, terms, Rng};
use patch_harness::{hold, many, Verdict};
use patch_model::calls::{fits, name_list};
use patch_model::form::{formula_bytes, formula_nodes, proof_bytes, proof_formula_nodes, proof_rules, term_bytes, term_nodes};
use patch_model::reduce::{contracted, redex, reduce, size};
use patch_model::stored::{content, load, store, Kind};
use patch_model::{calls, extract, read, Limits, Refusal};

const L: Limits = Limits::BASE;

pub fn all() -> Verdict {
    Ok(many("reading undoes writing", 20_000, 1, reads_back)?
        + many("what is read of damaged bytes is written as they are", 100_000, 2, one_decoding)?
        + many("a word for a name is refused where it stands", 50_000, 8, refuses_words)?
        + many("a step contracts the node at its place", 40_000, 3, step_at_place)?
        + many("bounded reduction is the Rust's", 30_000, 4, reduces_as_the_rust)?
        + many("sizes of extracted terms", 50_000, 5, extracted_sizes)?
        + many("the list of free names", 50_000, 6, free_names)?
        + many("stored files are loaded as they were", 30_000, 7, loads_back)?)
}

fn reads_back(rng: &mut Rng) -> Result<(), String> {
    let formula = formulas::random(rng, 1024);
    let bytes = formula_bytes(&formula);
    hold(bytes.len() > 4096 || read::formula(&L, 1, &bytes).as_ref() == Ok(&formula), "formula")?;
    hold(bytes.len() > 4096 || calls::check_formula(&L, &bytes) == Ok(formula_nodes(&formula)), "formula nodes")?;
    let term = terms::random(rng, 512);
    let bytes = term_bytes(&term);
    hold(bytes.len() == size(&term), "size of a term")?;
    hold(bytes.len() > 4096 || read::term(&L, 1, &bytes).as_ref() == Ok(&term), "term")?;
    let proof = proofs::random(rng, 512);
    let bytes = proof_bytes(&proof);
    if bytes.len() <= 4096 && proof_formula_nodes(&proof) <= 1024 {
        let back = read::proof(&L, 1, &bytes).map_err(|r| format!("proof {r:?}"))?;
        hold(proof_bytes(&back) == bytes && proof_rules(&back) == proof_rules(&proof), "proof")?;
    }
    Ok(())
}

fn one_decoding(rng: &mut Rng) -> Result<(), String> {
    let mut bytes = match rng.below(3) {
        0 => formula_bytes(&formulas::random(rng, 60)),
        1 => term_bytes(&terms::random(rng, 60)),
        _ => proof_bytes(&proofs::random(rng, 30)),
    };
    damage(rng, &mut bytes);
    let place_within = |place: usize| place <= bytes.len();
    match read::formula(&L, 1, &bytes) {
        Ok(formula) => hold(formula_bytes(&formula) == bytes, "formula")?,
        Err(r) => hold(place_within(r.place), "place in a formula")?,
    }
    match read::term(&L, 1, &bytes) {
        Ok(term) => hold(term_bytes(&term) == bytes, "term")?,
        Err(r) => hold(place_within(r.place), "place in a term")?,
    }
    match read::proof(&L, 1, &bytes) {
        Ok(proof) => hold(proof_bytes(&proof) == bytes, "proof"),
        Err(r) => hold(place_within(r.place), "place in a proof"),
    }
}

/// In place of any name: of a term a word in small letters, of a formula, alone or in a proof, one in any case.
fn refuses_words(rng: &mut Rng) -> Result<(), String> {
    let of_term = rng.one_in(2);
    let mut bytes = if of_term { term_bytes(&terms::random(rng, 60)) } else { formula_bytes(&formulas::random(rng, 60)) };
    let places = names_in(&bytes);
    if places.is_empty() {
        return Ok(());
    }
    let (place, word) = (rng.pick(&places).clone(), names::word(rng));
    put_name(&mut bytes, place.clone(), &word);
    let refused = |place: usize| Some(Refusal { number: 15, place, input: 1 });
    if of_term {
        let is_word = word.bytes().all(|letter| letter.is_ascii_lowercase());
        let said = read::term(&L, 1, &bytes).err();
        return hold(said == if is_word { refused(place.start + 1) } else { None }, "in a term");
    }
    hold(read::formula(&L, 1, &bytes).err() == refused(place.start + 1), "in a formula")?;
    let cut = [&[2], &bytes[..], &[0, 0]].concat();
    hold(read::proof(&L, 1, &cut).err() == refused(place.start + 2), "in a proof")
}

/// A term that a step is tried on.
fn to_step(rng: &mut Rng) -> Term {
    match rng.below(8) {
        0 => terms::near_limit(rng, L.nodes, L.bytes),
        1 => terms::half_way(rng),
        _ => terms::random(rng, 120),
    }
}

fn step_at_place(rng: &mut Rng) -> Result<(), String> {
    let term = to_step(rng);
    let Some(found) = redex(&term, 0) else {
        return hold(lolli_extract::step(&term).is_none(), "no redex, and a step");
    };
    let bytes = term_bytes(&term);
    let node = term_bytes(found.node);
    let end = found.place + node.len();
    hold(bytes[found.place..end] == node, "the contracted node does not stand at its place")?;
    let Some(made) = contracted(found.node) else {
        return Err("a redex without a contraction".into());
    };
    let next = [&bytes[..found.place], &term_bytes(&made), &bytes[end..]].concat();
    let Some(stepped) = lolli_extract::step(&term) else {
        return Err("a redex, and no step".into());
    };
    hold(term_bytes(&stepped) == next, "the step is not the contraction at its place")
}

fn reduces_as_the_rust(rng: &mut Rng) -> Result<(), String> {
    let term = terms::random(rng, 60);
    let limit = *rng.pick(&[0, 1, 2, 3, 5, 20, 60]);
    let (told, last) = reduce(&L, term.clone(), limit);
    let steps = match &told {
        Ok(told) => {
            hold(told.counts.iter().sum::<u32>() == told.steps, "counts do not add up")?;
            hold(told.normal == lolli_extract::is_normal(&last), "normal")?;
            hold(told.normal || told.steps == limit, "stopped early")?;
            limit as usize
        }
        Err(refusal) => refusal.place,
    };
    hold(fits(&L, &last), "what is left does not fit")?;
    hold(lolli_extract::normalize_bounded(&term, steps) == last, "not the Rust's term")
}

fn extracted_sizes(rng: &mut Rng) -> Result<(), String> {
    let proof = match rng.below(10) {
        0 => {
            let height = rng.within(1, 12);
            proofs::doubling(rng, height)
        }
        _ => proofs::random(rng, 100),
    };
    let counter = proofs::counter(rng);
    let (size, next) = extract::sizes(&proof, counter as u64);
    if size.nodes > 20_000 {
        return Ok(());
    }
    let mut extractor = lolli_extract::extractor_at(counter as usize);
    let term = extractor.extract(&proof);
    hold(size.nodes == term_nodes(&term) as u64 && size.bytes == term_bytes(&term).len() as u64, "size")?;
    hold(next == lolli_extract::counter_of(extractor) as u64, "counter")?;
    match extract::extracted(&L, &proof, counter) {
        Ok((ours, _)) => hold(ours == term && fits(&L, &term) && next <= 100_000_000, "extracted"),
        Err(refusal) => {
            hold(if next > 100_000_000 { refusal.number == 9 } else { refusal.number == 8 && !fits(&L, &term) }, "refused without need")
        }
    }
}

fn free_names(rng: &mut Rng) -> Result<(), String> {
    let term = terms::random(rng, 200);
    let list = name_list(&term);
    let mut at = 0;
    let mut names: Vec<Vec<u8>> = Vec::new();
    while at < list.len() {
        let end = at + 1 + list[at] as usize;
        names.push(list[at + 1..end].to_vec());
        at = end;
    }
    hold(names.windows(2).all(|two| two[0] < two[1]), "not ascending")?;
    let set = term.free_vars();
    hold(names.len() == set.len() && names.iter().all(|n| set.contains(std::str::from_utf8(n).unwrap())), "not the Rust's set")?;
    // a name is free exactly if putting something in for it changes the term
    let mark = Term::Inl(Box::new(Term::Unit));
    let probes = names.iter().map(|n| (std::str::from_utf8(n).unwrap(), true)).chain([("absent", false)]);
    for (name, free) in probes {
        hold((term.substitute(name, &mark) != term) == free, "free, and nothing to replace")?;
    }
    Ok(())
}

fn loads_back(rng: &mut Rng) -> Result<(), String> {
    let (kind, bytes) = match rng.below(2) {
        0 => (Kind::Term, term_bytes(&terms::random(rng, 512))),
        _ => (Kind::Proof, proof_bytes(&proofs::random(rng, 200))),
    };
    let mut file = vec![1; L.stored_room];
    let mut back = vec![1; L.bytes];
    match store(&L, kind, &bytes, &mut file) {
        Err(r) => hold((2..8).contains(&r.number), "not stored")?,
        Ok(length) => {
            hold(length == 512 * bytes.len().div_ceil(506), "length of a stored file")?;
            hold(load(&L, kind, &file[..length], &mut back) == Ok(bytes.len()), "not loaded")?;
            hold(back[..bytes.len()] == bytes && back[bytes.len()..].iter().all(|&b| b == 0), "loaded otherwise")?;
        }
    }
    let damaged = files::damaged(rng, kind as u8, &bytes);
    match content(&L, kind, &damaged) {
        Err(_) => Ok(()),
        Ok(content) => {
            let length = store(&L, kind, &content, &mut file).map_err(|_| "loaded, and not stored")?;
            hold(file[..length] == damaged, "two files of one content")
        }
    }
}
