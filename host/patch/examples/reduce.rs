//! From Rust: the term of a proof, the term reduced, and its text before and after. host/c/example.c prints the same from C.

/// Prints a term, then what it reduces to.
fn show(term: &[u8]) -> Result<(), patch::Refusal> {
    println!("{}", patch::term_text(term)?);
    let (told, reduced) = patch::normalize_bounded(term, 1000)?;
    println!("steps {}: {}", told.steps, patch::term_text(&reduced)?);
    Ok(())
}

fn main() -> Result<(), patch::Refusal> {
    // `let (x, y) = (y, ()) in (x y)`, on which two engines used to disagree
    show(&[4, 1, b'x', 1, b'y', 3, 1, 1, b'y', 2, 6, 1, 1, b'x', 1, 1, b'y'])?;
    // a Cut on 1 ⊗ 1, whose producer is a TensorIntro over two OneIntro, its consumer an Axiom
    let proof = [2, 3, 5, 5, 0, 2, 5, 0, 2, 3, 0, 0, 3, 0, 0, 1, 1, 1, 1, b'A', 0];
    show(&patch::Extractor { counter: 0 }.extract(&proof)?)
}
