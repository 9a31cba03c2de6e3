//! Prints the text of a formula, and what is said of one that is cut short.

fn main() {
    // (A ⊸ (B ⊗ !C⊥))
    let formula = [13, 1, 1, b'A', 3, 1, 1, b'B', 11, 2, 1, b'C'];
    for bytes in [&formula[..], &formula[..7]] {
        match patch::formula_text(bytes) {
            Ok(text) => println!("{text}"),
            Err(refusal) => println!("{refusal}"),
        }
    }
}
