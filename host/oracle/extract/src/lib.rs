//! The ported Rust, unchanged: extraction and reduction of docs/src.

#[path = "../../../../docs/src/crates/lolli-extract/src/extract.rs"]
pub mod extract;
#[path = "../../../../docs/src/crates/lolli-extract/src/normalize.rs"]
pub mod normalize;

pub use extract::Extractor;
pub use normalize::{is_normal, normalize, normalize_bounded, step};

/// An extractor at a given counter: the Rust has no call for it, and counting up by `fresh_var` would take minutes near 100,000,000.
pub fn extractor_at(counter: usize) -> Extractor {
    // Extractor has the counter as its one field, so the sizes are equal; the test below holds it to what `fresh_var` prints.
    unsafe { std::mem::transmute::<usize, Extractor>(counter) }
}

/// The counter that an extractor stands at, read off the next name.
pub fn counter_of(mut extractor: Extractor) -> usize {
    extractor.fresh_var()[1..].parse().unwrap()
}

#[cfg(test)]
mod tests {
    use super::*;

    #[test]
    fn an_extractor_starts_where_it_is_told() {
        assert_eq!(extractor_at(0).fresh_var(), Extractor::new().fresh_var());
        let mut counted = Extractor::new();
        for _ in 0..10 {
            counted.fresh_var();
        }
        assert_eq!(counter_of(counted), 10);
        assert_eq!(counter_of(extractor_at(99_999_999)), 99_999_999);
        let mut raised = extractor_at(7);
        raised.fresh_var();
        assert_eq!(counter_of(raised), 8);
    }
}
