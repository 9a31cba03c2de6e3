//! The entry points as include/patch.h declares them, each behind a function on slices. A slice's pointer is never null and good for its length,
//! and a `&mut` overlaps nothing, which is all that the header asks.

/// How many numbers an entry point tells.
pub const ANSWER: usize = 16;

pub type Told = [u64; ANSWER];

/// A function on slices over an entry point: its inputs, a number if it takes one, and what it is lent.
macro_rules! entry {
    ($name:ident = $symbol:ident($($input:ident),*) $(with($number:ident: $type:ty))? $(lent($($lent:ident),*))?) => {
        pub fn $name($($input: &[u8],)* $($number: $type,)? $($($lent: &mut [u8],)*)?) -> Told {
            extern "C" {
                fn $symbol($($input: *const u8, _: usize,)* $($number: $type,)? $($($lent: *mut u8, _: usize,)*)? answer: *mut Told);
            }
            let mut answer = [0; ANSWER];
            unsafe { $symbol($($input.as_ptr(), $input.len(),)* $($number,)? $($($lent.as_mut_ptr(), $lent.len(),)*)? &mut answer) };
            answer
        }
    };
}

entry!(check_formula = patch_check_formula(formula));
entry!(check_term = patch_check_term(term));
entry!(check_proof = patch_check_proof(proof));
entry!(formula_text = patch_formula_text(formula) lent(out));
entry!(term_text = patch_term_text(term) lent(out));
entry!(child = patch_child(term) with(k: usize));
entry!(free_vars = patch_free_vars(term) lent(out));
entry!(substitute = patch_substitute(term, name, value) lent(out, scratch));
entry!(step = patch_step(term) lent(out, scratch));
entry!(normalize_bounded = patch_normalize_bounded(term) with(limit: u32) lent(out, scratch));
entry!(is_normal = patch_is_normal(term));
entry!(is_straight = patch_is_straight(term));
entry!(extract = patch_extract(proof) with(counter: u32) lent(out, scratch));
entry!(store_term = patch_store_term(term) lent(out));
entry!(store_proof = patch_store_proof(proof) lent(out));
entry!(load_term = patch_load_term(file) lent(out));
entry!(load_proof = patch_load_proof(file) lent(out));
