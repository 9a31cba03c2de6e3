//! A process that dies in a call says in which case: what it touched outside of what it was lent cannot be told from a report alone.

use std::io::Write;
use std::sync::atomic::{AtomicU64, Ordering};

static SEED: AtomicU64 = AtomicU64::new(0);
static INDEX: AtomicU64 = AtomicU64::new(0);

/// The case that is now tried.
pub fn at(seed: u64, index: u64) {
    SEED.store(seed, Ordering::Relaxed);
    INDEX.store(index, Ordering::Relaxed);
}

fn say() {
    let (seed, index) = (SEED.load(Ordering::Relaxed), INDEX.load(Ordering::Relaxed));
    let _ = writeln!(
        std::io::stderr(),
        "soak: died in case {index} of seed {seed}: `differential soak-part {seed} {index} 1 {} 60` tries it again",
        index + 1
    );
}

/// From now on; AddressSanitizer takes the signals itself, and tells first what it saw.
#[cfg(feature = "sanitized")]
pub fn tell() {
    extern "C" {
        fn __asan_set_death_callback(callback: extern "C" fn());
    }
    extern "C" fn dying() {
        say();
    }
    unsafe { __asan_set_death_callback(dying) }
}

#[cfg(not(feature = "sanitized"))]
pub fn tell() {
    extern "C" {
        fn signal(number: i32, handler: usize) -> usize;
        fn raise(number: i32) -> i32;
    }
    extern "C" fn dying(number: i32) {
        const DEFAULT: usize = 0;
        say();
        unsafe {
            signal(number, DEFAULT);
            raise(number);
        }
    }
    // a page that nobody may touch, and what the system may say instead
    for number in [11, 7] {
        unsafe { signal(number, dying as extern "C" fn(i32) as usize) };
    }
}
