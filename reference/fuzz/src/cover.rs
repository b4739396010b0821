//! What the reference's code went through, as the compiler's 8-bit counters tell it. Where it was compiled without them
//! there are none, and everything here says that nothing is new.

use std::slice;
use std::sync::atomic::{AtomicPtr, AtomicUsize, Ordering};

static START: AtomicPtr<u8> = AtomicPtr::new(std::ptr::null_mut());
static LENGTH: AtomicUsize = AtomicUsize::new(0);

/// Called before `main` by the code that the compiler adds.
///
/// # Safety
///
/// The counters lie from `start` to `stop` for as long as the program runs.
#[no_mangle]
pub unsafe extern "C" fn __sanitizer_cov_8bit_counters_init(start: *mut u8, stop: *mut u8) {
    START.store(start, Ordering::Relaxed);
    LENGTH.store(stop as usize - start as usize, Ordering::Relaxed);
}

/// All counters there are.
pub fn all() -> usize {
    LENGTH.load(Ordering::Relaxed)
}

fn counters() -> &'static mut [u8] {
    match all() {
        0 => &mut [],
        // The compiler's code counts here, and nothing else holds these bytes while it does.
        length => unsafe { slice::from_raw_parts_mut(START.load(Ordering::Relaxed), length) },
    }
}

pub fn reset() {
    counters().fill(0);
}

/// A count's bucket as a bit: that something happens twice is new, that it happens 40 times after 39 is not.
fn bucket(count: u8) -> u8 {
    match count {
        0 => 0,
        1 => 1,
        2 => 2,
        3 => 4,
        4..=7 => 8,
        8..=15 => 16,
        16..=31 => 32,
        32..=127 => 64,
        _ => 128,
    }
}

/// The buckets of every counter that were met so far.
pub struct Seen(Vec<u8>);

impl Seen {
    pub fn nothing() -> Seen {
        Seen(vec![0; all()])
    }

    /// Takes in what the counters say now; whether any of it is new.
    pub fn take(&mut self) -> bool {
        let mut new = false;
        for (counts, seen) in counters().chunks(8).zip(self.0.chunks_mut(8)) {
            // Most are 0, eight at a time.
            if matches!(counts.try_into().map(u64::from_ne_bytes), Ok(0)) {
                continue;
            }
            for (&count, seen) in counts.iter().zip(seen) {
                new |= bucket(count) & !*seen != 0;
                *seen |= bucket(count);
            }
        }
        new
    }

    /// Whether each counter was reached.
    pub fn reached(&self) -> impl Iterator<Item = bool> + '_ {
        self.0.iter().map(|&buckets| buckets != 0)
    }
}
