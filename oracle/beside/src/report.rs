//! Differences are counted all, and the first few told in full.
use std::sync::atomic::{AtomicUsize, Ordering};

/// How many differences of a run are told.
const TOLD: usize = 20;

static SEEN: AtomicUsize = AtomicUsize::new(0);

/// Whether this difference is still to be told.
pub fn tell() -> bool {
    let seen = SEEN.fetch_add(1, Ordering::Relaxed);
    if seen == TOLD {
        println!("further differences are counted and not told");
    }
    seen < TOLD
}
