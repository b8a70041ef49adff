//! Our side of the store's speed table: C functions that make a store and run so many rounds on it, answering how many rows
//! or frames they saw. The frames and calls are those of the bench's loops for the Rust.

pub type Loop = fn(u64) -> u64;

pub struct StoreLoops {
    pub polls: Loop,
    pub guarded_polls: Loop,
    pub sweeps: Loop,
    pub polls_in_turn: Loop,
    pub push_and_rescue: Loop,
    pub finality: Loop,
}

#[cfg(store_linked)]
mod linked {
    extern "C" {
        fn gap_quarantine_polls(rounds: u64) -> u64;
        fn gap_quarantine_guarded_polls(rounds: u64) -> u64;
        fn gap_quarantine_sweeps(rounds: u64) -> u64;
        fn gap_quarantine_polls_in_turn(rounds: u64) -> u64;
        fn gap_quarantine_push_and_rescue(rounds: u64) -> u64;
        fn gap_quarantine_finality(rounds: u64) -> u64;
    }

    // The functions take and answer numbers only.
    pub fn loops() -> super::StoreLoops {
        super::StoreLoops {
            polls: |rounds| unsafe { gap_quarantine_polls(rounds) },
            guarded_polls: |rounds| unsafe { gap_quarantine_guarded_polls(rounds) },
            sweeps: |rounds| unsafe { gap_quarantine_sweeps(rounds) },
            polls_in_turn: |rounds| unsafe { gap_quarantine_polls_in_turn(rounds) },
            push_and_rescue: |rounds| unsafe { gap_quarantine_push_and_rescue(rounds) },
            finality: |rounds| unsafe { gap_quarantine_finality(rounds) },
        }
    }
}

/// The linked library, or none.
pub fn store_loops() -> Option<StoreLoops> {
    #[cfg(store_linked)]
    return Some(linked::loops());
    #[cfg(not(store_linked))]
    None
}
