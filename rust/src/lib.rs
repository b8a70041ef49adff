//! The proved fold of a quarantine journal, and the restore and the writers of its records, with a safe interface.
//!
//! A journal is made of five records: [`ParkRecord`], [`TentativeEntryRecord`], [`ResolveRecord`], [`LegacyParkRecord`] and
//! [`OtherRecord`]. Each is written by its method `write`. [`fold`] reads a journal and writes the park records that are
//! still pending; [`restore`] makes a [`Frame`] of each. All answer a [`Refusal`] on any input that they do not take.
//!
//! ```
//! use gap_quarantine_journal::{fold, restore, Fidelity, OtherRecord, ParkRecord, Refusal, ENOUGH, PARK};
//!
//! let text = format!("0x{}", "aa".repeat(32));
//! let park = ParkRecord {
//!     version: 2,
//!     text: text.as_bytes(),
//!     from: Some([1; 20]),
//!     sender: None,
//!     chain_id: 1,
//!     gas: 21000,
//!     wire: true,
//!     list: true,
//!     claimed_nonce: 8,
//!     expected_nonce: 5,
//!     parked_at: 0,
//!     fidelity: Fidelity::Full,
//!     tentative: None,
//!     ticket: 3,
//! };
//! let mut journal = [0; 1000];
//! let mut end = park.write(&mut journal)?;
//! end += OtherRecord { ticket: 4 }.write(&mut journal[end..])?;
//!
//! let mut out = [0; ENOUGH];
//! let totals = fold(&journal[..end], &mut out)?;
//! assert_eq!((totals.pending, totals.skipped, totals.end), (1, 1, 250));
//! for record in out.chunks(PARK).take(totals.pending) {
//!     match restore(record) {
//!         Ok(frame) => println!("ticket {}", frame.ticket),
//!         Err(refusal) => println!("{refusal}"),
//!     }
//! }
//!
//! let refusal = fold(b"??", &mut out).unwrap_err();
//! assert_eq!(refusal, Refusal::UnknownMark { offset: 0 });
//! assert_eq!(refusal.to_string(), "refusal 10 at byte 0: unknown mark");
//! # Ok::<(), Refusal>(())
//! ```

#![warn(missing_docs)]

mod record;
mod refusal;
mod writers;

pub use record::{
    ConsumedKind, Fidelity, LegacyParkRecord, OtherRecord, ParkRecord, Resolution, ResolveRecord, TentativeEntryRecord,
    TentativeRecord, LEGACY, OTHER, PARK, RESOLVE, TENTATIVE,
};
pub use refusal::Refusal;

/// An output that is never too short: 64 records.
pub const ENOUGH: usize = 64 * PARK;

/// What a fold counts, and the offset at which it ended.
#[derive(Debug, Clone, Copy, PartialEq, Eq)]
pub struct Totals {
    /// The records written, [`PARK`] bytes each.
    pub pending: usize,
    /// The lines that are no record, and the older parks without a hash or without a claimed nonce.
    pub skipped: usize,
    /// The older parks of which a record was made, also if it was replaced or removed later.
    pub migrated: usize,
    /// Those of the migrated that are degraded.
    pub degraded: usize,
    /// Where the records that were read end: the journal's length, or the offset of an unfinished last record.
    pub end: usize,
}

/// The frame of a park record.
#[derive(Debug, Clone, Copy, PartialEq, Eq)]
pub struct Frame {
    /// The hash that the record's text parses to.
    pub hash: [u8; 32],
    /// The sender's address.
    pub from: [u8; 20],
    /// The nonce that was expected of the sender when the frame was parked.
    pub expected: u64,
    /// The nonce that the frame claims.
    pub claim: u64,
    /// The chain's number; 0 of a degraded record.
    pub chain_id: u64,
    /// The gas limit; 0 of a degraded record.
    pub gas: u64,
    /// The number that stands for the frame.
    pub ticket: u64,
}

extern "C" {
    fn gap_quarantine_fold(
        journal: *const u8,
        journal_len: usize,
        out: *mut u8,
        out_len: usize,
        totals: *mut u8,
        totals_len: usize,
    ) -> u64;

    fn gap_quarantine_restore(record: *const u8, record_len: usize, frame: *mut u8, frame_len: usize) -> u64;
}

/// Folds a journal. The pending park records, [`PARK`] bytes each in the order of their texts, go to the front of `out`, and
/// what lies past them stays as it was. [`ENOUGH`] bytes are never too short.
///
/// # Errors
///
/// Refusals 9 to 13, each with its offset; `out` stays as it was.
///
/// # Panics
///
/// If the library returns a code that the proved contract of `gap_quarantine_fold` rules out.
pub fn fold(journal: &[u8], out: &mut [u8]) -> Result<Totals, Refusal> {
    let mut totals = [0u8; 40];
    // SAFETY: the function reads and writes within the lengths that it is given, and the slices cannot overlap.
    let code = unsafe {
        gap_quarantine_fold(journal.as_ptr(), journal.len(), out.as_mut_ptr(), out.len(), totals.as_mut_ptr(), totals.len())
    };
    if code != 0 {
        return Err(Refusal::of_fold(code));
    }
    let [pending, skipped, migrated, degraded, end] = numbers(&totals).map(|n| n as usize);
    Ok(Totals { pending, skipped, migrated, degraded, end })
}

/// Restores the frame of one park record's bytes, as a fold writes them.
///
/// # Errors
///
/// Refusals 11, 14, 15 and 16, without an offset.
///
/// # Panics
///
/// If the library returns a code that the proved contract of `gap_quarantine_restore` rules out.
pub fn restore(record: &[u8]) -> Result<Frame, Refusal> {
    let mut frame = [0u8; 92];
    // SAFETY: the function reads and writes within the lengths that it is given, and the slices cannot overlap.
    let code = unsafe { gap_quarantine_restore(record.as_ptr(), record.len(), frame.as_mut_ptr(), frame.len()) };
    if code != 0 {
        return Err(Refusal::of_restore(code));
    }
    let [expected, claim, chain_id, gas, ticket] = numbers(&frame[52..]);
    let (hash, from) = (frame[..32].try_into().unwrap(), frame[32..52].try_into().unwrap());
    Ok(Frame { hash, from, expected, claim, chain_id, gas, ticket })
}

/// Five little-endian numbers.
fn numbers(bytes: &[u8]) -> [u64; 5] {
    std::array::from_fn(|i| u64::from_le_bytes(bytes[8 * i..8 * i + 8].try_into().unwrap()))
}
