//! What a fold and a restore answer, in one form for all sides.
use super::records::PARK_SIZE;

/// The longest journal that folds.
pub const JOURNAL_LIMIT: usize = 65_536;

/// An output that is never too short: 64 records.
pub const ENOUGH: usize = 64 * PARK_SIZE;

/// How long the second slice of a fold is, and the slice of a restore.
pub const TOTALS_SIZE: usize = 40;
pub const FRAME_SIZE: usize = 92;

/// The lengths of the two slices that are lent to a fold.
#[derive(Clone, Copy, Debug, PartialEq, Eq)]
pub struct Room {
    pub out: usize,
    pub totals: usize,
}

/// Room that refuses no fold.
pub const AMPLE: Room = Room { out: ENOUGH, totals: TOTALS_SIZE };

#[derive(Clone, Debug, PartialEq, Eq)]
pub struct Folded {
    /// The pending records as QP, in key order.
    pub pending: Vec<Vec<u8>>,
    pub skipped: u64,
    pub migrated: u64,
    pub degraded: u64,
    pub end: usize,
}

/// Number and offset of a refusal.
pub type Fold = Result<Folded, (u8, usize)>;

/// Hash, from, expected, claim, chain_id, gas, ticket: 92 bytes; or a refusal's number.
pub type Restored = Result<Vec<u8>, u8>;

pub fn frame(hash: &[u8], from: &[u8], numbers: [u64; 5]) -> Vec<u8> {
    let mut out = hash.to_vec();
    out.extend_from_slice(from);
    numbers.iter().for_each(|n| out.extend_from_slice(&n.to_le_bytes()));
    out
}

/// 13: the output is too short for the records, or the second slice is not 40 bytes; the offset is the end.
pub fn with_room(fold: Fold, room: Room) -> Fold {
    let folded = fold?;
    if folded.pending.len() * PARK_SIZE > room.out || room.totals != TOTALS_SIZE {
        return Err((13, folded.end));
    }
    Ok(folded)
}

/// 13, last: the slice lent to restore is not 92 bytes.
pub fn with_frame(restored: Restored, length: usize) -> Restored {
    let frame = restored?;
    if length != FRAME_SIZE {
        return Err(13);
    }
    Ok(frame)
}

/// What the fold leaves in the two slices, and what it returns.
#[derive(Clone, Debug, PartialEq, Eq)]
pub struct Written {
    pub code: u64,
    pub out: Vec<u8>,
    pub totals: Vec<u8>,
}

/// The byte that lent slices are filled with, so that a stray write shows.
pub const FILL: u8 = 0xa5;

pub fn written(fold: &Fold, room: Room) -> Written {
    let mut w = Written { code: 0, out: vec![FILL; room.out], totals: vec![FILL; room.totals] };
    match fold {
        Err((number, offset)) => w.code = u64::from(*number) + 256 * *offset as u64,
        Ok(f) => {
            let records = f.pending.concat();
            w.out[..records.len()].copy_from_slice(&records);
            let numbers = [f.pending.len() as u64, f.skipped, f.migrated, f.degraded, f.end as u64];
            w.totals = numbers.iter().flat_map(|n| n.to_le_bytes()).collect();
        }
    }
    w
}

/// What restore returns, and what it leaves in the slice lent to it.
pub fn handed(restored: &Restored, length: usize) -> (u64, Vec<u8>) {
    match restored {
        Err(number) => (u64::from(*number), vec![FILL; length]),
        Ok(bytes) => (0, bytes.clone()),
    }
}

/// Document 01's line of the program.
pub fn line(fold: &Fold) -> String {
    match fold {
        Err((number, offset)) => format!("refused {number} at {offset}"),
        Ok(f) => format!(
            "pending {} skipped {} migrated {} degraded {} end {}",
            f.pending.len(),
            f.skipped,
            f.migrated,
            f.degraded,
            f.end
        ),
    }
}
