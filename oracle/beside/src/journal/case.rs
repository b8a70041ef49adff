//! One journal with the slices that are lent for it, and all that the Rust answers.
use super::generate::{frames, park_bytes, room};
use super::original::Original;
use super::outcome::{with_frame, with_room, Fold, Restored, Room};

pub struct Case {
    pub seed: u64,
    pub journal: Vec<u8>,
    /// The fold on slices that are long enough.
    pub fold: Fold,
    /// The lengths that are lent, and the fold on slices of these lengths.
    pub room: Room,
    pub narrow: Fold,
    /// The pending records, and one record more.
    pub restores: Vec<Restore>,
}

pub struct Restore {
    pub record: Vec<u8>,
    /// The length of the slice lent, and what restore answers on it.
    pub length: usize,
    pub answer: Restored,
}

impl Case {
    pub fn new(journal: Vec<u8>, seed: u64, original: &Original) -> Self {
        let (fold, restored) = original.fold(&journal, seed);
        let mut records = fold.as_ref().map_or(Vec::new(), |f| f.pending.clone());
        let room = room(records.len(), seed);
        let narrow = with_room(fold.clone(), room);
        let alone = park_bytes(seed);
        let answers = restored.into_iter().chain(std::iter::once(original.restore(&alone, seed)));
        records.push(alone);
        let lengths = frames(records.len(), seed);
        let restores = records.into_iter().zip(answers).zip(lengths).map(|((record, answer), length)| Restore {
            record,
            length,
            answer: with_frame(answer, length),
        });
        Case { seed, journal, restores: restores.collect(), fold, room, narrow }
    }
}
