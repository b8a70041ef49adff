//! The short row of what the rules say of an entry, and what wrong rules make of it. Bit by bit: bit i stands for nonce
//! expected + i, and is set if that is listed; the count is the number of set bits.
use super::{Model, Poll, Said};
use crate::store::answers::ShortRow;
use crate::store::wrong::Wrong;

impl Model {
    pub(super) fn short_row(&self, said: &Said, poll: &Poll) -> ShortRow {
        let mark = self.mark(said, poll);
        let (expected, count) = (self.short_expected(said, poll), self.short_count(said, mark));
        [said.frame.ticket, said.code, expected, u64::from(mark), count]
    }

    /// The nonces that a mark has bits for.
    fn marked(&self, said: &Said, poll: &Poll) -> Vec<u64> {
        let f = &said.frame;
        match (self.wrong, said.code) {
            (Some(Wrong::ShortMarksConsumed), 2) => self.gap(f),
            (Some(Wrong::ShortMarksPredecessors), 3) => self.predecessors(f, poll.head),
            (Some(Wrong::ShortMarksKnown), 3) => {
                let mut list = self.predecessors(f, poll.head);
                list.retain(|n| poll.known.contains(n));
                list
            }
            _ => said.nonces.clone(),
        }
    }

    /// The nonce that bit i stands for, if it has 64 bits.
    fn nonce_of(&self, i: u64, said: &Said, poll: &Poll) -> Option<u64> {
        let expected = said.frame.expected;
        match self.wrong {
            Some(Wrong::ShortBitFromOne) => expected.checked_add(i + 1),
            Some(Wrong::ShortBitsHighestFirst) => expected.checked_add(15 - i),
            Some(Wrong::ShortBitsFromHead) => expected.max(poll.head).checked_add(i),
            Some(Wrong::ShortBitsByPlace) => said.nonces.get(i as usize).copied(),
            _ => expected.checked_add(i),
        }
    }

    fn mark(&self, said: &Said, poll: &Poll) -> u16 {
        let marked = self.marked(said, poll);
        let bits = if self.plants(Wrong::ShortFifteenBits) { 15 } else { 16 };
        let set = |i: &u64| self.nonce_of(*i, said, poll).is_some_and(|n| marked.contains(&n));
        (0..bits).filter(set).map(|i| 1 << i).sum()
    }

    /// The third number.
    fn short_expected(&self, said: &Said, poll: &Poll) -> u64 {
        let f = &said.frame;
        match self.wrong {
            Some(Wrong::ShortClaim) => f.claim,
            Some(Wrong::ShortHead) => poll.head,
            Some(Wrong::ShortFirstListed) => said.nonces.first().copied().unwrap_or(f.expected),
            Some(Wrong::ShortLowHalf) => f.expected & 0xffff_ffff,
            Some(Wrong::ShortConsumedZero) if said.code == 2 => 0,
            _ => f.expected,
        }
    }

    fn short_count(&self, said: &Said, mark: u16) -> u64 {
        match self.wrong {
            Some(Wrong::ShortCountSixteen) => 16,
            Some(Wrong::ShortCountOfGap) => self.gap(&said.frame).len() as u64,
            Some(Wrong::ShortCountToHighest) => u64::from(16 - mark.leading_zeros()),
            _ => u64::from(mark.count_ones()),
        }
    }
}
