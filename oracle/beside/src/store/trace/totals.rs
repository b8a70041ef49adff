//! The totals of a trace, written from request 2027-07: four are counted in what the calls answer, and held is read from the store
//! at the end, so that none is made of the others. A wrong rule may be planted.
use super::wrong::Wrong;
use crate::store::answers::Answer;
use crate::store::calls::{Call, Hash};
use std::collections::BTreeSet;

/// A call that was made, and its answer.
pub type Made<'a> = (&'a Call, Answer);

/// The codes of rows.
const RESCUE: u64 = 1;
const CONSUMED: u64 = 2;

#[derive(Clone, Copy, Debug, PartialEq, Eq)]
pub struct Totals {
    pub accepted: u64,
    pub held: u64,
    pub rescued: u64,
    pub dead: u64,
    pub evicted: u64,
}

// ---- what a call adds

/// A push that was not refused.
fn accepted(made: &Made) -> u64 {
    u64::from(matches!(made, (Call::Push(_), Answer::Total(_))))
}

/// The rows of a poll that have this code.
fn rows((_, answer): &Made, code: u64) -> u64 {
    match answer {
        Answer::Rows(rows) => rows.iter().filter(|row| row[1] == code).count() as u64,
        _ => 0,
    }
}

fn rescued(made: &Made) -> u64 {
    rows(made, RESCUE)
}

/// The frames that finality lists.
fn dead(made: &Made) -> u64 {
    match made {
        (Call::Finality { .. }, Answer::Dead(list)) => list.len() as u64,
        _ => 0,
    }
}

/// The frames that eviction lists. A reorganisation lists frames too, and they stay.
fn evicted(made: &Made) -> u64 {
    match made {
        (Call::Evict { .. }, Answer::Tickets(list)) => list.len() as u64,
        _ => 0,
    }
}

fn sum(made: &[Made], adds: fn(&Made) -> u64) -> u64 {
    made.iter().map(adds).sum()
}

// ---- the totals

impl Totals {
    /// Those of the calls that were made, and of what is held at the end.
    pub fn of(made: &[Made], held: u64, wrong: Option<Wrong>) -> Totals {
        let [accepted, rescued, dead, evicted] = [accepted, rescued, dead, evicted].map(|adds| sum(made, adds));
        let totals = Totals { accepted, held, rescued, dead, evicted };
        wrong.map_or(totals, |wrong| totals.planted(made, wrong))
    }

    /// With a wrong rule in place of one of the counts.
    fn planted(mut self, made: &[Made], wrong: Wrong) -> Totals {
        match wrong {
            Wrong::AcceptedRefused => self.accepted = sum(made, |(call, _)| u64::from(matches!(call, Call::Push(_)))),
            Wrong::AcceptedCalls => self.accepted = sum(made, |(_, a)| u64::from(!matches!(a, Answer::Refused(_)))),
            Wrong::AcceptedOnce => self.accepted = hashes(made).len() as u64,
            Wrong::AcceptedTotal => self.accepted = last_total(made),
            Wrong::HeldLessRescued => self.held = self.accepted - self.rescued,
            Wrong::RescuedRows => self.rescued = sum(made, |(_, answer)| all_rows(answer)),
            Wrong::RescuedConsumed => self.rescued += sum(made, |made| rows(made, CONSUMED)),
            Wrong::RescuedPolls => self.rescued = sum(made, |made| rescued(made).min(1)),
            Wrong::DeadConsumed => self.dead += sum(made, |made| rows(made, CONSUMED)),
            Wrong::DeadEntered => self.dead = sum(made, |(_, answer)| u64::from(*answer == Answer::Truth(true))),
            Wrong::DeadEvicted => (self.dead, self.evicted) = (self.dead + self.evicted, 0),
            Wrong::EvictedDead => (self.dead, self.evicted) = (0, self.dead + self.evicted),
            Wrong::EvictedRevived => self.evicted = sum(made, |(_, answer)| tickets(answer)),
            Wrong::EvictedCalls => self.evicted = sum(made, |made| evicted(made).min(1)),
            _ => {}
        }
        self
    }

    /// Whether each frame that was accepted is held, or was rescued, is dead, or was evicted.
    pub fn add_up(&self) -> bool {
        self.accepted == self.held + self.rescued + self.dead + self.evicted
    }

    /// Each number with its word, in the order of the request.
    pub fn words(&self) -> [(&'static str, u64); 5] {
        [
            ("accepted", self.accepted),
            ("held", self.held),
            ("rescued", self.rescued),
            ("dead", self.dead),
            ("evicted", self.evicted),
        ]
    }

    /// The line that is printed of them.
    pub fn line(&self, wrong: Option<Wrong>) -> String {
        let mut words = self.words();
        match wrong {
            Some(Wrong::TotalsHeldLast) => words[1..].rotate_left(1),
            Some(Wrong::TotalsInAByte) => words.iter_mut().for_each(|(_, number)| *number %= 256),
            _ => {}
        }
        words.map(|(word, number)| format!("{word} {number}")).join(" ")
    }
}

// ---- what the wrong rules count

/// The hashes of the frames that were accepted, each once.
fn hashes(made: &[Made]) -> BTreeSet<Hash> {
    let hash = |made: &Made| match made {
        (Call::Push(frame), Answer::Total(_)) => Some(frame.hash),
        _ => None,
    };
    made.iter().filter_map(hash).collect()
}

/// What the last push answered that was not refused.
fn last_total(made: &[Made]) -> u64 {
    let total = |(_, answer): &Made| match answer {
        Answer::Total(total) => Some(*total),
        _ => None,
    };
    made.iter().rev().find_map(total).unwrap_or(0)
}

fn all_rows(answer: &Answer) -> u64 {
    match answer {
        Answer::Rows(rows) => rows.len() as u64,
        _ => 0,
    }
}

/// The frames that an eviction or a reorganisation lists.
fn tickets(answer: &Answer) -> u64 {
    match answer {
        Answer::Tickets(list) => list.len() as u64,
        _ => 0,
    }
}
