//! Document 01's table of refusals for the store, in its order, that of a sweep from request 2027-05, and what wrong rules make
//! of them.
use super::answers::{Entry, Guard, State};
use super::calls::{Content, Form, Frame, GuardCall, Sweep};
use super::wrong::Wrong;

/// Whether a number is over its limit, or over what a wrong rule makes of it: one more, or one less.
fn over(wrong: Option<Wrong>, number: u64, limit: u64, more: Wrong, less: Wrong) -> bool {
    let limit = match wrong {
        Some(w) if w == more => limit + 1,
        Some(w) if w == less => limit - 1,
        _ => limit,
    };
    number > limit
}

/// The first refusal of a table that holds. In a wrong order two of them have changed places.
fn first(wrong: Option<Wrong>, table: &mut [(u8, bool)]) -> Option<u8> {
    let (a, b) = match wrong {
        Some(Wrong::TwoBeforeOne) => (1, 2),
        Some(Wrong::FourBeforeThree) => (3, 4),
        Some(Wrong::SevenBeforeSix) => (6, 7),
        Some(Wrong::EightBeforeSix) => (6, 8),
        Some(Wrong::EightBeforeSeven) => (7, 8),
        Some(Wrong::SweepEighteenFirst) => (17, 18),
        Some(Wrong::SweepThreeFirst) => (17, 3),
        Some(Wrong::SweepThreeBefore18) => (18, 3),
        Some(Wrong::SweepFiveFirst) => (17, 5),
        Some(Wrong::SweepFiveBefore18) => (18, 5),
        Some(Wrong::SweepFiveBefore3) => (3, 5),
        _ => (0, 0),
    };
    let place = |number: u8| table.iter().position(|(n, _)| *n == number);
    if let (Some(i), Some(j)) = (place(a), place(b)) {
        table.swap(i, j);
    }
    table.iter().find(|(_, holds)| *holds).map(|(number, _)| *number)
}

pub fn of_push(wrong: Option<Wrong>, f: &Frame, entries: &[Entry]) -> Option<u8> {
    let gap = f.claim.saturating_sub(f.expected);
    let below = wrong == Some(Wrong::BelowRefused) && f.claim < f.expected;
    let wide = over(wrong, gap, 16, Wrong::SeventeenTaken, Wrong::SixteenRefused) || below;
    let counts = |e: &&Entry| e.state == State::Tracked || wrong != Some(Wrong::FullByTracked);
    let then = entries.iter().filter(counts).count() as u64 + 1;
    let full = over(wrong, then, 64, Wrong::SixtyFifthHeld, Wrong::SixtyFourthRefused);
    first(wrong, &mut [(1, wide), (2, full)])
}

/// In a short poll, a wrong rule for its limits alone is the one for the limits of both.
fn in_form(wrong: Option<Wrong>, form: Form) -> Option<Wrong> {
    match (wrong, form) {
        (Some(Wrong::ShortKnownOneMore), Form::Short) => Some(Wrong::KnownOneMore),
        (Some(Wrong::ShortKnownOneLess), Form::Short) => Some(Wrong::KnownOneLess),
        (Some(Wrong::ShortPairsOneMore), Form::Short) => Some(Wrong::PairsOneMore),
        (Some(Wrong::ShortPairsOneLess), Form::Short) => Some(Wrong::PairsOneLess),
        (Some(Wrong::ShortHashBytesIgnored), Form::Short) => Some(Wrong::HashBytesIgnored),
        (Some(Wrong::ShortFourBeforeThree), Form::Short) => Some(Wrong::FourBeforeThree),
        (wrong, _) => wrong,
    }
}

pub fn of_poll(wrong: Option<Wrong>, form: Form, known: &[u64], content: Option<&Content>) -> Option<u8> {
    let never = |never: Wrong| form == Form::Short && wrong == Some(never);
    let (never_3, never_4) = (never(Wrong::ShortNever3), never(Wrong::ShortNever4));
    let wrong = in_form(wrong, form);
    let many = over(wrong, known.len() as u64, 256, Wrong::KnownOneMore, Wrong::KnownOneLess);
    let unfit = content.is_some_and(|c| {
        let (bytes, due) = (c.hashes.len(), 32 * c.nonces.len());
        let unequal = match wrong {
            Some(Wrong::HashBytesIgnored) => false,
            Some(Wrong::HashBytesFewer) => bytes > due,
            Some(Wrong::HashBytesMore) => bytes < due,
            Some(Wrong::HashBytesWhole) => bytes % 32 != 0,
            _ => bytes != due,
        };
        unequal || over(wrong, c.nonces.len() as u64, 64, Wrong::PairsOneMore, Wrong::PairsOneLess)
    });
    first(wrong, &mut [(3, many && !never_3), (4, unfit && !never_4)])
}

/// Whether the sender bytes do not fit the heads, or the heads the counts.
fn unequal(wrong: Option<Wrong>, s: &Sweep) -> bool {
    let (bytes, heads, counts) = (s.senders.len(), s.heads.len(), s.counts.len());
    let senders = match wrong {
        Some(Wrong::SweepSendersIgnored) => false,
        Some(Wrong::SweepSendersMore) => bytes < 20 * heads,
        Some(Wrong::SweepSendersPart) => bytes / 20 != heads,
        _ => bytes != 20 * heads,
    };
    let heads = match wrong {
        Some(Wrong::SweepHeadsMore) => heads < counts,
        Some(Wrong::SweepCountsMore) => heads > counts,
        _ => heads != counts,
    };
    senders || heads
}

/// Whether the counts do not sum to the number of nonces. A sum of 128 bits does not wrap.
fn other_sum(wrong: Option<Wrong>, s: &Sweep) -> bool {
    let sum: u128 = s.counts.iter().map(|count| u128::from(*count)).sum();
    let nonces = s.nonces.len() as u128;
    match wrong {
        Some(Wrong::SweepNoncesLeft) => sum > nonces,
        Some(Wrong::SweepNoncesLacking) => sum < nonces,
        Some(Wrong::SweepSumOf64Bits) => u128::from(sum as u64) != nonces,
        Some(Wrong::SweepSumOf32Bits) => u128::from(sum as u32) != nonces,
        _ => sum != nonces,
    }
}

/// Of a sweep that needs so many numbers and is lent so many.
pub fn of_sweep(wrong: Option<Wrong>, s: &Sweep, need: usize, lent: usize) -> Option<u8> {
    let many = over(wrong, s.heads.len() as u64, 64, Wrong::SweepOneMore, Wrong::SweepOneLess);
    let none = wrong == Some(Wrong::SweepNoneRefused) && s.heads.is_empty();
    let big = match wrong {
        Some(Wrong::SweepThreeInTurn) => false,
        Some(Wrong::SweepThreeOfAll) => s.nonces.len() > 256,
        _ => s.counts.iter().any(|count| over(wrong, *count, 256, Wrong::SweepCountOneMore, Wrong::SweepCountOneLess)),
    };
    let short = match wrong {
        Some(Wrong::SweepFiveOneMore) => lent <= need,
        Some(Wrong::SweepFiveOneLess) => lent + 1 < need,
        _ => lent < need,
    };
    first(wrong, &mut [(17, many || none || unequal(wrong, s)), (18, other_sum(wrong, s)), (3, big), (5, short)])
}

pub fn of_guard(wrong: Option<Wrong>, g: &GuardCall, guards: &[Guard]) -> Option<u8> {
    let many = over(wrong, g.predecessors.len() as u64, 16, Wrong::PredecessorsOneMore, Wrong::PredecessorsOneLess);
    let part = g.content.len() % 32 != 0 && wrong != Some(Wrong::ContentPart);
    let unfit = part || over(wrong, g.content.len() as u64 / 32, 16, Wrong::ContentOneMore, Wrong::ContentOneLess);
    let new = guards.iter().all(|held| held.hash != g.hash) || wrong == Some(Wrong::GuardRefusedByCount);
    let full = new && over(wrong, guards.len() as u64 + 1, 64, Wrong::SixtyFifthGuard, Wrong::SixtyFourthGuardRefused);
    first(wrong, &mut [(6, many), (7, unfit), (8, full)])
}
