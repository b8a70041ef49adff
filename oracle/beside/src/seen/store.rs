//! The kinds that one call of the store meets. What a frame was before the call is read from the model, which is held beside
//! the Rust on every call.
use super::{Kind, Seen};
use crate::store::answers::{Answer, Entry, Row, ShortRow, State, Whose};
use crate::store::calls::{Address, Call, Form, Side, Sweep};
use crate::store::model::Model;

/// Notes what is answered to a call, made when the store was as the model has it.
pub fn see_call(seen: &mut Seen, call: &Call, before: &Model, answer: &Answer) {
    if let Some(whose) = answer.whose() {
        seen.see(of_whose(call, before, whose));
    }
    match (call, answer.told()) {
        (Call::Poll { sender, head, known, .. }, Answer::Rows(rows)) => {
            let rows: Vec<Listed> = rows.iter().map(of_long).collect();
            polled(*sender, *head, known, before, &rows).into_iter().for_each(|kind| seen.see(kind));
        }
        (Call::Poll { sender, head, known, .. }, Answer::Short(rows)) => {
            rows.iter().for_each(|row| see_mark(seen, row));
            let rows: Vec<Listed> = rows.iter().map(of_short).collect();
            polled(*sender, *head, known, before, &rows).into_iter().for_each(|kind| seen.see(in_short(kind)));
        }
        (Call::Sweep(s), Answer::Rows(rows)) => see_sweep(seen, s, before, rows),
        (Call::Sweep(s), Answer::Refused(number)) => seen.see(refused_sweep(s, *number)),
        (Call::Guard(g), Answer::Done) => {
            let held = before.guards.iter().any(|held| held.hash == g.hash);
            seen.see(if held { Kind::GuardReplaced } else { Kind::GuardNew });
        }
        (_, Answer::Dead(list)) => {
            list.iter().for_each(|(_, c)| seen.see(consumed(c.kind, DEAD)));
            if list.is_empty() {
                seen.see(Kind::DeadNone);
            }
        }
        (_, told) => seen.see(kind(call, told)),
    }
}

/// Place 0, behind tracked entries of the sender only, or behind a tentative one.
fn of_whose(call: &Call, before: &Model, whose: Whose) -> Kind {
    let [first, behind_tracked, behind_tentative] = match call {
        Call::Enter { .. } => [Kind::EnterFirst, Kind::EnterBehindTracked, Kind::EnterBehindTentative],
        Call::State(_) => [Kind::StateFirst, Kind::StateBehindTracked, Kind::StateBehindTentative],
        Call::Boundary(_) => [Kind::BoundaryFirst, Kind::BoundaryBehindTracked, Kind::BoundaryBehindTentative],
        _ => panic!("{} does not answer so", call.mark()),
    };
    let mut earlier = before.entries.iter().filter(|e| e.frame.from == whose.sender).take(whose.place as usize);
    match whose.place {
        0 => first,
        _ if earlier.all(|e| e.state == State::Tracked) => behind_tracked,
        _ => behind_tentative,
    }
}

const DEAD: [Kind; 3] = [Kind::DeadMined, Kind::DeadTaken, Kind::DeadTakenBy];
const STATE: [Kind; 3] = [Kind::StateMined, Kind::StateTaken, Kind::StateTakenBy];

/// Kind 1, 2 or 3 of a consumed nonce.
fn consumed(number: u8, kinds: [Kind; 3]) -> Kind {
    kinds[usize::from(number) - 1]
}

/// The kind of an answer that has one kind whatever the store was.
fn kind(call: &Call, answer: &Answer) -> Kind {
    let either = |first: bool, yes: Kind, no: Kind| if first { yes } else { no };
    match (call, answer) {
        (Call::Poll { form: Form::Short, .. }, Answer::Refused(number)) => in_short(refused(*number)),
        (_, Answer::Refused(number)) => refused(*number),
        (_, Answer::Total(_)) => Kind::PushTotal,
        (Call::Enter { .. }, Answer::Truth(b)) => either(*b, Kind::EnterTrue, Kind::EnterFalse),
        (_, Answer::Truth(b)) => either(*b, Kind::HasGuardTrue, Kind::HasGuardFalse),
        (Call::Evict { .. }, Answer::Tickets(list)) => either(list.is_empty(), Kind::EvictNone, Kind::EvictSome),
        (_, Answer::Tickets(list)) => either(list.is_empty(), Kind::ReorgNone, Kind::ReorgSome),
        (_, Answer::State(None)) => Kind::StateNone,
        (_, Answer::State(Some(State::Tracked))) => Kind::StateTracked,
        (_, Answer::State(Some(State::Tentative(c)))) => consumed(c.kind, STATE),
        (_, Answer::Boundary(n)) => either(n.is_none(), Kind::BoundaryNone, Kind::BoundarySome),
        (_, Answer::Blocks(list)) => either(list.is_empty(), Kind::BlocksNone, Kind::BlocksSome),
        (_, Answer::Numbers(list)) => either(list.is_empty(), Kind::KnownGapNone, Kind::KnownGapSome),
        (_, Answer::Senders(list)) => either(list.is_empty(), Kind::SendersNone, Kind::SendersSome),
        (Call::Len, Answer::Number(n)) => either(*n == 0, Kind::LenZero, Kind::LenMore),
        (_, Answer::Number(n)) => either(*n == 0, Kind::TentativeZero, Kind::TentativeMore),
        (_, Answer::Dump(_)) => Kind::Dump,
        (_, Answer::Rows(_) | Answer::Short(_) | Answer::Done | Answer::Dead(_) | Answer::Of(..)) => {
            panic!("{} does not answer so", call.mark())
        }
    }
}

fn refused(number: u8) -> Kind {
    match number {
        1 => Kind::Push1,
        2 => Kind::Push2,
        3 => Kind::Poll3,
        4 => Kind::Poll4,
        6 => Kind::Guard6,
        7 => Kind::Guard7,
        8 => Kind::Guard8,
        _ => panic!("no script is refused {number}"),
    }
}

// ---- polls

/// A row's code, and the nonces that it lists.
type Listed = (u64, Vec<u64>);

fn of_long(row: &Row) -> Listed {
    (row[1], row[3..3 + row[2] as usize].to_vec())
}

fn of_short(row: &ShortRow) -> Listed {
    let set = (0..16).filter(|i| (row[3] >> i) & 1 == 1);
    (row[1], set.map(|i| row[2] + i).collect())
}

/// The kinds of the marks that a short row may have.
fn see_mark(seen: &mut Seen, row: &ShortRow) {
    let (expected, mark) = (row[2], row[3] as u16);
    let from_lowest = mark.checked_shr(mark.trailing_zeros()).unwrap_or(0);
    let kinds = [
        (Kind::MarkSeveral, mark.count_ones() > 1),
        (Kind::MarkBroken, from_lowest & from_lowest.wrapping_add(1) != 0),
        (Kind::MarkHighest, mark >> 15 == 1),
        (Kind::MarkFull, mark == u16::MAX),
        (Kind::MarkNearEnd, mark != 0 && expected > u64::MAX - 15),
    ];
    kinds.into_iter().filter(|(_, holds)| *holds).for_each(|(kind, _)| seen.see(kind));
}

/// The kind of a short poll beside a long one's.
fn in_short(kind: Kind) -> Kind {
    match kind {
        Kind::Poll3 => Kind::ShortPoll3,
        Kind::Poll4 => Kind::ShortPoll4,
        Kind::PollNobody => Kind::ShortNobody,
        Kind::RescueNonces => Kind::ShortRescueNonces,
        Kind::RescueNone => Kind::ShortRescueNone,
        Kind::Consumed => Kind::ShortConsumed,
        Kind::ConsumedDegraded => Kind::ShortConsumedDegraded,
        Kind::WaitsUnknown => Kind::ShortWaitsUnknown,
        Kind::WaitsGuardNonces => Kind::ShortWaitsGuardNonces,
        Kind::WaitsGuardNone => Kind::ShortWaitsGuardNone,
        Kind::WaitsDegradedNonces => Kind::ShortWaitsDegradedNonces,
        Kind::WaitsDegradedNone => Kind::ShortWaitsDegradedNone,
        Kind::SilentHeld => Kind::ShortSilentHeld,
        Kind::SilentTentative => Kind::ShortSilentTentative,
        other => panic!("{other:?} is no poll's"),
    }
}

/// The kinds of a poll: every entry of the sender has a row, or a reason to have none.
fn polled(sender: Address, head: u64, known: &[u64], before: &Model, rows: &[Listed]) -> Vec<Kind> {
    let mut rows = rows.iter();
    let mut kinds = Vec::new();
    let mut any = false;
    for entry in before.entries.iter().filter(|e| e.frame.from == sender) {
        any = true;
        if entry.state != State::Tracked {
            kinds.push(Kind::SilentTentative);
        } else if before.degraded(&entry.frame) && entry.held == Some(head) && head <= entry.frame.claim {
            kinds.push(Kind::SilentHeld);
        } else if let Some(row) = rows.next() {
            kinds.push(of_row(row, entry, known, before));
        }
    }
    if !any {
        kinds.push(Kind::PollNobody);
    }
    kinds
}

/// A guard's row lists predecessors, which are all known; a row for want of nonces lists those that are not.
fn of_row((code, nonces): &Listed, entry: &Entry, known: &[u64], before: &Model) -> Kind {
    match (code, before.degraded(&entry.frame), nonces.is_empty()) {
        (1, _, true) => Kind::RescueNone,
        (1, _, false) => Kind::RescueNonces,
        (2, false, _) => Kind::Consumed,
        (2, true, _) => Kind::ConsumedDegraded,
        (_, true, true) => Kind::WaitsDegradedNone,
        (_, true, false) => Kind::WaitsDegradedNonces,
        (_, false, true) => Kind::WaitsGuardNone,
        (_, false, false) if known.contains(&nonces[0]) => Kind::WaitsGuardNonces,
        _ => Kind::WaitsUnknown,
    }
}

// ---- sweeps

/// Which refusal it is, and for what.
fn refused_sweep(s: &Sweep, number: u8) -> Kind {
    let (heads, nonces) = (s.heads.len(), s.nonces.len() as u128);
    let sum: u128 = s.counts.iter().map(|count| u128::from(*count)).sum();
    match number {
        17 if s.senders.len() != 20 * heads => Kind::Sweep17Bytes,
        17 if s.counts.len() != heads => Kind::Sweep17Counts,
        17 => Kind::Sweep17Senders,
        18 if sum < nonces => Kind::Sweep18Less,
        18 if u128::from(sum as u64) == nonces => Kind::Sweep18Wraps,
        18 => Kind::Sweep18More,
        3 => Kind::Sweep3,
        _ => panic!("no script's sweep is refused {number}"),
    }
}

/// The kinds of a sweep and of its polls. How many of the rows are of which poll is read from the model, on which they are made.
fn see_sweep(seen: &mut Seen, s: &Sweep, before: &Model, rows: &[Row]) {
    let mut model = before.clone();
    let mut rows = rows.iter();
    let mut tellers = Vec::new();
    for poll in s.polls() {
        let Call::Poll { sender, head, known, .. } = &poll else {
            panic!("a sweep is read as polls");
        };
        let store = model.clone();
        let Answer::Rows(own) = model.answer(&poll) else {
            panic!("{} does not answer so", poll.mark());
        };
        let own: Vec<Listed> = rows.by_ref().take(own.len()).map(of_long).collect();
        polled(*sender, *head, known, &store, &own).into_iter().for_each(|kind| seen.see(in_sweep(kind)));
        if !own.is_empty() {
            tellers.push(*sender);
        }
    }
    let mut senders = tellers.clone();
    senders.sort_unstable();
    senders.dedup();
    let kinds = [
        (Kind::SweepOfNone, s.heads.is_empty()),
        (Kind::SweepOf64, s.heads.len() == 64),
        (Kind::SweepSeveral, senders.len() > 1),
        (Kind::SweepTwice, senders.len() < tellers.len()),
        (Kind::Sweep256, s.counts.contains(&256)),
    ];
    kinds.into_iter().filter(|(_, holds)| *holds).for_each(|(kind, _)| seen.see(kind));
}

/// The kind of a poll of a sweep beside a long one's; with no content, no guard matches.
fn in_sweep(kind: Kind) -> Kind {
    match kind {
        Kind::PollNobody => Kind::SweepNobody,
        Kind::RescueNonces => Kind::SweepRescueNonces,
        Kind::RescueNone => Kind::SweepRescueNone,
        Kind::Consumed => Kind::SweepConsumed,
        Kind::ConsumedDegraded => Kind::SweepConsumedDegraded,
        Kind::WaitsUnknown => Kind::SweepWaitsUnknown,
        Kind::WaitsDegradedNonces => Kind::SweepWaitsDegradedNonces,
        Kind::WaitsDegradedNone => Kind::SweepWaitsDegradedNone,
        Kind::SilentHeld => Kind::SweepSilentHeld,
        Kind::SilentTentative => Kind::SweepSilentTentative,
        other => panic!("{other:?} is no poll's of a sweep"),
    }
}
