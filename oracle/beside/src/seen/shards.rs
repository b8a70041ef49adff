//! The kinds that one list of calls meets, and one split of it over shards.
use super::{Kind, Seen};
use crate::store::calls::{Call, Hash};
use crate::store::shards::join::settled;
use crate::store::shards::route::lists_once;
use std::collections::BTreeSet;

/// Notes what stands in a list that has so many frames at once.
pub fn see_list(seen: &mut Seen, calls: &[Call], most: usize) {
    let pushed = |call: &Call| match call {
        Call::Push(f) => Some(f.hash),
        _ => None,
    };
    let all: BTreeSet<Hash> = calls.iter().filter_map(pushed).collect();
    let mut before = BTreeSet::new();
    for call in calls {
        match call {
            Call::Push(f) if !before.insert(f.hash) => seen.see(Kind::ListTwice),
            Call::Guard(g) if !all.contains(&g.hash) => seen.see(Kind::ListGuardNobody),
            Call::Guard(g) if !before.contains(&g.hash) => seen.see(Kind::ListGuardFirst),
            Call::Enter { hash, .. } if !all.contains(hash) => seen.see(Kind::ListEnterNobody),
            _ => {}
        }
    }
    let kinds = [(Kind::ListOver64, most > 64), (Kind::ListOver1000, most > 1000)];
    kinds.into_iter().filter(|(_, holds)| *holds).for_each(|(kind, _)| seen.see(kind));
}

/// Notes what is due of a call, and what shards answer to those that were made for it.
pub fn see_split(seen: &mut Seen, call: &Call, due: &str, found: &[&str]) {
    let kind = match (call, due) {
        (_, refused) if refused.starts_with("refused ") => refused_kind(call, refused),
        (Call::Push(_), _) if found.contains(&"total 64") => Some(Kind::SplitFull),
        (Call::Reorg { .. }, _) if lists_of_two(found) => Some(Kind::SplitReorg),
        (Call::Finality { .. }, _) if lists_of_two(found) => Some(Kind::SplitFinality),
        (Call::Sweep(s), _) if !lists_once(s, None) => Some(Kind::SplitSweepTwice),
        (Call::Sweep(_), _) if lists_of_two(found) => Some(Kind::SplitSweep),
        (Call::Blocks, _) if settled(found) => Some(Kind::SplitBlocks),
        (Call::Blocks, _) => Some(Kind::SplitUnsettled),
        (Call::Enter { .. } | Call::State(_) | Call::Boundary(_), whose) if is_behind(whose) => Some(Kind::SplitWhose),
        _ => None,
    };
    kind.into_iter().for_each(|kind| seen.see(kind));
}

/// Whether two shards or more list something.
fn lists_of_two(found: &[&str]) -> bool {
    found.iter().filter(|answer| answer.split(' ').nth(1) != Some("0")).count() > 1
}

/// Whether a frame is found behind others of its sender.
fn is_behind(due: &str) -> bool {
    due.contains(" of ") && !due.ends_with(" 0")
}

fn refused_kind(call: &Call, refused: &str) -> Option<Kind> {
    match (call, refused) {
        (Call::Push(_), "refused 1") => Some(Kind::Split1),
        (Call::Poll { .. }, "refused 3") => Some(Kind::Split3),
        (Call::Poll { .. }, "refused 4") => Some(Kind::Split4),
        (Call::Guard(_), "refused 6") => Some(Kind::Split6),
        (Call::Guard(_), "refused 7") => Some(Kind::Split7),
        (Call::Sweep(_), "refused 17") => Some(Kind::Split17),
        (Call::Sweep(_), "refused 18") => Some(Kind::Split18),
        (Call::Sweep(_), "refused 3") => Some(Kind::SplitSweep3),
        _ => None,
    }
}
