//! The kinds that a fold, a restore and a writer meet.
use super::{Kind, Seen};
use crate::hex::hex;
use crate::journal::layout::{read, Reading};
use crate::journal::outcome::{Fold, Folded};
use crate::journal::records::{Hash, Legacy, Record};
use crate::journal::writing::value::Value;
use std::collections::BTreeSet;

/// Notes what the Rust answers to a journal, with the slices that were lent.
pub fn see_fold(seen: &mut Seen, journal: &[u8], fold: &Fold) {
    match fold {
        Ok(folded) => see_records(seen, journal, folded),
        Err((9, _)) => seen.see(Kind::Fold9),
        Err((10, _)) => seen.see(Kind::Fold10),
        Err((11, _)) => seen.see(Kind::Fold11),
        Err((12, _)) => seen.see(Kind::Fold12),
        Err((13, _)) => seen.see(Kind::Fold13),
        Err((number, _)) => panic!("no journal is refused {number}"),
    }
}

/// What each record of a folded journal did, by the keys that stood before it; the totals of QL are the Rust's.
fn see_records(seen: &mut Seen, journal: &[u8], folded: &Folded) {
    let mut keys = BTreeSet::new();
    let mut others = 0;
    let mut rest = &journal[..folded.end];
    while let (false, Reading::Whole(record, size)) = (rest.is_empty(), read(rest)) {
        rest = &rest[size..];
        let pick = |found: bool, yes: Kind, no: Kind| if found { yes } else { no };
        match record.as_ref() {
            Record::Park(p) => seen.see(pick(keys.insert(p.text.clone()), Kind::ParkInserted, Kind::ParkReplaced)),
            Record::Tentative(t) => seen.see(pick(keys.contains(&key(&t.hash)), Kind::TentativeFound, Kind::TentativeLost)),
            Record::Resolve(x) => seen.see(pick(keys.remove(&key(&x.hash)), Kind::ResolveFound, Kind::ResolveLost)),
            Record::Legacy(l) => keys.extend(migrated_key(l)),
            Record::Other(_) => others += 1,
        }
    }
    assert_eq!(keys.len(), folded.pending.len(), "the keys are those that the Rust has");
    seen.times(Kind::Other, others);
    seen.times(Kind::LegacySkipped, folded.skipped - others);
    seen.times(Kind::LegacyDegraded, folded.degraded);
    seen.times(Kind::LegacyFull, folded.migrated - folded.degraded);
    seen.see(match journal.len() - folded.end {
        0 => Kind::EndWhole,
        1 => Kind::EndByte,
        _ => Kind::EndMark,
    });
}

fn key(hash: &Hash) -> Vec<u8> {
    format!("0x{}", hex(hash)).into_bytes()
}

/// The key of a QL that is not skipped.
fn migrated_key(l: &Legacy) -> Option<Vec<u8>> {
    l.claimed.or(l.frame_nonce).or(l.top_nonce)?;
    l.frame_hash.or(l.top_hash).as_ref().map(key)
}

/// Notes what restore returns, and whether the record's fidelity is degraded.
pub fn see_restore(seen: &mut Seen, code: u64, degraded: bool) {
    seen.see(match code {
        0 if degraded => Kind::RestoreDegraded,
        0 => Kind::RestoreFull,
        11 => Kind::Restore11,
        13 => Kind::Restore13,
        14 => Kind::Restore14,
        15 => Kind::Restore15,
        16 => Kind::Restore16,
        _ => panic!("no record is refused {code}"),
    });
}

/// Notes what the writer of a value is to return.
pub fn see_write(seen: &mut Seen, value: &Value, code: u64) {
    seen.see(match (value, code) {
        (Value::Park(_), 11) => Kind::ParkWriter11,
        (Value::Park(_), 13) => Kind::ParkWriter13,
        (Value::Park(_), _) => Kind::ParkWritten,
        (Value::Entry(_), 11) => Kind::EntryWriter11,
        (Value::Entry(_), 13) => Kind::EntryWriter13,
        (Value::Entry(_), _) => Kind::EntryWritten,
        (Value::Resolve(_), 11) => Kind::ResolveWriter11,
        (Value::Resolve(_), 13) => Kind::ResolveWriter13,
        (Value::Resolve(_), _) => Kind::ResolveWritten,
        (Value::Legacy(_), 11) => Kind::LegacyWriter11,
        (Value::Legacy(_), 13) => Kind::LegacyWriter13,
        (Value::Legacy(_), _) => Kind::LegacyWritten,
        (Value::Other(_), 11) => panic!("no QX is refused 11"),
        (Value::Other(_), 13) => Kind::OtherWriter13,
        (Value::Other(_), _) => Kind::OtherWritten,
    });
}
