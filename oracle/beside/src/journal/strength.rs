//! Whether a fold or a restore can be told from the Rust's, by which journal, and whether the random journals tell each wrong
//! rule from it.
use super::brief::{say_parts, shown};
use super::case::{Case, Restore};
use super::generate::{journal, parts};
use super::items::Item;
use super::model::Model;
use super::original::Original;
use super::outcome::{line, with_room, Fold, Room, AMPLE, ENOUGH, FRAME_SIZE, TOTALS_SIZE};
use super::wrong::Wrong;
use crate::hex::hex;
use crate::shrink::shrink;

/// The smallest part of a journal on which the Rust and another fold differ, on slices of these lengths.
fn smallest(case: &Case, room: Room, original: &Original, other: impl Fn(&[u8]) -> Fold) -> Vec<Vec<u8>> {
    shrink(&parts(&case.journal), |parts| {
        let bytes = parts.concat();
        with_room(original.fold(&bytes, case.seed).0, room) != other(&bytes)
    })
}

/// That part, with both answers.
pub fn show(case: &Case, room: Room, original: &Original, other: impl Fn(&[u8]) -> Fold) {
    let smallest = smallest(case, room, original, &other);
    let bytes = smallest.concat();
    match smallest.len() {
        0..=20 => say_parts(&smallest),
        many => println!("    {many} records, {} bytes", bytes.len()),
    }
    if room != AMPLE {
        println!("    an output of {} bytes, a second slice of {}", room.out, room.totals);
    }
    say_both(&with_room(original.fold(&bytes, case.seed).0, room), &other(&bytes));
}

fn say_both(rust: &Fold, other: &Fold) {
    println!("      the Rust: {}", line(rust));
    println!("      other:    {}", line(other));
    if let (Ok(a), Ok(b)) = (rust, other) {
        for (x, y) in a.pending.iter().zip(&b.pending).filter(|(x, y)| x != y).take(1) {
            println!("      pending in the Rust: {}", hex(x));
            println!("      pending in other:    {}", hex(y));
        }
    }
}

/// What tells a model with a wrong rule from the Rust.
enum Telling<'a> {
    Fold(Room),
    Restore(&'a Restore),
}

fn telling<'a>(case: &'a Case, model: &Model) -> Option<Telling<'a>> {
    if model.fold(&case.journal) != case.fold {
        return Some(Telling::Fold(AMPLE));
    }
    if model.fold_into(&case.journal, case.room) != case.narrow {
        return Some(Telling::Fold(case.room));
    }
    case.restores.iter().find(|x| model.restore_into(&x.record, x.length) != x.answer).map(Telling::Restore)
}

/// The Rust's answers to so many journals, to hold the wrong rules against.
pub fn answered(seed: u64, journals: u64, original: &Original) -> Vec<Case> {
    (seed..seed + journals).map(|seed| Case::new(journal(seed), seed, original)).collect()
}

/// Tells a wrong rule from the Rust by its fold or a restore, and says by which journal.
pub fn catches(wrong: Wrong, says: &str, cases: &[Case], original: &Original) -> bool {
    let model = Model::with(wrong);
    let caught: Vec<(&Case, Telling)> =
        cases.iter().filter_map(|case| telling(case, &model).map(|found| (case, found))).collect();
    let Some((first, found)) = caught.first() else {
        println!("  NOT CAUGHT {wrong:?}: {says}");
        return false;
    };
    let (journals, of, seed) = (caught.len(), cases.len(), first.seed);
    println!("  {wrong:?}: {says}; shows in {journals} of {of} journals, first in journal {seed}, smallest:");
    match found {
        Telling::Fold(room) => show(first, *room, original, |bytes| model.fold_into(bytes, *room)),
        Telling::Restore(x) => {
            say_parts(std::slice::from_ref(&x.record));
            println!("      the Rust: {}, slice {}", shown(&x.answer), x.length);
            println!("      other:    {}", shown(&model.restore_into(&x.record, x.length)));
        }
    }
    true
}

/// A smallest item, from these journals, that tells a wrong rule from the Rust where the second slice of a fold and the slice of
/// a restore are as long as they should be. No item is lent more than what is enough for every fold.
pub fn smallest_for(wrong: Wrong, cases: &[Case], original: &Original) -> Option<Item> {
    let model = Model::with(wrong);
    cases.iter().find_map(|case| match telling(case, &model)? {
        Telling::Fold(room) if room.totals == TOTALS_SIZE => {
            let parts = smallest(case, room, original, |bytes| model.fold_into(bytes, room));
            Some(Item::Journal(parts.concat(), room.out.min(ENOUGH)))
        }
        Telling::Restore(x) if x.length == FRAME_SIZE => Some(Item::Park(x.record.clone())),
        _ => None,
    })
}
