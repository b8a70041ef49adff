//! The journal's comparisons: random journals, restores and cuts.
use super::brief::{say_parts, shown};
use super::case::{Case, Restore};
use super::generate::{journal, parts};
use super::layout::{read, Reading};
use super::model::Model;
use super::original::Original;
use super::ours::Ours;
use super::outcome::{handed, line, with_room, written, Room, Written, AMPLE, FILL};
use super::strength::show;
use crate::hex::hex;
use crate::report::tell;
use crate::seen::{see_fold, see_restore, Seen};
use crate::shrink::shrink;
use std::fmt;

/// What was run, what it met, and how often the Rust and another side differed.
#[derive(Default)]
pub struct Counts {
    pub journals: usize,
    pub records: usize,
    pub restores: usize,
    /// Restores of bytes that are not one QP in its layout.
    pub unlaid: usize,
    pub seen: Seen,
    pub model: usize,
    pub ours: usize,
}

impl fmt::Display for Counts {
    fn fmt(&self, f: &mut fmt::Formatter<'_>) -> fmt::Result {
        write!(f, "{} journals, {} whole records; ", self.journals, self.records)?;
        write!(f, "{} restores, {} of them of bytes that are no QP; ", self.restores, self.unlaid)?;
        write!(f, "differences from the model {}, from the linked C functions {}", self.model, self.ours)
    }
}

/// What our fold returns and writes on slices of these lengths.
pub fn call_fold(ours: &dyn Ours, journal: &[u8], room: Room) -> Written {
    let mut w = Written { code: 0, out: vec![FILL; room.out], totals: vec![FILL; room.totals] };
    w.code = ours.fold(journal, &mut w.out, &mut w.totals);
    w
}

/// Document 01's examples: what it states, from the Rust and from the others. Says how many hold.
pub fn examples(original: &Original, ours: Option<&dyn Ours>) -> (usize, Counts) {
    let mut counts = Counts::default();
    let mut hold = 0;
    for example in super::examples::examples() {
        let case = Case::new(example.journal, 0, original);
        match &case.fold {
            Ok(folded) if (example.holds)(folded) => hold += 1,
            fold => println!("EXAMPLE {:?}: {}", example.says, line(fold)),
        }
        one(&case, original, ours, &mut counts);
    }
    (hold, counts)
}

/// Random journals on the Rust, on the model, and on our functions if they are linked.
pub fn random(seed: u64, journals: u64, original: &Original, ours: Option<&dyn Ours>) -> Counts {
    let mut counts = Counts::default();
    for next in seed..seed + journals {
        one(&Case::new(journal(next), next, original), original, ours, &mut counts);
    }
    counts
}

/// One journal, the restore of each of its pending records, and the restore of one QP alone.
fn one(case: &Case, original: &Original, ours: Option<&dyn Ours>, counts: &mut Counts) {
    counts.journals += 1;
    counts.records += parts(&case.journal).iter().filter(|part| matches!(read(part), Reading::Whole(..))).count();
    see_fold(&mut counts.seen, &case.journal, &case.narrow);
    let model = Model::default();
    for (room, fold) in [(AMPLE, &case.fold), (case.room, &case.narrow)] {
        if model.fold_into(&case.journal, room) != *fold {
            counts.model += 1;
            if tell() {
                println!("DIFFERENCE between the Rust and the model, {room:?}:");
                show(case, room, original, |bytes| model.fold_into(bytes, room));
            }
        }
    }
    if let Some(ours) = ours {
        we_fold(case, original, ours, counts);
    }
    for restore in &case.restores {
        one_restore(restore, &model, ours, counts);
    }
}

fn we_fold(case: &Case, original: &Original, ours: &dyn Ours, counts: &mut Counts) {
    let found = call_fold(ours, &case.journal, case.room);
    if found != written(&case.narrow, case.room) {
        counts.ours += 1;
        if tell() {
            println!("DIFFERENCE between the Rust and the C function, journal {}, {:?}:", case.seed, case.room);
            println!("  the Rust: {}; the C function returns {}", line(&case.narrow), found.code);
            show_ours(case, original, ours);
        }
    }
}

fn one_restore(restore: &Restore, model: &Model, ours: Option<&dyn Ours>, counts: &mut Counts) {
    let Restore { record, length, answer } = restore;
    let (code, left) = handed(answer, *length);
    counts.restores += 1;
    counts.unlaid += usize::from(code == 11);
    // fidelity stands at 157
    see_restore(&mut counts.seen, code, record.get(157) == Some(&1));
    if model.restore_into(record, *length) != *answer {
        counts.model += 1;
        if tell() {
            println!("DIFFERENCE in restore between the Rust and the model: {}: {}", hex(record), shown(answer));
        }
    }
    let Some(ours) = ours else {
        return;
    };
    let mut frame = vec![FILL; *length];
    let returned = ours.restore(record, &mut frame);
    if (returned, &frame) != (code, &left) {
        counts.ours += 1;
        if tell() {
            println!("DIFFERENCE in restore between the Rust and the C function, slice {length}: {}", hex(record));
            println!("  the Rust: {}; the C function returns {returned} and leaves {}", shown(answer), hex(&frame));
        }
    }
}

fn show_ours(case: &Case, original: &Original, ours: &dyn Ours) {
    let room = case.room;
    let expected = |bytes: &[u8]| written(&with_room(original.fold(bytes, case.seed).0, room), room);
    let differ = |parts: &[Vec<u8>]| expected(&parts.concat()) != call_fold(ours, &parts.concat(), room);
    if differ(&parts(&case.journal)) {
        let smallest = shrink(&parts(&case.journal), differ);
        println!("  smallest journal: {}", hex(&smallest.concat()));
        say_parts(&smallest);
    }
}

/// Journals cut at every byte: our fold of the cut journal is the Rust's fold of the records whole before the cut.
pub fn cuts(seed: u64, journals: u64, original: &Original, ours: Option<&dyn Ours>) -> (usize, usize) {
    let model = Model::default();
    let (mut cuts, mut differences) = (0, 0);
    for next in seed..seed + journals {
        let bytes = journal(next);
        if bytes.len() > 4000 || model.fold(&bytes).is_err() {
            continue;
        }
        let mut whole = 0;
        let mut expected = original.fold(&[], next).0;
        for cut in 0..=bytes.len() {
            if let Reading::Whole(_, size) = read(&bytes[whole..cut]) {
                whole += size;
                expected = original.fold(&bytes[..whole], next).0;
            }
            cuts += 1;
            let found = match ours {
                Some(ours) => call_fold(ours, &bytes[..cut], AMPLE),
                None => written(&model.fold(&bytes[..cut]), AMPLE),
            };
            if found != written(&expected, AMPLE) {
                differences += 1;
                if tell() {
                    println!("DIFFERENCE: journal {next} cut at {cut}: {} / returns {}", line(&expected), found.code);
                }
            }
        }
    }
    (cuts, differences)
}
