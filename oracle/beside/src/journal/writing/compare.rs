//! Random values, written by our functions and by the comparison's own writer; what is written folds alone and is read back.
use super::case::Case;
use crate::journal::brief::brief_value;
use crate::journal::compare::call_fold;
use crate::journal::layout::{read, Reading};
use crate::journal::model::Model as Folding;
use crate::journal::ours::Ours;
use crate::journal::outcome::{written, Room, TOTALS_SIZE};
use crate::journal::records::PARK_SIZE;
use crate::report::tell;
use crate::seen::{see_write, Seen};
use std::fmt;

/// What was run and written, what was met, and how often something differed.
#[derive(Default)]
pub struct Counts {
    pub values: usize,
    pub written: usize,
    pub seen: Seen,
    /// Records that the comparison's own reader did not read back.
    pub unread: usize,
    pub ours: usize,
}

impl fmt::Display for Counts {
    fn fmt(&self, f: &mut fmt::Formatter<'_>) -> fmt::Result {
        write!(f, "{} values, {} of them to be written and the others refused; ", self.values, self.written)?;
        write!(f, "records not read back {}, differences from the linked C functions {}", self.unread, self.ours)
    }
}

/// Random values for the comparison's own writer, and for our functions if they are linked.
pub fn random(seed: u64, values: u64, ours: Option<&dyn Ours>) -> Counts {
    let mut counts = Counts::default();
    for next in seed..seed + values {
        one(&Case::new(next), ours, &mut counts);
    }
    counts
}

fn one(case: &Case, ours: Option<&dyn Ours>, counts: &mut Counts) {
    counts.values += 1;
    counts.written += usize::from(case.written().is_some());
    see_write(&mut counts.seen, &case.value, case.due.code);
    if !reads_back(case) {
        counts.unread += 1;
        if tell() {
            println!("DIFFERENCE: value {} is not read back: {}", case.seed, brief_value(&case.value));
        }
    }
    let Some(ours) = ours else {
        return;
    };
    let found = case.by(|value, out| ours.write(value, out));
    if found != case.due {
        counts.ours += 1;
        if tell() {
            println!("DIFFERENCE between the comparison's writer and the C function, value {}:", case.seed);
            case.show(&found);
        }
    } else if !folds_alone(case, ours) {
        counts.ours += 1;
        if tell() {
            println!("DIFFERENCE: what was written of value {} does not fold: {}", case.seed, brief_value(&case.value));
        }
    }
}

/// Whether the comparison's own reader gives the record of the value, where one was written.
fn reads_back(case: &Case) -> bool {
    let Some(bytes) = case.written() else {
        return true;
    };
    matches!(read(bytes), Reading::Whole(again, size) if Some(&*again) == case.record().as_ref() && size == bytes.len())
}

/// Whether our fold takes the record alone, and answers as the model does, where one was written.
fn folds_alone(case: &Case, ours: &dyn Ours) -> bool {
    let Some(bytes) = case.written() else {
        return true;
    };
    let room = Room { out: PARK_SIZE, totals: TOTALS_SIZE };
    let fold = Folding::default().fold_into(bytes, room);
    fold.is_ok() && call_fold(ours, bytes, room) == written(&fold, room)
}
