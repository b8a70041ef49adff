//! Random traces, and request 2027-07's example, on the Rust, on the model, and on our program: the same lines.
use super::generate::{trace, Trace};
use super::lines::{lines, places, run, text};
use super::strength::show_smallest;
use crate::program::Program;
use crate::report::tell;
use crate::seen::{see_trace, Seen};
use crate::store::calls::Call;
use crate::store::manual::totals_example;
use crate::store::original::Original;
use crate::store::script::bytes_of;
use crate::store::strength::{show, tells};
use std::fmt;

/// What was run, what it met, and how often something differed.
#[derive(Default)]
pub struct Counts {
    pub traces: usize,
    pub calls: usize,
    pub seen: Seen,
    /// Whole traces that are not read as the calls that they were made of.
    pub unread: usize,
    /// Traces in which the Rust's own totals do not add up.
    pub uneven: usize,
    pub model: usize,
    pub ran: usize,
    pub program: usize,
}

impl fmt::Display for Counts {
    fn fmt(&self, f: &mut fmt::Formatter<'_>) -> fmt::Result {
        write!(f, "{} traces, {} calls; whole traces not read back {}, ", self.traces, self.calls, self.unread)?;
        write!(f, "totals that do not add up {}, differences from the model {}; ", self.uneven, self.model)?;
        write!(f, "{} runs of trace, {} that differ", self.ran, self.program)
    }
}

/// Random traces, for our program too if there is one.
pub fn random(seed: u64, traces: u64, program: Option<&Program>) -> Counts {
    let mut counts = Counts::default();
    (seed..seed + traces).for_each(|next| one(&trace(next), program, &mut counts));
    counts
}

/// Whether what request 2027-07 says of its example is due, and is printed by our program if there is one.
pub fn example(program: Option<&Program>) -> bool {
    let (calls, says) = totals_example();
    let bytes = bytes_of(&calls);
    let holds = |side: &str, text: String| {
        if text != says {
            println!("NOT SO: request 2027-07 says {says:?}; {side}: {text:?}");
        }
        text == says
    };
    holds("the Rust", lines(&bytes, None)) && program.is_none_or(|program| holds("trace", program.run(&bytes)))
}

fn one(trace: &Trace, program: Option<&Program>, counts: &mut Counts) {
    let read = places(&trace.bytes, None);
    let due = run(&read, &mut Original::default(), None);
    counts.traces += 1;
    counts.calls += read.iter().flatten().count();
    see_trace(&mut counts.seen, &trace.bytes, &read, &due);
    if trace.whole.as_ref().is_some_and(|calls| !calls.iter().map(Ok).eq(read.iter().map(|placed| placed.as_ref()))) {
        counts.unread += 1;
        if tell() {
            println!("DIFFERENCE: trace {} is not read as the calls that it was made of", trace.seed);
        }
    }
    if !due.totals.add_up() {
        counts.uneven += 1;
        if tell() {
            println!("DIFFERENCE: the totals of trace {} do not add up: {}", trace.seed, due.totals.line(None));
        }
    }
    let mut calls: Vec<Call> = read.into_iter().flatten().collect();
    // what the model holds at the end is compared too
    calls.push(Call::Len);
    if let Some(place) = tells(&calls, None) {
        counts.model += 1;
        if tell() {
            println!("DIFFERENCE between the Rust and the model, trace {}:", trace.seed);
            show(&calls[..=place], None);
        }
    }
    let Some(program) = program else {
        return;
    };
    counts.ran += 1;
    if program.run(&trace.bytes) != text(&due, None) {
        counts.program += 1;
        if tell() {
            println!("DIFFERENCE between what is due and trace, trace {}:", trace.seed);
            show_smallest(&trace.bytes, |bytes| program.run(bytes));
        }
    }
}
