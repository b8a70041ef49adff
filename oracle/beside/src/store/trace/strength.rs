//! By which bytes a reader of traces can be told from what is due, and whether the random traces tell each wrong rule.
use super::generate::{trace, Trace};
use super::lines::{lines, parts, places, TRACE_LIMIT};
use super::wrong::Wrong;
use crate::hex::hex;
use crate::shrink::shrink;
use crate::store::brief::brief;
use crate::store::replay::first_difference;

/// The longest trace that is made smaller, in parts, and the longest that is shown whole, in bytes.
const PARTS: usize = 200;
const SHOWN: usize = 1000;

/// The smallest part of a trace that passes a test: calls are left out, and then bytes at the end.
fn smallest(bytes: &[u8], tells: impl Fn(&[u8]) -> bool) -> Vec<u8> {
    let parts = parts(bytes);
    if bytes.len() > TRACE_LIMIT || parts.len() > PARTS {
        return bytes.to_vec();
    }
    let mut smallest = shrink(&parts, |parts| tells(&parts.concat())).concat();
    while smallest.split_last().is_some_and(|(_, less)| tells(less)) {
        smallest.pop();
    }
    smallest
}

/// The smallest part of a trace of which another side prints something else than what is due, with the first lines that differ.
pub fn show_smallest(bytes: &[u8], other: impl Fn(&[u8]) -> String) {
    let smallest = smallest(bytes, |bytes| lines(bytes, None) != other(bytes));
    if smallest.len() > SHOWN {
        println!("    {} bytes, {} calls", smallest.len(), places(&smallest, None).iter().flatten().count());
    } else {
        places(&smallest, None).iter().for_each(|placed| match placed {
            Ok(call) => println!("    {}", brief(call)),
            Err(bad) => println!("    no call: {bad:?}"),
        });
        println!("    in bytes: {}", hex(&smallest));
    }
    if let Some((_, due, found)) = first_difference(&lines(&smallest, None), &other(&smallest)) {
        println!("      due:   {due}");
        println!("      other: {found}");
    }
}

/// One random trace and what is due of it.
pub struct Answered {
    trace: Trace,
    due: String,
}

/// What is due of so many traces, to hold the wrong rules against.
pub fn answered(seed: u64, traces: u64) -> Vec<Answered> {
    let one = |trace: Trace| Answered { due: lines(&trace.bytes, None), trace };
    (seed..seed + traces).map(trace).map(one).collect()
}

/// Tells a wrong rule by the lines. Says in how many of the traces it shows, and the smallest part of the shortest.
pub fn catches(wrong: Wrong, says: &str, answered: &[Answered]) -> bool {
    let tells = |a: &&Answered| lines(&a.trace.bytes, Some(wrong)) != a.due;
    let caught: Vec<&Answered> = answered.iter().filter(tells).collect();
    let Some(shortest) = caught.iter().min_by_key(|a| a.trace.bytes.len()) else {
        println!("  NOT CAUGHT {wrong:?}: {says}");
        return false;
    };
    let (traces, of, seed) = (caught.len(), answered.len(), shortest.trace.seed);
    println!("  {wrong:?}: {says}; shows in {traces} of {of} traces, shortest in trace {seed}, smallest:");
    show_smallest(&shortest.trace.bytes, |bytes| lines(bytes, Some(wrong)));
    true
}
