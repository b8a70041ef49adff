//! Whether the random lists tell each wrong rule for splitting and joining, and the smallest lists that do.
use super::compare::{due, hold, shards};
use super::generate::{list, List};
use super::route::{plan, Shards};
use super::stores::by_model;
use super::wrong::Wrong;
use crate::shrink::shrink;
use crate::store::brief::brief;
use crate::store::calls::{Call, Hash};

/// For how many shards the lists for wrong rules are made, in turn.
const NUMBERS: [usize; 4] = [2, 3, 5, 8];

/// The longest answer that is shown whole.
const SHOWN: usize = 600;

/// The first place at which shards of the model, split and joined by a rule, answer something else than what is due, and what.
fn tells(calls: &[Call], due: &[String], shards: Shards, wrong: Option<Wrong>) -> Option<(usize, String)> {
    let plan = plan(calls, shards, wrong);
    hold(calls, due, &plan, &by_model(&plan.scripts), wrong).differs
}

/// An answer, or its beginning.
pub fn shown(answer: &str) -> String {
    match answer.len() {
        0..=SHOWN => answer.to_string(),
        bytes => format!("{} .. ({bytes} bytes)", &answer[..SHOWN]),
    }
}

/// The smallest part of a list that tells a rule, with what is due and what the shards answer.
pub fn show(calls: &[Call], shards: Shards, wrong: Option<Wrong>) {
    let told = |calls: &[Call]| tells(calls, &due(&List::of(calls)).0, shards, wrong);
    let smallest = shrink(calls, |calls| told(calls).is_some());
    let (due, told) = (due(&List::of(&smallest)).0, told(&smallest));
    smallest.iter().for_each(|call| println!("    {}", brief(call)));
    if let Some((place, other)) = told {
        println!("      due:   {}", shown(&due[place]));
        println!("      other: {}", shown(&other));
    }
}

/// One random list and what is due of it.
pub struct Answered {
    seed: u64,
    shards: Shards,
    calls: Vec<Call>,
    due: Vec<String>,
}

/// What is due of so many lists, to hold the wrong rules against.
pub fn answered(seed: u64, lists: u64) -> Vec<Answered> {
    let one = |seed: u64| {
        let shards = shards(seed, NUMBERS[(seed % NUMBERS.len() as u64) as usize]);
        let list = list(seed, shards);
        Answered { seed, shards, due: due(&list).0, calls: list.calls }
    };
    (seed..seed + lists).map(one).collect()
}

/// The list with eight hashes for all its frames, so that senders share them.
fn with_few_hashes(calls: &[Call]) -> Vec<Call> {
    let few = |hash: &mut Hash| *hash = [hash[15] % 8; 32];
    let mut calls = calls.to_vec();
    for call in &mut calls {
        match call {
            Call::Push(f) => few(&mut f.hash),
            Call::Guard(g) => few(&mut g.hash),
            Call::Enter { hash, .. } | Call::State(hash) | Call::Boundary(hash) => few(hash),
            _ => {}
        }
    }
    calls
}

/// In how many of the lists shards are told from the one store if senders share hashes, which the rule leaves out: it shows what
/// that premise is for.
pub fn shared_hashes_differ(answered: &[Answered]) -> usize {
    let differs = |a: &&Answered| {
        let calls = with_few_hashes(&a.calls);
        tells(&calls, &due(&List::of(&calls)).0, a.shards, None).is_some()
    };
    answered.iter().filter(differs).count()
}

/// Tells a wrong rule by an answer. Says in how many of the lists it shows, and the smallest part of that which shows it soonest.
pub fn catches(wrong: Wrong, says: &str, answered: &[Answered]) -> bool {
    let place = |a: &Answered| tells(&a.calls, &a.due, a.shards, Some(wrong)).map(|(place, _)| place);
    let caught: Vec<(&Answered, usize)> = answered.iter().filter_map(|a| place(a).map(|place| (a, place))).collect();
    let Some((soonest, place)) = caught.iter().min_by_key(|(_, place)| *place) else {
        println!("  NOT CAUGHT {wrong:?}: {says}");
        return false;
    };
    let (lists, of, seed, count) = (caught.len(), answered.len(), soonest.seed, soonest.shards.count);
    println!("  {wrong:?}: {says}; shows in {lists} of {of} lists, soonest in list {seed}, over {count} shards, smallest:");
    // a call that comes late shows only before another
    show(&soonest.calls[..(place + 2).min(soonest.calls.len())], soonest.shards, Some(wrong));
    true
}
