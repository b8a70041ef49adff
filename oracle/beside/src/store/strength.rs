//! Whether a model can be told from what is due, by which calls, and whether the random scripts tell each wrong rule.
use super::answers::Answer;
use super::brief::brief;
use super::calls::{Call, Side};
use super::due::Due;
use super::generate;
use super::model::Model;
use super::slices;
use super::wrong::Wrong;
use crate::shrink::shrink;

/// Whether an answer tells a model: one with a wrong rule for sender and place by all of it, else by what the Rust tells.
fn differ(wrong: Option<Wrong>, due: &Answer, found: &Answer) -> bool {
    match wrong.is_some_and(Wrong::is_about_whose) {
        true => due != found,
        false => due.told() != found.told(),
    }
}

/// The first place at which what is due tells a model.
pub fn tells(calls: &[Call], wrong: Option<Wrong>) -> Option<usize> {
    let (mut due, mut model) = (Due::default(), Model::with(wrong));
    calls.iter().position(|call| differ(wrong, &due.answer(call), &model.answer(call)))
}

/// The smallest part of a list that tells a model, with both answers.
pub fn show(calls: &[Call], wrong: Option<Wrong>) {
    let smallest = shrink(calls, |calls| tells(calls, wrong).is_some());
    let (mut due, mut model) = (Due::default(), Model::with(wrong));
    for call in &smallest {
        let (a, b) = (due.answer(call), model.answer(call));
        println!("    {}", brief(call));
        if differ(wrong, &a, &b) {
            println!("      due:   {a}");
            println!("      other: {b}");
        }
    }
}

/// A smallest list of calls, from the random scripts of these seeds, that tells a wrong rule by its answers. Only a rule for short
/// polls or for sweeps is looked for in scripts that have them.
pub fn smallest_for(wrong: Wrong, seed: u64, scripts: u64) -> Option<Vec<Call>> {
    let script = match (wrong.is_about_sweeps(), wrong.is_about_short()) {
        (true, _) => generate::script,
        (_, true) => generate::unswept_script,
        _ => generate::long_script,
    };
    (seed..seed + scripts).find_map(|next| {
        let mut calls = script(next).calls;
        calls.retain(|call| *call != Call::Dump);
        let place = tells(&calls, Some(wrong))?;
        Some(shrink(&calls[..=place], |calls| tells(calls, Some(wrong)).is_some()))
    })
}

/// One random script without its dumps, and what is due of it.
pub struct Answered {
    seed: u64,
    calls: Vec<Call>,
    answers: Vec<Answer>,
}

/// What is due of so many scripts, to hold the wrong rules against.
pub fn answered(seed: u64, scripts: u64) -> Vec<Answered> {
    let one = |seed: u64| {
        let mut calls = generate::script(seed).calls;
        calls.retain(|call| *call != Call::Dump);
        let mut due = Due::default();
        let answers = calls.iter().map(|call| due.answer(call)).collect();
        Answered { seed, calls, answers }
    };
    (seed..seed + scripts).map(one).collect()
}

/// Tells a wrong rule for the slice of a sweep by the lines of `short_slices`. Says in how many of them it shows, and the first.
fn catches_by_slices(wrong: Wrong, says: &str) -> bool {
    let lines = slices::beside_model(Some(wrong));
    let caught: Vec<&(String, String)> = lines.iter().filter(|(due, other)| due != other).collect();
    let Some((due, other)) = caught.first() else {
        println!("  NOT CAUGHT {wrong:?}: {says}");
        return false;
    };
    println!("  {wrong:?}: {says}; shows in {} of {} lines of sweeps, first:", caught.len(), lines.len());
    println!("      due:   {due}");
    println!("      other: {other}");
    true
}

/// Tells a wrong rule by an answer. Says in how many of the scripts it shows, and the smallest part of the first.
pub fn catches(wrong: Wrong, says: &str, answered: &[Answered]) -> bool {
    if wrong.is_about_slices() {
        return catches_by_slices(wrong, says);
    }
    let place = |a: &Answered| {
        let mut model = Model::with(Some(wrong));
        a.calls.iter().zip(&a.answers).position(|(call, due)| differ(Some(wrong), due, &model.answer(call)))
    };
    let caught: Vec<(&Answered, usize)> = answered.iter().filter_map(|a| place(a).map(|place| (a, place))).collect();
    let Some((first, place)) = caught.first() else {
        println!("  NOT CAUGHT {wrong:?}: {says}");
        return false;
    };
    let (scripts, of, script) = (caught.len(), answered.len(), first.seed);
    println!("  {wrong:?}: {says}; shows in {scripts} of {of} scripts, first in script {script}, smallest:");
    show(&first.calls[..=*place], Some(wrong));
    true
}
