//! The store's comparisons: random scripts, all short runs, the largest sweeps, and the wrong rules.
use super::answers::Answer;
use super::brief::brief;
use super::calls::{Address, Call, Frame, Side, Sweep};
use super::due::Due;
use super::model::Model;
use super::original::Original;
use super::replay::{first_difference, Batch};
use super::script::{led, Script, SCRIPT_LIMIT};
use super::strength::show;
use super::{generate, menu};
use crate::hex::hex;
use crate::program::Program;
use crate::report::tell;
use crate::seen::{see_call, Kind, Seen};
use crate::shrink::shrink;
use std::fmt;

/// What was run, what it met, and how often the model and our program differed from what is due.
#[derive(Default)]
pub struct Counts {
    pub scripts: usize,
    pub calls: usize,
    pub seen: Seen,
    pub model: usize,
    pub replay: usize,
    pub replayed: usize,
}

impl fmt::Display for Counts {
    fn fmt(&self, f: &mut fmt::Formatter<'_>) -> fmt::Result {
        write!(f, "{} scripts, {} calls; differences from the model {}; ", self.scripts, self.calls, self.model)?;
        write!(f, "{} scripts given to replay, {} runs of it that differ", self.replayed, self.replay)
    }
}

/// Runs scripts on the Rust, on the model, and on our program if there is one.
pub struct Comparison<'a> {
    pub counts: Counts,
    replay: Option<&'a Program>,
    batch: Batch,
}

impl<'a> Comparison<'a> {
    pub fn new(replay: Option<&'a Program>) -> Self {
        Comparison { counts: Counts::default(), replay, batch: Batch::default() }
    }

    pub fn script(&mut self, script: Script) {
        let bytes = script.bytes();
        if bytes.len() > SCRIPT_LIMIT {
            return;
        }
        if !self.batch.has_room(bytes.len()) {
            self.finish();
        }
        let (lines, answers) = script.lines(self.batch.scripts.len(), &mut Due::default());
        self.counts.scripts += 1;
        self.counts.calls += answers.len();
        if let Some(place) = self.beside_model(&script, &answers) {
            self.counts.model += 1;
            if tell() {
                println!("DIFFERENCE between the Rust and the model:");
                show(&script.calls[..=place], None);
            }
        }
        if self.replay.is_some() {
            self.batch.input.extend_from_slice(&led(&bytes));
            self.batch.lines.push_str(&lines);
            self.batch.scripts.push(script);
        }
    }

    /// The first place at which the model answers something else than the Rust, sender and place aside, which are the model's
    /// own; up to there, what is answered is seen.
    fn beside_model(&mut self, script: &Script, answers: &[Answer]) -> Option<usize> {
        let seen = &mut self.counts.seen;
        let mut model = Model::default();
        for (place, (call, answer)) in script.calls.iter().zip(answers).enumerate() {
            see_call(seen, call, &model, answer);
            if model.answer(call).told() != answer.told() {
                return Some(place);
            }
        }
        if !script.broken.is_empty() {
            seen.see(Kind::Bad);
        }
        None
    }

    /// Gives our program what is gathered.
    pub fn finish(&mut self) {
        let Some(replay) = self.replay else {
            return;
        };
        let batch = std::mem::take(&mut self.batch);
        let found = replay.run(&batch.input);
        self.counts.replayed += batch.scripts.len();
        if let Some((number, expected, found)) = first_difference(&batch.lines, &found) {
            self.counts.replay += 1;
            if tell() {
                println!("DIFFERENCE between what is due and replay: {expected:?} / {found:?}");
                show_replay(&batch.scripts[number], replay);
            }
        }
    }
}

/// The smallest script on which our program does not print what is due, with both.
fn show_replay(script: &Script, replay: &Program) {
    let with = |calls: &[Call]| Script { calls: calls.to_vec(), broken: script.broken.clone() };
    let due = |script: &Script| script.lines(0, &mut Due::default()).0;
    let printed = |script: &Script| replay.run(&led(&script.bytes()));
    let differ = |calls: &[Call]| due(&with(calls)) != printed(&with(calls));
    if !differ(&script.calls) {
        return println!("  the script alone shows no difference");
    }
    let smallest = with(&shrink(&script.calls, differ));
    println!("  smallest script: {}", hex(&smallest.bytes()));
    smallest.calls.iter().for_each(|call| println!("    {}", brief(call)));
    print!("  due:\n{}  replay:\n{}", due(&smallest), printed(&smallest));
}

/// Document 01's examples: the answers that it states, from the Rust and from the others. Says how many hold.
pub fn examples(replay: Option<&Program>) -> (usize, Counts) {
    let mut comparison = Comparison::new(replay);
    let mut hold = 0;
    for example in super::examples::examples() {
        let mut original = Original::default();
        let found: Vec<Answer> = example.calls.iter().map(|call| original.answer(call)).collect();
        let wrong: Vec<&(usize, Answer)> =
            example.answers.iter().filter(|(place, answer)| found[*place] != *answer).collect();
        hold += usize::from(wrong.is_empty());
        for (place, answer) in wrong {
            println!("EXAMPLE {:?}: call {place} answers {} and not {answer}", example.says, found[*place]);
        }
        comparison.script(Script { calls: example.calls, broken: Vec::new() });
    }
    comparison.finish();
    (hold, comparison.counts)
}

/// Standard input that breaks off in a script's length, or has a script over the limit: the lines of the scripts before, and
/// `bad input`. Says how many of the inputs our program does not answer so.
pub fn bad_inputs(replay: &Program) -> usize {
    let script = generate::script(1);
    let before = led(&script.bytes());
    let expected = script.lines(0, &mut Due::default()).0 + "bad input\n";
    let long = led(&[0; SCRIPT_LIMIT + 1]);
    let tails: [&[u8]; 4] = [&[1], &[1, 0], &[1, 0, 0], &long];
    let mut differences = 0;
    for tail in tails {
        let found = replay.run(&[&before, tail].concat());
        if found != expected {
            differences += 1;
            let last = found.lines().last().unwrap_or("(nothing)");
            println!("DIFFERENCE from replay's formats: a script and {} bytes more, last line {last:?}", tail.len());
        }
    }
    differences
}

/// Random scripts until so many calls are made.
pub fn random(seed: u64, calls: usize, replay: Option<&Program>) -> Counts {
    let mut comparison = Comparison::new(replay);
    let mut next = seed;
    while comparison.counts.calls < calls {
        comparison.script(generate::script(next));
        next += 1;
    }
    comparison.finish();
    comparison.counts
}

/// So many frames of one sender, with a gap of sixteen.
fn pushes(sender: Address, count: u64) -> Vec<Call> {
    let frame = |ticket| Frame { hash: [7; 32], from: sender, expected: 5, claim: 21, chain_id: 1, gas: 21_000, ticket };
    (0..count).map(|ticket| Call::Push(frame(ticket))).collect()
}

/// The largest sweeps that a script has room for: a sender of 64 frames listed 64 times, which has 4,096 rows; 31 senders with 256
/// nonces each, of which only the last are of the gap; and no sender with 8,190 nonces.
pub fn largest_sweeps(replay: Option<&Program>) -> Counts {
    let sender = [1; 20];
    let mut rows = pushes(sender, 64);
    rows.push(Call::sweep(&[(sender, 5, &[][..]); 64]));
    let known: Vec<u64> = (1000..1240).chain(5..21).collect();
    let mut nonces = pushes(sender, 1);
    let mut sweep = Sweep::default();
    (0..31).for_each(|i| sweep.list(if i == 30 { sender } else { [2; 20] }, 5, &known));
    nonces.push(Call::Sweep(sweep));
    let unlisted = vec![Call::Sweep(Sweep { nonces: vec![5; 8190], ..Sweep::default() })];
    let mut comparison = Comparison::new(replay);
    for mut calls in [rows, nonces, unlisted] {
        calls.push(Call::Len);
        comparison.script(Script { calls, broken: Vec::new() });
    }
    comparison.finish();
    assert_eq!(comparison.counts.scripts, 3, "a script has room for each");
    comparison.counts
}

/// Every run of up to four calls of the menu.
pub fn short_runs(replay: Option<&Program>) -> Counts {
    let mut comparison = Comparison::new(replay);
    menu::scripts().for_each(|script| comparison.script(script));
    comparison.finish();
    assert_eq!(comparison.counts.scripts, menu::runs());
    comparison.counts
}
