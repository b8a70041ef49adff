//! Lists of calls on the Rust as one store without limits, and on shards, of the model and of our program: the same answers.
use super::generate::{list, List};
use super::join::{lists_blocks, Host};
use super::route::{plan, Plan, Shards};
use super::stores::{by_model, by_replay, fit, Answers};
use super::strength::{show, shown};
use super::wrong::Wrong;
use crate::program::Program;
use crate::random::Random;
use crate::report::tell;
use crate::seen::{see_list, see_split, Kind, Seen};
use crate::store::brief::brief;
use crate::store::calls::{Call, Side};
use crate::store::original::Original;
use std::collections::BTreeSet;
use std::fmt;

/// For how many shards the lists are made, in turn.
const NUMBERS: [usize; 12] = [1, 16, 2, 64, 3, 7, 2, 16, 3, 100, 5, 31];

/// What was run, what it met, and how often something differed.
#[derive(Default)]
pub struct Counts {
    pub lists: usize,
    pub calls: usize,
    /// The most frames that the Rust held at once.
    pub most: usize,
    /// Over how many shards lists were split.
    pub numbers: BTreeSet<usize>,
    /// Splits of a list, the calls of their shards, the answers to the list that were compared, and the splits in which a shard had
    /// no room, which are compared up to there.
    pub splits: usize,
    pub made: usize,
    pub compared: usize,
    pub no_room: usize,
    pub seen: Seen,
    pub model: usize,
    pub replayed: usize,
    /// Splits with a script too long for `replay`, and those that differ.
    pub too_long: usize,
    pub replay: usize,
}

impl fmt::Display for Counts {
    fn fmt(&self, f: &mut fmt::Formatter<'_>) -> fmt::Result {
        let count = |kind: Kind| self.seen.count(kind);
        let numbers = (self.numbers.len(), self.numbers.first().unwrap_or(&0), self.numbers.last().unwrap_or(&0));
        let (over_64, over_1000) = (count(Kind::ListOver64), count(Kind::ListOver1000));
        let joined = [Kind::SplitReorg, Kind::SplitFinality, Kind::SplitSweep].map(count);
        let (settled, unsettled) = (count(Kind::SplitBlocks), count(Kind::SplitUnsettled));
        write!(f, "{} lists, {} calls, at most {} frames at once on the Rust, ", self.lists, self.calls, self.most)?;
        write!(f, "over 64 in {over_64} lists and over 1,000 in {over_1000}; {} splits, ", self.splits)?;
        write!(f, "over {} numbers of shards from {} to {}, ", numbers.0, numbers.1, numbers.2)?;
        write!(f, "{} calls of shards; {} answers compared, ", self.made, self.compared)?;
        write!(f, "{} of them joined of frames of two shards or more; ", joined.iter().sum::<u64>())?;
        write!(f, "splits compared only up to a refusal for want of room {}; ", self.no_room)?;
        write!(f, "tentative blocks not settled {unsettled} of {}; ", settled + unsettled)?;
        write!(f, "differences from the model {}; {} splits given to replay, ", self.model, self.replayed)?;
        write!(f, "{} too long for it, {} that differ", self.too_long, self.replay)
    }
}

/// What is due of a list: what the Rust answers, with the sender and the place that the model finds; and the first place at which
/// the model answers something else.
pub fn due(list: &List) -> (Vec<String>, Option<usize>) {
    let mut original = Original::unlimited();
    let answers: Vec<_> = list.calls.iter().map(|call| original.answer(call)).collect();
    let differs = answers.iter().zip(&list.told).position(|(answer, told)| answer != told.told());
    let whole = answers.into_iter().zip(&list.told).map(|(answer, told)| answer.of(told.whose()).to_string());
    (whole.collect(), differs)
}

/// What shards answer to a list, held against what is due.
#[derive(Default)]
pub struct Held {
    /// Whether each shard had room for all its calls; if not, nothing behind the first that it refused is held against anything.
    pub room: bool,
    /// The first place at which something else is answered, and what.
    pub differs: Option<(usize, String)>,
    /// How many answers are as they are due.
    pub compared: usize,
    pub seen: Seen,
}

/// Whether a call is refused for want of room.
fn lacks_room(answer: &&str) -> bool {
    matches!(*answer, "refused 2" | "refused 5" | "refused 8")
}

/// Whether what is answered is what is due, but for the total of a push.
fn same(due: &str, found: &str) -> bool {
    due == found || due.starts_with("total ") && found.starts_with("total ")
}

/// Joins the answers of shards, call by call, and holds them against what is due.
pub fn hold(calls: &[Call], due: &[String], plan: &Plan, answers: &Answers, wrong: Option<Wrong>) -> Held {
    let host = Host::new(calls, wrong);
    let mut held = Held { room: true, ..Held::default() };
    for (place, (call, due)) in calls.iter().zip(due).enumerate() {
        let found: Vec<&str> = plan.sent[place].iter().map(|sent| &answers[sent.shard][sent.place][..]).collect();
        if found.iter().any(lacks_room) {
            held.room = false;
            held.seen.see(Kind::SplitNoRoom);
            break;
        }
        see_split(&mut held.seen, call, due, &found);
        let joined = match call {
            Call::Blocks if lists_blocks(due, &found) => due.clone(),
            Call::Blocks => found.join(" and "),
            _ => host.join(call, &found),
        };
        if !same(due, &joined) {
            held.differs = Some((place, joined));
            break;
        }
        held.compared += 1;
    }
    held
}

/// The shards of a seed that a list is made for.
pub fn shards(seed: u64, count: usize) -> Shards {
    Shards { count, way: Random::new(seed ^ 0x3a7d).draw() }
}

/// Random lists until so many calls are made. Each is split over the shards that it was made for, and over some more.
pub fn random(seed: u64, calls: usize, replay: Option<&Program>) -> Counts {
    let mut counts = Counts::default();
    let mut next = seed;
    while counts.calls < calls {
        let count = NUMBERS[(next % NUMBERS.len() as u64) as usize];
        let more = count + 1 + Random::new(next ^ 0x77).index(2 * count);
        let list = list(next, shards(next, count));
        one(&list, &[shards(next, count), shards(next + 1, more)], replay, &mut counts);
        next += 1;
    }
    counts
}

fn one(list: &List, splits: &[Shards], replay: Option<&Program>, counts: &mut Counts) {
    let (due, differs) = due(list);
    counts.lists += 1;
    counts.calls += list.calls.len();
    counts.most = counts.most.max(list.most);
    see_list(&mut counts.seen, &list.calls, list.most);
    if let Some(place) = differs {
        counts.model += 1;
        if tell() {
            let (due, told) = (&due[place], &list.told[place]);
            println!("DIFFERENCE between the Rust and the model without limits, call {place}:");
            println!("  due:   {}\n  other: {}", shown(due), shown(&told.to_string()));
        }
    }
    splits.iter().for_each(|shards| split(list, &due, *shards, replay, counts));
}

/// One split of a list, on models, and on our program if there is one.
fn split(list: &List, due: &[String], shards: Shards, replay: Option<&Program>, counts: &mut Counts) {
    let plan = plan(&list.calls, shards, None);
    counts.splits += 1;
    counts.numbers.insert(shards.count);
    counts.made += plan.scripts.iter().map(Vec::len).sum::<usize>();
    let answers = by_model(&plan.scripts);
    let held = hold(&list.calls, due, &plan, &answers, None);
    counts.compared += held.compared;
    counts.no_room += usize::from(!held.room);
    counts.seen.add(&held.seen);
    if let Some((place, _)) = held.differs {
        counts.model += 1;
        if tell() {
            println!("DIFFERENCE between the Rust and {} shards of the model, call {place}:", shards.count);
            show(&list.calls[..=place], shards, None);
        }
    }
    match replay {
        Some(replay) if fit(&plan.scripts) => {
            let printed = by_replay(&plan.scripts, replay);
            counts.replayed += 1;
            let held = hold(&list.calls, due, &plan, &printed, None);
            counts.replay += usize::from(tell_replay(list, due, &held) || tell_shard(&plan, &answers, &printed));
        }
        Some(_) => counts.too_long += 1,
        None => {}
    }
}

/// Whether the shards of our program, joined, answer something else than what is due.
fn tell_replay(list: &List, due: &[String], held: &Held) -> bool {
    let Some((place, other)) = &held.differs else {
        return false;
    };
    if tell() {
        println!("DIFFERENCE between the Rust and shards of replay, call {place}, {}:", brief(&list.calls[*place]));
        println!("  due:    {}\n  shards: {}", shown(&due[*place]), shown(other));
    }
    true
}

/// Whether a shard of our program prints something else than that of the model, in a push's total or behind a refusal too.
fn tell_shard(plan: &Plan, answers: &Answers, printed: &Answers) -> bool {
    let Some(shard) = answers.iter().zip(printed).position(|(a, b)| a != b) else {
        return false;
    };
    let differs = |(a, b): (&String, &String)| a != b;
    let place = answers[shard].iter().zip(&printed[shard]).position(differs).unwrap_or(0);
    if tell() {
        println!("DIFFERENCE between the model and replay, shard {shard}, {}:", brief(&plan.scripts[shard][place]));
        println!("  model:  {}\n  replay: {}", shown(&answers[shard][place]), shown(&printed[shard][place]));
    }
    true
}
