//! The order rule, tried on the Rust itself, with sender and place from the model: random lists of calls and legal reorderings.
//! Its condition: reorganisations and finalities are the same and in one order, and in each stretch that they leave, every
//! sender's calls are too. A guard or an entering is the call of the sender that pushes its hash. A sweep
//! is read as its polls, and a refused one as no call: in one order it is made as a sweep, in the other its polls are made apart.
use super::answers::{Answer, Row};
use super::calls::{Address, Call, Hash, Side};
use super::due::Due;
use super::generate;
use super::model::Model;
use super::original::Original;
use super::wrong::Wrong;
use crate::random::Random;
use std::collections::BTreeMap;

/// Whose a call is: a sender's, or that of a hash that nobody pushes.
#[derive(Clone, Copy, PartialEq, Eq, PartialOrd, Ord, Debug)]
enum Owner {
    Sender(Address),
    Alone(Hash),
}

/// The calls of a generated script that change the store, with each hash pushed by one sender only.
fn calls(seed: u64) -> Vec<Call> {
    let mut owners: BTreeMap<Hash, Address> = BTreeMap::new();
    let mut calls: Vec<Call> = generate::script(seed).calls.into_iter().filter(Call::changes).collect();
    for call in &mut calls {
        if let Call::Push(f) = call {
            let owner = *owners.entry(f.hash).or_insert(f.from);
            if owner != f.from {
                // the same frame under a hash of its sender's own
                f.hash[9] = f.from[0] ^ 0x55;
                f.hash[10] = f.from[19];
                owners.insert(f.hash, f.from);
            }
        }
    }
    calls
}

/// A call that is made for a place of the list: the call that stands there, or a poll of the sweep that does.
struct Part {
    place: usize,
    swept: bool,
    call: Call,
}

/// The list as it stands.
fn whole(calls: &[Call]) -> Vec<Part> {
    let part = |(place, call): (usize, &Call)| Part { place, swept: matches!(call, Call::Sweep(_)), call: call.clone() };
    calls.iter().enumerate().map(part).collect()
}

/// The list as the rule reads it. Whether a sweep is refused does not hang on the store, but for want of room, which it has.
fn read(calls: &[Call]) -> Vec<Part> {
    let polls = |part: Part| match &part.call {
        Call::Sweep(_) if matches!(Original::default().answer(&part.call), Answer::Refused(_)) => Vec::new(),
        Call::Sweep(s) => s.polls().into_iter().map(|call| Part { call, ..part }).collect(),
        _ => vec![part],
    };
    whole(calls).into_iter().flat_map(polls).collect()
}

fn owner(call: &Call, pushed: &BTreeMap<Hash, Address>) -> Option<Owner> {
    let of_hash = |hash: &Hash| match pushed.get(hash) {
        Some(sender) => Owner::Sender(*sender),
        None => Owner::Alone(*hash),
    };
    match call {
        Call::Push(f) => Some(Owner::Sender(f.from)),
        Call::Poll { sender, .. } | Call::Evict { sender } => Some(Owner::Sender(*sender)),
        Call::Guard(g) => Some(of_hash(&g.hash)),
        Call::Enter { hash, .. } => Some(of_hash(hash)),
        _ => None,
    }
}

/// The parts of a list in another order that the condition allows.
fn reordered(parts: &[Part], r: &mut Random) -> Vec<usize> {
    let pushed: BTreeMap<Hash, Address> = parts
        .iter()
        .filter_map(|part| match &part.call {
            Call::Push(f) => Some((f.hash, f.from)),
            _ => None,
        })
        .collect();
    let mut order = Vec::with_capacity(parts.len());
    let mut stretch: BTreeMap<Owner, Vec<usize>> = BTreeMap::new();
    for (index, part) in parts.iter().enumerate() {
        match owner(&part.call, &pushed) {
            Some(owner) => stretch.entry(owner).or_default().push(index),
            None => {
                interleave(&mut stretch, &mut order, r);
                order.push(index);
            }
        }
    }
    interleave(&mut stretch, &mut order, r);
    order
}

fn interleave(stretch: &mut BTreeMap<Owner, Vec<usize>>, order: &mut Vec<usize>, r: &mut Random) {
    let mut queues: Vec<Vec<usize>> = std::mem::take(stretch).into_values().collect();
    queues.iter_mut().for_each(|q| q.reverse());
    while !queues.is_empty() {
        let i = r.index(queues.len());
        if let Some(place) = queues[i].pop() {
            order.push(place);
        }
        queues.retain(|q| !q.is_empty());
    }
}

/// What the places of a list answer, the rows of its sweeps, and the store afterwards.
#[derive(Debug, PartialEq)]
struct Found {
    answers: BTreeMap<usize, Answer>,
    swept: BTreeMap<usize, Vec<Row>>,
    store: Answer,
}

/// What is found when the parts come in this order; none if a call is refused for want of room, which the rule leaves out. A
/// push's total is not compared, and a sweep that is refused is no call.
fn found(mut side: impl Side, parts: &[Part], order: &[usize]) -> Option<Found> {
    let mut each = vec![None; parts.len()];
    for index in order {
        each[*index] = match side.answer(&parts[*index].call) {
            Answer::Refused(2 | 8) => return None,
            Answer::Total(_) => Some(Answer::Total(0)),
            answer => Some(answer),
        };
    }
    let (mut answers, mut swept) = (BTreeMap::new(), BTreeMap::new());
    for (part, answer) in parts.iter().zip(each.into_iter().flatten()) {
        match answer {
            Answer::Rows(rows) if part.swept && rows.is_empty() => {}
            Answer::Rows(rows) if part.swept => swept.entry(part.place).or_insert(Vec::new()).extend(rows),
            Answer::Refused(_) if part.swept => {}
            answer => {
                answers.insert(part.place, answer);
            }
        }
    }
    Some(Found { answers, swept, store: side.answer(&Call::Dump) })
}

pub enum Outcome {
    /// A refusal for want of room in one of the orders.
    NoRoom,
    /// The other order is the same one.
    SameOrder,
    /// The answers are the same, with short rows or with rows of sweeps among them or without.
    Equal {
        short_rows: bool,
        swept_rows: bool,
    },
    Different(String),
}

fn try_on<S: Side>(side: impl Fn() -> S, seed: u64) -> Outcome {
    let calls = calls(seed);
    let (whole, parts) = (whole(&calls), read(&calls));
    let mut r = Random::new(seed ^ 0x0bde);
    let given: Vec<usize> = (0..whole.len()).collect();
    let other = reordered(&parts, &mut r);
    let (Some(a), Some(b)) = (found(side(), &whole, &given), found(side(), &parts, &other)) else {
        return Outcome::NoRoom;
    };
    if a != b {
        let places: Vec<usize> = other.iter().map(|index| parts[*index].place).collect();
        Outcome::Different(format!("list {seed}: {calls:?} in the order {places:?}: {a:?} / {b:?}"))
    } else if other.iter().copied().eq(0..parts.len()) {
        Outcome::SameOrder
    } else {
        let is_short = |answer: &Answer| matches!(answer, Answer::Short(rows) if !rows.is_empty());
        Outcome::Equal { short_rows: a.answers.values().any(is_short), swept_rows: !a.swept.is_empty() }
    }
}

pub fn try_orders(seed: u64) -> Outcome {
    try_on(Due::default, seed)
}

/// Whether a place counted over all senders, which hangs on the order, is told apart: it shows that places are compared.
pub fn wrong_place_differs(seed: u64) -> bool {
    matches!(try_on(|| Model::with(Some(Wrong::PlaceOfAll)), seed), Outcome::Different(_))
}

/// Whether a sweep that gives each sender the first nonces, and so is not its polls, is told apart: it shows that the rows of
/// sweeps are compared.
pub fn wrong_sweep_differs(seed: u64) -> bool {
    matches!(try_on(|| Model::with(Some(Wrong::SweepNoncesFromStart)), seed), Outcome::Different(_))
}

/// Whether the reverse of the list, which is no legal order, is told apart: it shows that the comparison can tell.
pub fn reversed_differs(seed: u64) -> bool {
    let parts = whole(&calls(seed));
    let given: Vec<usize> = (0..parts.len()).collect();
    let reversed: Vec<usize> = given.iter().rev().copied().collect();
    match (found(Due::default(), &parts, &given), found(Due::default(), &parts, &reversed)) {
        (Some(a), Some(b)) => a != b,
        _ => false,
    }
}
