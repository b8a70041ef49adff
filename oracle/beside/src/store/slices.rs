//! What the program `short_slices` is to print: each call that lists, lent slices that are too short, just long enough or
//! longer, and `is_empty`. The lists are the Rust's on the same stores; a call is refused 5 exactly where a slice is shorter
//! than document 01's table says, or, for a short poll, request 2027-03, and for a sweep request 2027-05. The model is lent the
//! slices of the sweeps too; without a wrong rule its lines are the same, and with one that is for these slices another.
use super::answers::Answer;
use super::calls::{Address, Call, Consumed, Content, Form, Frame, Hash, Side, Sweep};
use super::model::Model;
use super::original::Original;
use super::wrong::Wrong;
use crate::seen::{Kind, Seen};
use std::path::Path;
use std::process::Command;

#[derive(Clone, Copy)]
enum Lists {
    Poll,
    PollWithContent,
    PollShort,
    PollShortWithContent,
    Sweep,
    SweepTwice,
    SweepAfterRescue,
    SweepOfTentative,
    SweepOfNone,
    SweepHeadMore,
    SweepNonceMore,
    SweepManyNonces,
    Evict,
    Reorg,
    Finality,
    Blocks,
    Senders,
    KnownGap,
}

/// The lines in their order: a call, and how long the slices are that it is lent. Where a call is lent two, numbers come first.
const LINES: &[(Lists, &[usize])] = &[
    (Lists::Poll, &[37]),
    (Lists::Poll, &[38]),
    (Lists::PollWithContent, &[37]),
    (Lists::PollWithContent, &[38]),
    (Lists::PollShort, &[9]),
    (Lists::PollShort, &[10]),
    (Lists::PollShortWithContent, &[9]),
    (Lists::PollShortWithContent, &[10]),
    (Lists::Sweep, &[37]),
    (Lists::Sweep, &[38]),
    // room for the sender once
    (Lists::SweepTwice, &[38]),
    (Lists::SweepTwice, &[75]),
    (Lists::SweepTwice, &[76]),
    (Lists::SweepAfterRescue, &[75]),
    (Lists::SweepAfterRescue, &[76]),
    (Lists::SweepOfTentative, &[37]),
    (Lists::SweepOfTentative, &[38]),
    // refused before 5
    (Lists::SweepHeadMore, &[37]),
    (Lists::SweepNonceMore, &[37]),
    (Lists::SweepManyNonces, &[37]),
    (Lists::SweepOfNone, &[0]),
    (Lists::Evict, &[1]),
    (Lists::Evict, &[2]),
    (Lists::Reorg, &[1]),
    (Lists::Reorg, &[2]),
    (Lists::Finality, &[5, 128]),
    (Lists::Finality, &[6, 127]),
    (Lists::Finality, &[6, 128]),
    (Lists::Blocks, &[1, 64]),
    (Lists::Blocks, &[2, 63]),
    (Lists::Blocks, &[2, 64]),
    (Lists::Senders, &[19]),
    (Lists::Senders, &[20]),
    (Lists::KnownGap, &[2]),
    (Lists::KnownGap, &[3]),
    // three elements longer than the list
    (Lists::Poll, &[41]),
    (Lists::PollWithContent, &[41]),
    (Lists::PollShort, &[13]),
    (Lists::PollShortWithContent, &[13]),
    (Lists::Evict, &[5]),
    (Lists::Reorg, &[5]),
    (Lists::Finality, &[9, 131]),
    (Lists::Sweep, &[41]),
    (Lists::SweepTwice, &[79]),
    (Lists::Blocks, &[5, 67]),
    (Lists::Senders, &[23]),
    (Lists::KnownGap, &[6]),
];

/// What every element of a slice is when it is lent.
const MARK: u64 = 170;

const SENDER: Address = [1; 20];
/// A sender with no frame, whose address differs in the last byte.
const NOBODY: Address = [1, 1, 1, 1, 1, 1, 1, 1, 1, 1, 1, 1, 1, 1, 1, 1, 1, 1, 1, 2];
const FIRST: Hash = [7; 32];
const SECOND: Hash = [8; 32];

// ---- the stores and the calls

/// Two of document 01's frame F, of one sender.
fn tracked() -> Vec<Call> {
    let frame = |hash| Frame { hash, from: SENDER, expected: 5, claim: 8, chain_id: 1, gas: 21_000, ticket: 3 };
    vec![Call::Push(frame(FIRST)), Call::Push(frame(SECOND))]
}

/// The same after both were mined, in these blocks.
fn tentative(first: u64, second: u64) -> Vec<Call> {
    let mined = |block| Consumed { kind: 1, block, block_hash: [9; 32], taker: [0; 32] };
    let mut calls = tracked();
    calls.push(Call::Enter { hash: FIRST, consumed: mined(first) });
    calls.push(Call::Enter { hash: SECOND, consumed: mined(second) });
    calls
}

fn made<S: Side>(mut store: S, calls: &[Call]) -> S {
    calls.iter().for_each(|call| {
        store.answer(call);
    });
    store
}

/// A sweep of the sender with these heads, this count and these nonces, which may not agree.
fn of_one(heads: &[u64], count: u64, nonces: &[u64]) -> Call {
    Call::Sweep(Sweep { senders: SENDER.to_vec(), heads: heads.to_vec(), counts: vec![count], nonces: nonces.to_vec() })
}

impl Lists {
    /// The call's name, what makes its store, and the call.
    fn parts(self) -> (&'static str, Vec<Call>, Call) {
        let poll = |content| Call::poll(SENDER, 8, Vec::new(), content);
        let pair = Content { nonces: vec![7], hashes: vec![9; 32] };
        let twice = |first, second| Call::sweep(&[(SENDER, first, &[]), (SENDER, second, &[])]);
        let gap = Call::KnownGap { sender: SENDER, head: 5, pending_count: 8 };
        match self {
            Lists::Poll => ("poll", tracked(), poll(None)),
            Lists::PollWithContent => ("poll_with_content", tracked(), poll(Some(pair))),
            Lists::PollShort => ("poll_short", tracked(), poll(None).short()),
            Lists::PollShortWithContent => ("poll_short_with_content", tracked(), poll(Some(pair)).short()),
            Lists::Sweep => ("sweep", tracked(), Call::sweep(&[(SENDER, 8, &[]), (NOBODY, 8, &[])])),
            Lists::SweepTwice => ("sweep of a sender twice", tracked(), twice(5, 8)),
            Lists::SweepAfterRescue => ("sweep after a rescue", tracked(), twice(8, 8)),
            Lists::SweepOfTentative => ("sweep of tentative frames", tentative(100, 100), Call::sweep(&[(SENDER, 8, &[])])),
            Lists::SweepOfNone => ("sweep of no sender", tracked(), Call::sweep(&[])),
            Lists::SweepHeadMore => ("sweep with a head more", tracked(), of_one(&[8, 8], 0, &[])),
            Lists::SweepNonceMore => ("sweep with a nonce more", tracked(), of_one(&[8], 0, &[5])),
            Lists::SweepManyNonces => ("sweep with 257 nonces", tracked(), of_one(&[8], 257, &[5; 257])),
            Lists::Evict => ("evict_sender", tracked(), Call::Evict { sender: SENDER }),
            Lists::Reorg => ("check_reorg", tentative(100, 100), Call::Reorg { block: 100, hash: None }),
            Lists::Finality => ("check_finalized", tentative(100, 100), Call::Finality { block: 100 }),
            Lists::Blocks => ("tentative_blocks", tentative(100, 101), Call::Blocks),
            Lists::Senders => ("senders", tracked(), Call::Senders),
            Lists::KnownGap => ("pool_known_gap", tracked(), gap),
        }
    }
}

// ---- lists and slices

fn wide(bytes: &[u8]) -> Vec<u64> {
    bytes.iter().map(|b| u64::from(*b)).collect()
}

/// What a list is called, how many it lists, and what it leaves in the slices. A sweep that is refused for its lists has none.
fn laid(answer: &Answer) -> (&'static str, usize, Vec<Vec<u64>>) {
    match answer {
        Answer::Refused(number) => ("refused", usize::from(*number), Vec::new()),
        Answer::Rows(rows) => ("rows", rows.len(), vec![rows.concat()]),
        Answer::Short(rows) => ("short", rows.len(), vec![rows.concat()]),
        Answer::Tickets(list) => ("tickets", list.len(), vec![list.clone()]),
        Answer::Numbers(list) => ("numbers", list.len(), vec![list.clone()]),
        Answer::Senders(list) => ("senders", list.len(), vec![wide(&list.concat())]),
        Answer::Dead(list) => {
            let numbers = list.iter().flat_map(|(ticket, c)| [*ticket, c.block, u64::from(c.kind)]).collect();
            let bytes = list.iter().flat_map(|(_, c)| wide(&[c.block_hash, c.taker].concat())).collect();
            ("dead", list.len(), vec![numbers, bytes])
        }
        Answer::Blocks(list) => {
            let bytes = list.iter().flat_map(|(_, hash)| wide(hash)).collect();
            ("blocks", list.len(), vec![list.iter().map(|(n, _)| *n).collect(), bytes])
        }
        _ => panic!("no list: {answer}"),
    }
}

/// How long document 01's table wants the slices: a poll's 19 for each entry of the sender, the others as long as their lists. Of
/// a short poll request 2027-03 wants five for each entry, and of a sweep request 2027-05 wants 19 for each entry of each sender
/// listed. A sweep that is refused for its lists wants nothing.
fn due(call: &Call, lists: &[Vec<u64>], before: &mut Original) -> Vec<usize> {
    let Answer::Dump(dump) = before.answer(&Call::Dump) else {
        panic!("a dump answers so");
    };
    let entries_of = |sender: &[u8]| dump.entries.iter().filter(|e| e.frame.from == *sender).count();
    match call {
        Call::Poll { form: Form::Long, sender, .. } => vec![19 * entries_of(sender)],
        Call::Poll { form: Form::Short, sender, .. } => vec![5 * entries_of(sender)],
        Call::Sweep(s) if !lists.is_empty() => vec![19 * s.senders.chunks(20).map(entries_of).sum::<usize>()],
        _ => lists.iter().map(Vec::len).collect(),
    }
}

fn kept(elements: &[u64]) -> &'static str {
    if elements.iter().all(|n| *n == MARK) {
        "kept"
    } else {
        "written"
    }
}

/// What is said of a slice, whose list has this length.
fn slice_text(slice: &[u64], list: usize, (name, longer, them): (&str, &str, &str)) -> String {
    let (list, past) = slice.split_at(list.min(slice.len()));
    match past.len() {
        0 => format!(", {name} {}", kept(list)),
        more => format!(", {longer} {}, {more} past {them} {}", kept(list), kept(past)),
    }
}

const ONE: &[(&str, &str, &str)] = &[("slice", "list", "it")];
const TWO: &[(&str, &str, &str)] = &[("numbers", "numbers", "them"), ("bytes", "bytes", "them")];

/// The line of a call that left these slices, whose lists have these lengths. A sweep that is refused for its lists has none: all
/// of its slice is told of at once.
fn told(name: &str, answer: &str, slices: &[Vec<u64>], lists: &[Vec<u64>]) -> String {
    let lengths: Vec<String> = slices.iter().map(|slice| slice.len().to_string()).collect();
    let mut text = format!("{name} {}: {answer}", lengths.join(" and "));
    let names = if slices.len() == 1 { ONE } else { TWO };
    for (i, (slice, names)) in slices.iter().zip(names).enumerate() {
        text += &slice_text(slice, lists.get(i).map_or(slice.len(), Vec::len), *names);
    }
    text
}

/// How many frames are held and tentative, before a call and after it.
fn stores(before: &mut impl Side, after: &mut impl Side) -> String {
    let mut number = |call: Call| format!("{} -> {}", before.answer(&call), after.answer(&call)).replace("number ", "");
    format!(", held {}, tentative {}", number(Call::Len), number(Call::TentativeCount))
}

fn see_slices(seen: &mut Seen, call: &Call, refused: bool, exact: bool) {
    seen.see(match (refused, call) {
        (true, Call::Poll { form: Form::Short, .. }) => Kind::ShortPoll5,
        (true, Call::Sweep(_)) => Kind::Sweep5,
        (true, _) => Kind::List5,
        (false, _) if exact => Kind::ListExact,
        (false, _) => Kind::ListPast,
    });
}

/// The line of one call.
fn line(lists: Lists, lent: &[usize], seen: &mut Seen) -> String {
    let (name, calls, call) = lists.parts();
    let store = || made(Original::default(), &calls);
    let (mut before, mut after) = (store(), store());
    let (word, count, lists) = laid(&after.answer(&call));
    let due = due(&call, &lists, &mut before);
    let refused = lent.iter().zip(&due).any(|(lent, due)| lent < due);
    let mut slices: Vec<Vec<u64>> = lent.iter().map(|length| vec![MARK; *length]).collect();
    if refused {
        after = store();
    } else {
        slices.iter_mut().zip(&lists).for_each(|(slice, list)| slice[..list.len()].copy_from_slice(list));
    }
    if !due.is_empty() {
        see_slices(seen, &call, refused, lent == due);
    }
    let answer = if refused { "refused 5".to_string() } else { format!("{word} {count}") };
    let text = told(name, &answer, &slices, &lists);
    match call.changes() {
        true => text + &stores(&mut before, &mut after),
        false => text,
    }
}

/// The line of a sweep as the model has it, in which a wrong rule may be planted.
fn model_line(name: &str, calls: &[Call], sweep: &Sweep, lent: usize, wrong: Option<Wrong>) -> String {
    let (mut before, mut after) = (made(Model::with(wrong), calls), made(Model::with(wrong), calls));
    let mut slice = vec![MARK; lent];
    let answer = match after.sweep_in(sweep, &mut slice) {
        Answer::Rows(rows) => format!("rows {}", rows.len()),
        refused => refused.to_string(),
    };
    let (_, _, lists) = laid(&made(Original::default(), calls).answer(&Call::Sweep(sweep.clone())));
    told(name, &answer, &[slice], &lists) + &stores(&mut before, &mut after)
}

/// The lines of sweeps that are due, beside those of the model with this wrong rule or none.
pub fn beside_model(wrong: Option<Wrong>) -> Vec<(String, String)> {
    let both = |(lists, lent): &(Lists, &[usize])| match lists.parts() {
        (name, calls, Call::Sweep(sweep)) => {
            Some((line(*lists, lent, &mut Seen::default()), model_line(name, &calls, &sweep, lent[0], wrong)))
        }
        _ => None,
    };
    LINES.iter().filter_map(both).collect()
}

fn empty_line(what: &str, store: &Original, seen: &mut Seen) -> String {
    seen.see(if store.is_empty() { Kind::EmptyTrue } else { Kind::EmptyFalse });
    format!("is_empty of {what}: {}", store.is_empty())
}

/// Every line that the program is to print.
pub fn lines(seen: &mut Seen) -> Vec<String> {
    let mut lines: Vec<String> = LINES.iter().map(|(lists, lent)| line(*lists, lent, seen)).collect();
    lines.push(empty_line("an empty store", &Original::default(), seen));
    lines.push(empty_line("a store of two", &made(Original::default(), &tracked()), seen));
    lines
}

/// Holds what the program prints beside these lines. Says how many differ.
pub fn compare(program: &Path, lines: &[String]) -> usize {
    let whole = program.canonicalize().unwrap_or_else(|e| panic!("{}: {e}", program.display()));
    let output = Command::new(whole).output().unwrap_or_else(|e| panic!("{}: {e}", program.display()));
    let text = String::from_utf8_lossy(&output.stdout);
    let found: Vec<&str> = text.lines().collect();
    let mut differences = usize::from(!output.status.success());
    for i in 0..lines.len().max(found.len()) {
        let (due, found) = (lines.get(i).map_or("(nothing)", |line| line), found.get(i).unwrap_or(&"(nothing)"));
        if due != *found {
            differences += 1;
            println!("DIFFERENCE from short_slices, line {}:\n  the Rust: {due}\n  it:       {found}", i + 1);
        }
    }
    differences
}
