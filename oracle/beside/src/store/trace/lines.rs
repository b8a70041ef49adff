//! What stands in a trace, and the lines that are printed of it, written from requests 2027-06 and 2027-07. A wrong rule may be
//! planted.
use super::totals::{Made, Totals};
use super::wrong::Wrong;
use crate::store::answers::Answer;
use crate::store::calls::{Call, Side};
use crate::store::original::Original;
use crate::store::reading::{Bad, Reader};
use crate::store::script::bytes_of;
use std::fmt::Write;

/// The longest trace.
pub const TRACE_LIMIT: usize = 65_536;

/// More bytes than any call lacks that is cut short.
const LACKING: usize = 1 << 20;

/// What stands at a place of a trace: a call, or why there is none.
pub type Placed = Result<Call, Bad>;

// ---- reading

/// What the bytes begin with, and how many bytes it has. Where no call stands it has them all, or, to run on, those before the next
/// call.
fn first(bytes: &[u8], wrong: Option<Wrong>) -> (Placed, usize) {
    let mut reader = Reader::new(bytes, wrong);
    match reader.trace_call() {
        Ok(call) => (Ok(call), bytes.len() - reader.rest.len()),
        Err(Bad::Cut) if wrong == Some(Wrong::CutRuns) => {
            (Reader::new(&[bytes, &vec![0; LACKING]].concat(), wrong).trace_call(), bytes.len())
        }
        Err(bad) if wrong == Some(Wrong::RunsOn) => {
            let stands = |at: &usize| Reader::new(&bytes[*at..], wrong).trace_call().is_ok();
            (Err(bad), (1..bytes.len()).find(stands).unwrap_or(bytes.len()))
        }
        Err(bad) => (Err(bad), bytes.len()),
    }
}

/// The places of a trace within the limit: its calls, and behind them why no more are read.
fn places_within(bytes: &[u8], wrong: Option<Wrong>) -> Vec<Placed> {
    let mut places = Vec::new();
    let mut rest = bytes;
    while !rest.is_empty() {
        let (placed, size) = first(rest, wrong);
        let cut = placed == Err(Bad::Cut);
        if cut && (wrong == Some(Wrong::CutPassedOver) || wrong == Some(Wrong::ByteLeft) && rest.len() == 1) {
            return places;
        }
        places.push(placed);
        rest = &rest[size..];
    }
    places
}

/// The places of a trace.
pub fn places(bytes: &[u8], wrong: Option<Wrong>) -> Vec<Placed> {
    let limit = match wrong {
        Some(Wrong::LimitOneMore) => TRACE_LIMIT + 1,
        Some(Wrong::LimitOneLess) => TRACE_LIMIT - 1,
        Some(Wrong::LimitIgnored) => usize::MAX,
        _ => TRACE_LIMIT,
    };
    if bytes.len() <= limit {
        return places_within(bytes, wrong);
    }
    let mut places = match wrong {
        Some(Wrong::LimitRunsUp) => return places_within(&bytes[..limit], wrong),
        Some(Wrong::LimitBehind) => places_within(&bytes[..limit], wrong),
        _ => Vec::new(),
    };
    places.retain(|placed| placed.is_ok());
    places.push(Err(Bad::Limit));
    places
}

/// The bytes of each call of a trace, and those behind them that are none.
pub fn parts(bytes: &[u8]) -> Vec<Vec<u8>> {
    let bytes_of_call = |call: Call| bytes_of(&[call]);
    let mut parts: Vec<Vec<u8>> = places(bytes, None).into_iter().flatten().map(bytes_of_call).collect();
    parts.push(bytes[parts.concat().len()..].to_vec());
    parts.retain(|part| !part.is_empty());
    parts
}

// ---- running

/// Answers each call on an empty store.
struct Anew;

impl Side for Anew {
    fn answer(&mut self, call: &Call) -> Answer {
        Original::default().answer(call)
    }
}

/// What came of the calls of a trace.
pub struct Ran {
    /// The number of each place: that of the call's refusal or 0, and 19 where no call stands.
    pub numbers: Vec<u8>,
    /// The totals of the calls that were made, with or without a 19 behind them.
    pub totals: Totals,
}

fn number(answer: &Answer) -> u8 {
    match answer {
        Answer::Refused(number) => *number,
        _ => 0,
    }
}

/// What a call answers that counts frames.
fn count(side: &mut dyn Side, call: &Call) -> u64 {
    match side.answer(call) {
        Answer::Number(count) => count,
        answer => panic!("{} does not answer {answer}", call.mark()),
    }
}

/// How many frames the store holds.
fn held(side: &mut dyn Side, wrong: Option<Wrong>) -> u64 {
    let all = count(side, &Call::Len);
    match wrong {
        Some(Wrong::HeldTracked) => all - count(side, &Call::TentativeCount),
        _ => all,
    }
}

/// Makes the calls of a trace one after another.
pub fn run(places: &[Placed], side: &mut dyn Side, wrong: Option<Wrong>) -> Ran {
    let mut numbers = Vec::with_capacity(places.len());
    let mut made: Vec<Made> = Vec::with_capacity(places.len());
    for placed in places {
        let Ok(call) = placed else {
            numbers.push(19);
            continue;
        };
        let answer = side.answer(call);
        let number = number(&answer);
        numbers.push(number);
        made.push((call, answer));
        if number != 0 && wrong == Some(Wrong::RefusedEnds) {
            break;
        }
    }
    Ran { numbers, totals: Totals::of(&made, held(side, wrong), wrong) }
}

// ---- lines

/// The places and numbers that are printed.
fn printed(numbers: &[u8], wrong: Option<Wrong>) -> Vec<(usize, u8)> {
    let mut lines: Vec<(usize, u8)> = numbers.iter().copied().enumerate().collect();
    let refused = |line: &(usize, u8)| line.1 != 0 && line.1 != 19;
    match wrong {
        Some(Wrong::NineteenSilent) => lines.retain(|line| line.1 != 19),
        Some(Wrong::NineteenAlone) if numbers.contains(&19) => lines.retain(|line| line.1 == 19),
        Some(Wrong::NineteenFirst) => lines.iter_mut().filter(|line| line.1 == 19).for_each(|line| line.0 = 0),
        Some(Wrong::NineteenOfLast) => {
            lines.iter_mut().filter(|line| line.1 == 19).for_each(|line| line.0 = line.0.saturating_sub(1));
        }
        Some(Wrong::PlaceFromOne) => lines.iter_mut().for_each(|line| line.0 += 1),
        Some(Wrong::EmptyRefused) if lines.is_empty() => lines.push((0, 19)),
        Some(Wrong::RefusedZero) => lines.iter_mut().filter(|line| refused(line)).for_each(|line| line.1 = 0),
        Some(Wrong::RefusedSilent) => {
            lines.retain(|line| !refused(line));
            lines.iter_mut().enumerate().for_each(|(place, line)| line.0 = place);
        }
        _ => {}
    }
    lines
}

/// Whether the totals of these lines are printed: where none of them has a 19.
fn has_totals(lines: &[(usize, u8)], wrong: Option<Wrong>) -> bool {
    let whole = lines.iter().all(|line| line.1 != 19);
    match wrong {
        Some(Wrong::TotalsNever) => false,
        Some(Wrong::TotalsOfNineteen) => true,
        Some(Wrong::TotalsNotOfEmpty) => whole && !lines.is_empty(),
        Some(Wrong::TotalsNotOfRefused) => lines.iter().all(|line| line.1 == 0),
        _ => whole,
    }
}

/// The text that is printed of a trace.
pub fn text(ran: &Ran, wrong: Option<Wrong>) -> String {
    let printed = printed(&ran.numbers, wrong);
    let mut text = String::new();
    for (place, number) in &printed {
        writeln!(text, "{place} {number}").expect("a string takes all");
    }
    if !has_totals(&printed, wrong) {
        return text;
    }
    let totals = ran.totals.line(wrong);
    match wrong {
        Some(Wrong::TotalsFirst) => format!("{totals}\n{text}"),
        _ => format!("{text}{totals}\n"),
    }
}

/// The lines of a trace, with what the Rust answers and holds.
pub fn lines(bytes: &[u8], wrong: Option<Wrong>) -> String {
    let places = places(bytes, wrong);
    let ran = match wrong {
        Some(Wrong::StoreAnew) => run(&places, &mut Anew, wrong),
        _ => run(&places, &mut Original::default(), wrong),
    };
    text(&ran, wrong)
}
