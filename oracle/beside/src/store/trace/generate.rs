//! Random traces: the calls of random scripts that a trace has marks for, left whole, cut, damaged in a byte that a reader looks at
//! or in any, of just as many bytes as a trace may have, or of more. Some of the long ones have the shortest calls only, or frames
//! that come and leave.
use super::lines::TRACE_LIMIT;
use crate::random::Random;
use crate::store::calls::{Address, Call, Consumed, Frame, TRACE_MARKS};
use crate::store::generate::long_script;
use crate::store::script::bytes_of;

pub struct Trace {
    pub seed: u64,
    pub bytes: Vec<u8>,
    /// The calls that it was made of, if their bytes were left as they are and within the limit.
    pub whole: Option<Vec<Call>>,
}

/// What a damaged byte is.
#[derive(Clone, Copy, PartialEq, Eq)]
enum Spot {
    Mark,
    Optional,
    Kind,
    Count,
}

/// Marks that only scripts have, or nothing has.
const OTHER_MARKS: [&[u8; 2]; 16] =
    [b"CM", b"CW", b"CS", b"CB", b"CT", b"CL", b"CN", b"CC", b"CK", b"CH", b"CD", b"CX", b"cq", b"PC", b"QP", b"C\0"];

/// The trace of a seed.
pub fn trace(seed: u64) -> Trace {
    let mut r = Random::new(seed ^ 0x7ace);
    let calls = if r.once_in(40) { Vec::new() } else { calls_of(seed) };
    let bytes = match r.below(16) {
        0..=3 => return whole(seed, calls),
        4 => return whole(seed, full(&mut r, seed, calls)),
        5 => long(&mut r, seed, calls),
        6..=8 => cut(&mut r, &calls),
        _ => damaged(&mut r, &calls),
    };
    Trace { seed, bytes, whole: None }
}

fn whole(seed: u64, calls: Vec<Call>) -> Trace {
    Trace { seed, bytes: bytes_of(&calls), whole: Some(calls) }
}

/// The calls of a random script that a trace has marks for.
fn calls_of(seed: u64) -> Vec<Call> {
    let mut calls = long_script(seed).calls;
    calls.retain(Call::is_traced);
    calls
}

fn size(call: &Call) -> usize {
    bytes_of(std::slice::from_ref(call)).len()
}

// ---- long ones

/// The shortest calls, of ten and of eleven bytes.
const TEN: Call = Call::Finality { block: 0 };
const ELEVEN: Call = Call::Reorg { block: 0, hash: None };

/// The sender of the frames that come and leave.
const SENDER: Address = [7; 20];

/// As many frames as a store holds, and calls by which all of them leave: a poll, an eviction, or enterings and finality.
fn round(r: &mut Random) -> Vec<Call> {
    let frame =
        |n: u8| Frame { hash: [n; 32], from: SENDER, expected: 5, claim: 8, chain_id: 1, gas: 21_000, ticket: u64::from(n) };
    let enter = |n: u8| Call::Enter {
        hash: [n; 32],
        consumed: Consumed { kind: 1, block: 100, block_hash: [0x33; 32], taker: [0; 32] },
    };
    let mut calls: Vec<Call> = (0..64).map(|n| Call::Push(frame(n))).collect();
    match r.below(3) {
        0 => calls.push(Call::poll(SENDER, 8, Vec::new(), None)),
        1 => calls.push(Call::Evict { sender: SENDER }),
        _ => {
            calls.extend((0..64).map(enter));
            calls.push(Call::Finality { block: 100 });
        }
    }
    calls
}

/// The calls, and those of further seeds behind them, as long as they have at most so many bytes together. Once in three times there
/// are none but the shortest, and once in six times rounds of frames that come and leave.
fn padded(r: &mut Random, seed: u64, calls: Vec<Call>, limit: usize) -> Vec<Call> {
    if r.once_in(3) {
        return vec![TEN; limit / 10];
    }
    if r.once_in(4) {
        return within(round(r).into_iter().cycle(), limit);
    }
    within(calls.into_iter().chain((seed + 1..).flat_map(calls_of)), limit)
}

/// The first of the calls, as long as they have at most so many bytes together.
fn within(calls: impl Iterator<Item = Call>, limit: usize) -> Vec<Call> {
    let mut all = Vec::new();
    let mut length = 0;
    for call in calls {
        length += size(&call);
        if length > limit {
            break;
        }
        all.push(call);
    }
    all
}

/// Calls of exactly as many bytes as a trace may have. Tens and elevens make up any number of bytes from 90 on.
fn full(r: &mut Random, seed: u64, calls: Vec<Call>) -> Vec<Call> {
    let mut all = padded(r, seed, calls, TRACE_LIMIT - 90);
    let left = TRACE_LIMIT - all.iter().map(size).sum::<usize>();
    all.extend(vec![ELEVEN; left % 10]);
    all.extend(vec![TEN; (left - 11 * (left % 10)) / 10]);
    all
}

/// A trace that reaches the limit in a call that is cut there, or is over the limit by a byte, by some, or by as much again.
fn long(r: &mut Random, seed: u64, calls: Vec<Call>) -> Vec<u8> {
    let some = 2 + r.index(3000);
    let more = *r.pick(&[0, 1, some, TRACE_LIMIT]);
    let mut bytes = bytes_of(&padded(r, seed, calls, 3 * TRACE_LIMIT));
    bytes.truncate(TRACE_LIMIT + more);
    bytes
}

// ---- cut and damaged ones

/// Cut at any byte, in the last call, or behind the first byte of a call.
fn cut(r: &mut Random, calls: &[Call]) -> Vec<u8> {
    let mut bytes = bytes_of(calls);
    let Some(last) = calls.last() else {
        return bytes;
    };
    let place = r.index(calls.len());
    let at = match r.below(4) {
        0 => bytes.len() - 1 - r.index(size(last)),
        1 => bytes_of(&calls[..place]).len() + 1,
        _ => r.index(bytes.len()),
    };
    bytes.truncate(at);
    bytes
}

/// Where the bytes of a call lie that a reader looks at.
fn spots(call: &Call) -> Vec<(Spot, usize)> {
    let mut spots = vec![(Spot::Mark, 0)];
    match call {
        Call::Poll { known, content, .. } => {
            let optional = 32 + 8 * known.len();
            spots.extend([(Spot::Count, 30), (Spot::Optional, optional)]);
            if let Some(c) = content {
                spots.extend([(Spot::Count, optional + 1), (Spot::Count, optional + 3 + 8 * c.nonces.len())]);
            }
        }
        Call::Guard(g) => {
            spots.extend([(Spot::Kind, 2), (Spot::Count, 35), (Spot::Count, 37 + 8 * g.predecessors.len())]);
        }
        Call::Enter { .. } => spots.push((Spot::Kind, 34)),
        Call::Reorg { .. } => spots.push((Spot::Optional, 10)),
        _ => {}
    }
    spots
}

/// With a damaged mark, optional byte, kind or count, or any byte; once in four times with two of them.
fn damaged(r: &mut Random, calls: &[Call]) -> Vec<u8> {
    let mut bytes = bytes_of(calls);
    let mut all = Vec::new();
    let mut start = 0;
    for call in calls {
        all.extend(spots(call).into_iter().map(|(spot, at)| (spot, start + at)));
        start += size(call);
    }
    let times = if bytes.is_empty() { 0 } else { 1 + usize::from(r.once_in(4)) };
    for _ in 0..times {
        let wanted = *r.pick(&[None, Some(Spot::Mark), Some(Spot::Optional), Some(Spot::Kind), Some(Spot::Count)]);
        let fitting: Vec<&(Spot, usize)> = all.iter().filter(|(spot, _)| wanted == Some(*spot)).collect();
        if fitting.is_empty() {
            let at = r.index(bytes.len());
            bytes[at] = r.draw() as u8;
        } else {
            let (spot, at) = **r.pick(&fitting);
            damage(r, spot, &mut bytes[at..]);
        }
    }
    bytes
}

/// Damages what the bytes begin with.
fn damage(r: &mut Random, spot: Spot, bytes: &mut [u8]) {
    match spot {
        Spot::Mark => match r.below(4) {
            0 => bytes[0] = *r.pick(b"DcB\0"),
            1 => bytes[1] = r.draw() as u8,
            2 => bytes[..2].copy_from_slice(*r.pick(&TRACE_MARKS)),
            _ => bytes[..2].copy_from_slice(*r.pick(&OTHER_MARKS)),
        },
        Spot::Optional => bytes[0] = *r.pick(&[2, 2, 3, 128, 255, 1 - bytes[0].min(1)]),
        Spot::Kind => bytes[0] = *r.pick(&[0, 1, 2, 3, 3, 4, 4, 5, 255]),
        Spot::Count => {
            let count = u16::from_le_bytes([bytes[0], bytes[1]]);
            let other =
                [0, count.wrapping_sub(1), count.wrapping_add(1), count.wrapping_mul(8), count.swap_bytes(), u16::MAX];
            bytes[..2].copy_from_slice(&r.pick(&other).to_le_bytes());
        }
    }
}
