//! Every run of up to four calls of a menu, each followed by all calls that only read, and a dump.
use super::calls::{Address, Call, Consumed, Content, Frame, GuardCall, Hash};
use super::script::Script;

const A: Address = [1; 20];
const B: Address = [2; 20];
const H: Hash = [0x11; 32];
const I: Hash = [0x22; 32];
const BLOCK: Hash = [0x33; 32];
const CONTENT: Hash = [0x44; 32];

/// The longest run.
pub const LONGEST: usize = 4;

fn frame(hash: Hash, from: Address, claim: u64, chain_id: u64, ticket: u64) -> Call {
    Call::Push(Frame { hash, from, expected: 5, claim, chain_id, gas: 21_000 * chain_id, ticket })
}

fn poll(sender: Address, head: u64, known: &[u64], content: &[u64]) -> Call {
    let content = match content {
        [] => None,
        nonces => Some(Content { nonces: nonces.to_vec(), hashes: CONTENT.repeat(nonces.len()) }),
    };
    Call::poll(sender, head, known.to_vec(), content)
}

fn guard(boundary: Option<u64>, predecessors: &[u64]) -> Call {
    Call::Guard(GuardCall { hash: H, boundary, predecessors: predecessors.to_vec(), content: CONTENT.to_vec() })
}

fn enter(hash: Hash, kind: u8, block: u64) -> Call {
    let taker = if kind == 3 { I } else { [0; 32] };
    Call::Enter { hash, consumed: Consumed { kind, block, block_hash: BLOCK, taker } }
}

/// Two senders, of whom B also pushes A's hash; a degraded frame; a short poll among long ones, and a sweep of both senders; guards
/// with and without predecessors.
pub fn menu() -> Vec<Call> {
    vec![
        frame(H, A, 8, 1, 1),
        frame(H, A, 7, 1, 2),
        frame(I, A, 8, 0, 3),
        frame(H, B, 8, 1, 4),
        poll(A, 7, &[7], &[7]).short(),
        poll(A, 8, &[], &[9]),
        poll(A, 9, &[], &[]),
        poll(B, 5, &[5, 6, 7], &[]),
        Call::sweep(&[(B, 8, &[]), (A, 7, &[7])]),
        guard(Some(5), &[7]),
        guard(None, &[]),
        enter(H, 1, 100),
        enter(I, 3, 101),
        Call::Reorg { block: 100, hash: None },
        Call::Reorg { block: 101, hash: Some(BLOCK) },
        Call::Finality { block: 100 },
        Call::Evict { sender: A },
    ]
}

fn reads() -> Vec<Call> {
    vec![
        Call::State(H),
        Call::Boundary(H),
        Call::Blocks,
        Call::Len,
        Call::Senders,
        Call::TentativeCount,
        Call::KnownGap { sender: A, head: 6, pending_count: 8 },
        Call::HasGuard(A),
        Call::Dump,
    ]
}

/// How many runs there are.
pub fn runs() -> usize {
    (0..=LONGEST).map(|length| menu().len().pow(length as u32)).sum()
}

/// The runs in order of length, then of their digits.
pub fn scripts() -> impl Iterator<Item = Script> {
    let menu = menu();
    let reads = reads();
    (0..=LONGEST).flat_map(move |length| {
        let (menu, reads) = (menu.clone(), reads.clone());
        (0..menu.len().pow(length as u32)).map(move |index| {
            let mut calls = Vec::new();
            let mut rest = index;
            for _ in 0..length {
                calls.insert(0, menu[rest % menu.len()].clone());
                rest /= menu.len();
            }
            calls.extend(reads.iter().cloned());
            Script { calls, broken: Vec::new() }
        })
    })
}
