//! The scripts that README.md and docs/ANSWERS.md show: the life of one frame, and the answers of each call; the trace of the
//! tests, made of them; and request 2027-07's example.
use super::calls::{Address, Call, Consumed, Content, Frame, GuardCall, Hash, Sweep};

const A: Address = [1; 20];
const B: Address = [2; 20];
const C: Address = [3; 20];
/// Frame hashes: F is document 01's frame, of sender A.
const F: Hash = [0x11; 32];
const G: Hash = [0x22; 32];
const I: Hash = [0x77; 32];
const J: Hash = [0x88; 32];
/// Hashes of a block: the recorded one, and another.
const BLOCK: Hash = [0x33; 32];
const OTHER: Hash = [0x55; 32];
/// The hash of a predecessor, and of a taker.
const H: Hash = [0x44; 32];
const TAKER: Hash = [0x66; 32];

fn push(hash: Hash, from: Address, expected: u64, claim: u64, ticket: u64) -> Call {
    Call::Push(Frame { hash, from, expected, claim, chain_id: 1, gas: 21_000, ticket })
}

/// Expected 5, claim 8, chain 1, gas 21000.
fn f() -> Call {
    push(F, A, 5, 8, 7)
}

fn f_with(chain_id: u64, gas: u64) -> Call {
    Call::Push(Frame { hash: F, from: A, expected: 5, claim: 8, chain_id, gas, ticket: 7 })
}

fn poll_of(sender: Address, head: u64, known: impl IntoIterator<Item = u64>, content: Option<Content>) -> Call {
    Call::poll(sender, head, known.into_iter().collect(), content)
}

fn poll(head: u64, known: &[u64]) -> Call {
    poll_of(A, head, known.iter().copied(), None)
}

fn pair(nonce: u64, hash: Hash) -> Option<Content> {
    Some(Content { nonces: vec![nonce], hashes: hash.to_vec() })
}

fn guard(hash: Hash, boundary: Option<u64>, predecessors: &[u64], content: &[u8]) -> Call {
    Call::Guard(GuardCall { hash, boundary, predecessors: predecessors.to_vec(), content: content.to_vec() })
}

fn enter(hash: Hash, kind: u8, block: u64, block_hash: Hash) -> Call {
    let taker = if kind == 3 { TAKER } else { [0; 32] };
    Call::Enter { hash, consumed: Consumed { kind, block, block_hash, taker } }
}

fn reorg(block: u64, hash: Option<Hash>) -> Call {
    Call::Reorg { block, hash }
}

fn finality(block: u64) -> Call {
    Call::Finality { block }
}

fn known_gap(sender: Address, head: u64, pending_count: u64) -> Call {
    Call::KnownGap { sender, head, pending_count }
}

/// F waits, is consumed, mined at 100, revived, consumed again, taken at 101, and dead. `samples/scripts.py life` writes it too.
pub fn life() -> Vec<Call> {
    vec![
        f(),
        poll(5, &[5, 7]),
        poll(9, &[]),
        enter(F, 1, 100, BLOCK),
        poll(9, &[]),
        reorg(100, Some(OTHER)),
        Call::State(F),
        poll(9, &[]),
        enter(F, 3, 101, OTHER),
        finality(100),
        finality(101),
        Call::Len,
    ]
}

fn push_scripts() -> Vec<Vec<Call>> {
    // 64 frames, a 65th, a 65th with a wide gap, and room again
    let mut full: Vec<Call> = (1..=65).map(|ticket| push(F, A, 5, 8, ticket)).collect();
    full.extend([push(F, A, 5, 22, 66), Call::Len, Call::Evict { sender: A }, f()]);
    vec![vec![f(), push(F, A, 5, 8, 8), push(G, B, 5, 8, 9), Call::Len], full]
}

fn poll_scripts() -> Vec<Vec<Call>> {
    let hashes = |n| H.repeat(n);
    let pairs = |n: u64| Some(Content { nonces: (5..5 + n).collect(), hashes: hashes(n as usize) });
    let short = || Some(Content { nonces: vec![5], hashes: vec![0; 31] });
    vec![
        vec![f(), poll(7, &[7])],
        // consumed at each poll, held, and rescued at a lower head
        vec![f(), poll(9, &[]), poll(9, &[]), Call::State(F), poll(8, &[]), Call::State(F)],
        vec![f(), push(G, A, 5, 6, 8), poll(5, &[5]), Call::Len],
        // degraded: never rescued, silent at the head that it was last held at
        vec![f_with(0, 0), poll(5, &[5, 6, 7]), poll(8, &[]), poll(8, &[]), poll(9, &[]), poll(9, &[]), poll(8, &[])],
        vec![f_with(0, 21_000), poll(5, &[5, 6, 7])],
        vec![f(), enter(F, 1, 100, BLOCK), poll(9, &[]), poll_of(B, 9, [], None)],
        // 3, 3 before 4, and 256
        vec![f(), poll_of(A, 5, 0..257, None), poll_of(A, 5, 0..257, short()), poll_of(A, 5, 0..256, None)],
        // 4 twice, and 64 pairs, which are no known nonces
        vec![f(), poll_of(A, 5, [], pairs(65)), poll_of(A, 5, [], short()), poll_of(A, 5, [], pairs(64))],
    ]
}

fn guard_scripts() -> Vec<Vec<Call>> {
    let matching = || poll_of(A, 7, [7], pair(7, H));
    let mut full: Vec<Call> = (0..65).map(|n| guard([n; 32], Some(5), &[7], &H)).collect();
    full.push(guard([0; 32], None, &[7], &H));
    let many: Vec<u64> = (0..17).collect();
    let odd = [0; 33];
    vec![
        vec![f(), guard(F, Some(5), &[7], &H), matching(), poll_of(A, 6, [6, 7], pair(7, H))],
        // a boundary that is not F's; replaced by a guard without one; another hash at the nonce
        vec![f(), guard(F, Some(6), &[7], &H), guard(F, None, &[7], &H), matching(), poll_of(A, 7, [7], pair(7, OTHER))],
        // a guard of a hash that nobody holds
        vec![guard(F, Some(5), &[7], &H), Call::HasGuard(A), f(), Call::HasGuard(A), matching()],
        // one hash, two senders
        vec![
            f(),
            push(F, B, 5, 8, 8),
            guard(F, Some(5), &[7], &H),
            Call::HasGuard(B),
            poll(7, &[7]),
            Call::HasGuard(B),
            poll_of(B, 7, [7], pair(7, H)),
        ],
        vec![
            guard(F, Some(5), &many, &H),
            guard(F, Some(5), &many, &odd),
            guard(F, Some(5), &[7], &odd),
            guard(F, Some(5), &[7], &H.repeat(17)),
            guard(F, Some(5), &many[..16], &H.repeat(16)),
        ],
        full,
    ]
}

fn block_scripts() -> Vec<Vec<Call>> {
    vec![
        vec![f(), enter(F, 1, 100, BLOCK), enter(F, 1, 100, BLOCK), enter(G, 1, 100, BLOCK)],
        // the three kinds
        vec![
            f(),
            push(G, B, 5, 8, 8),
            push(I, C, 5, 8, 9),
            enter(F, 1, 100, BLOCK),
            enter(G, 2, 101, BLOCK),
            enter(I, 3, 102, BLOCK),
            Call::State(F),
            Call::State(G),
            Call::State(I),
            Call::TentativeCount,
            finality(100),
            finality(101),
            finality(102),
            Call::State(F),
        ],
        // a held head survives
        vec![
            f_with(0, 0),
            poll(5, &[]),
            enter(F, 1, 100, BLOCK),
            poll(6, &[]),
            reorg(100, None),
            poll(5, &[]),
            poll(6, &[]),
        ],
        vec![
            f(),
            push(G, B, 5, 8, 8),
            enter(F, 1, 100, BLOCK),
            enter(G, 1, 101, BLOCK),
            reorg(101, Some(BLOCK)),
            reorg(100, Some(OTHER)),
            Call::TentativeCount,
        ],
        vec![f(), push(G, A, 5, 8, 8), enter(F, 1, 100, BLOCK), Call::Evict { sender: A }, Call::Evict { sender: A }],
    ]
}

fn reading_scripts() -> Vec<Vec<Call>> {
    vec![
        // one hash, two senders: lookups take the first entry, entering the first tracked one
        vec![
            f(),
            push(F, B, 6, 9, 8),
            Call::Boundary(F),
            Call::Boundary(G),
            Call::State(G),
            Call::State(F),
            enter(F, 2, 100, BLOCK),
            Call::State(F),
            enter(F, 2, 100, BLOCK),
            enter(F, 2, 100, BLOCK),
        ],
        // places above 0: tentative entries count, those that left and those of another sender do not
        vec![
            push(J, B, 5, 8, 6),
            f(),
            push(G, A, 5, 8, 8),
            push(I, A, 6, 9, 9),
            enter(F, 1, 100, BLOCK),
            Call::State(G),
            Call::Boundary(I),
            enter(I, 1, 101, BLOCK),
            finality(100),
            Call::State(G),
            Call::State(J),
        ],
        vec![
            Call::Blocks,
            f(),
            push(G, B, 5, 8, 8),
            enter(F, 1, 100, BLOCK),
            enter(G, 1, 100, OTHER),
            Call::Blocks,
            push(I, C, 5, 8, 9),
            enter(I, 1, 99, BLOCK),
            Call::Blocks,
        ],
        vec![
            f(),
            push(G, A, 6, 10, 8),
            known_gap(A, 0, u64::MAX),
            known_gap(A, 6, 9),
            known_gap(B, 0, u64::MAX),
            enter(F, 1, 100, BLOCK),
            known_gap(A, 0, u64::MAX),
        ],
        vec![
            Call::Senders,
            Call::Len,
            push(G, B, 5, 8, 8),
            f(),
            push(I, A, 5, 8, 9),
            Call::Senders,
            Call::Len,
            Call::TentativeCount,
        ],
        // a tentative entry counts too
        vec![
            f(),
            Call::HasGuard(A),
            enter(F, 1, 100, BLOCK),
            guard(F, Some(5), &[7], &H),
            Call::HasGuard(A),
            finality(100),
            f(),
            Call::HasGuard(A),
        ],
    ]
}

/// Corners of a poll.
fn corner_scripts() -> Vec<Vec<Call>> {
    vec![
        // no head is above this claim
        vec![push(F, A, u64::MAX - 1, u64::MAX, 7), poll(u64::MAX - 1, &[]), poll(u64::MAX, &[]), Call::Len],
        // known nonces out of order, twice, and outside the gap
        vec![f(), poll(5, &[900, 7, 5, 6, 5])],
        // two frames with one ticket
        vec![f(), push(G, A, 5, 8, 7), poll(8, &[])],
        // an empty gap: held by a guard, and rescued where no content comes
        vec![push(F, A, 9, 8, 7), guard(F, Some(9), &[], &H), poll_of(A, 3, [], pair(1, H)), poll(3, &[])],
        // an empty gap of a degraded frame
        vec![
            Call::Push(Frame { hash: F, from: A, expected: 9, claim: 8, chain_id: 0, gas: 0, ticket: 7 }),
            poll(3, &[]),
            poll(3, &[]),
        ],
    ]
}

/// Polls with short rows, and the long rows of some of them.
fn short_scripts() -> Vec<Vec<Call>> {
    let short = |head, known: &[u64]| poll(head, known).short();
    let unfit = Some(Content { nonces: vec![5], hashes: vec![0; 31] });
    let all_but_last: Vec<u64> = (5..20).collect();
    vec![
        // a frame waits, is consumed, and is rescued
        vec![f(), poll(5, &[5, 7]), short(5, &[5, 7]), poll(9, &[]), short(9, &[]), short(5, &[5, 6, 7]), Call::Len],
        // a gap of sixteen: all bits, the highest alone, the lowest and the highest
        vec![push(F, A, 5, 21, 7), short(5, &[]), short(5, &all_but_last), short(5, &all_but_last[1..]), short(21, &[])],
        // the largest nonces
        vec![push(F, A, u64::MAX - 2, u64::MAX, 7), short(0, &[])],
        // degraded: silent, in either form, at the head that it was last held at
        vec![f_with(0, 0), poll(5, &[5]), short(5, &[5]), short(6, &[]), poll(6, &[])],
        // a guarded rescue, the same without content, and a sender with no frame
        vec![f(), guard(F, Some(5), &[7], &H), poll_of(A, 7, [7], pair(7, H)).short(), short(7, &[7]), short(7, &[7])],
        // 3, 3 before 4, and 4
        vec![
            f(),
            poll_of(A, 5, 0..257, None).short(),
            poll_of(A, 5, 0..257, unfit.clone()).short(),
            poll_of(A, 5, [], unfit).short(),
            Call::Len,
        ],
    ]
}

/// A sweep of sender A, or of it and others, with lists that may not agree.
fn lists(senders: &[u8], heads: &[u64], counts: &[u64], nonces: &[u64]) -> Call {
    Call::Sweep(Sweep { senders: senders.to_vec(), heads: heads.to_vec(), counts: counts.to_vec(), nonces: nonces.to_vec() })
}

fn sweep_scripts() -> Vec<Vec<Call>> {
    let g = || push(G, B, 5, 8, 8);
    // A and behind it so many senders that have no frame
    let with_nobody = |n: usize| [A.to_vec(), C.repeat(n)].concat();
    let of_one = |count: u64, nonces: usize| lists(&A, &[9], &[count], &vec![5; nonces]);
    vec![
        // one waits and one is rescued; the same polls apart
        vec![f(), g(), Call::sweep(&[(A, 5, &[5, 7]), (B, 5, &[5, 6, 7])]), Call::Len],
        vec![f(), g(), poll(5, &[5, 7]), poll_of(B, 5, [5, 6, 7], None), Call::Len],
        // a sender twice: waiting and then rescued; rescued, and then gone
        vec![f(), Call::sweep(&[(A, 5, &[]), (A, 8, &[])]), Call::Len],
        vec![f(), Call::sweep(&[(A, 8, &[]), (A, 8, &[])]), Call::Len],
        // degraded: silent at the head that it was last held at
        vec![f_with(0, 0), Call::sweep(&[(A, 5, &[]), (A, 5, &[]), (A, 6, &[])])],
        // a sender with no frame, and no sender
        vec![f(), Call::sweep(&[(C, 9, &[]), (A, 9, &[])]), Call::sweep(&[])],
        // a guard holds no rescue where no content comes
        vec![f(), guard(F, Some(5), &[7], &H), Call::sweep(&[(A, 7, &[7])]), Call::Len],
        // 17: 65 senders, 19 and 21 sender bytes, a head more, a count more; 17 before 18; 64 senders
        vec![
            f(),
            lists(&with_nobody(64), &[9; 65], &[0; 65], &[]),
            lists(&A[..19], &[9], &[0], &[]),
            lists(&[1; 21], &[9], &[0], &[]),
            lists(&with_nobody(1), &[9, 9], &[0], &[]),
            lists(&A, &[9], &[0, 0], &[]),
            lists(&A, &[9], &[0, 0], &[5]),
            lists(&with_nobody(63), &[9; 64], &[0; 64], &[]),
        ],
        // 18: a nonce more, a nonce less, a sum that is 1 in 64 bits only
        vec![f(), of_one(1, 2), of_one(1, 0), lists(&with_nobody(1), &[9, 9], &[u64::MAX, 2], &[5]), of_one(1, 1)],
        // 3; 18 before 3; 256 nonces
        vec![f(), of_one(257, 257), of_one(257, 256), of_one(256, 256)],
    ]
}

/// The scripts of docs/ANSWERS.md, by call; those with short polls stand behind the others, and those with sweeps last.
pub fn answers() -> Vec<Vec<Call>> {
    let long =
        [push_scripts(), poll_scripts(), guard_scripts(), block_scripts(), reading_scripts(), corner_scripts()].concat();
    [long, short_scripts(), sweep_scripts()].concat()
}

/// Request 2027-07's example: F pushed, then polled at head 8, and what is printed of it by the request.
pub fn totals_example() -> (Vec<Call>, &'static str) {
    (vec![f(), poll(8, &[])], "0 0\n1 0\naccepted 1 held 0 rescued 1 dead 0 evicted 0\n")
}

/// Two frames are rescued by one poll, and a tracked and a tentative one stay.
fn last_of_trace() -> Vec<Call> {
    vec![f(), push(G, A, 5, 8, 8), poll(8, &[]), f(), push(G, B, 5, 8, 8), enter(G, 1, 100, BLOCK)]
}

/// One trace of the calls that a trace may have: the life of F, then what the scripts of each call have of them, and last what
/// leaves frames held. The senders are evicted behind each script, so that the next one finds no frame.
pub fn traced() -> Vec<Call> {
    let scripts = [vec![life()], push_scripts(), poll_scripts(), guard_scripts(), block_scripts()].concat();
    let evictions = [A, B, C].map(|sender| Call::Evict { sender });
    let mut calls: Vec<Call> = scripts.into_iter().flat_map(|script| [script, evictions.to_vec()].concat()).collect();
    calls.extend(last_of_trace());
    calls.retain(Call::is_traced);
    calls
}
