//! Document 01's examples for the store, with the answers that the document states.
use super::answers::{Answer, Row, State};
use super::calls::{Address, Call, Consumed, Content, Frame, GuardCall, Hash};

pub struct Example {
    pub says: &'static str,
    pub calls: Vec<Call>,
    /// Places of calls, and what they answer.
    pub answers: Vec<(usize, Answer)>,
}

const A: Address = [1; 20];
const FRAME: Hash = [0x11; 32];
const H: Hash = [0x44; 32];
const BLOCK: Hash = [0x33; 32];
const TICKET: u64 = 7;

fn frame(expected: u64, claim: u64, chain_id: u64, gas: u64) -> Call {
    Call::Push(Frame { hash: FRAME, from: A, expected, claim, chain_id, gas, ticket: TICKET })
}

/// Expected 5, claim 8, chain 1, gas 21000.
fn f() -> Call {
    frame(5, 8, 1, 21_000)
}

fn poll(head: u64, known: &[u64]) -> Call {
    Call::poll(A, head, known.to_vec(), None)
}

fn poll_with(head: u64, known: &[u64], nonce: u64) -> Call {
    let content = Some(Content { nonces: vec![nonce], hashes: H.to_vec() });
    Call::poll(A, head, known.to_vec(), content)
}

fn reparked(predecessors: &[u64]) -> Call {
    Call::Guard(GuardCall { hash: FRAME, boundary: Some(5), predecessors: predecessors.to_vec(), content: H.to_vec() })
}

fn row(code: u64, nonces: &[u64]) -> Answer {
    let mut row: Row = [0; 19];
    (row[0], row[1], row[2]) = (TICKET, code, nonces.len() as u64);
    row[3..3 + nonces.len()].copy_from_slice(nonces);
    Answer::Rows(vec![row])
}

pub fn examples() -> Vec<Example> {
    let mined = Consumed { kind: 1, block: 100, block_hash: BLOCK, taker: [0; 32] };
    let enter = Call::Enter { hash: FRAME, consumed: mined };
    let all = |says, calls, answers| Example { says, calls, answers };
    vec![
        all(
            "head 5: known 5 6 7 Rescue 5 6 7",
            vec![f(), poll(5, &[5, 6, 7]), Call::Len],
            vec![(1, row(1, &[5, 6, 7])), (2, Answer::Number(0))],
        ),
        all(
            "known 5 7 StillWaiting 6",
            vec![f(), poll(5, &[5, 7]), Call::Len],
            vec![(1, row(3, &[6])), (2, Answer::Number(1))],
        ),
        all("head 8, none known: Rescue, count 0", vec![f(), poll(8, &[])], vec![(1, row(1, &[]))]),
        all(
            "head 9: NonceConsumed, still held",
            vec![f(), poll(9, &[]), Call::State(FRAME)],
            vec![(1, row(2, &[])), (2, Answer::State(Some(State::Tracked)))],
        ),
        all(
            "Reparked(7; h; 5), head 7, known 7: content (7,h) StillWaiting 7",
            vec![f(), reparked(&[7]), poll_with(7, &[7], 7)],
            vec![(2, row(3, &[7]))],
        ),
        all("no content Rescue 7", vec![f(), reparked(&[7]), poll(7, &[7])], vec![(2, row(1, &[7]))]),
        all(
            "Reparked(empty; h; 5), head 8, any one pair: StillWaiting, count 0",
            vec![f(), reparked(&[]), poll_with(8, &[], 77)],
            vec![(2, row(3, &[]))],
        ),
        all(
            "F degraded, none known, heads 5, 5, 4: row, no row, row",
            vec![frame(5, 8, 0, 0), poll(5, &[]), poll(5, &[]), poll(4, &[])],
            vec![(1, row(3, &[5, 6, 7])), (2, Answer::Rows(Vec::new())), (3, row(3, &[5, 6, 7]))],
        ),
        all(
            "expected 9, claim 8, head 8: Rescue, count 0",
            vec![frame(9, 8, 1, 21_000), poll(8, &[])],
            vec![(1, row(1, &[]))],
        ),
        all(
            "tentative at 100: finality 99 keeps, 100 removes",
            vec![f(), enter.clone(), Call::Finality { block: 99 }, Call::Len, Call::Finality { block: 100 }, Call::Len],
            vec![
                (2, Answer::Dead(Vec::new())),
                (3, Answer::Number(1)),
                (4, Answer::Dead(vec![(TICKET, mined)])),
                (5, Answer::Number(0)),
            ],
        ),
        all(
            "reorg 100: equal hash none, no hash revived",
            vec![
                f(),
                enter,
                Call::Reorg { block: 100, hash: Some(BLOCK) },
                Call::Reorg { block: 100, hash: None },
                Call::State(FRAME),
            ],
            vec![
                (2, Answer::Tickets(Vec::new())),
                (3, Answer::Tickets(vec![TICKET])),
                (4, Answer::State(Some(State::Tracked))),
            ],
        ),
        all(
            "expected 18446744073709551599, claim 18446744073709551615: accepted; expected one less: 1",
            vec![
                frame(18_446_744_073_709_551_599, u64::MAX, 1, 21_000),
                frame(18_446_744_073_709_551_598, u64::MAX, 1, 21_000),
            ],
            vec![(0, Answer::Total(1)), (1, Answer::Refused(1))],
        ),
    ]
}
