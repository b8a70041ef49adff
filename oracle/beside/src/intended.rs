//! What docs/DIFFERENCES.md says of the Rust, run on the Rust: what it does where ours refuses or has no record, and what its
//! code does where its comments say something else.
use crate::journal::original::Original as Journal;
use crate::store::answers::Answer;
use crate::store::calls::{Call, Consumed, Content, Frame, GuardCall, Side};
use crate::store::original::{parked, Original as Store};
use alloy::primitives::{Address, B256};
use published::gap_quarantine::{Quarantine, QuarantineDecision};
use published::gap_quarantine_journal::{read_pending, RecordFidelity};
use serde_json::json;
use std::path::Path;

type Check = fn(&Path) -> bool;

/// Each saying, and whether the Rust does so.
pub const ALL: &[(&str, Check)] = &[
    ("1: the Rust takes a push with expected 0 and claim 17, and its rescue lists 17 nonces", |_| {
        let mut q = Quarantine::new();
        q.push(parked(&frame(1, 0, 17)));
        let known: Vec<u64> = (0..17).collect();
        matches!(&q.poll(SENDER, 0, &known)[..], [(_, QuarantineDecision::Rescue { predecessors })] if *predecessors == known)
    }),
    ("2: the Rust takes a 65th frame", |_| {
        let mut q = Quarantine::new();
        (0..65).map(|i| q.push(parked(&frame(i, 5, 8)))).last() == Some(65)
    }),
    ("3: the Rust takes 257 known nonces and looks at the last", |_| {
        let mut q = Quarantine::new();
        q.push(parked(&frame(1, 300, 301)));
        let known: Vec<u64> = (44..301).collect();
        known.len() == 257 && matches!(q.poll(SENDER, 300, &known)[..], [(_, QuarantineDecision::Rescue { .. })])
    }),
    ("4: the Rust takes 65 content pairs and looks at the last", |_| {
        let mut q = Quarantine::new();
        q.push(parked(&frame(1, 7, 8)));
        q.record_unhydratable_guard_with_content(B256([1; 32]), &[7], &[B256([9; 32])]);
        let mut pairs = vec![(1, B256([0; 32])); 64];
        pairs.push((7, B256([9; 32])));
        matches!(q.poll_with_content(SENDER, 7, &[7], &pairs)[..], [(_, QuarantineDecision::StillWaiting { .. })])
    }),
    ("6, 7: the Rust takes a guard of 17 predecessors and 17 hashes", |_| {
        let mut q = Quarantine::new();
        q.push(parked(&frame(1, 0, 17)));
        let known: Vec<u64> = (0..17).collect();
        let hashes = [B256([9; 32]); 17];
        q.record_unhydratable_guard_with_content(B256([1; 32]), &known, &hashes);
        let pairs: Vec<(u64, B256)> = known.iter().copied().zip(hashes).collect();
        matches!(q.poll_with_content(SENDER, 0, &known, &pairs)[..], [(_, QuarantineDecision::StillWaiting { .. })])
    }),
    ("8: the Rust takes a 65th guard", |_| {
        let mut q = Quarantine::new();
        for i in 0..65 {
            q.push(parked(&frame(i, 5, 8)));
            q.record_unhydratable_guard_with_content(B256([i; 32]), &[], &[B256([9; 32])]);
        }
        let rows = q.poll_with_content(SENDER, 8, &[], &[(1, B256([9; 32]))]);
        rows.len() == 65 && rows.iter().all(|(_, d)| matches!(d, QuarantineDecision::StillWaiting { .. }))
    }),
    ("9, 12, 13: the Rust folds a journal of any length and of 65 keys", |folder| {
        let lines: Vec<String> = (0..65).map(|i| park_line(&format!("{i:0>64}"))).collect();
        let long: Vec<String> = lines.iter().cycle().take(650).cloned().collect();
        Journal::new(folder).read_lines(&long).pending.len() == 65
    }),
    ("no record: a park whose hash text has 67 bytes is kept as degraded, and not counted", |folder| {
        kept(folder, &"k".repeat(67))
    }),
    ("no record: a park whose hash text has a byte outside 32 to 126 is kept as degraded, and not counted", |folder| {
        kept(folder, "\u{7f}") && kept(folder, "\u{e9}")
    }),
    ("no record, and comment on read_pending: a byte that is no UTF-8 makes it fail, and nothing is folded", |folder| {
        let file = folder.join("not-text.jsonl");
        std::fs::write(&file, [park_line("k").as_bytes(), b"\n\xff\n"].concat()).expect("the folder is writable");
        read_pending(&file).is_err()
    }),
    ("host: a line may be an array, here a resolution, and types all the same", |folder| {
        let lines = [park_line(&hash_text()), json!(["resolve", hash_text(), "evicted", 5]).to_string()];
        let read = Journal::new(folder).read_lines(&lines);
        (read.pending.len(), read.skipped) == (0, 0)
    }),
    ("host: a line of only a byte order mark is not blank, and is skipped", |folder| {
        Journal::new(folder).read_lines(&["\u{feff}".to_string(), " ".to_string()]).skipped == 1
    }),
    ("ticket: a `to` that does not decode makes the wire unsound, and no ticket can ride in it", |folder| {
        let line = park_line(&"ab".repeat(32)).replace("\"chain_id\"", "\"to\":\"nobody\",\"chain_id\"");
        let read = Journal::new(folder).read_lines(&[line]);
        read.pending[0].fidelity == RecordFidelity::Degraded
    }),
    ("wire: a degraded migrated record's wire decodes in the Rust", |folder| {
        let line = json!({"v": 2, "kind": "park", "hash": hash_text(), "nonce": 8}).to_string();
        let read = Journal::new(folder).read_lines(&[line]);
        let mut wire = read.pending[0].frame.clone();
        wire.from = Address([0; 20]).to_string();
        read.pending[0].fidelity == RecordFidelity::Degraded && wire.decode().is_ok()
    }),
    ("comment on poll_with_content: empty content does not suppress a rescue", |_| {
        let calls = [push(), guard(Some(5), &[7]), poll(7, &[7], Some((&[], &[])))];
        matches!(rows(&calls), [1])
    }),
    ("comment on Unhydratable: it covers the rescue with no predecessors", |_| {
        let calls = [push(), guard(None, &[]), poll(8, &[], Some((&[77], &[9; 32])))];
        matches!(rows(&calls), [3])
    }),
    ("comment on has_guard_for_sender: a tentative entry counts", |_| {
        let consumed = Consumed { kind: 1, block: 1, block_hash: [3; 32], taker: [0; 32] };
        last(&[push(), Call::Enter { hash: [1; 32], consumed }, guard(None, &[]), Call::HasGuard(SENDER.0)])
            == Answer::Truth(true)
    }),
    ("comment on last_hold_head: a lower head is reported too", |_| {
        let mut f = frame(1, 5, 8);
        (f.chain_id, f.gas) = (0, 0);
        matches!(rows(&[Call::Push(f), poll(5, &[], None), poll(4, &[], None)]), [3])
    }),
    ("comment on poll: a degraded frame that is tracked has no row at the head it was last held at", |_| {
        let mut f = frame(1, 5, 8);
        (f.chain_id, f.gas) = (0, 0);
        last(&[Call::Push(f), poll(5, &[], None), poll(5, &[], None)]) == Answer::Rows(Vec::new())
    }),
    ("comment on to_parked_frame: a full record whose wire does not decode is an error too", |folder| {
        let line = park_line(&hash_text()).replace("\"data\":\"0x\"", "\"data\":\"0x1\"");
        let read = Journal::new(folder).read_lines(&[line]);
        let mut record = read.pending[0].clone();
        record.fidelity = RecordFidelity::Full;
        record.to_parked_frame().is_err()
    }),
    ("comment on transition 1: a head that reached the claim does not consume", |_| {
        matches!(rows(&[push(), poll(8, &[], None)]), [1])
    }),
    ("comment on PendingRead: pending records are ordered by text, capitals before small letters", |folder| {
        let (capital, small) = (format!("0x{}", "B".repeat(64)), format!("0x{}", "a".repeat(64)));
        let read = Journal::new(folder).read_lines(&[park_line(&small), park_line(&capital)]);
        read.pending[0].frame.hash == capital
    }),
    ("short rows: each decision comes with its frame, and so with the frame's expected nonce", |_| {
        let mut q = Quarantine::new();
        q.push(parked(&frame(1, 5, 8)));
        matches!(&q.poll(SENDER, 9, &[])[..], [(f, QuarantineDecision::NonceConsumed)] if f.expected_at_capture == 5)
    }),
    ("guards go by hash: another sender's rescue drops a frame's guard", |_| {
        let mut twin = frame(1, 5, 8);
        twin.from = [2; 20];
        let rescue = Call::poll([2; 20], 8, Vec::new(), None);
        let calls = [push(), guard(None, &[]), Call::Push(twin), rescue, poll(8, &[], Some((&[77], &[9; 32])))];
        matches!(rows(&calls), [1])
    }),
    ("guards go by hash: a guard of a hash that nobody holds meets a later push", |_| {
        matches!(rows(&[guard(None, &[]), push(), poll(8, &[], Some((&[77], &[9; 32])))]), [3])
    }),
];

const SENDER: Address = Address([1; 20]);

fn frame(hash: u8, expected: u64, claim: u64) -> Frame {
    Frame { hash: [hash; 32], from: SENDER.0, expected, claim, chain_id: 1, gas: 21_000, ticket: 0 }
}

fn push() -> Call {
    Call::Push(frame(1, 5, 8))
}

fn guard(boundary: Option<u64>, predecessors: &[u64]) -> Call {
    Call::Guard(GuardCall { hash: [1; 32], boundary, predecessors: predecessors.to_vec(), content: vec![9; 32] })
}

fn poll(head: u64, known: &[u64], content: Option<(&[u64], &[u8])>) -> Call {
    let content = content.map(|(nonces, hashes)| Content { nonces: nonces.to_vec(), hashes: hashes.to_vec() });
    Call::poll(SENDER.0, head, known.to_vec(), content)
}

/// What the last call answers.
fn last(calls: &[Call]) -> Answer {
    let mut store = Store::default();
    calls.iter().map(|call| store.answer(call)).last().expect("there is a call")
}

/// The codes of the rows of the last call.
fn rows(calls: &[Call]) -> &'static [u64] {
    match last(calls) {
        Answer::Rows(rows) => match rows[..] {
            [row] => [&[1][..], &[2], &[3]][row[1] as usize - 1],
            _ => &[],
        },
        _ => &[],
    }
}

fn hash_text() -> String {
    format!("0x{}", "ab".repeat(32))
}

fn park_line(text: &str) -> String {
    let frame = json!({
        "hash": text, "chain_id": 1, "from": format!("0x{}", "1a".repeat(20)), "value": "0x0", "data": "0x", "gas": 21000,
        "max_fee_per_gas": "0", "max_priority_fee_per_gas": "0", "nonce": 8, "tx_type": 2, "received_unix_ms": 0, "access_list": []
    });
    json!({"v": 2, "kind": "park", "frame": frame, "claimed_nonce": 8, "expected_nonce": 5, "parked_at_unix_ms": 0})
        .to_string()
}

/// The Rust keeps a park of this text as degraded and counts nothing.
fn kept(folder: &Path, text: &str) -> bool {
    let read = Journal::new(folder).read_lines(&[park_line(text)]);
    (read.pending.len(), read.skipped, read.migrated, read.degraded) == (1, 0, 0, 0)
        && read.pending[0].fidelity == RecordFidelity::Degraded
        && read.pending[0].frame.hash == text
}
