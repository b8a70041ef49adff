//! The published Rust and our static libraries on the same inputs, in one run: a line for each, with the ratio. A fold has a third
//! side, a plain fold of the same records with a hash map, which tests no field.
//! FOLD_ARCHIVE and STORE_ARCHIVE name the libraries at build; without them only the Rust is timed.
use alloy::primitives::{Address, B256};
use beside::hex::hex;
use beside::journal::generate;
use beside::journal::lines;
use beside::journal::original::Original;
use beside::journal::ours::{ours, Ours};
use beside::journal::outcome::ENOUGH;
use beside::journal::records::Record;
use beside::random::Random;
use beside::scratch::Scratch;
use beside::speed::store_loops::{store_loops, Loop};
use published::gap_quarantine::{NonceConsumed, ParkedFrame, Quarantine};
use published::gap_quarantine_journal::read_pending;
use std::collections::BTreeSet;
use std::fs;
use std::hint::black_box;
use std::time::Instant;

#[path = "../../../../rust/examples/plain_fold/mod.rs"]
mod plain_fold;

/// Each measure runs this often, and the fastest counts: other work on the machine only slows a run down.
const TRIES: usize = 20;

/// How often a second something is done.
fn rate(times: u64, mut run: impl FnMut() -> u64) -> f64 {
    let mut best = f64::MAX;
    for _ in 0..TRIES {
        let start = Instant::now();
        black_box(run());
        best = best.min(start.elapsed().as_secs_f64());
    }
    times as f64 / best
}

fn say(name: &str, unit: &str, rust: f64, ours: Option<f64>) {
    match ours {
        Some(ours) => println!("{name}: Rust {rust:.0} {unit}/s, ours {ours:.0} {unit}/s, ours / Rust {:.3}", ours / rust),
        None => println!("{name}: Rust {rust:.0} {unit}/s, ours not linked"),
    }
}

// ---- the store; each loop answers how many rows or frames it saw, so that both sides can be seen to do the same

/// Document 01's frame F as the n-th, of this sender.
fn frame_of(n: u8, from: [u8; 20]) -> ParkedFrame {
    let mut hash = [1; 32];
    hash[0] = n;
    beside::store::original::parked(&beside::store::calls::Frame {
        hash,
        from,
        expected: 5,
        claim: 8,
        chain_id: 1,
        gas: 21_000,
        ticket: u64::from(n),
    })
}

/// The same as the sender's n-th.
fn frame(n: u8) -> ParkedFrame {
    frame_of(n, [1; 20])
}

/// The n-th of the senders with a frame each.
fn sender_at(n: u8) -> [u8; 20] {
    let mut address = [1; 20];
    address[0] = n;
    address
}

/// 64 senders with a frame each, polled one after another; every poll gives one row of StillWaiting.
fn polls_in_turn(rounds: u64) -> u64 {
    let mut q = Quarantine::new();
    for n in 0..64 {
        q.push(frame_of(n, sender_at(n)));
    }
    (0..rounds).map(|i| q.poll(Address(sender_at((i % 64) as u8)), 5, &[6]).len() as u64).sum()
}

/// The 64 polls of a sweep.
fn swept(rounds: u64) -> u64 {
    polls_in_turn(64 * rounds)
}

/// A sender with eight frames; every poll gives eight rows of StillWaiting.
fn polls(rounds: u64) -> u64 {
    let mut q = Quarantine::new();
    for n in 0..8 {
        q.push(frame(n));
    }
    (0..rounds).map(|_| q.poll(Address([1; 20]), 5, &[6]).len() as u64).sum()
}

/// The same with a matching guard for each frame; every poll brings the content, and gives eight rows of StillWaiting.
fn guarded_polls(rounds: u64) -> u64 {
    let mut q = Quarantine::new();
    for n in 0..8 {
        q.push(frame(n));
        q.record_repark_guard_with_content(frame(n).hash, &[5, 6, 7], &[B256([7; 32]); 3], 5);
    }
    let content = [5, 6, 7].map(|nonce| (nonce, B256([7; 32])));
    (0..rounds).map(|_| q.poll_with_content(Address([1; 20]), 5, &[5, 6, 7], &content).len() as u64).sum()
}

/// A push, and the poll that rescues the frame.
fn push_and_rescue(rounds: u64) -> u64 {
    let mut q = Quarantine::new();
    let mut seen = 0;
    for _ in 0..rounds {
        q.push(frame(0));
        seen += q.poll(Address([1; 20]), 8, &[]).len() as u64;
    }
    seen
}

/// A push, an entering, and the finality that ends the frame.
fn finality(rounds: u64) -> u64 {
    let mut q = Quarantine::new();
    let mut seen = 0;
    for _ in 0..rounds {
        q.push(frame(0));
        q.enter_tentative(frame(0).hash, NonceConsumed::MinedAt { block: 100, block_hash: B256([3; 32]) });
        seen += q.check_finalized(100).len() as u64;
    }
    seen
}

/// A name, the Rust's loop, and ours.
type Measure = (&'static str, fn(u64) -> u64, Option<Loop>);

fn store() {
    let ours = store_loops();
    let measures: [Measure; 6] = [
        ("polls with 8 frames a sender", polls, ours.as_ref().map(|o| o.polls)),
        ("guarded polls with content, 8 frames", guarded_polls, ours.as_ref().map(|o| o.guarded_polls)),
        ("sweep of 64 senders with a frame each, beside the Rust's 64 polls", swept, ours.as_ref().map(|o| o.sweeps)),
        ("polls of the 64 senders one by one", polls_in_turn, ours.as_ref().map(|o| o.polls_in_turn)),
        ("push and rescue", push_and_rescue, ours.as_ref().map(|o| o.push_and_rescue)),
        ("push, entering and finality", finality, ours.as_ref().map(|o| o.finality)),
    ];
    for (name, rust, ours) in measures {
        if let Some(ours) = ours {
            assert_eq!(rust(100), ours(100), "{name}: both sides see as many rows");
        }
        for rounds in [100, 10_000] {
            let name = format!("{name}, {rounds} rounds");
            say(&name, "rounds", rate(rounds, || rust(rounds)), ours.map(|ours| rate(rounds, || ours(rounds))));
        }
    }
}

// ---- the journal

/// The key that a record may put into the pending set.
fn key(record: &Record) -> Option<Vec<u8>> {
    match record {
        Record::Park(p) => Some(p.text.clone()),
        Record::Legacy(l) => l.frame_hash.or(l.top_hash).map(|hash| format!("0x{}", hex(&hash)).into_bytes()),
        _ => None,
    }
}

/// Journals of records that a test picks, each as long as a fold takes and of at most 64 keys, with their lines.
fn journals(count: usize, wanted: fn(&Record) -> bool) -> Vec<(Vec<u8>, Vec<String>)> {
    let mut list = Vec::new();
    let mut seed = 0;
    while list.len() < count {
        let (mut bytes, mut text, mut keys) = (Vec::new(), Vec::new(), BTreeSet::new());
        while bytes.len() < 60_000 {
            let mut r = Random::new(seed);
            for record in generate::records(seed).iter().filter(|record| wanted(record)) {
                let key = key(record);
                if keys.len() == 64 && key.as_ref().is_some_and(|key| !keys.contains(key)) {
                    continue;
                }
                keys.extend(key);
                bytes.extend_from_slice(&record.bytes());
                text.push(lines::line(record, &mut r));
            }
            seed += 1;
        }
        list.push((bytes, text));
    }
    list
}

fn fold(name: &str, wanted: fn(&Record) -> bool, scratch: &Scratch, ours: Option<&dyn Ours>) {
    let list = journals(20, wanted);
    let records: u64 = list.iter().map(|(_, text)| text.len() as u64).sum();
    let json: usize = list.iter().map(|(_, text)| text.iter().map(|l| l.len() + 1).sum::<usize>()).sum();
    let binary: usize = list.iter().map(|(bytes, _)| bytes.len()).sum();
    let original = Original::new(scratch.path());
    let files: Vec<_> = list
        .iter()
        .enumerate()
        .map(|(i, (_, text))| {
            let file = scratch.path().join(format!("bench-{i}.jsonl"));
            fs::write(&file, text.join("\n") + "\n").expect("the folder is writable");
            file
        })
        .collect();
    let rust =
        rate(records, || files.iter().map(|f| read_pending(f).expect("it was just written").pending.len() as u64).sum());
    let ours = ours.map(|ours| {
        let mut out = vec![0; ENOUGH];
        let mut totals = [0; 40];
        for (i, (bytes, text)) in list.iter().enumerate() {
            assert_eq!(ours.fold(bytes, &mut out, &mut totals), 0, "journal {i} folds");
            let pending = u64::from_le_bytes(totals[..8].try_into().expect("8 bytes"));
            assert_eq!(pending, original.read_lines(text).pending.len() as u64, "both sides hold as many");
        }
        rate(records, || list.iter().map(|(bytes, _)| ours.fold(bytes, &mut out, &mut totals)).sum())
    });
    say(&format!("fold, {name} ({records} records, {json} bytes of JSON or {binary} of records)"), "records", rust, ours);
    let mut out = vec![0; ENOUGH];
    let plain = rate(records, || list.iter().map(|(bytes, _)| plain_fold::plain_fold(bytes, &mut out).0 as u64).sum());
    let ratio = ours.map_or(String::new(), |ours| format!(", our time / its time {:.2}", plain / ours));
    println!("  a hash map that tests nothing: {plain:.0} records/s{ratio}");
}

fn main() {
    println!("fastest of {TRIES} runs each; read_pending parses JSON from a file in memory, our fold reads records, so the two do not do the same work");
    store();
    let scratch = Scratch::new();
    let linked = ours();
    let linked = linked.as_deref();
    fold("all marks", |_| true, &scratch, linked);
    fold("QP only", |r| matches!(r, Record::Park(_)), &scratch, linked);
    fold("QT and QR", |r| matches!(r, Record::Tentative(_) | Record::Resolve(_)), &scratch, linked);
    fold("QL only", |r| matches!(r, Record::Legacy(_)), &scratch, linked);
    fold("QP and QR", |r| matches!(r, Record::Park(_) | Record::Resolve(_)), &scratch, linked);
    fold("QX only", |r| matches!(r, Record::Other(_)), &scratch, linked);
}
