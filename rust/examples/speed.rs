//! How fast the fold and the writers are: bytes and records a second of journals beside a plain fold with a hash map, and bytes
//! a second of each writer beside a plain copy of its record. Each is the fastest of nine runs.

mod plain_fold;
mod sample;

use gap_quarantine_journal::{
    fold, ConsumedKind, LegacyParkRecord, OtherRecord, Refusal, Resolution, ResolveRecord, TentativeEntryRecord,
    TentativeRecord, ENOUGH, LEGACY, OTHER, PARK, RESOLVE, TENTATIVE,
};
use plain_fold::{canonical, plain_fold};
use sample::park;
use std::hint::black_box;
use std::time::Instant;

/// The longest journal that a fold takes.
const JOURNAL: usize = 65536;

/// The hash of a key: bytes without a pattern, as a feed's hashes have.
fn hash_of(key: u64) -> [u8; 32] {
    let mut x = (key + 1).wrapping_mul(0x9e37_79b9_7f4a_7c15);
    std::array::from_fn(|_| {
        x ^= x << 13;
        x ^= x >> 7;
        x ^= x << 17;
        (x >> 32) as u8
    })
}

fn text_of(key: u64) -> String {
    String::from_iter(canonical(&hash_of(key)).map(char::from))
}

fn resolve(key: u64) -> ResolveRecord {
    ResolveRecord { version: 2, hash: hash_of(key), resolution: Resolution::MinedFinalized, resolved_at: 0 }
}

const CONSUMED: TentativeRecord =
    TentativeRecord { kind: ConsumedKind::SlotTaken, block: 100, block_hash: [9; 32], by: Some([7; 32]) };

const ENTRY: TentativeEntryRecord = TentativeEntryRecord { version: 2, hash: [1; 32], consumed: CONSUMED, entered_at: 0 };

/// An older park of which all is there.
const OLDER: LegacyParkRecord = LegacyParkRecord {
    frame_hash: Some([1; 32]),
    top_hash: Some([1; 32]),
    claimed_nonce: Some(8),
    frame_nonce: Some(8),
    top_nonce: Some(8),
    sender: Some([2; 20]),
    from: Some([1; 20]),
    expected_nonce: Some(5),
    parked_at: Some(0),
    chain_id: Some(1),
    gas: Some(21000),
    rest: true,
    tentative: Some(CONSUMED),
    ticket: 3,
};

/// The seconds of one of `count` rounds, in the fastest of nine runs.
fn fastest(count: u32, mut round: impl FnMut()) -> f64 {
    let mut best = f64::MAX;
    for _ in 0..9 {
        let start = Instant::now();
        for _ in 0..count {
            round();
        }
        best = best.min(start.elapsed().as_secs_f64() / f64::from(count));
    }
    best
}

fn bytes(length: usize, write: impl FnOnce(&mut [u8]) -> Result<usize, Refusal>) -> Vec<u8> {
    let mut record = vec![0; length];
    write(&mut record).expect("the record is written");
    record
}

/// Folds a journal with the proved fold and returns how many parks are pending and how many records were skipped.
fn proved_fold(journal: &[u8], out: &mut [u8]) -> (usize, usize) {
    let totals = fold(journal, out).expect("the journal folds");
    (totals.pending, totals.skipped)
}

/// Asserts that both folds count and write the same.
fn compare(journal: &[u8]) {
    let (mut proved, mut plain) = ([0; ENOUGH], [0; ENOUGH]);
    assert_eq!(proved_fold(journal, &mut proved), plain_fold(journal, &mut plain));
    assert!(proved == plain, "the folds write the same records");
}

/// The seconds in which a fold folds journals one after another.
fn seconds(journals: &[Vec<u8>], fold: impl Fn(&[u8], &mut [u8]) -> (usize, usize)) -> f64 {
    let mut out = [0; ENOUGH];
    fastest(50, || {
        for journal in journals {
            black_box(fold(black_box(journal), black_box(&mut out)));
        }
    })
}

/// Folds journals one after another with the proved fold, and then with the plain one.
fn tell_fold(name: &str, journals: &[Vec<Vec<u8>>]) {
    let whole: Vec<_> = journals.iter().map(|records| records.concat()).collect();
    whole.iter().for_each(|journal| compare(journal));
    let (proved, plain) = (seconds(&whole, proved_fold), seconds(&whole, plain_fold));
    let bytes = whole.iter().map(Vec::len).sum::<usize>() as f64 / 1e6;
    let count = journals.iter().map(Vec::len).sum::<usize>() as f64 / 1e6;
    let [speed, records, by_map, ratio] = [bytes / proved, count / proved, count / plain, proved / plain];
    print!("{name}: {speed:.0} MB/s, {records:.2} million records/s, ");
    println!("hash map: {by_map:.2} million records/s, time / hash map's time {ratio:.2}");
}

/// As many of the records as fit in one journal.
fn filled(records: impl Iterator<Item = Vec<u8>>) -> Vec<Vec<u8>> {
    let mut room = JOURNAL;
    let fitting = |record: Vec<u8>| {
        room = room.checked_sub(record.len())?;
        Some(record)
    };
    records.map_while(fitting).collect()
}

/// Fills 64 KiB with records, each written with its own number, and then with copies of one of them.
fn tell_writer(name: &str, length: usize, mut write: impl FnMut(u64, &mut [u8]) -> Result<usize, Refusal>) {
    let mut buffer = vec![0; 65536 / length * length];
    let writing = fastest(200, || {
        for (number, out) in (0..).zip(buffer.chunks_exact_mut(length)) {
            write(black_box(number), out).expect("the record is written");
        }
        black_box(&mut buffer);
    });
    let record = buffer[..length].to_vec();
    let copying = fastest(200, || {
        for out in buffer.chunks_exact_mut(length) {
            out.copy_from_slice(black_box(&record));
        }
        black_box(&mut buffer);
    });
    let [written, copied] = [writing, copying].map(|seconds| buffer.len() as f64 / seconds / 1e6);
    println!("{name} written: {written:.0} MB/s, copied: {copied:.0} MB/s, written / copied {:.3}", written / copied);
}

/// A park of the frame with this key.
fn park_of(key: u64) -> Vec<u8> {
    bytes(PARK, |out| park(text_of(key).as_bytes()).write(out))
}

/// A tentative entry for the frame with this key.
fn entry_of(key: u64) -> Vec<u8> {
    bytes(TENTATIVE, |out| TentativeEntryRecord { hash: hash_of(key), ..ENTRY }.write(out))
}

/// A resolution of the frame with this key.
fn resolve_of(key: u64) -> Vec<u8> {
    bytes(RESOLVE, |out| resolve(key).write(out))
}

/// A park of the older form of the frame with this key.
fn older_of(key: u64) -> Vec<u8> {
    bytes(LEGACY, |out| LegacyParkRecord { frame_hash: Some(hash_of(key)), ..OLDER }.write(out))
}

/// Tells how a fold of parks grows with the number of keys that are pending.
fn tell_growth() {
    for (name, keys) in [("273 QP, 1 key", 1), ("273 QP, 8 keys", 8), ("273 QP, 64 keys", 64)] {
        tell_fold(name, &[filled((0..keys).cycle().map(park_of))]);
    }
}

/// Tells the speeds of the folds.
fn tell_folds() {
    let other = bytes(OTHER, |out| OtherRecord { ticket: 5 }.write(out));
    let in_turn = |i: u64| match i % 3 {
        0 => park_of(i % 64),
        1 => resolve_of(i % 64),
        _ => other.clone(),
    };
    let mixed: Vec<_> = (0..500).map(in_turn).collect();
    let feed = |first: u64| (first..first + 228).flat_map(|key| [park_of(key), resolve_of(key)]).collect();
    let feeds: Vec<_> = (0..64).map(|i| feed(228 * i)).collect();
    // All of it begins again until the journal is full, so that each QT and each QR finds its park.
    let ends = (0..64).flat_map(|key| [entry_of(key), resolve_of(key)]);
    let lives = filled((0..64).map(park_of).chain(ends).cycle());
    tell_growth();
    tell_fold("6,553 QX", &[vec![other; 6553]]);
    tell_fold("QP, QR and QX in turn", &[mixed]);
    tell_fold("64 journals of QP and its QR in turn, no hash twice", &feeds);
    tell_fold("64 QP, then QT and QR of them in turn", &[lives]);
    tell_fold("QL, 64 keys", &[filled((0..64).cycle().map(older_of))]);
}

fn tell_writers() {
    let text = text_of(1);
    let mut park = park(text.as_bytes());
    tell_writer("QP", PARK, |number, out| {
        (park.claimed_nonce, park.ticket) = (number, number);
        park.write(out)
    });
    let mut entry = ENTRY;
    tell_writer("QT", TENTATIVE, |number, out| {
        (entry.consumed.block, entry.entered_at) = (number, number);
        entry.write(out)
    });
    let mut resolve = resolve(1);
    tell_writer("QR", RESOLVE, |number, out| {
        resolve.resolved_at = number;
        resolve.write(out)
    });
    let mut older = OLDER;
    tell_writer("QL", LEGACY, |number, out| {
        (older.claimed_nonce, older.ticket) = (Some(number), number);
        older.write(out)
    });
    tell_writer("QX", OTHER, |ticket, out| OtherRecord { ticket }.write(out));
}

fn main() {
    tell_folds();
    tell_writers();
}
