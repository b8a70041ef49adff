//! The archive's restore: a full and a degraded record, each refusal, and a slice of another length.

mod records;

use gap_quarantine_journal::{restore, Frame, Refusal};
use records::{canonical, park, Layout};

// where a park record has its fields
const VERSION: usize = 2;
const FROM: usize = 73;
const SENDER: usize = 94;
const WIRE: usize = 131;
const FIDELITY: usize = 157;

fn full() -> Vec<u8> {
    park(&canonical([0xaa; 32])).bytes()
}

fn degraded() -> Vec<u8> {
    let mut record = full();
    record[FIDELITY] = 1;
    record
}

fn without(mut record: Vec<u8>, address: usize) -> Vec<u8> {
    record[address..address + 21].fill(0);
    record
}

fn frame() -> Frame {
    Frame { hash: [0xaa; 32], from: [1; 20], expected: 5, claim: 8, chain_id: 1, gas: 21000, ticket: 3 }
}

#[test]
fn a_full_record_is_the_wire() {
    assert_eq!(restore(&full()), Ok(frame()));
    assert_eq!(restore(&without(full(), SENDER)), Ok(frame()));
}

#[test]
fn a_degraded_record_is_the_senders() {
    let expected = Frame { from: [2; 20], chain_id: 0, gas: 0, ..frame() };
    assert_eq!(restore(&degraded()), Ok(expected));
    assert_eq!(restore(&without(degraded(), FROM)), Ok(expected));
}

#[test]
fn the_version_does_not_matter() {
    let mut record = full();
    record[VERSION] = 9;
    assert_eq!(restore(&record), Ok(frame()));
}

#[test]
fn not_one_park_in_its_layout() {
    assert_eq!(restore(&[]), Err(Refusal::BadRecord { offset: None }));
    assert_eq!(restore(&full()[..239]), Err(Refusal::BadRecord { offset: None }));
    assert_eq!(restore(&[full(), vec![0]].concat()), Err(Refusal::BadRecord { offset: None }));
    let mut record = full();
    record[WIRE] = 2;
    assert_eq!(restore(&record), Err(Refusal::BadRecord { offset: None }));
}

#[test]
fn a_text_that_does_not_parse() {
    assert_eq!(restore(&park(b"0x").bytes()), Err(Refusal::BadHashText));
}

#[test]
fn degraded_without_a_sender() {
    assert_eq!(restore(&without(degraded(), SENDER)), Err(Refusal::NoSender));
}

#[test]
fn full_without_from_or_wire() {
    assert_eq!(restore(&without(full(), FROM)), Err(Refusal::NoWire));
    let mut record = full();
    record[WIRE] = 0;
    assert_eq!(restore(&record), Err(Refusal::NoWire));
}

extern "C" {
    fn gap_quarantine_restore(record: *const u8, record_len: usize, frame: *mut u8, frame_len: usize) -> u64;
}

/// 13, which a caller of the safe function does not meet, comes after the record's own refusals and writes nothing.
#[test]
fn a_slice_that_is_not_92_bytes() {
    for (record, code) in [(full(), 13), (park(b"0x").bytes(), 14)] {
        for length in [0, 91, 93] {
            let mut frame = vec![7; length];
            // The slices are valid for their lengths and do not overlap.
            let found = unsafe { gap_quarantine_restore(record.as_ptr(), record.len(), frame.as_mut_ptr(), frame.len()) };
            assert_eq!(found, code);
            assert!(frame.iter().all(|b| *b == 7));
        }
    }
}
