//! The archive's fold on an empty journal, on each refusal, and on a journal with all five marks cut at every byte.

mod records;

use gap_quarantine_journal::{
    fold, ConsumedKind, LegacyParkRecord, OtherRecord, ParkRecord, Refusal, Resolution, ResolveRecord, TentativeEntryRecord,
    TentativeRecord, Totals, ENOUGH,
};
use records::{canonical, park, Layout};

fn sound(hash: u8) -> Vec<u8> {
    park(&canonical([hash; 32])).bytes()
}

fn of_version(version: u32) -> Vec<u8> {
    ParkRecord { version, ..park(&canonical([0xaa; 32])) }.bytes()
}

fn enter(hash: u8) -> Vec<u8> {
    let consumed = TentativeRecord { kind: ConsumedKind::Mined, block: 100, block_hash: [9; 32], by: None };
    TentativeEntryRecord { version: 2, hash: [hash; 32], consumed, entered_at: 0 }.bytes()
}

fn resolve(hash: u8) -> Vec<u8> {
    ResolveRecord { version: 2, hash: [hash; 32], resolution: Resolution::MinedFinalized, resolved_at: 0 }.bytes()
}

fn legacy(hash: u8) -> Vec<u8> {
    LegacyParkRecord { frame_hash: Some([hash; 32]), top_nonce: Some(8), ..LegacyParkRecord::default() }.bytes()
}

fn other() -> Vec<u8> {
    OtherRecord { ticket: 5 }.bytes()
}

fn folded(journal: &[u8]) -> Result<Totals, Refusal> {
    fold(journal, &mut [0; ENOUGH])
}

#[test]
fn empty() {
    assert_eq!(folded(&[]), Ok(Totals { pending: 0, skipped: 0, migrated: 0, degraded: 0, end: 0 }));
}

#[test]
fn output_is_the_records() {
    let journal = [of_version(0), other()].concat();
    let mut out = [7; 500];
    let totals = fold(&journal, &mut out).unwrap();
    assert_eq!((totals.pending, totals.skipped, totals.end), (1, 1, 250));
    assert_eq!(out[..240], sound(0xaa)[..]);
    assert!(out[240..].iter().all(|b| *b == 7));
}

#[test]
fn input_over_the_limit() {
    assert_eq!(folded(&vec![0; 65537]), Err(Refusal::LongJournal { offset: 65536 }));
}

#[test]
fn unknown_mark() {
    assert_eq!(folded(&[other(), b"??".to_vec()].concat()), Err(Refusal::UnknownMark { offset: 10 }));
}

#[test]
fn version_above_2() {
    assert_eq!(folded(&[other(), of_version(3)].concat()), Err(Refusal::BadRecord { offset: Some(10) }));
}

#[test]
fn field_outside_its_layout() {
    let mut record = resolve(0xaa);
    record[38] = 5;
    assert_eq!(folded(&record), Err(Refusal::BadRecord { offset: Some(0) }));
}

#[test]
fn a_65th_key() {
    let parks: Vec<Vec<u8>> = (0..65).map(sound).collect();
    assert_eq!(folded(&parks.concat()), Err(Refusal::PendingFull { offset: 64 * 240 }));
    assert_eq!(folded(&parks[..64].concat()).unwrap().pending, 64);
}

#[test]
fn output_too_short() {
    let journal = sound(0xaa);
    let mut out = [7; 239];
    assert_eq!(fold(&journal, &mut out), Err(Refusal::ShortOutput { offset: Some(240) }));
    assert!(out.iter().all(|b| *b == 7));
}

/// The fold of a journal cut anywhere is that of the records whole before the cut.
#[test]
fn cut_at_every_byte() {
    let records = [sound(0xaa), sound(0xbb), enter(0xaa), resolve(0xbb), legacy(0xcc), other()];
    let journal = records.concat();
    for cut in 0..=journal.len() {
        let mut whole = 0;
        for r in &records {
            if whole + r.len() <= cut {
                whole += r.len();
            } else {
                break;
            }
        }
        let mut cut_out = [0; ENOUGH];
        let mut whole_out = [0; ENOUGH];
        let totals = fold(&journal[..cut], &mut cut_out).unwrap();
        assert_eq!(totals, fold(&journal[..whole], &mut whole_out).unwrap());
        assert_eq!(totals.end, whole);
        assert!(cut_out == whole_out);
    }
    assert_eq!(folded(&journal), Ok(Totals { pending: 2, skipped: 1, migrated: 1, degraded: 1, end: journal.len() }));
}
