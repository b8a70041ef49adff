//! What a refusal says: its number, its offset, its text, and that it is an error like any other.

use gap_quarantine_journal::{fold, restore, Refusal, ENOUGH};
use std::error::Error;

/// Every refusal with its number, its offset and its text.
const REFUSALS: [(Refusal, u8, Option<usize>, &str); 10] = [
    (Refusal::LongJournal { offset: 65536 }, 9, Some(65536), "refusal 9 at byte 65536: journal over 65,536 bytes"),
    (Refusal::UnknownMark { offset: 1018 }, 10, Some(1018), "refusal 10 at byte 1018: unknown mark"),
    (
        Refusal::BadRecord { offset: Some(0) },
        11,
        Some(0),
        "refusal 11 at byte 0: field outside its layout or version above 2",
    ),
    (Refusal::BadRecord { offset: None }, 11, None, "refusal 11: not one record in its layout"),
    (Refusal::PendingFull { offset: 18551 }, 12, Some(18551), "refusal 12 at byte 18551: a 65th key"),
    (Refusal::ShortOutput { offset: Some(480) }, 13, Some(480), "refusal 13 at byte 480: output too short"),
    (Refusal::ShortOutput { offset: None }, 13, None, "refusal 13: output too short"),
    (Refusal::BadHashText, 14, None, "refusal 14: hash text that does not parse"),
    (Refusal::NoSender, 15, None, "refusal 15: degraded record without a sender"),
    (Refusal::NoWire, 16, None, "refusal 16: full record without a from, or whose wire does not decode"),
];

#[test]
fn numbers() {
    for (refusal, number, ..) in REFUSALS {
        assert_eq!(refusal.number(), number);
    }
}

#[test]
fn offsets() {
    for (refusal, _, offset, _) in REFUSALS {
        assert_eq!(refusal.offset(), offset);
    }
}

#[test]
fn texts() {
    for (refusal, .., text) in REFUSALS {
        assert_eq!(refusal.to_string(), text);
    }
}

fn first_ticket(journal: &[u8]) -> Result<u64, Box<dyn Error + Send + Sync>> {
    let mut out = [0; ENOUGH];
    fold(journal, &mut out)?;
    Ok(restore(&out[..240])?.ticket)
}

/// The first journal is refused by the fold; the second is empty, so that what is restored is no record.
#[test]
fn both_are_errors_by_the_question_mark() {
    let cases = [
        (b"??".as_slice(), Refusal::UnknownMark { offset: 0 }, "refusal 10 at byte 0: unknown mark"),
        (b"", Refusal::BadRecord { offset: None }, "refusal 11: not one record in its layout"),
    ];
    for (journal, refusal, text) in cases {
        let error = first_ticket(journal).unwrap_err();
        assert_eq!(error.to_string(), text);
        assert!(error.source().is_none());
        assert_eq!(error.downcast_ref(), Some(&refusal));
    }
}
