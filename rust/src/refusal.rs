use std::error::Error;
use std::fmt;

/// Why [`fold`](crate::fold), [`restore`](crate::restore) or the writing of a record was refused. Nothing was written.
///
/// An offset is a place in the journal, in bytes. A fold always has one; a restore and a writer, which see a single record,
/// have none.
#[derive(Debug, Clone, Copy, PartialEq, Eq, Hash)]
#[non_exhaustive]
pub enum Refusal {
    /// 9, of a fold: the journal is over 65,536 bytes.
    LongJournal {
        /// The first byte over the limit: 65,536.
        offset: usize,
    },
    /// 10, of a fold: the mark of a record is unknown.
    UnknownMark {
        /// The record's first byte.
        offset: usize,
    },
    /// 11, of a fold or a writer: a field is outside its layout, or a version is above 2. Of a restore: the bytes are not
    /// one park record in its layout.
    BadRecord {
        /// Of a fold, the record's first byte.
        offset: Option<usize>,
    },
    /// 12, of a fold: a 65th key would be pending.
    PendingFull {
        /// The first byte of the record that has the key.
        offset: usize,
    },
    /// 13, of a fold: the output is shorter than [`PARK`](crate::PARK) bytes for each pending record. Of a writer: it is
    /// shorter than the record.
    ShortOutput {
        /// Of a fold, where the records that were read end.
        offset: Option<usize>,
    },
    /// 14, of a restore: the record's text does not parse. After at most one `0x` it is not 64 hex digits.
    BadHashText,
    /// 15, of a restore: the record is degraded and has no sender.
    NoSender,
    /// 16, of a restore: the record is full, and has no from or its wire does not decode.
    NoWire,
}

impl Refusal {
    /// Document 01's number, as the C functions return it.
    pub fn number(self) -> u8 {
        match self {
            Refusal::LongJournal { .. } => 9,
            Refusal::UnknownMark { .. } => 10,
            Refusal::BadRecord { .. } => 11,
            Refusal::PendingFull { .. } => 12,
            Refusal::ShortOutput { .. } => 13,
            Refusal::BadHashText => 14,
            Refusal::NoSender => 15,
            Refusal::NoWire => 16,
        }
    }

    /// The place in the journal, where there is one: of every refusal of a fold, and of no other.
    pub fn offset(self) -> Option<usize> {
        match self {
            Refusal::LongJournal { offset } | Refusal::UnknownMark { offset } | Refusal::PendingFull { offset } => {
                Some(offset)
            }
            Refusal::BadRecord { offset } | Refusal::ShortOutput { offset } => offset,
            Refusal::BadHashText | Refusal::NoSender | Refusal::NoWire => None,
        }
    }

    fn condition(self) -> &'static str {
        match self {
            Refusal::LongJournal { .. } => "journal over 65,536 bytes",
            Refusal::UnknownMark { .. } => "unknown mark",
            Refusal::BadRecord { offset: Some(_) } => "field outside its layout or version above 2",
            Refusal::BadRecord { offset: None } => "not one record in its layout",
            Refusal::PendingFull { .. } => "a 65th key",
            Refusal::ShortOutput { .. } => "output too short",
            Refusal::BadHashText => "hash text that does not parse",
            Refusal::NoSender => "degraded record without a sender",
            Refusal::NoWire => "full record without a from, or whose wire does not decode",
        }
    }

    /// The refusal that `gap_quarantine_fold` returned as number + 256 * offset.
    pub(crate) fn of_fold(code: u64) -> Refusal {
        let offset = (code / 256) as usize;
        match code % 256 {
            9 => Refusal::LongJournal { offset },
            10 => Refusal::UnknownMark { offset },
            11 => Refusal::BadRecord { offset: Some(offset) },
            12 => Refusal::PendingFull { offset },
            13 => Refusal::ShortOutput { offset: Some(offset) },
            _ => panic!("gap_quarantine_fold returned {code}, which its contract rules out"),
        }
    }

    /// The refusal that `gap_quarantine_restore` returned as its number; 13 is ruled out by a slice of 92 bytes.
    pub(crate) fn of_restore(code: u64) -> Refusal {
        match code {
            11 => Refusal::BadRecord { offset: None },
            14 => Refusal::BadHashText,
            15 => Refusal::NoSender,
            16 => Refusal::NoWire,
            _ => panic!("gap_quarantine_restore returned {code}, which its contract rules out"),
        }
    }

    /// The refusal that a writer returned as its number.
    pub(crate) fn of_write(code: u64) -> Refusal {
        match code {
            11 => Refusal::BadRecord { offset: None },
            13 => Refusal::ShortOutput { offset: None },
            _ => panic!("a writer returned {code}, which its contract rules out"),
        }
    }
}

/// The number, the offset where there is one, and the condition: `refusal 10 at byte 1018: unknown mark`.
impl fmt::Display for Refusal {
    fn fmt(&self, f: &mut fmt::Formatter<'_>) -> fmt::Result {
        write!(f, "refusal {}", self.number())?;
        if let Some(offset) = self.offset() {
            write!(f, " at byte {offset}")?;
        }
        write!(f, ": {}", self.condition())
    }
}

impl Error for Refusal {}

#[cfg(test)]
mod tests {
    use super::Refusal;
    use std::panic::{catch_unwind, UnwindSafe};

    #[test]
    fn fold_codes_keep_number_and_offset() {
        for number in 9..=13 {
            for offset in [0, 1, 1018, 65536] {
                let refusal = Refusal::of_fold(number + 256 * offset as u64);
                assert_eq!((u64::from(refusal.number()), refusal.offset()), (number, Some(offset)));
            }
        }
    }

    #[test]
    fn restore_codes_keep_number() {
        for number in [11, 14, 15, 16] {
            let refusal = Refusal::of_restore(number);
            assert_eq!((u64::from(refusal.number()), refusal.offset()), (number, None));
        }
    }

    #[test]
    fn write_codes_keep_number() {
        for number in [11, 13] {
            let refusal = Refusal::of_write(number);
            assert_eq!((u64::from(refusal.number()), refusal.offset()), (number, None));
        }
    }

    fn panic_of(call: impl FnOnce() -> Refusal + UnwindSafe) -> String {
        *catch_unwind(call).expect_err("a panic").downcast().expect("a message")
    }

    #[test]
    fn other_codes_panic() {
        for code in (0..9).chain(14..256).map(|number| number + 256 * 480) {
            let message = format!("gap_quarantine_fold returned {code}, which its contract rules out");
            assert_eq!(panic_of(move || Refusal::of_fold(code)), message);
        }
        for code in (0..300).filter(|code| ![11, 14, 15, 16].contains(code)) {
            let message = format!("gap_quarantine_restore returned {code}, which its contract rules out");
            assert_eq!(panic_of(move || Refusal::of_restore(code)), message);
        }
        for code in (0..300).filter(|code| ![11, 13].contains(code)) {
            let message = format!("a writer returned {code}, which its contract rules out");
            assert_eq!(panic_of(move || Refusal::of_write(code)), message);
        }
    }
}
