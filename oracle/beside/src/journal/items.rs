//! The items that the program `journals` reads, and the lines that it is to print for them.
use super::layout::{read, Reading};
use super::original::Original;
use super::outcome::{line, with_room, Restored, Room, TOTALS_SIZE};
use crate::hex::hex;
use std::fmt::Write;

#[derive(PartialEq)]
pub enum Item {
    /// A journal, and how many bytes are lent to its fold.
    Journal(Vec<u8>, usize),
    /// One record to restore.
    Park(Vec<u8>),
    /// One record to write again, and how many bytes are lent to its writer.
    Record(Vec<u8>, usize),
}

impl Item {
    /// As it stands in the program's input.
    pub fn bytes(&self) -> Vec<u8> {
        let (kind, bytes, room) = match self {
            Item::Journal(bytes, room) => (0, bytes, Some(*room as u16)),
            Item::Park(bytes) => (1, bytes, None),
            Item::Record(bytes, room) => (2, bytes, Some(*room as u16)),
        };
        let mut out = vec![kind];
        out.extend((bytes.len() as u32).to_le_bytes());
        out.extend(room.map(u16::to_le_bytes).into_iter().flatten());
        out.extend(bytes);
        out
    }

    /// What the program prints for it as the item of this number: the Rust's answers, and for a record to write the driver's own.
    pub fn lines(&self, number: usize, original: &Original) -> String {
        let head = format!("== {number}\n");
        match self {
            Item::Journal(bytes, room) => head + &journal_lines(number, bytes, *room, original),
            Item::Park(bytes) => head + &restore_line(&original.restore(bytes, number as u64)),
            Item::Record(bytes, room) => head + &written_line(bytes, *room),
        }
    }
}

/// The fold's line, then for each pending record its bytes and what restore answers.
fn journal_lines(number: usize, bytes: &[u8], room: usize, original: &Original) -> String {
    let (fold, restored) = original.fold(bytes, number as u64);
    let fold = with_room(fold, Room { out: room, totals: TOTALS_SIZE });
    let mut text = line(&fold) + "\n";
    let pending = fold.map_or(Vec::new(), |f| f.pending);
    for (record, restored) in pending.iter().zip(&restored) {
        text += &(hex(record) + "\n");
        text += &restore_line(restored);
    }
    text
}

fn restore_line(restored: &Restored) -> String {
    match restored {
        Err(number) => format!("restore refused {number}\n"),
        Ok(bytes) => {
            let mut text = format!("restore {} {}", hex(&bytes[..32]), hex(&bytes[32..52]));
            for n in bytes[52..].chunks(8) {
                write!(text, " {}", u64::from_le_bytes(n.try_into().expect("8 bytes"))).expect("a string takes all");
            }
            text + "\n"
        }
    }
}

/// Bytes that are one whole record are written again where there is room.
fn written_line(bytes: &[u8], room: usize) -> String {
    match read(bytes) {
        Reading::Whole(_, size) if size < bytes.len() => "no record\n".to_string(),
        Reading::Whole(_, size) if room < size => "refused 13\n".to_string(),
        Reading::Whole(record, size) => format!("written {size} {}\n", hex(&record.bytes())),
        _ => "no record\n".to_string(),
    }
}
