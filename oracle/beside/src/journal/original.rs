//! The published journal, unchanged: records become JSON lines, `read_pending` folds them, and its pending set becomes QP
//! again. Document 01's refusals, which it does not have, are tested here.
use super::layout::{read, read_park, Reading};
use super::lines::{blank, line, ticket};
use super::outcome::{frame, Fold, Folded, Restored, JOURNAL_LIMIT};
use super::records::{Park, Record, Tentative};
use crate::random::Random;
use alloy::primitives::{Address, B256};
use published::gap_quarantine_journal::{
    corrupt_sidecar_path, read_pending, ConsumedKind, JournalRecord, JournalRecordPayload, ParkRecord, PendingRead,
    RecordFidelity,
};
use std::collections::BTreeSet;
use std::fs;
use std::path::{Path, PathBuf};

pub struct Original {
    file: PathBuf,
}

impl Original {
    /// The journal file is written in this folder.
    pub fn new(folder: &Path) -> Self {
        Original { file: folder.join("journal.jsonl") }
    }

    /// `read_pending` of these lines.
    pub fn read_lines(&self, lines: &[String]) -> PendingRead {
        let mut text = lines.join("\n");
        text.push('\n');
        fs::write(&self.file, text).expect("the folder is writable");
        let _ = fs::remove_file(corrupt_sidecar_path(&self.file));
        read_pending(&self.file).expect("the file was just written")
    }

    /// The fold of a journal, and the restored frame of each pending record. The seed picks among the lines of a record.
    pub fn fold(&self, journal: &[u8], seed: u64) -> (Fold, Vec<Restored>) {
        if journal.len() > JOURNAL_LIMIT {
            return (Err((9, JOURNAL_LIMIT)), Vec::new());
        }
        let parts = Lines::of(journal, seed);
        if let Some(crowded) = parts.crowded {
            // 12: the first record after which the Rust holds more than 64
            let holds = |n: &usize| self.read_lines(&parts.lines[..*n]).pending.len() > 64;
            if let Some(n) = (crowded..=parts.lines.len()).find(holds) {
                return (Err((12, parts.offsets[n - 1])), Vec::new());
            }
        }
        if let Some(refusal) = parts.refused {
            return (Err(refusal), Vec::new());
        }
        let found = self.read_lines(&parts.lines);
        let folded = Folded {
            pending: found.pending.iter().map(|p| park(p).bytes()).collect(),
            skipped: found.skipped as u64,
            migrated: found.migrated as u64,
            degraded: found.degraded as u64,
            end: parts.end,
        };
        (Ok(folded), found.pending.iter().map(restored).collect())
    }

    /// The frame of one QP's bytes.
    pub fn restore(&self, bytes: &[u8], seed: u64) -> Restored {
        let park = read_park(bytes).ok_or(11)?;
        let text = line(&Record::Park(park), &mut Random::new(seed));
        let record: JournalRecord = serde_json::from_str(&text).expect("a QP's line types");
        match record.payload {
            JournalRecordPayload::Park(park) => restored(&park),
            _ => panic!("a QP's line is a park"),
        }
    }
}

/// The lines of a journal's whole records, with blank ones between.
#[derive(Default)]
struct Lines {
    lines: Vec<String>,
    /// Where the record of each line begins.
    offsets: Vec<usize>,
    /// How many lines first have more than 64 texts and hashes, so that 64 keys may be held.
    crowded: Option<usize>,
    /// 10 or 11, and its offset.
    refused: Option<(u8, usize)>,
    end: usize,
}

impl Lines {
    fn of(journal: &[u8], seed: u64) -> Self {
        let mut r = Random::new(seed ^ 0x11e5);
        let mut found = Lines::default();
        let mut keys = BTreeSet::new();
        while found.end < journal.len() {
            match read(&journal[found.end..]) {
                Reading::Unfinished => break,
                Reading::Refused(number) => {
                    found.refused = Some((number, found.end));
                    break;
                }
                Reading::Whole(record, size) => {
                    if r.once_in(9) {
                        found.lines.push(blank(&mut r));
                        found.offsets.push(found.end);
                    }
                    found.lines.push(line(&record, &mut r));
                    found.offsets.push(found.end);
                    keys.extend(names(&record));
                    if keys.len() > 64 && found.crowded.is_none() {
                        found.crowded = Some(found.lines.len());
                    }
                    found.end += size;
                }
            }
        }
        found
    }
}

/// What the key of a record may be made of.
fn names(record: &Record) -> Vec<Vec<u8>> {
    match record {
        Record::Park(p) => vec![p.text.clone()],
        Record::Legacy(l) => [l.frame_hash, l.top_hash].iter().flatten().map(|h| h.to_vec()).collect(),
        _ => Vec::new(),
    }
}

/// A pending record as QP, version 2.
fn park(p: &ParkRecord) -> Park {
    Park {
        version: 2,
        text: p.frame.hash.clone().into_bytes(),
        from: p.frame.from.parse::<Address>().ok().map(|a| a.0),
        sender: p.sender.map(|a| a.0),
        chain_id: p.frame.chain_id,
        gas: p.frame.gas,
        wire: wire_decodes(p),
        list: p.frame.access_list.is_array(),
        claimed: p.claimed_nonce,
        expected: p.expected_nonce,
        parked_at: p.parked_at_unix_ms,
        degraded: p.fidelity == RecordFidelity::Degraded,
        tentative: p.tentative.map(|t| Tentative {
            kind: if t.kind == ConsumedKind::Mined { 1 } else { 2 },
            block: t.block,
            hash: t.block_hash.0,
            by: t.by.map(|h| h.0),
        }),
        ticket: ticket(p.frame.to.as_deref()),
    }
}

/// Whether the texts other than hash and from decode. A degraded migrated record, known by its transaction type 0, has wire
/// 0 by document 01, which the Rust does not record; this field of it is not compared.
fn wire_decodes(p: &ParkRecord) -> bool {
    let mut wire = p.frame.clone();
    wire.hash = B256::ZERO.to_string();
    wire.from = Address::ZERO.to_string();
    wire.tx_type != 0 && wire.decode().is_ok()
}

/// `to_parked_frame`; the Rust says whether it refuses, and document 01's table which number that is.
fn restored(p: &ParkRecord) -> Restored {
    match p.to_parked_frame() {
        Ok(f) => {
            let to = f.to.map(|a| a.to_string());
            let numbers = [f.expected_at_capture, f.claimed_nonce, f.chain_id, f.gas, ticket(to.as_deref())];
            Ok(frame(&f.hash.0, &f.from.0, numbers))
        }
        Err(_) if p.frame.hash.parse::<B256>().is_err() => Err(14),
        Err(_) if p.fidelity == RecordFidelity::Degraded => Err(15),
        Err(_) => Err(16),
    }
}
