//! Writes a journal of six records, folds it and restores what is pending: `cargo run --example write`.

mod pending;

use gap_quarantine_journal::{
    ConsumedKind, Fidelity, LegacyParkRecord, OtherRecord, ParkRecord, Refusal, Resolution, ResolveRecord,
    TentativeEntryRecord, TentativeRecord,
};

fn main() -> Result<(), Refusal> {
    let mut journal = [0; 1000];
    let end = write(&mut journal)?;
    pending::tell(&journal[..end])
}

/// Writes the records one behind the other, and answers where they end.
fn write(journal: &mut [u8]) -> Result<usize, Refusal> {
    let (first, second) = (format!("0x{}", "aa".repeat(32)), format!("0x{}", "bb".repeat(32)));
    let mined = TentativeRecord { kind: ConsumedKind::Mined, block: 100, block_hash: [9; 32], by: None };
    let entry = TentativeEntryRecord { version: 2, hash: [0xaa; 32], consumed: mined, entered_at: 2000 };
    let gone = ResolveRecord { version: 2, hash: [0xbb; 32], resolution: Resolution::RescueConsumed, resolved_at: 3000 };

    let mut end = park(first.as_bytes(), 1).write(journal)?;
    end += entry.write(&mut journal[end..])?;
    end += older_park(2).write(&mut journal[end..])?;
    end += OtherRecord { ticket: 3 }.write(&mut journal[end..])?;
    end += park(second.as_bytes(), 4).write(&mut journal[end..])?;
    end += gone.write(&mut journal[end..])?;
    Ok(end)
}

fn park(text: &[u8], ticket: u64) -> ParkRecord<'_> {
    ParkRecord {
        version: 2,
        text,
        from: Some([1; 20]),
        sender: Some([1; 20]),
        chain_id: 1,
        gas: 21000,
        wire: true,
        list: true,
        claimed_nonce: 8,
        expected_nonce: 5,
        parked_at: 1000,
        fidelity: Fidelity::Full,
        tentative: None,
        ticket,
    }
}

/// A park of which only the frame's hash, its nonce and the sender are known, so that the fold makes a degraded one of it.
fn older_park(ticket: u64) -> LegacyParkRecord {
    LegacyParkRecord {
        frame_hash: Some([0xcc; 32]),
        frame_nonce: Some(9),
        sender: Some([2; 20]),
        ticket,
        ..LegacyParkRecord::default()
    }
}
