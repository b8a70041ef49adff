//! What the examples print of a journal.

use gap_quarantine_journal::{fold, restore, Frame, Refusal, ENOUGH, PARK};

/// Prints the totals of a journal, and a line for each pending record.
pub fn tell(journal: &[u8]) -> Result<(), Refusal> {
    let mut out = [0; ENOUGH];
    let t = fold(journal, &mut out)?;
    println!("pending {} skipped {} migrated {} degraded {} end {}", t.pending, t.skipped, t.migrated, t.degraded, t.end);
    for record in out.chunks(PARK).take(t.pending) {
        let text = String::from_utf8_lossy(&record[7..7 + usize::from(record[6])]);
        match restore(record) {
            Ok(frame) => println!("{text}: {}", in_words(&frame)),
            Err(refusal) => println!("{text}: {refusal}"),
        }
    }
    Ok(())
}

fn in_words(frame: &Frame) -> String {
    let Frame { hash, from, expected, claim, chain_id, gas, ticket } = frame;
    let (hash, from) = (hex(hash), hex(from));
    format!("hash {hash} from {from} expected {expected} claim {claim} chain_id {chain_id} gas {gas} ticket {ticket}")
}

fn hex(bytes: &[u8]) -> String {
    let digits: String = bytes.iter().map(|byte| format!("{byte:02x}")).collect();
    format!("0x{digits}")
}
