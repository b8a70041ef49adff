//! Document 01's examples for the journal, with the answers that the document states.
use super::outcome::Folded;
use super::records::{Hash, Legacy, Park, Record, Resolve};
use crate::hex::hex;

const HASH: Hash = [0xab; 32];

pub struct Example {
    pub says: &'static str,
    pub journal: Vec<u8>,
    /// Whether a fold is as the document says.
    pub holds: fn(&Folded) -> bool,
}

fn park() -> Park {
    Park {
        version: 2,
        text: format!("0x{}", hex(&HASH)).into_bytes(),
        from: Some([1; 20]),
        sender: Some([1; 20]),
        chain_id: 1,
        gas: 21_000,
        wire: true,
        list: true,
        claimed: 8,
        expected: 5,
        parked_at: 0,
        degraded: false,
        tentative: None,
        ticket: 7,
    }
}

fn legacy() -> Legacy {
    Legacy {
        frame_hash: Some(HASH),
        top_hash: None,
        claimed: None,
        frame_nonce: None,
        top_nonce: Some(8),
        sender: None,
        from: None,
        expected: None,
        parked_at: None,
        chain_id: None,
        gas: None,
        rest: false,
        tentative: None,
        ticket: 0,
    }
}

pub fn examples() -> Vec<Example> {
    let mut capital = park();
    capital.text[2] = b'A';
    let resolve = Record::Resolve(Resolve { version: 2, hash: HASH, resolution: 4, resolved_at: 0 });
    vec![
        Example {
            says: "an empty journal",
            journal: Vec::new(),
            holds: |f| (f.pending.len(), f.skipped, f.migrated, f.degraded, f.end) == (0, 0, 0, 0, 0),
        },
        Example {
            says: "a QP whose text has a capital A, then a QR of its hash: one pending",
            journal: [capital.bytes(), resolve.bytes()].concat(),
            holds: |f| f.pending.len() == 1,
        },
        Example {
            says: "a QL of a frame hash and a top nonce alone: migrated 1, degraded 1, expected is claimed",
            journal: Record::Legacy(legacy()).bytes(),
            // claimed stands at 133, expected at 141
            holds: |f| (f.migrated, f.degraded) == (1, 1) && f.pending[0][133..141] == f.pending[0][141..149],
        },
    ]
}
