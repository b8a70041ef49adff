//! A park record for the speed example and the tests.

use gap_quarantine_journal::{Fidelity, ParkRecord};

/// A full park of the frame with this text.
pub fn park(text: &[u8]) -> ParkRecord<'_> {
    ParkRecord {
        version: 2,
        text,
        from: Some([1; 20]),
        sender: Some([2; 20]),
        chain_id: 1,
        gas: 21000,
        wire: true,
        list: true,
        claimed_nonce: 8,
        expected_nonce: 5,
        parked_at: 0,
        fidelity: Fidelity::Full,
        tentative: None,
        ticket: 3,
    }
}
