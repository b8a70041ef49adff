//! The archive's five writers, in the words of include/gap_quarantine_journal.h: a slice is a pointer and a length.

#[rustfmt::skip]
extern "C" {
    pub fn gap_quarantine_write_park(
        version: u32, text: *const u8, text_len: usize,
        from: *const u8, from_len: usize, sender: *const u8, sender_len: usize,
        chain_id: u64, gas: u64, wire: u8, list: u8, claimed_nonce: u64, expected_nonce: u64, parked_at: u64, fidelity: u8,
        kind: u8, block: u64, block_hash: *const u8, block_hash_len: usize, by: *const u8, by_len: usize,
        ticket: u64, out: *mut u8, out_len: usize,
    ) -> u64;

    pub fn gap_quarantine_write_tentative(
        version: u32, hash: *const u8, hash_len: usize,
        kind: u8, block: u64, block_hash: *const u8, block_hash_len: usize, by: *const u8, by_len: usize,
        entered_at: u64, out: *mut u8, out_len: usize,
    ) -> u64;

    pub fn gap_quarantine_write_resolve(
        version: u32, hash: *const u8, hash_len: usize, resolution: u8, resolved_at: u64, out: *mut u8, out_len: usize,
    ) -> u64;

    pub fn gap_quarantine_write_legacy(
        frame_hash: *const u8, frame_hash_len: usize, top_hash: *const u8, top_hash_len: usize,
        has_claimed: u8, claimed_nonce: u64, has_frame_nonce: u8, frame_nonce: u64, has_top_nonce: u8, top_nonce: u64,
        sender: *const u8, sender_len: usize, from: *const u8, from_len: usize,
        has_expected: u8, expected_nonce: u64, has_parked_at: u8, parked_at: u64,
        has_chain_id: u8, chain_id: u64, has_gas: u8, gas: u64, rest: u8,
        kind: u8, block: u64, block_hash: *const u8, block_hash_len: usize, by: *const u8, by_len: usize,
        ticket: u64, out: *mut u8, out_len: usize,
    ) -> u64;

    pub fn gap_quarantine_write_other(ticket: u64, out: *mut u8, out_len: usize) -> u64;
}
