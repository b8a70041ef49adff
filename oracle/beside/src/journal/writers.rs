//! The C functions that write records. A slice goes as its pointer and its length; all slices are valid for their lengths, the
//! one that is written overlaps no other, and no function keeps a pointer.
use super::writing::value::{EntryValue, LegacyValue, ParkValue, ResolveValue, Value};

extern "C" {
    fn gap_quarantine_write_park(
        version: u32,
        text: *const u8,
        text_len: usize,
        from: *const u8,
        from_len: usize,
        sender: *const u8,
        sender_len: usize,
        chain_id: u64,
        gas: u64,
        wire: u8,
        list: u8,
        claimed_nonce: u64,
        expected_nonce: u64,
        parked_at: u64,
        fidelity: u8,
        kind: u8,
        block: u64,
        block_hash: *const u8,
        block_hash_len: usize,
        by: *const u8,
        by_len: usize,
        ticket: u64,
        out: *mut u8,
        out_len: usize,
    ) -> u64;

    fn gap_quarantine_write_tentative(
        version: u32,
        hash: *const u8,
        hash_len: usize,
        kind: u8,
        block: u64,
        block_hash: *const u8,
        block_hash_len: usize,
        by: *const u8,
        by_len: usize,
        entered_at: u64,
        out: *mut u8,
        out_len: usize,
    ) -> u64;

    fn gap_quarantine_write_resolve(
        version: u32,
        hash: *const u8,
        hash_len: usize,
        resolution: u8,
        resolved_at: u64,
        out: *mut u8,
        out_len: usize,
    ) -> u64;

    fn gap_quarantine_write_legacy(
        frame_hash: *const u8,
        frame_hash_len: usize,
        top_hash: *const u8,
        top_hash_len: usize,
        has_claimed: u8,
        claimed_nonce: u64,
        has_frame_nonce: u8,
        frame_nonce: u64,
        has_top_nonce: u8,
        top_nonce: u64,
        sender: *const u8,
        sender_len: usize,
        from: *const u8,
        from_len: usize,
        has_expected: u8,
        expected_nonce: u64,
        has_parked_at: u8,
        parked_at: u64,
        has_chain_id: u8,
        chain_id: u64,
        has_gas: u8,
        gas: u64,
        rest: u8,
        kind: u8,
        block: u64,
        block_hash: *const u8,
        block_hash_len: usize,
        by: *const u8,
        by_len: usize,
        ticket: u64,
        out: *mut u8,
        out_len: usize,
    ) -> u64;

    fn gap_quarantine_write_other(ticket: u64, out: *mut u8, out_len: usize) -> u64;
}

/// Calls the function of the value's mark.
pub fn write(value: &Value, out: &mut [u8]) -> u64 {
    match value {
        Value::Park(p) => write_park(p, out),
        Value::Entry(t) => write_tentative(t, out),
        Value::Resolve(x) => write_resolve(x, out),
        Value::Legacy(l) => write_legacy(l, out),
        Value::Other(ticket) => unsafe { gap_quarantine_write_other(*ticket, out.as_mut_ptr(), out.len()) },
    }
}

fn write_park(p: &ParkValue, out: &mut [u8]) -> u64 {
    unsafe {
        gap_quarantine_write_park(
            p.version,
            p.text.as_ptr(),
            p.text.len(),
            p.from.as_ptr(),
            p.from.len(),
            p.sender.as_ptr(),
            p.sender.len(),
            p.chain_id,
            p.gas,
            p.wire,
            p.list,
            p.claimed,
            p.expected,
            p.parked_at,
            p.fidelity,
            p.tentative.kind,
            p.tentative.block,
            p.tentative.hash.as_ptr(),
            p.tentative.hash.len(),
            p.tentative.by.as_ptr(),
            p.tentative.by.len(),
            p.ticket,
            out.as_mut_ptr(),
            out.len(),
        )
    }
}

fn write_tentative(t: &EntryValue, out: &mut [u8]) -> u64 {
    unsafe {
        gap_quarantine_write_tentative(
            t.version,
            t.hash.as_ptr(),
            t.hash.len(),
            t.consumed.kind,
            t.consumed.block,
            t.consumed.hash.as_ptr(),
            t.consumed.hash.len(),
            t.consumed.by.as_ptr(),
            t.consumed.by.len(),
            t.entered_at,
            out.as_mut_ptr(),
            out.len(),
        )
    }
}

fn write_resolve(x: &ResolveValue, out: &mut [u8]) -> u64 {
    unsafe {
        gap_quarantine_write_resolve(
            x.version,
            x.hash.as_ptr(),
            x.hash.len(),
            x.resolution,
            x.resolved_at,
            out.as_mut_ptr(),
            out.len(),
        )
    }
}

fn write_legacy(l: &LegacyValue, out: &mut [u8]) -> u64 {
    unsafe {
        gap_quarantine_write_legacy(
            l.frame_hash.as_ptr(),
            l.frame_hash.len(),
            l.top_hash.as_ptr(),
            l.top_hash.len(),
            l.claimed.has,
            l.claimed.number,
            l.frame_nonce.has,
            l.frame_nonce.number,
            l.top_nonce.has,
            l.top_nonce.number,
            l.sender.as_ptr(),
            l.sender.len(),
            l.from.as_ptr(),
            l.from.len(),
            l.expected.has,
            l.expected.number,
            l.parked_at.has,
            l.parked_at.number,
            l.chain_id.has,
            l.chain_id.number,
            l.gas.has,
            l.gas.number,
            l.rest,
            l.tentative.kind,
            l.tentative.block,
            l.tentative.hash.as_ptr(),
            l.tentative.hash.len(),
            l.tentative.by.as_ptr(),
            l.tentative.by.len(),
            l.ticket,
            out.as_mut_ptr(),
            out.len(),
        )
    }
}
