//! The archive's five writers as they are, called on any arguments.

#[path = "../../src/writers.rs"]
mod writers;

use writers::{
    gap_quarantine_write_legacy, gap_quarantine_write_other, gap_quarantine_write_park, gap_quarantine_write_resolve,
    gap_quarantine_write_tentative,
};

/// The arguments of the writers that can be refused, and the numbers of an older park: claimed, frame nonce, top nonce,
/// expected, parked_at, chain_id and gas.
pub struct Arguments {
    pub version: u32,
    pub text: &'static [u8],
    pub from: &'static [u8],
    pub sender: &'static [u8],
    pub wire: u8,
    pub list: u8,
    pub fidelity: u8,
    pub hash: &'static [u8],
    pub resolution: u8,
    pub frame_hash: &'static [u8],
    pub top_hash: &'static [u8],
    pub has: [u8; 7],
    pub numbers: [u64; 7],
    pub rest: u8,
    pub kind: u8,
    pub block: u64,
    pub block_hash: &'static [u8],
    pub by: &'static [u8],
}

/// Arguments that no writer refuses.
pub const SOUND: Arguments = Arguments {
    version: 2,
    text: b"0x",
    from: &[1; 20],
    sender: &[2; 20],
    wire: 1,
    list: 1,
    fidelity: 1,
    hash: &[3; 32],
    resolution: 4,
    frame_hash: &[4; 32],
    top_hash: &[5; 32],
    has: [1; 7],
    numbers: [8, 8, 8, 5, 0, 1, 21000],
    rest: 1,
    kind: 2,
    block: 100,
    block_hash: &[6; 32],
    by: &[7; 32],
};

// SAFETY, of each call: the slices are valid for their lengths, and `out` does not overlap another.
#[rustfmt::skip]
impl Arguments {
    pub fn park(&self, out: &mut [u8]) -> u64 {
        let Arguments { version, text, from, sender, wire, list, fidelity, kind, block, block_hash, by, .. } = *self;
        unsafe { gap_quarantine_write_park(
            version, text.as_ptr(), text.len(), from.as_ptr(), from.len(), sender.as_ptr(), sender.len(),
            1, 21000, wire, list, 8, 5, 0, fidelity,
            kind, block, block_hash.as_ptr(), block_hash.len(), by.as_ptr(), by.len(), 3, out.as_mut_ptr(), out.len(),
        ) }
    }

    pub fn tentative(&self, out: &mut [u8]) -> u64 {
        let Arguments { version, hash, kind, block, block_hash, by, .. } = *self;
        unsafe { gap_quarantine_write_tentative(
            version, hash.as_ptr(), hash.len(),
            kind, block, block_hash.as_ptr(), block_hash.len(), by.as_ptr(), by.len(), 0, out.as_mut_ptr(), out.len(),
        ) }
    }

    pub fn resolve(&self, out: &mut [u8]) -> u64 {
        let Arguments { version, hash, resolution, .. } = *self;
        unsafe { gap_quarantine_write_resolve(
            version, hash.as_ptr(), hash.len(), resolution, 0, out.as_mut_ptr(), out.len(),
        ) }
    }

    pub fn legacy(&self, out: &mut [u8]) -> u64 {
        let Arguments { frame_hash, top_hash, has, numbers: n, sender, from, rest, kind, block, block_hash, by, .. } = *self;
        unsafe { gap_quarantine_write_legacy(
            frame_hash.as_ptr(), frame_hash.len(), top_hash.as_ptr(), top_hash.len(),
            has[0], n[0], has[1], n[1], has[2], n[2], sender.as_ptr(), sender.len(), from.as_ptr(), from.len(),
            has[3], n[3], has[4], n[4], has[5], n[5], has[6], n[6], rest,
            kind, block, block_hash.as_ptr(), block_hash.len(), by.as_ptr(), by.len(), 3, out.as_mut_ptr(), out.len(),
        ) }
    }

    pub fn other(&self, out: &mut [u8]) -> u64 {
        unsafe { gap_quarantine_write_other(5, out.as_mut_ptr(), out.len()) }
    }
}
