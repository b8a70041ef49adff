use crate::writers::{
    gap_quarantine_write_legacy, gap_quarantine_write_other, gap_quarantine_write_park, gap_quarantine_write_resolve,
    gap_quarantine_write_tentative,
};
use crate::Refusal;

/// The length of a park record, QP, also of a pending one.
pub const PARK: usize = 240;

/// The length of a tentative entry's record, QT.
pub const TENTATIVE: usize = 120;

/// The length of a resolution's record, QR.
pub const RESOLVE: usize = 47;

/// The length of an older park's record, QL.
pub const LEGACY: usize = 256;

/// The length of the record of any other line, QX.
pub const OTHER: usize = 10;

/// How much of a frame its park has.
#[derive(Debug, Clone, Copy, PartialEq, Eq, Hash)]
pub enum Fidelity {
    /// All of it.
    Full = 0,
    /// Only its identity.
    Degraded = 1,
}

/// How a frame's nonce was consumed.
#[derive(Debug, Clone, Copy, PartialEq, Eq, Hash)]
pub enum ConsumedKind {
    /// The frame itself was mined.
    Mined = 1,
    /// Another transaction took its slot.
    SlotTaken = 2,
}

/// What became of a frame.
#[derive(Debug, Clone, Copy, PartialEq, Eq, Hash)]
pub enum Resolution {
    /// It was mined, and its block is final.
    MinedFinalized = 1,
    /// Its slot was taken, in a block that is final.
    SlotTakenFinalized = 2,
    /// It was rescued, and consumed.
    RescueConsumed = 3,
    /// It was evicted.
    Evicted = 4,
}

/// What consumed a frame's nonce, and in which block. It is a part of other records.
#[derive(Debug, Clone, Copy, PartialEq, Eq, Hash)]
pub struct TentativeRecord {
    /// How the nonce was consumed.
    pub kind: ConsumedKind,
    /// The block's number.
    pub block: u64,
    /// The block's hash.
    pub block_hash: [u8; 32],
    /// The hash of the transaction that took the slot, if it is known.
    pub by: Option<[u8; 32]>,
}

/// QP: a frame was parked.
#[derive(Debug, Clone, Copy, PartialEq, Eq, Hash)]
pub struct ParkRecord<'a> {
    /// The version of the line, at most 2.
    pub version: u32,
    /// The text of the frame's hash, as it was given: at most 66 bytes from 32 to 126.
    pub text: &'a [u8],
    /// The address that the frame itself has, if it parses.
    pub from: Option<[u8; 20]>,
    /// The sender's address, if it is known.
    pub sender: Option<[u8; 20]>,
    /// The chain's number.
    pub chain_id: u64,
    /// The gas limit.
    pub gas: u64,
    /// Whether the frame's texts other than hash and from decode.
    pub wire: bool,
    /// Whether its access list is an array.
    pub list: bool,
    /// The nonce that the frame claims.
    pub claimed_nonce: u64,
    /// The nonce that was expected of the sender when the frame was parked.
    pub expected_nonce: u64,
    /// When it was parked.
    pub parked_at: u64,
    /// How much of the frame is there.
    pub fidelity: Fidelity,
    /// What consumed its nonce, if that is known.
    pub tentative: Option<TentativeRecord>,
    /// The number that stands for the frame.
    pub ticket: u64,
}

/// QT: the nonce of a parked frame was consumed.
#[derive(Debug, Clone, Copy, PartialEq, Eq, Hash)]
pub struct TentativeEntryRecord {
    /// The version of the line, at most 2.
    pub version: u32,
    /// The frame's hash.
    pub hash: [u8; 32],
    /// What consumed its nonce.
    pub consumed: TentativeRecord,
    /// When this was entered.
    pub entered_at: u64,
}

/// QR: a frame is not parked any more.
#[derive(Debug, Clone, Copy, PartialEq, Eq, Hash)]
pub struct ResolveRecord {
    /// The version of the line, at most 2.
    pub version: u32,
    /// The frame's hash.
    pub hash: [u8; 32],
    /// What became of it.
    pub resolution: Resolution,
    /// When it was resolved.
    pub resolved_at: u64,
}

/// QL: a frame was parked, by a line of an older form. Of what a line may have in several places, the fold takes the first
/// that is there. By default all is absent.
#[derive(Debug, Clone, Copy, PartialEq, Eq, Hash, Default)]
pub struct LegacyParkRecord {
    /// The hash that the line's frame has, if it parses.
    pub frame_hash: Option<[u8; 32]>,
    /// The hash beside the frame.
    pub top_hash: Option<[u8; 32]>,
    /// The nonce that the line calls claimed.
    pub claimed_nonce: Option<u64>,
    /// The nonce that the frame has.
    pub frame_nonce: Option<u64>,
    /// The nonce beside the frame.
    pub top_nonce: Option<u64>,
    /// The sender's address.
    pub sender: Option<[u8; 20]>,
    /// The address that the frame has, if it parses.
    pub from: Option<[u8; 20]>,
    /// The nonce that was expected of the sender.
    pub expected_nonce: Option<u64>,
    /// When the frame was parked.
    pub parked_at: Option<u64>,
    /// The chain's number.
    pub chain_id: Option<u64>,
    /// The gas limit.
    pub gas: Option<u64>,
    /// Whether the frame's other fields are sound, its access list is an array, and none but to and raw_signed_tx is absent.
    pub rest: bool,
    /// What consumed the nonce, if that is known.
    pub tentative: Option<TentativeRecord>,
    /// The number that stands for the frame.
    pub ticket: u64,
}

/// QX: a line that is none of the others.
#[derive(Debug, Clone, Copy, PartialEq, Eq, Hash)]
pub struct OtherRecord {
    /// The number that stands for the line.
    pub ticket: u64,
}

impl ParkRecord<'_> {
    /// Writes the record to the front of `out`, and answers its length, [`PARK`]. What lies past it stays as it was.
    ///
    /// # Errors
    ///
    /// Refusal 11 if the version is above 2, or the text is longer than 66 bytes or has a byte outside 32 to 126; else 13 if
    /// `out` is too short. There is no offset, and `out` stays as it was.
    ///
    /// # Panics
    ///
    /// If the library returns a code that the proved contract of `gap_quarantine_write_park` rules out.
    pub fn write(&self, out: &mut [u8]) -> Result<usize, Refusal> {
        let [from, sender] = [&self.from, &self.sender].map(optional);
        let (kind, block, block_hash, by) = parts(self.tentative.as_ref());
        // SAFETY: the function reads and writes within the lengths that it is given, and `out` cannot overlap another slice.
        #[rustfmt::skip]
        let code = unsafe { gap_quarantine_write_park(
            self.version, self.text.as_ptr(), self.text.len(),
            from.as_ptr(), from.len(), sender.as_ptr(), sender.len(),
            self.chain_id, self.gas, self.wire.into(), self.list.into(),
            self.claimed_nonce, self.expected_nonce, self.parked_at, self.fidelity as u8,
            kind, block, block_hash.as_ptr(), block_hash.len(), by.as_ptr(), by.len(),
            self.ticket, out.as_mut_ptr(), out.len(),
        ) };
        answer(code, PARK)
    }
}

impl TentativeEntryRecord {
    /// Writes the record to the front of `out`, and answers its length, [`TENTATIVE`]. What lies past it stays as it was.
    ///
    /// # Errors
    ///
    /// Refusal 11 if the version is above 2; else 13 if `out` is too short. There is no offset, and `out` stays as it was.
    ///
    /// # Panics
    ///
    /// If the library returns a code that the proved contract of `gap_quarantine_write_tentative` rules out.
    pub fn write(&self, out: &mut [u8]) -> Result<usize, Refusal> {
        let (kind, block, block_hash, by) = parts(Some(&self.consumed));
        // SAFETY: the function reads and writes within the lengths that it is given, and `out` cannot overlap another slice.
        #[rustfmt::skip]
        let code = unsafe { gap_quarantine_write_tentative(
            self.version, self.hash.as_ptr(), self.hash.len(),
            kind, block, block_hash.as_ptr(), block_hash.len(), by.as_ptr(), by.len(),
            self.entered_at, out.as_mut_ptr(), out.len(),
        ) };
        answer(code, TENTATIVE)
    }
}

impl ResolveRecord {
    /// Writes the record to the front of `out`, and answers its length, [`RESOLVE`]. What lies past it stays as it was.
    ///
    /// # Errors
    ///
    /// Refusal 11 if the version is above 2; else 13 if `out` is too short. There is no offset, and `out` stays as it was.
    ///
    /// # Panics
    ///
    /// If the library returns a code that the proved contract of `gap_quarantine_write_resolve` rules out.
    pub fn write(&self, out: &mut [u8]) -> Result<usize, Refusal> {
        // SAFETY: the function reads and writes within the lengths that it is given, and `out` cannot overlap another slice.
        #[rustfmt::skip]
        let code = unsafe { gap_quarantine_write_resolve(
            self.version, self.hash.as_ptr(), self.hash.len(), self.resolution as u8,
            self.resolved_at, out.as_mut_ptr(), out.len(),
        ) };
        answer(code, RESOLVE)
    }
}

impl LegacyParkRecord {
    /// Writes the record to the front of `out`, and answers its length, [`LEGACY`]. What lies past it stays as it was.
    ///
    /// # Errors
    ///
    /// Refusal 13 if `out` is too short. There is no offset, and `out` stays as it was.
    ///
    /// # Panics
    ///
    /// If the library returns a code that the proved contract of `gap_quarantine_write_legacy` rules out.
    pub fn write(&self, out: &mut [u8]) -> Result<usize, Refusal> {
        let [frame_hash, top_hash] = [&self.frame_hash, &self.top_hash].map(optional);
        let [claimed, frame_nonce, top_nonce] = [self.claimed_nonce, self.frame_nonce, self.top_nonce].map(number);
        let [sender, from] = [&self.sender, &self.from].map(optional);
        let [expected, parked_at, chain_id, gas] =
            [self.expected_nonce, self.parked_at, self.chain_id, self.gas].map(number);
        let (kind, block, block_hash, by) = parts(self.tentative.as_ref());
        // SAFETY: the function reads and writes within the lengths that it is given, and `out` cannot overlap another slice.
        #[rustfmt::skip]
        let code = unsafe { gap_quarantine_write_legacy(
            frame_hash.as_ptr(), frame_hash.len(), top_hash.as_ptr(), top_hash.len(),
            claimed.0, claimed.1, frame_nonce.0, frame_nonce.1, top_nonce.0, top_nonce.1,
            sender.as_ptr(), sender.len(), from.as_ptr(), from.len(),
            expected.0, expected.1, parked_at.0, parked_at.1, chain_id.0, chain_id.1, gas.0, gas.1, self.rest.into(),
            kind, block, block_hash.as_ptr(), block_hash.len(), by.as_ptr(), by.len(),
            self.ticket, out.as_mut_ptr(), out.len(),
        ) };
        answer(code, LEGACY)
    }
}

impl OtherRecord {
    /// Writes the record to the front of `out`, and answers its length, [`OTHER`]. What lies past it stays as it was.
    ///
    /// # Errors
    ///
    /// Refusal 13 if `out` is too short. There is no offset, and `out` stays as it was.
    ///
    /// # Panics
    ///
    /// If the library returns a code that the proved contract of `gap_quarantine_write_other` rules out.
    pub fn write(&self, out: &mut [u8]) -> Result<usize, Refusal> {
        // SAFETY: the function writes within the length that it is given.
        let code = unsafe { gap_quarantine_write_other(self.ticket, out.as_mut_ptr(), out.len()) };
        answer(code, OTHER)
    }
}

/// A field that may be absent, as the writers take it: a slice, which is empty then.
fn optional<const N: usize>(field: &Option<[u8; N]>) -> &[u8] {
    field.as_ref().map_or(&[], |bytes| bytes)
}

/// A number that may be absent, as the writers take it: whether it is there, and the number.
fn number(field: Option<u64>) -> (u8, u64) {
    (field.is_some().into(), field.unwrap_or(0))
}

/// A tentative that may be absent, as the writers take it: kind, which is 0 then, block, block hash and by.
fn parts(tentative: Option<&TentativeRecord>) -> (u8, u64, &[u8], &[u8]) {
    tentative.map_or((0, 0, &[], &[]), |t| (t.kind as u8, t.block, &t.block_hash, optional(&t.by)))
}

/// What a writer's code says, of a record of this length.
fn answer(code: u64, length: usize) -> Result<usize, Refusal> {
    if code == 256 * length as u64 {
        return Ok(length);
    }
    Err(Refusal::of_write(code))
}
