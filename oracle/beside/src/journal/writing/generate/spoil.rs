//! Values with one field just outside its layout.
use super::Maker;
use crate::journal::writing::value::{EntryValue, LegacyValue, ParkValue, ResolveValue, TentativeValue, Value};

impl Maker {
    /// One field goes just outside its layout; a QX has none that could.
    pub(super) fn spoil(&mut self, value: &mut Value) {
        match value {
            Value::Park(p) => self.spoil_park(p),
            Value::Entry(t) => self.spoil_entry(t),
            Value::Resolve(x) => self.spoil_resolve(x),
            Value::Legacy(l) => self.spoil_legacy(l),
            Value::Other(_) => {}
        }
    }

    // ---- fields

    /// Above this limit, mostly just above.
    fn above(&mut self, limit: u8) -> u8 {
        match self.r.below(4) {
            0 => 255,
            1 => 128 + self.r.below(128) as u8,
            _ => limit + 1,
        }
    }

    /// A version above 2; its low byte may be below 3.
    fn late(&mut self) -> u32 {
        match self.r.below(6) {
            0 => 256,
            1 => 0x0200_0001,
            2 => u32::MAX,
            _ => 3,
        }
    }

    /// Bytes that are there, and not so many; the low byte of their number may be the width.
    pub(super) fn misfit(&mut self, width: usize) -> Vec<u8> {
        let length = match self.r.below(8) {
            0..=2 => width - 1,
            3..=5 => width + 1,
            6 => 1 + self.r.index(width - 1),
            _ => width + 256,
        };
        self.bytes(length)
    }

    /// Not so many bytes, or none.
    fn misfit_or_none(&mut self, width: usize) -> Vec<u8> {
        match self.r.below(4) {
            0 => Vec::new(),
            _ => self.misfit(width),
        }
    }

    /// A text that is too long; the low byte of its length may not be.
    fn long_text(&mut self) -> Vec<u8> {
        let length = match self.r.below(4) {
            0 => 256 + self.r.index(67),
            1 => 68 + self.r.index(188),
            _ => 67,
        };
        vec![32 + self.r.below(95) as u8; length]
    }

    /// One byte of a text is outside 32 to 126.
    fn spoil_text(&mut self, text: &mut Vec<u8>) {
        let byte = *self.r.pick(&[0, 31, 127, 255]);
        let place = match (self.r.below(3), text.len()) {
            (_, 0) => return text.push(byte),
            (0, _) => 0,
            (1, length) => length - 1,
            (_, length) => self.r.index(length),
        };
        text[place] = byte;
    }

    /// Kind, block hash or taker; the last two are looked at only beside another kind than 0.
    fn spoil_tentative(&mut self, t: &mut TentativeValue) {
        match self.r.below(3) {
            0 => t.kind = self.above(2),
            1 => (t.kind, t.hash) = (t.kind.max(1), self.misfit_or_none(32)),
            _ => (t.kind, t.by) = (t.kind.max(1), self.misfit(32)),
        }
    }

    // ---- values

    fn spoil_park(&mut self, p: &mut ParkValue) {
        match self.r.below(12) {
            0 => p.version = self.late(),
            1 => p.text = self.long_text(),
            2..=4 => self.spoil_text(&mut p.text),
            5 => p.from = self.misfit(20),
            6 => p.sender = self.misfit(20),
            7 => p.wire = self.above(1),
            8 => p.list = self.above(1),
            9 => p.fidelity = self.above(1),
            _ => self.spoil_tentative(&mut p.tentative),
        }
    }

    fn spoil_entry(&mut self, t: &mut EntryValue) {
        match self.r.below(5) {
            0 => t.version = self.late(),
            1 => t.hash = self.misfit_or_none(32),
            2 => t.consumed.kind = 0,
            _ => self.spoil_tentative(&mut t.consumed),
        }
    }

    fn spoil_resolve(&mut self, x: &mut ResolveValue) {
        match self.r.below(4) {
            0 => x.version = self.late(),
            1 => x.hash = self.misfit_or_none(32),
            2 => x.resolution = 0,
            _ => x.resolution = self.above(4),
        }
    }

    fn spoil_legacy(&mut self, l: &mut LegacyValue) {
        match self.r.below(14) {
            0 => l.frame_hash = self.misfit(32),
            1 => l.top_hash = self.misfit(32),
            2 => l.claimed.has = self.above(1),
            3 => l.frame_nonce.has = self.above(1),
            4 => l.top_nonce.has = self.above(1),
            5 => l.sender = self.misfit(20),
            6 => l.from = self.misfit(20),
            7 => l.expected.has = self.above(1),
            8 => l.parked_at.has = self.above(1),
            9 => l.chain_id.has = self.above(1),
            10 => l.gas.has = self.above(1),
            11 => l.rest = self.above(1),
            _ => self.spoil_tentative(&mut l.tentative),
        }
    }
}
