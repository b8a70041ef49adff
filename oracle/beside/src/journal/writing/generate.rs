//! Random values for the writers, with bytes that are all different: most inside their layout, some with a field or two just
//! outside it, and with left-overs beside what is absent. And the slices that they are written to.
use super::value::{EntryValue, LegacyValue, NumberValue, ParkValue, ResolveValue, TentativeValue, Value};
use crate::hex::hex;
use crate::journal::layout::size_of;
use crate::journal::outcome::ENOUGH;
use crate::random::Random;

mod spoil;

struct Maker {
    r: Random,
}

/// The value of a seed, and the slice that is lent for it.
pub fn given(seed: u64) -> (Value, Vec<u8>) {
    let mut m = Maker { r: Random::new(seed ^ 0x3217e) };
    let mut value = m.value();
    while m.r.once_in(5) {
        m.spoil(&mut value);
    }
    let size = size_of(value.mark()).expect("the five marks have sizes");
    let slice = m.slice(size);
    (value, slice)
}

impl Maker {
    fn bytes(&mut self, count: usize) -> Vec<u8> {
        (0..count).map(|_| self.r.draw() as u8).collect()
    }

    /// Random bytes, longer than a record of this size, exactly as long, a byte short, empty or much longer.
    fn slice(&mut self, size: usize) -> Vec<u8> {
        let length = match self.r.below(20) {
            0 | 1 => size,
            2 => size - 1,
            3 => 0,
            4 => self.r.index(size),
            5 => size + 1,
            6 => size + self.r.index(ENOUGH),
            _ => size + self.r.index(300),
        };
        self.bytes(length)
    }

    // ---- fields

    fn number(&mut self) -> u64 {
        match self.r.below(8) {
            0 => 0,
            1 => u64::MAX,
            2 => self.r.below(300),
            _ => self.r.draw(),
        }
    }

    fn version(&mut self) -> u32 {
        self.r.below(3) as u32
    }

    fn flag(&mut self) -> u8 {
        self.r.below(2) as u8
    }

    /// Now and then all zeros.
    fn field(&mut self, width: usize) -> Vec<u8> {
        match self.r.below(8) {
            0 => vec![0; width],
            _ => self.bytes(width),
        }
    }

    fn maybe(&mut self, width: usize) -> Vec<u8> {
        match self.r.below(3) {
            0 => Vec::new(),
            _ => self.field(width),
        }
    }

    fn maybe_number(&mut self) -> NumberValue {
        NumberValue { has: self.flag(), number: self.number() }
    }

    fn tentative(&mut self) -> TentativeValue {
        let kind = 1 + self.r.below(2) as u8;
        TentativeValue { kind, block: self.number(), hash: self.field(32), by: self.maybe(32) }
    }

    /// Present, absent, or absent with left-overs of any length.
    fn maybe_tentative(&mut self) -> TentativeValue {
        match self.r.below(4) {
            0 => TentativeValue { kind: 0, block: 0, hash: Vec::new(), by: Vec::new() },
            1 => TentativeValue { kind: 0, ..self.tentative() },
            2 => TentativeValue { kind: 0, block: self.number(), hash: self.misfit(32), by: self.misfit(32) },
            _ => self.tentative(),
        }
    }

    /// Up to 66 bytes from 32 to 126.
    fn text(&mut self) -> Vec<u8> {
        let length = match self.r.below(6) {
            0 => return format!("0x{}", hex(&self.bytes(32))).into_bytes(),
            1 => 66,
            2 => self.r.index(3),
            _ => self.r.index(67),
        };
        (0..length).map(|_| 32 + self.r.below(95) as u8).collect()
    }

    // ---- values

    fn park(&mut self) -> ParkValue {
        ParkValue {
            version: self.version(),
            text: self.text(),
            from: self.maybe(20),
            sender: self.maybe(20),
            chain_id: self.number(),
            gas: self.number(),
            wire: self.flag(),
            list: self.flag(),
            claimed: self.number(),
            expected: self.number(),
            parked_at: self.number(),
            fidelity: self.flag(),
            tentative: self.maybe_tentative(),
            ticket: self.number(),
        }
    }

    fn resolve(&mut self) -> ResolveValue {
        let resolution = 1 + self.r.below(4) as u8;
        ResolveValue { version: self.version(), hash: self.field(32), resolution, resolved_at: self.number() }
    }

    fn legacy(&mut self) -> LegacyValue {
        LegacyValue {
            frame_hash: self.maybe(32),
            top_hash: self.maybe(32),
            claimed: self.maybe_number(),
            frame_nonce: self.maybe_number(),
            top_nonce: self.maybe_number(),
            sender: self.maybe(20),
            from: self.maybe(20),
            expected: self.maybe_number(),
            parked_at: self.maybe_number(),
            chain_id: self.maybe_number(),
            gas: self.maybe_number(),
            rest: self.flag(),
            tentative: self.maybe_tentative(),
            ticket: self.number(),
        }
    }

    fn value(&mut self) -> Value {
        match self.r.below(10) {
            0..=2 => Value::Park(self.park()),
            3 | 4 => Value::Entry(EntryValue {
                version: self.version(),
                hash: self.field(32),
                consumed: self.tentative(),
                entered_at: self.number(),
            }),
            5 => Value::Resolve(self.resolve()),
            6..=8 => Value::Legacy(self.legacy()),
            _ => Value::Other(self.number()),
        }
    }
}
