//! Random records, which every run draws alike.

use crate::records::{canonical, Layout};
use gap_quarantine_journal::{
    ConsumedKind, Fidelity, LegacyParkRecord, OtherRecord, ParkRecord, Refusal, Resolution, ResolveRecord,
    TentativeEntryRecord, TentativeRecord,
};

/// Any record of a journal.
pub enum Record<'a> {
    Park(ParkRecord<'a>),
    Enter(TentativeEntryRecord),
    Resolve(ResolveRecord),
    Legacy(LegacyParkRecord),
    Other(OtherRecord),
}

impl Record<'_> {
    pub fn write(&self, out: &mut [u8]) -> Result<usize, Refusal> {
        match self {
            Record::Park(record) => record.write(out),
            Record::Enter(record) => record.write(out),
            Record::Resolve(record) => record.write(out),
            Record::Legacy(record) => record.write(out),
            Record::Other(record) => record.write(out),
        }
    }
}

impl Layout for Record<'_> {
    fn bytes(&self) -> Vec<u8> {
        match self {
            Record::Park(record) => record.bytes(),
            Record::Enter(record) => record.bytes(),
            Record::Resolve(record) => record.bytes(),
            Record::Legacy(record) => record.bytes(),
            Record::Other(record) => record.bytes(),
        }
    }
}

/// What the records of one journal name: 32 hashes, and 64 texts, of which 32 are those of the hashes. So at most 64 keys
/// are pending.
pub struct Names {
    hashes: [[u8; 32]; 32],
    texts: Vec<Vec<u8>>,
}

/// A generator of Marsaglia's kind, xorshift on 64 bits.
pub struct Random(u64);

impl Random {
    pub fn new(seed: u64) -> Random {
        Random(seed.wrapping_mul(0x9e37_79b9_7f4a_7c15) | 1)
    }

    fn bits(&mut self) -> u64 {
        self.0 ^= self.0 << 13;
        self.0 ^= self.0 >> 7;
        self.0 ^= self.0 << 17;
        self.0
    }

    fn of<T: Copy>(&mut self, choices: &[T]) -> T {
        choices[(self.bits() % choices.len() as u64) as usize]
    }

    fn bytes<const N: usize>(&mut self) -> [u8; N] {
        std::array::from_fn(|_| self.bits() as u8)
    }

    fn text(&mut self) -> Vec<u8> {
        let length = self.bits() % 67;
        (0..length).map(|_| 32 + (self.bits() % 95) as u8).collect()
    }

    /// A number, often at an end of its range.
    fn number(&mut self) -> u64 {
        let any = self.bits();
        self.of(&[0, 1, any % 1000, any, u64::MAX])
    }

    fn version(&mut self) -> u32 {
        self.of(&[0, 1, 2])
    }

    fn flag(&mut self) -> bool {
        self.of(&[false, true])
    }

    fn perhaps<T>(&mut self, value: impl FnOnce(&mut Random) -> T) -> Option<T> {
        self.flag().then(|| value(self))
    }

    pub fn names(&mut self) -> Names {
        let hashes = std::array::from_fn(|_| self.bytes());
        let others = (0..32).map(|_| self.text());
        Names { hashes, texts: others.chain(hashes.map(canonical)).collect() }
    }

    fn consumed(&mut self) -> TentativeRecord {
        TentativeRecord {
            kind: self.of(&[ConsumedKind::Mined, ConsumedKind::SlotTaken]),
            block: self.number(),
            block_hash: self.bytes(),
            by: self.perhaps(Random::bytes),
        }
    }

    pub fn park<'a>(&mut self, names: &'a Names) -> ParkRecord<'a> {
        let text = (self.bits() % 64) as usize;
        ParkRecord {
            version: self.version(),
            text: &names.texts[text],
            from: self.perhaps(Random::bytes),
            sender: self.perhaps(Random::bytes),
            chain_id: self.number(),
            gas: self.number(),
            wire: self.flag(),
            list: self.flag(),
            claimed_nonce: self.number(),
            expected_nonce: self.number(),
            parked_at: self.number(),
            fidelity: self.of(&[Fidelity::Full, Fidelity::Degraded]),
            tentative: self.perhaps(Random::consumed),
            ticket: self.number(),
        }
    }

    pub fn enter(&mut self, names: &Names) -> TentativeEntryRecord {
        TentativeEntryRecord {
            version: self.version(),
            hash: self.of(&names.hashes),
            consumed: self.consumed(),
            entered_at: self.number(),
        }
    }

    pub fn resolve(&mut self, names: &Names) -> ResolveRecord {
        let resolutions =
            [Resolution::MinedFinalized, Resolution::SlotTakenFinalized, Resolution::RescueConsumed, Resolution::Evicted];
        ResolveRecord {
            version: self.version(),
            hash: self.of(&names.hashes),
            resolution: self.of(&resolutions),
            resolved_at: self.number(),
        }
    }

    fn legacy(&mut self, names: &Names) -> LegacyParkRecord {
        LegacyParkRecord {
            frame_hash: self.perhaps(|random| random.of(&names.hashes)),
            top_hash: self.perhaps(|random| random.of(&names.hashes)),
            claimed_nonce: self.perhaps(Random::number),
            frame_nonce: self.perhaps(Random::number),
            top_nonce: self.perhaps(Random::number),
            sender: self.perhaps(Random::bytes),
            from: self.perhaps(Random::bytes),
            expected_nonce: self.perhaps(Random::number),
            parked_at: self.perhaps(Random::number),
            chain_id: self.perhaps(Random::number),
            gas: self.perhaps(Random::number),
            rest: self.flag(),
            tentative: self.perhaps(Random::consumed),
            ticket: self.number(),
        }
    }

    pub fn record<'a>(&mut self, names: &'a Names) -> Record<'a> {
        match self.bits() % 5 {
            0 => Record::Park(self.park(names)),
            1 => Record::Enter(self.enter(names)),
            2 => Record::Resolve(self.resolve(names)),
            3 => Record::Legacy(self.legacy(names)),
            _ => Record::Other(OtherRecord { ticket: self.number() }),
        }
    }
}
