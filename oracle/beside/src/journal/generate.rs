//! Random journals of all five marks: few hashes in many spellings, few addresses and the zero ones, keys that are prefixes
//! of each other, fields at their limits; then cut, damaged, or filled up to the limits of keys and length.
use super::layout::{read, Reading};
use super::outcome::{Room, ENOUGH, FRAME_SIZE, JOURNAL_LIMIT, TOTALS_SIZE};
use super::records::{Address, Hash, Legacy, Park, Record, Resolve, Tentative, TentativeEntry, PARK_SIZE};
use crate::hex::hex;
use crate::random::Random;

mod spoil;

pub use spoil::{spoiled, tagged};

struct Maker {
    r: Random,
    hashes: Vec<Hash>,
    addresses: Vec<Address>,
}

/// The journal of a seed.
pub fn journal(seed: u64) -> Vec<u8> {
    let mut m = Maker::new(seed);
    let mut records: Vec<Vec<u8>> = Vec::new();
    if m.r.once_in(150) {
        records = m.many_keys();
    } else if m.r.once_in(200) {
        records = m.sixty_fifth();
    } else if m.r.once_in(200) {
        return m.long();
    }
    let wanted = records.len() + m.r.index(22);
    while records.len() < wanted {
        records.push(m.record().bytes());
    }
    if m.r.once_in(5) {
        m.spoil_one(&mut records);
        return records.concat();
    }
    let mut bytes = records.concat();
    match m.r.below(12) {
        0 | 1 => {
            let length = m.r.index(bytes.len() + 1);
            bytes.truncate(length);
        }
        2 => m.damage(&mut bytes),
        3 => m.stray(&records, &mut bytes),
        4 => bytes.push(*m.r.pick(b"QP\n")),
        _ => {}
    }
    bytes
}

/// Lengths of the two slices lent to the fold of a journal with so many pending records: mostly enough, or exactly enough, or
/// a byte short.
pub fn room(pending: usize, seed: u64) -> Room {
    let mut r = Random::new(seed ^ 0x2004);
    let exact = pending * PARK_SIZE;
    let out = match r.below(8) {
        0 => exact,
        1 => exact.saturating_sub(1),
        2 => exact + 1,
        3 => ENOUGH + 7,
        _ => ENOUGH,
    };
    Room { out, totals: if r.once_in(20) { TOTALS_SIZE - 2 + r.index(5) } else { TOTALS_SIZE } }
}

/// Lengths of the slices lent to so many restores: mostly 92 bytes.
pub fn frames(count: usize, seed: u64) -> Vec<usize> {
    let mut r = Random::new(seed ^ 0x92);
    let mut one = || match r.below(80) {
        0 => r.index(FRAME_SIZE),
        1 => FRAME_SIZE - 1,
        2 => FRAME_SIZE + 1,
        _ => FRAME_SIZE,
    };
    (0..count).map(|_| one()).collect()
}

/// Some records of a seed, whole and sound.
pub fn records(seed: u64) -> Vec<Record> {
    let mut m = Maker::new(seed ^ 0x5eed);
    (0..20).map(|_| m.record()).collect()
}

/// One QP of any version, which may be damaged or of another length, for restore alone.
pub fn park_bytes(seed: u64) -> Vec<u8> {
    let mut m = Maker::new(seed ^ 0x9a4c);
    let mut park = m.park();
    if m.r.once_in(6) {
        park.version = m.r.draw() as u32;
    }
    let mut bytes = park.bytes();
    match m.r.below(16) {
        0 => m.damage(&mut bytes),
        1 => bytes.push(0),
        2 => {
            bytes.pop();
        }
        3 => bytes[1] = b'L',
        4 => m.spoil(&mut bytes),
        _ => {}
    }
    bytes
}

/// The parts of a journal: its whole records, and what follows them.
pub fn parts(journal: &[u8]) -> Vec<Vec<u8>> {
    let mut parts = Vec::new();
    let mut at = 0;
    while at < journal.len() {
        match read(&journal[at..]) {
            Reading::Whole(_, size) => {
                parts.push(journal[at..at + size].to_vec());
                at += size;
            }
            _ => {
                parts.push(journal[at..].to_vec());
                break;
            }
        }
    }
    parts
}

impl Maker {
    fn new(seed: u64) -> Self {
        let mut r = Random::new(seed);
        let mut hashes: Vec<Hash> = (0..1 + r.below(3)).map(|i| [0xab + i as u8; 32]).collect();
        if r.once_in(3) {
            hashes.push([0; 32]);
        }
        Maker { r, hashes, addresses: vec![[0x1a; 20], [0x2b; 20], [0; 20]] }
    }

    // ---- fields

    fn hash(&mut self) -> Hash {
        *self.r.pick(&self.hashes)
    }

    fn number(&mut self) -> u64 {
        match self.r.below(8) {
            0 => 0,
            1 => u64::MAX,
            2 => self.r.draw(),
            _ => 1 + self.r.below(9),
        }
    }

    fn maybe<T>(&mut self, absent: u64, value: impl FnOnce(&mut Self) -> T) -> Option<T> {
        if self.r.once_in(absent) {
            None
        } else {
            Some(value(self))
        }
    }

    fn address(&mut self) -> Address {
        let i = if self.r.once_in(6) { 2 } else { self.r.index(2) };
        self.addresses[i]
    }

    fn version(&mut self) -> u32 {
        if self.r.once_in(3) {
            self.r.below(3) as u32
        } else {
            2
        }
    }

    fn tentative(&mut self) -> Tentative {
        Tentative { kind: 1 + self.r.below(2) as u8, block: self.number(), hash: self.hash(), by: self.maybe(2, Self::hash) }
    }

    /// A hash's canonical text, another spelling that parses, or one that does not.
    fn text(&mut self) -> Vec<u8> {
        let digits = hex(&self.hash());
        let text = match self.r.below(16) {
            0 => digits,
            1 => format!("0x{}", digits.to_uppercase()),
            2 => digits.to_uppercase(),
            3 => format!("0X{digits}"),
            4 => {
                // one capital
                let mut text = format!("0x{digits}").into_bytes();
                let i = 2 + self.r.index(64);
                text[i] = text[i].to_ascii_uppercase();
                return text;
            }
            5 => {
                // cut, so that it is a prefix of another key
                let text = format!("0x{digits}");
                let length = self.r.index(66);
                text[..length].to_string()
            }
            6 => match self.r.below(6) {
                0 => "~".repeat(66),
                1 => " ".to_string(),
                2 => format!("0x0x{}", &digits[..62]),
                3 => format!("{digits}00"),
                4 => format!("0x{}g", &digits[..63]),
                _ => format!("\"\\{digits}"),
            },
            _ => format!("0x{digits}"),
        };
        text.into_bytes()
    }

    // ---- records

    fn park(&mut self) -> Park {
        let sound = !self.r.once_in(3);
        Park {
            version: self.version(),
            text: self.text(),
            from: if sound { Some(self.addresses[self.r.index(2)]) } else { self.maybe(3, Self::address) },
            sender: self.maybe(4, Self::address),
            chain_id: if sound { 1 } else { self.r.below(2) },
            gas: if sound { 21_000 } else { self.r.below(2) * 21_000 },
            wire: sound || !self.r.once_in(3),
            list: sound || !self.r.once_in(3),
            claimed: self.number(),
            expected: self.number(),
            parked_at: self.number(),
            degraded: self.r.once_in(5),
            tentative: if self.r.once_in(3) { Some(self.tentative()) } else { None },
            ticket: self.number(),
        }
    }

    fn legacy(&mut self) -> Legacy {
        let sound = self.r.once_in(2);
        let absent = if self.r.once_in(2) { 6 } else { 2 };
        Legacy {
            frame_hash: self.maybe(absent, Self::hash),
            top_hash: self.maybe(2, Self::hash),
            claimed: self.maybe(absent, Self::number),
            frame_nonce: self.maybe(absent, Self::number),
            top_nonce: self.maybe(2, Self::number),
            sender: self.maybe(2, Self::address),
            from: if sound { Some(self.addresses[self.r.index(2)]) } else { self.maybe(absent, Self::address) },
            expected: self.maybe(3, Self::number),
            parked_at: self.maybe(3, Self::number),
            chain_id: if sound { Some(1) } else { self.maybe(absent, |m| m.r.below(2)) },
            gas: if sound { Some(21_000) } else { self.maybe(absent, |m| m.r.below(2)) },
            rest: if sound { !self.r.once_in(5) } else { self.r.once_in(2) },
            tentative: if self.r.once_in(3) { Some(self.tentative()) } else { None },
            ticket: self.number(),
        }
    }

    fn resolve(&mut self) -> Record {
        let resolution = 1 + self.r.below(4) as u8;
        Record::Resolve(Resolve { version: self.version(), hash: self.hash(), resolution, resolved_at: self.number() })
    }

    fn record(&mut self) -> Record {
        match self.r.below(12) {
            0..=4 => Record::Park(self.park()),
            5 | 6 => Record::Tentative(TentativeEntry {
                version: self.version(),
                hash: self.hash(),
                consumed: self.tentative(),
                entered_at: self.number(),
            }),
            7 => self.resolve(),
            8..=10 => Record::Legacy(self.legacy()),
            _ => Record::Other(self.r.draw()),
        }
    }

    // ---- limits

    /// About 64 keys, some of them parked again or resolved.
    fn many_keys(&mut self) -> Vec<Vec<u8>> {
        let count = 60 + self.r.below(7);
        let mut records = Vec::new();
        for i in 0..count {
            let mut hash = [0x77; 32];
            hash[31] = i as u8;
            if self.r.once_in(9) {
                let mut l = self.legacy();
                (l.frame_hash, l.claimed) = (Some(hash), Some(i));
                records.push(Record::Legacy(l).bytes());
            } else {
                let mut p = self.park();
                p.text = format!("0x{}", hex(&hash)).into_bytes();
                records.push(p.bytes());
            }
            if self.r.once_in(12) {
                let version = self.version();
                records.push(Record::Resolve(Resolve { version, hash, resolution: 4, resolved_at: 0 }).bytes());
            }
            if self.r.once_in(12) {
                let again = records[self.r.index(records.len())].clone();
                records.push(again);
            }
        }
        records
    }

    /// As long as a journal may be, or a byte longer; something that is no record may stand in it.
    fn long(&mut self) -> Vec<u8> {
        let mut records: Vec<Vec<u8>> = Vec::new();
        while records.iter().map(Vec::len).sum::<usize>() <= JOURNAL_LIMIT {
            records.push(self.record().bytes());
        }
        let mut bytes = records.concat();
        if self.r.once_in(2) {
            self.stray(&records, &mut bytes);
        }
        bytes.truncate(JOURNAL_LIMIT + self.r.index(2));
        bytes
    }

    // ---- damage

    /// A byte changes.
    fn damage(&mut self, bytes: &mut [u8]) {
        if bytes.is_empty() {
            return;
        }
        let i = self.r.index(bytes.len());
        bytes[i] = match self.r.below(4) {
            0 => bytes[i].wrapping_add(1),
            1 => self.r.below(4) as u8,
            2 => 127,
            _ => self.r.draw() as u8,
        };
    }

    /// Something that is no record stands between two records.
    fn stray(&mut self, records: &[Vec<u8>], bytes: &mut Vec<u8>) {
        let before: usize = records[..self.r.index(records.len() + 1)].iter().map(Vec::len).sum();
        let stray: &[u8] = match self.r.below(6) {
            0 => b"QQ",
            5 => b"qP",
            1 => b"qp",
            2 => b"\n",
            3 => b"PQ",
            _ => b"Q",
        };
        bytes.splice(before..before, stray.iter().copied());
    }
}
