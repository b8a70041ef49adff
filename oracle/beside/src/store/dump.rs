//! The whole store of the Rust, read from its derived Debug text: its fields are private, and the file is not changed.
use super::answers::{Dump, Entry, Guard, State};
use super::calls::{Address, Consumed, Frame, Hash};
use published::gap_quarantine::Quarantine;

pub fn dump(quarantine: &Quarantine) -> Dump {
    let text = format!("{quarantine:?}");
    let mut reader = Reader(&text);
    reader.skip("Quarantine { pending: {");
    let mut entries = Vec::new();
    while !reader.skips("}, repark_guard: {") {
        reader.skips(", ");
        let from = reader.address();
        reader.skip(": [");
        while !reader.skips("]") {
            reader.skips(", ");
            let entry = reader.entry();
            assert_eq!(entry.frame.from, from, "an entry stands under its own sender");
            entries.push(entry);
        }
    }
    let mut guards = Vec::new();
    while !reader.skips("} }") {
        reader.skips(", ");
        guards.push(reader.guard());
    }
    assert!(reader.0.is_empty(), "nothing follows the guards");
    Dump { entries, guards }
}

struct Reader<'a>(&'a str);

impl<'a> Reader<'a> {
    fn skips(&mut self, word: &str) -> bool {
        match self.0.strip_prefix(word) {
            Some(rest) => {
                self.0 = rest;
                true
            }
            None => false,
        }
    }

    fn skip(&mut self, word: &str) {
        let shown: String = self.0.chars().take(60).collect();
        assert!(self.skips(word), "the Debug text has {shown:?} where {word:?} is due");
    }

    fn skip_past(&mut self, word: &str) {
        let at = self.0.find(word).unwrap_or_else(|| panic!("the Debug text has no {word:?}"));
        self.0 = &self.0[at + word.len()..];
    }

    fn number(&mut self) -> u64 {
        let end = self.0.find(|c: char| !c.is_ascii_digit()).unwrap_or(self.0.len());
        let (digits, rest) = self.0.split_at(end);
        self.0 = rest;
        digits.parse().expect("a number of 64 bits")
    }

    fn digits(&mut self, count: usize) -> Vec<u8> {
        let (digits, rest) = self.0.split_at(2 + count);
        self.0 = rest;
        alloy::hex::decode(digits).expect("hex digits")
    }

    fn hash(&mut self) -> Hash {
        self.digits(64).try_into().expect("32 bytes")
    }

    fn address(&mut self) -> Address {
        self.digits(40).try_into().expect("20 bytes")
    }

    fn entry(&mut self) -> Entry {
        self.skip("Entry { frame: ParkedFrame { hash: ");
        let hash = self.hash();
        self.skip(", from: ");
        let from = self.address();
        self.skip_past(", gas: ");
        let gas = self.number();
        self.skip_past(", claimed_nonce: ");
        let claim = self.number();
        self.skip(", expected_at_capture: ");
        let expected = self.number();
        self.skip(", chain_id: ");
        let chain_id = self.number();
        self.skip_past(", received_unix_ms: ");
        let ticket = self.number();
        self.skip_past("}, state: ");
        let state = self.state();
        self.skip(", last_hold_head: ");
        let held = match self.skips("None") {
            true => None,
            false => {
                self.skip("Some(");
                let head = self.number();
                self.skip(")");
                Some(head)
            }
        };
        self.skip(" }");
        Entry { frame: Frame { hash, from, expected, claim, chain_id, gas, ticket }, state, held }
    }

    fn state(&mut self) -> State {
        if self.skips("Tracked") {
            return State::Tracked;
        }
        let mined = self.skips("Tentative(MinedAt { block: ");
        if !mined {
            self.skip("Tentative(SlotTakenAt { block: ");
        }
        let block = self.number();
        self.skip(", block_hash: ");
        let block_hash = self.hash();
        let (kind, taker) = if mined {
            (1, [0; 32])
        } else if self.skips(", by: None") {
            (2, [0; 32])
        } else {
            self.skip(", by: Some(");
            let taker = self.hash();
            self.skip(")");
            (3, taker)
        };
        self.skip(" })");
        State::Tentative(Consumed { kind, block, block_hash, taker })
    }

    fn guard(&mut self) -> Guard {
        let hash = self.hash();
        self.skip(": ");
        let reparked = self.skips("Reparked { predecessors: [");
        if !reparked {
            self.skip("Unhydratable { predecessors: [");
        }
        let mut predecessors = Vec::new();
        while !self.skips("], content: [") {
            self.skips(", ");
            predecessors.push(self.number());
        }
        let mut content = Vec::new();
        while !self.skips("]") {
            self.skips(", ");
            content.push(self.hash());
        }
        let boundary = match reparked {
            false => None,
            true => {
                self.skip(", boundary: ");
                Some(self.number())
            }
        };
        self.skip(" }");
        Guard { hash, boundary, predecessors, content }
    }
}
