//! The published store, unchanged, behind document 01's refusals and those of request 2027-05, which it does not have.
use super::answers::{Answer, Row, ShortRow, State};
use super::calls::{Call, Consumed, Content, Form, Frame, GuardCall, Hash, Side, Sweep};
use super::dump::dump;
use alloy::primitives::{Address, Bytes, B256, U256};
use published::gap_quarantine::{FrameState, NonceConsumed, ParkedFrame, Quarantine, QuarantineDecision};
use std::collections::BTreeSet;

#[derive(Default)]
pub struct Original {
    quarantine: Quarantine,
    /// Every hash that a guard was recorded for, so that guards are counted only where 64 may be held.
    guarded: BTreeSet<Hash>,
    /// Whether it takes any number of frames and of guards, as the Rust does.
    unlimited: bool,
}

/// The ticket rides in `received_unix_ms`.
pub fn parked(f: &Frame) -> ParkedFrame {
    ParkedFrame {
        hash: B256(f.hash),
        from: Address(f.from),
        to: None,
        value: U256::ZERO,
        data: Bytes::new(),
        gas: f.gas,
        max_fee_per_gas: 0,
        max_priority_fee_per_gas: 0,
        claimed_nonce: f.claim,
        expected_at_capture: f.expected,
        chain_id: f.chain_id,
        tx_type: 2,
        access_list: serde_json::Value::Null,
        received_unix_ms: f.ticket,
        raw_signed_tx: None,
    }
}

fn nonce_consumed(c: &Consumed) -> NonceConsumed {
    let block_hash = B256(c.block_hash);
    match c.kind {
        1 => NonceConsumed::MinedAt { block: c.block, block_hash },
        2 => NonceConsumed::SlotTakenAt { block: c.block, block_hash, by: None },
        _ => NonceConsumed::SlotTakenAt { block: c.block, block_hash, by: Some(B256(c.taker)) },
    }
}

fn consumed(c: NonceConsumed) -> Consumed {
    let (kind, taker) = match c {
        NonceConsumed::MinedAt { .. } => (1, [0; 32]),
        NonceConsumed::SlotTakenAt { by: None, .. } => (2, [0; 32]),
        NonceConsumed::SlotTakenAt { by: Some(taker), .. } => (3, taker.0),
    };
    Consumed { kind, block: c.block(), block_hash: c.block_hash().0, taker }
}

/// A decision's code, and the nonces that it lists.
fn listed(decision: &QuarantineDecision) -> (u64, &[u64]) {
    match decision {
        QuarantineDecision::Rescue { predecessors } => (1, predecessors),
        QuarantineDecision::NonceConsumed => (2, &[]),
        QuarantineDecision::StillWaiting { unknown } => (3, unknown),
    }
}

fn row(frame: &ParkedFrame, decision: &QuarantineDecision) -> Row {
    let (code, nonces) = listed(decision);
    let mut row = [0; 19];
    row[0] = frame.received_unix_ms;
    row[1] = code;
    row[2] = nonces.len() as u64;
    row[3..3 + nonces.len()].copy_from_slice(nonces);
    row
}

/// The Rust has no short rows: this is one made of its long one. The expected nonce is that of the frame which the Rust answers
/// with its decision; each nonce of the decision sets its bit, and the count is how many nonces there are.
fn short_row(frame: &ParkedFrame, decision: &QuarantineDecision) -> ShortRow {
    let (code, nonces) = listed(decision);
    let expected = frame.expected_at_capture;
    let mut mark = 0;
    for nonce in nonces {
        let place = nonce - expected;
        assert!(place < 16, "what the Rust lists lies in the gap");
        mark |= 1 << place;
    }
    [frame.received_unix_ms, code, expected, mark, nonces.len() as u64]
}

fn hashes(bytes: &[u8]) -> Vec<B256> {
    bytes.chunks(32).map(|h| B256(h.try_into().expect("whole hashes"))).collect()
}

fn tickets(frames: Vec<ParkedFrame>) -> Answer {
    Answer::Tickets(frames.iter().map(|f| f.received_unix_ms).collect())
}

impl Original {
    /// Without the limits of 64 frames and 64 guards.
    pub fn unlimited() -> Self {
        Original { unlimited: true, ..Original::default() }
    }

    pub fn is_empty(&self) -> bool {
        self.quarantine.is_empty()
    }

    fn push(&mut self, f: &Frame) -> Answer {
        if f.claim > f.expected && f.claim - f.expected > 16 {
            return Answer::Refused(1);
        }
        if !self.unlimited && self.quarantine.len() >= 64 {
            return Answer::Refused(2);
        }
        Answer::Total(self.quarantine.push(parked(f)) as u64)
    }

    fn poll(&mut self, form: Form, sender: Address, head: u64, known: &[u64], content: Option<&Content>) -> Answer {
        if known.len() > 256 {
            return Answer::Refused(3);
        }
        let rows = match content {
            None => self.quarantine.poll(sender, head, known),
            Some(c) if c.nonces.len() > 64 || c.hashes.len() != 32 * c.nonces.len() => return Answer::Refused(4),
            Some(c) => {
                let pairs: Vec<(u64, B256)> = c.nonces.iter().copied().zip(hashes(&c.hashes)).collect();
                self.quarantine.poll_with_content(sender, head, known, &pairs)
            }
        };
        match form {
            Form::Long => Answer::Rows(rows.iter().map(|(frame, decision)| row(frame, decision)).collect()),
            Form::Short => Answer::Short(rows.iter().map(|(frame, decision)| short_row(frame, decision)).collect()),
        }
    }

    /// The Rust has no sweep: this is one made of its polls, one after another, with their rows joined.
    fn sweep(&mut self, s: &Sweep) -> Answer {
        let senders = s.heads.len();
        if senders > 64 || s.senders.len() != 20 * senders || s.counts.len() != senders {
            return Answer::Refused(17);
        }
        if s.counts.iter().map(|count| u128::from(*count)).sum::<u128>() != s.nonces.len() as u128 {
            return Answer::Refused(18);
        }
        if s.counts.iter().any(|count| *count > 256) {
            return Answer::Refused(3);
        }
        let mut rows = Vec::new();
        let mut left = &s.nonces[..];
        for i in 0..senders {
            let sender = Address(s.senders[20 * i..20 * i + 20].try_into().expect("20 bytes"));
            let (known, rest) = left.split_at(s.counts[i] as usize);
            let polled = self.quarantine.poll(sender, s.heads[i], known);
            rows.extend(polled.iter().map(|(frame, decision)| row(frame, decision)));
            left = rest;
        }
        Answer::Rows(rows)
    }

    /// 64 guards are held, and none of this hash.
    fn guards_full(&self, hash: Hash) -> bool {
        if self.unlimited || self.guarded.len() < 64 {
            return false;
        }
        let guards = dump(&self.quarantine).guards;
        guards.len() >= 64 && guards.iter().all(|g| g.hash != hash)
    }

    fn guard(&mut self, g: &GuardCall) -> Answer {
        if g.predecessors.len() > 16 {
            return Answer::Refused(6);
        }
        if g.content.len() % 32 != 0 || g.content.len() > 32 * 16 {
            return Answer::Refused(7);
        }
        if self.guards_full(g.hash) {
            return Answer::Refused(8);
        }
        self.guarded.insert(g.hash);
        let content = hashes(&g.content);
        match g.boundary {
            Some(boundary) => {
                self.quarantine.record_repark_guard_with_content(B256(g.hash), &g.predecessors, &content, boundary);
            }
            None => self.quarantine.record_unhydratable_guard_with_content(B256(g.hash), &g.predecessors, &content),
        }
        Answer::Done
    }

    fn state(&self, hash: Hash) -> Option<State> {
        self.quarantine.state(B256(hash)).map(|state| match state {
            FrameState::Tracked => State::Tracked,
            FrameState::Tentative(c) => State::Tentative(consumed(c)),
        })
    }
}

impl Side for Original {
    fn answer(&mut self, call: &Call) -> Answer {
        match call {
            Call::Push(f) => self.push(f),
            Call::Poll { form, sender, head, known, content } => {
                self.poll(*form, Address(*sender), *head, known, content.as_ref())
            }
            Call::Sweep(s) => self.sweep(s),
            Call::Guard(g) => self.guard(g),
            Call::Enter { hash, consumed } => {
                Answer::Truth(self.quarantine.enter_tentative(B256(*hash), nonce_consumed(consumed)))
            }
            Call::Reorg { block, hash } => tickets(self.quarantine.check_reorg(*block, hash.map(B256))),
            Call::Finality { block } => {
                let dead = self.quarantine.check_finalized(*block);
                Answer::Dead(dead.iter().map(|(f, c)| (f.received_unix_ms, consumed(*c))).collect())
            }
            Call::Evict { sender } => tickets(self.quarantine.evict_sender(Address(*sender))),
            Call::State(hash) => Answer::State(self.state(*hash)),
            Call::Boundary(hash) => Answer::Boundary(self.quarantine.expected_boundary(B256(*hash))),
            Call::Blocks => Answer::Blocks(self.quarantine.tentative_blocks().iter().map(|(n, h)| (*n, h.0)).collect()),
            Call::Len => Answer::Number(self.quarantine.len() as u64),
            Call::Senders => Answer::Senders(self.quarantine.senders().iter().map(|a| a.0).collect()),
            Call::TentativeCount => Answer::Number(self.quarantine.tentative_count() as u64),
            Call::KnownGap { sender, head, pending_count } => {
                Answer::Numbers(self.quarantine.pool_known_gap(Address(*sender), *head, *pending_count))
            }
            Call::HasGuard(sender) => Answer::Truth(self.quarantine.has_guard_for_sender(Address(*sender))),
            Call::Dump => Answer::Dump(dump(&self.quarantine)),
        }
    }
}
