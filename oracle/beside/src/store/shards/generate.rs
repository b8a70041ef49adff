//! Random lists of calls that hold more frames than one store of ours has room for: many senders, most of them with few frames and
//! some with dozens. The list's maker plays its calls on the model, so that it can aim at what is held, and counts the frames of
//! each shard, so that none is full when a push comes.
use super::route::Shards;
use crate::random::Random;
use crate::store::answers::Answer;
use crate::store::calls::{Address, Call, Consumed, Content, Frame, GuardCall, Hash, Side, Sweep};
use crate::store::generate::{gap, predecessors};
use crate::store::model::Model;
use std::collections::{BTreeMap, BTreeSet};

mod aimed;

/// How many frames a store of ours has room for.
const ROOM: usize = 64;

/// So many guards for each shard are stood on purpose: chance then puts over 64 on one of them about once in 100,000 times.
const GUARDS: usize = 36;

/// A list of calls, and what the model answers, which has no limits of room.
pub struct List {
    pub calls: Vec<Call>,
    pub told: Vec<Answer>,
    /// The most frames that are held at once.
    pub most: usize,
}

impl List {
    /// These calls, played on the model.
    pub fn of(calls: &[Call]) -> Self {
        let mut model = Model::unlimited();
        let told = calls.iter().map(|call| model.answer(call)).collect();
        List { calls: calls.to_vec(), told, most: 0 }
    }
}

struct Maker {
    r: Random,
    shards: Shards,
    /// Whether frames are pushed to full shards too.
    careless: bool,
    /// Whether tickets are far apart and in no order.
    scattered: bool,
    /// The senders, the busy ones first, each with a nonce that its frames are near to.
    senders: Vec<(Address, u64)>,
    busy: usize,
    /// Whether frames are gathered, up to so many, or rather leave.
    growing: bool,
    target: usize,
    length: usize,
    /// The frames that each shard holds, and whose a ticket is.
    held: Vec<usize>,
    tickets: BTreeMap<u64, Address>,
    /// Frames whose guard has come, and polls that their guard should meet.
    planned: Vec<Frame>,
    later: Vec<Call>,
    fresh: u64,
    block: u64,
    model: Model,
    list: List,
}

/// A list for so many shards, and how their senders are placed.
pub fn list(seed: u64, shards: Shards) -> List {
    let mut m = Maker::new(seed, shards);
    while m.list.calls.len() < m.length {
        m.scene();
    }
    for call in [Call::Len, Call::Senders, Call::TentativeCount, Call::Blocks, Call::Dump] {
        m.make(call);
    }
    m.list
}

/// Bytes that differ from others of their kind in the middle and, perhaps, elsewhere.
fn bytes<const N: usize>(r: &mut Random, number: u64) -> [u8; N] {
    let mut bytes = [0x40; N];
    match r.below(4) {
        0 => bytes[0] = r.draw() as u8,
        1 => bytes[N - 1] = r.draw() as u8,
        _ => bytes.iter_mut().for_each(|byte| *byte = r.draw() as u8),
    }
    bytes[N / 2 - 4..N / 2].copy_from_slice(&(number as u32).to_be_bytes());
    bytes
}

impl Maker {
    fn new(seed: u64, shards: Shards) -> Self {
        let mut r = Random::new(seed ^ 0x54a2d);
        let base = |r: &mut Random| match r.below(8) {
            0 => u64::MAX - r.below(24),
            1 => 0,
            _ => r.below(1000),
        };
        let careless = r.once_in(10);
        let senders = shards.count * (3 + r.index(18)) + 2;
        let senders: Vec<(Address, u64)> = (0..senders as u64).map(|i| (bytes(&mut r, i), base(&mut r))).collect();
        Maker {
            careless,
            scattered: r.once_in(2),
            busy: 1 + shards.count / 2,
            senders,
            growing: true,
            target: shards.count * if careless { 80 } else { 16 + r.index(44) },
            length: shards.count * (90 + r.index(80)) + 40,
            held: vec![0; shards.count],
            tickets: BTreeMap::new(),
            planned: Vec::new(),
            later: Vec::new(),
            fresh: 0,
            block: 100,
            model: Model::unlimited(),
            list: List { calls: Vec::new(), told: Vec::new(), most: 0 },
            shards,
            r,
        }
    }

    fn make(&mut self, call: Call) {
        if let Call::Push(f) = &call {
            self.tickets.insert(f.ticket, f.from);
        }
        let answer = self.model.answer(&call);
        self.count(&call, &answer);
        self.list.calls.push(call);
        self.list.told.push(answer);
        let frames = self.model.entries.len();
        self.list.most = self.list.most.max(frames);
        self.growing = frames < if self.growing { self.target } else { self.target * 3 / 4 };
    }

    /// Counts the frames that came to a shard and left it.
    fn count(&mut self, call: &Call, answer: &Answer) {
        let left: Vec<u64> = match (call, answer) {
            (Call::Push(f), Answer::Total(_)) => {
                self.held[self.shards.shard_of(&f.from)] += 1;
                return;
            }
            (_, Answer::Rows(rows)) => rows.iter().filter(|row| row[1] == 1).map(|row| row[0]).collect(),
            (_, Answer::Short(rows)) => rows.iter().filter(|row| row[1] == 1).map(|row| row[0]).collect(),
            (Call::Evict { .. }, Answer::Tickets(list)) => list.clone(),
            (_, Answer::Dead(list)) => list.iter().map(|(ticket, _)| *ticket).collect(),
            _ => return,
        };
        left.iter().for_each(|ticket| self.held[self.shards.shard_of(&self.tickets[ticket])] -= 1);
    }

    // ---- picks

    fn sender(&mut self) -> (Address, u64) {
        let among = if self.r.once_in(5) { self.busy } else { self.senders.len() };
        self.senders[self.r.index(among)]
    }

    fn held(&mut self) -> Option<Frame> {
        if self.model.entries.is_empty() {
            return None;
        }
        Some(self.r.pick(&self.model.entries).frame.clone())
    }

    fn hash(&mut self) -> Hash {
        self.fresh += 1;
        bytes(&mut self.r, self.fresh)
    }

    /// A hash that nobody pushes.
    fn nobodys(&mut self) -> Hash {
        let mut hash = [0xee; 32];
        hash[3] = self.r.below(4) as u8;
        hash[31] = self.r.below(self.shards.count as u64) as u8;
        hash
    }

    /// A ticket that no other frame has.
    fn ticket(&mut self) -> u64 {
        self.fresh += 1;
        if self.scattered {
            return self.fresh.wrapping_mul(0x9e37_79b9_7f4a_7c15);
        }
        self.fresh
    }

    // ---- pushes

    fn frame(&mut self) -> Frame {
        let (from, base) = self.sender();
        let expected = base.saturating_add(self.r.below(6));
        let claim = match self.r.below(40) {
            0 => expected.saturating_add(17),
            1 | 2 => expected.saturating_add(16),
            3 => expected,
            4 => expected.saturating_sub(1),
            _ => expected.saturating_add(1 + self.r.below(4)),
        };
        let (chain_id, gas) = *self.r.pick(&[(0, 0), (0, 21_000), (1, 0), (1, 21_000), (1, 21_000), (1, 21_000)]);
        Frame { hash: self.hash(), from, expected, claim, chain_id, gas, ticket: self.ticket() }
    }

    /// A new frame, one whose guard has come before it, or another of the same sender and hash.
    fn push(&mut self) {
        let mut f = self.frame();
        let mut poll = None;
        match self.r.below(12) {
            0 => {
                if let Some(held) = self.held() {
                    let claim = held.claim.saturating_add(self.r.below(3)).saturating_sub(1);
                    f = Frame { claim, ticket: f.ticket, ..held };
                }
            }
            1..=3 if !self.planned.is_empty() => {
                let next = self.r.index(self.planned.len());
                f = self.planned.swap_remove(next);
                poll = Some(self.poll_to_meet(&f));
            }
            _ => {}
        }
        if self.held[self.shards.shard_of(&f.from)] >= ROOM && !self.careless {
            return self.poll();
        }
        self.make(Call::Push(f));
        self.later.extend(poll);
    }

    // ---- scenes

    /// Every so often a call for all shards comes, and another block.
    fn scene(&mut self) {
        if self.r.once_in((self.length as u64 / 200).max(8)) {
            return self.for_all();
        }
        if self.r.once_in((self.length as u64 / 24).max(8)) {
            self.block += 1;
        }
        match self.r.below(100) {
            0..=21 => self.push(),
            22..=60 if self.growing => self.push(),
            22..=46 => self.poll(),
            47..=60 => self.guarded_poll(),
            61..=65 => self.guard_first(),
            66..=77 => self.enter(),
            78..=80 => self.sweep(),
            81..=85 if !self.later.is_empty() => {
                let next = self.r.index(self.later.len());
                let call = self.later.swap_remove(next);
                self.make(call);
            }
            86 => {
                let sender = self.senders[self.r.index(self.senders.len())].0;
                self.make(Call::Evict { sender });
            }
            87 | 88 => self.unfit(),
            _ => self.read(),
        }
    }

    fn for_all(&mut self) {
        let block = self.block - self.r.below(4);
        let call = match self.r.below(32) {
            0..=11 => {
                let fork = self.r.below(2) as u8;
                let hash = if self.r.once_in(3) { None } else { Some(block_hash(block, fork)) };
                Call::Reorg { block, hash }
            }
            12..=19 => Call::Finality { block },
            20..=22 => Call::Len,
            23..=25 => Call::TentativeCount,
            26..=28 => Call::Senders,
            29 | 30 => Call::Blocks,
            _ => Call::Dump,
        };
        self.make(call);
    }

    fn read(&mut self) {
        let Some(f) = self.held() else {
            return self.push();
        };
        let hash = if self.r.once_in(8) { self.nobodys() } else { f.hash };
        let call = match self.r.below(4) {
            0 => Call::State(hash),
            1 => Call::Boundary(hash),
            2 => {
                let head = f.expected.saturating_add(self.r.below(3));
                let pending_count = f.claim.saturating_add(self.r.below(2));
                Call::KnownGap { sender: f.from, head, pending_count }
            }
            _ => Call::HasGuard(f.from),
        };
        self.make(call);
    }
}

/// The hash of a block, which has two.
fn block_hash(block: u64, fork: u8) -> Hash {
    let mut hash = [0xb0 + fork; 32];
    hash[8..16].copy_from_slice(&block.to_be_bytes());
    hash
}
