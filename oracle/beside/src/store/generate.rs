//! Random scripts aimed at the corners: few senders and hashes, nonces close together or near 2^64, heads at the claim,
//! guards that match or nearly match, revivals, hashes pushed twice and by two senders, calls at the limits and past them, polls
//! in both forms, and sweeps.
//! The script's maker plays its calls on the model, so that it can aim at what the store holds.
use super::answers::{Entry, State};
use super::calls::{Address, Call, Consumed, Content, Form, Frame, GuardCall, Hash, Side};
use super::model::Model;
use super::script::{read_script, write_call, Script};
use crate::random::Random;

mod limits;
mod sweeps;

struct Maker {
    r: Random,
    /// Whether there are sweeps among its calls.
    sweeps: bool,
    senders: Vec<Address>,
    hashes: Vec<Hash>,
    blocks: Vec<u64>,
    block_hashes: Vec<Hash>,
    contents: Vec<Hash>,
    base: u64,
    ticket: u64,
    model: Model,
    calls: Vec<Call>,
}

/// The script of a seed, with sweeps, and in which about one poll of three is short.
pub fn script(seed: u64) -> Script {
    with_short(seed, made(seed, true))
}

/// The script of a seed without sweeps.
pub fn unswept_script(seed: u64) -> Script {
    with_short(seed, long_script(seed))
}

/// The script of a seed without sweeps and with long polls only.
pub fn long_script(seed: u64) -> Script {
    made(seed, false)
}

/// About one poll of three becomes short. Which ones is drawn apart, and a poll does the same to the store in both forms, so the
/// script is otherwise as it was, and as well aimed.
fn with_short(seed: u64, mut script: Script) -> Script {
    let mut r = Random::new(seed ^ 0x5407);
    for call in &mut script.calls {
        if let Call::Poll { form, .. } = call {
            *form = if r.once_in(3) { Form::Short } else { Form::Long };
        }
    }
    if script.broken.starts_with(b"CQ") && r.once_in(3) {
        script.broken[1] = b'M';
    }
    script
}

/// The calls of a seed, with sweeps among them or without, in which all polls are long.
fn made(seed: u64, sweeps: bool) -> Script {
    let mut m = Maker::new(seed, sweeps);
    let length = 6 + m.r.index(60);
    if m.r.once_in(30) {
        m.fill_store();
    }
    if m.r.once_in(60) {
        m.fill_guards();
    }
    if m.calls.len() > 40 {
        m.two_causes();
    }
    while m.calls.len() < length {
        m.scene();
    }
    for _ in 0..m.r.index(4) {
        m.read();
    }
    m.make(Call::Dump);
    let broken = if m.r.once_in(40) { m.broken() } else { Vec::new() };
    Script { calls: m.calls, broken }
}

/// Hashes and addresses that differ in the first or in the last byte, so that an order of another kind shows.
fn near<const N: usize>(i: usize) -> [u8; N] {
    let mut bytes = [0x40; N];
    match i % 6 {
        0 => bytes[N - 1] = 0,
        1 => bytes[N - 1] = 0xff,
        2 => (bytes[0], bytes[N - 1]) = (0x3f, 0xff),
        3 => (bytes[0], bytes[N - 1]) = (0x80, 0),
        4 => bytes = [0; N],
        _ => bytes = [0xff; N],
    }
    bytes[N / 2] = (i / 6) as u8;
    bytes
}

fn some_of<const N: usize>(r: &mut Random, count: usize) -> Vec<[u8; N]> {
    let mut places: Vec<usize> = (0..9).collect();
    r.shuffle(&mut places);
    places[..count].iter().map(|i| near(*i)).collect()
}

/// The gap of a frame, as far as a push lets it in.
pub(super) fn gap(f: &Frame) -> Vec<u64> {
    (f.expected..f.claim).take(20).collect()
}

pub(super) fn predecessors(f: &Frame, head: u64) -> Vec<u64> {
    gap(f).into_iter().filter(|n| *n >= head).collect()
}

impl Maker {
    fn new(seed: u64, sweeps: bool) -> Self {
        let mut r = Random::new(seed);
        let senders = 1 + r.index(3);
        let hashes = 1 + r.index(4);
        let base = match r.below(4) {
            0 => u64::MAX - r.below(24),
            1 => 0,
            _ => r.below(12),
        };
        let first_block = if r.once_in(6) { u64::MAX - 2 } else { 100 };
        Maker {
            senders: some_of(&mut r, senders),
            hashes: some_of(&mut r, hashes),
            blocks: (0..3).map(|i| first_block + i).collect(),
            block_hashes: some_of(&mut r, 2),
            contents: some_of(&mut r, 2),
            base,
            ticket: 0,
            model: Model::default(),
            calls: Vec::new(),
            sweeps,
            r,
        }
    }

    fn make(&mut self, call: Call) {
        self.model.answer(&call);
        self.calls.push(call);
    }

    // ---- picks

    fn sender(&mut self) -> Address {
        *self.r.pick(&self.senders)
    }

    fn hash(&mut self) -> Hash {
        if self.r.once_in(20) {
            return near(8);
        }
        *self.r.pick(&self.hashes)
    }

    fn held(&mut self) -> Option<Entry> {
        if self.model.entries.is_empty() {
            return None;
        }
        Some(self.r.pick(&self.model.entries).clone())
    }

    fn held_of(&mut self, wanted: impl Fn(&Model, &Entry) -> bool) -> Option<Entry> {
        let fitting: Vec<Entry> = self.model.entries.iter().filter(|e| wanted(&self.model, e)).cloned().collect();
        if fitting.is_empty() {
            return None;
        }
        Some(self.r.pick(&fitting).clone())
    }

    fn block(&mut self) -> u64 {
        *self.r.pick(&self.blocks)
    }

    fn consumed(&mut self) -> Consumed {
        let kind = 1 + self.r.below(3) as u8;
        let taker = if kind == 3 { *self.r.pick(&self.contents) } else { [0; 32] };
        Consumed { kind, block: self.block(), block_hash: *self.r.pick(&self.block_hashes), taker }
    }

    // ---- pushes

    fn frame(&mut self) -> Frame {
        let expected = self.base.saturating_add(self.r.below(6));
        let claim = match self.r.below(12) {
            0 => expected.saturating_sub(1 + self.r.below(3)),
            1 => expected,
            2 => expected.saturating_add(16),
            3 => expected.saturating_add(15 + self.r.below(3)),
            4 => u64::MAX,
            _ => expected.saturating_add(1 + self.r.below(4)),
        };
        let (chain_id, gas) = match self.r.below(8) {
            0 | 1 => (0, 0),
            2 => (0, 21_000),
            3 => (1, 0),
            _ => (1, 21_000),
        };
        self.ticket += 1;
        let ticket = if self.r.once_in(9) { self.r.draw() } else { self.ticket };
        Frame { hash: self.hash(), from: self.sender(), expected, claim, chain_id, gas, ticket }
    }

    fn push(&mut self) {
        let mut f = self.frame();
        if self.r.once_in(4) {
            // another frame of a held hash, close by
            if let Some(e) = self.held() {
                f.hash = e.frame.hash;
                f.expected = e.frame.expected;
                f.claim = e.frame.claim.saturating_add(self.r.below(3)).saturating_sub(1);
            }
        }
        self.make(Call::Push(f));
    }

    fn fill_store(&mut self) {
        for _ in 0..60 + self.r.below(8) {
            let mut f = self.frame();
            f.claim = f.expected.saturating_add(self.r.below(3));
            self.make(Call::Push(f));
            if self.r.once_in(12) {
                self.enter();
            }
        }
        if self.r.once_in(2) {
            self.finality();
        }
        for _ in 0..6 {
            self.push();
        }
    }

    // ---- polls

    /// A head at, near or between the nonces of the frame.
    fn head(&mut self, f: &Frame) -> u64 {
        match self.r.below(8) {
            0 => f.claim,
            1 => f.claim.saturating_add(1),
            2 => f.expected,
            3 => f.expected.saturating_sub(1),
            4 => f.claim.saturating_sub(1),
            5 => 0,
            _ => f.expected.saturating_add(self.r.below(5)),
        }
    }

    /// The gap, or nearly, in any order and with strangers.
    fn known(&mut self, f: &Frame) -> Vec<u64> {
        let mut known = gap(f);
        match self.r.below(7) {
            0 => known.clear(),
            1 | 2 if !known.is_empty() => {
                let i = self.r.index(known.len());
                known.remove(i);
            }
            3 => known.push(f.claim),
            4 => known.push(self.r.draw()),
            _ => {}
        }
        if self.r.once_in(2) {
            self.r.shuffle(&mut known);
        }
        if self.r.once_in(40) {
            known.resize(255 + self.r.index(3), f.expected);
            self.r.shuffle(&mut known);
        }
        known
    }

    /// Pairs for these nonces, or nearly: one replaced, left out, or given twice with two hashes.
    fn content(&mut self, nonces: &[u64], hashes: &[Hash]) -> Content {
        let mut pairs: Vec<(u64, Hash)> = nonces.iter().copied().zip(hashes.iter().copied()).collect();
        let other = *self.r.pick(&self.contents);
        if pairs.is_empty() && !self.r.once_in(3) {
            pairs.push((self.base, other));
        }
        if !pairs.is_empty() {
            let i = self.r.index(pairs.len());
            match self.r.below(9) {
                0 => pairs[i].1 = other,
                1 => {
                    pairs.remove(i);
                }
                2 => pairs.insert(i, (pairs[i].0, other)),
                3 => pairs.insert(i + 1, (pairs[i].0, other)),
                4 => pairs.clear(),
                5 => pairs.reverse(),
                6 => pairs.insert(0, (self.r.draw(), other)),
                _ => {}
            }
        }
        if self.r.once_in(60) {
            pairs.resize(63 + self.r.index(3), (self.base, other));
        }
        let mut content = Content { nonces: Vec::new(), hashes: Vec::new() };
        for (n, h) in pairs {
            content.nonces.push(n);
            content.hashes.extend_from_slice(&h);
        }
        match self.r.below(80) {
            0 => content.hashes.push(7),
            1 => content.nonces.push(self.base),
            2 => {
                content.hashes.pop();
            }
            _ => {}
        }
        content
    }

    fn poll(&mut self) {
        let aimed =
            if self.r.once_in(3) { self.held_of(|m, e| m.degraded(&e.frame) && e.state == State::Tracked) } else { None };
        let f = match aimed.or_else(|| self.held()) {
            Some(e) => e.frame,
            None => self.frame(),
        };
        let sender = if self.r.once_in(10) { self.sender() } else { f.from };
        let head = self.head(&f);
        let known = self.known(&f);
        let content = if self.r.once_in(2) {
            None
        } else {
            let nonces = predecessors(&f, head);
            let hashes: Vec<Hash> = nonces.iter().map(|_| *self.r.pick(&self.contents)).collect();
            Some(self.content(&nonces, &hashes))
        };
        let call = Call::poll(sender, head, known, content);
        self.make(call.clone());
        if self.r.once_in(3) {
            self.make(call);
        }
    }

    // ---- guards

    /// A guard aimed at a tracked frame, something in between, and the poll that it should meet.
    fn guarded_poll(&mut self) {
        let wanted = |m: &Model, e: &Entry| e.state == State::Tracked && !m.degraded(&e.frame);
        let Some(entry) = self.held_of(wanted) else {
            return self.push();
        };
        let f = entry.frame;
        let head = match self.r.below(4) {
            0 => f.claim,
            1 => f.expected,
            _ => f.claim.saturating_sub(self.r.below(3)),
        };
        let preds = predecessors(&f, head);
        let hashes: Vec<Hash> = preds.iter().map(|_| *self.r.pick(&self.contents)).collect();
        self.guard_for(&f, head, &preds, &hashes);
        self.between(&f, head);
        if self.r.once_in(6) {
            self.make(Call::HasGuard(f.from));
        }
        let known = if self.r.once_in(5) { self.known(&f) } else { gap(&f) };
        let content = if self.r.once_in(8) { None } else { Some(self.content(&preds, &hashes)) };
        self.make(Call::poll(f.from, head, known, content));
    }

    /// A guard that matches the frame at this head with this content, or nearly.
    fn guard_for(&mut self, f: &Frame, head: u64, preds: &[u64], hashes: &[Hash]) {
        let mut listed = preds.to_vec();
        let mut contents = hashes.to_vec();
        if contents.is_empty() {
            contents.push(self.contents[0]);
        }
        let mut boundary = Some(f.expected);
        match self.r.below(12) {
            0 => boundary = Some(f.expected.wrapping_add(1)),
            1 => boundary = Some(head),
            2 => {
                listed.pop();
            }
            3 => listed.push(f.claim),
            4 => contents.clear(),
            5 => {
                contents.pop();
            }
            6 => contents.push(self.contents[0]),
            7 => listed.reverse(),
            _ => {}
        }
        if self.r.once_in(3) {
            boundary = None;
        }
        self.make(Call::Guard(GuardCall { hash: f.hash, boundary, predecessors: listed, content: contents.concat() }));
    }

    /// What may happen between a guard and the poll that it should meet.
    fn between(&mut self, f: &Frame, head: u64) {
        match self.r.below(14) {
            0 => self.guard_again(f.hash),
            1 => self.evict_and_push_again(f),
            2 => self.enter_and_revive(f),
            3 => self.make(Call::Enter {
                hash: near(7),
                consumed: Consumed { kind: 1, block: 100, block_hash: [1; 32], taker: [0; 32] },
            }),
            4 => self.poll_shorter_twin_first(f),
            5 => self.rescue_and_push_again(f, head),
            6 => self.finish_and_push_again(f),
            7 => self.fail_to_enter(f),
            8 => self.rescue_twin_of_another_sender(f),
            _ => {}
        }
    }

    /// Another guard of the same hash replaces the first.
    fn guard_again(&mut self, hash: Hash) {
        let boundary = if self.r.once_in(2) { None } else { Some(self.base) };
        let content = self.contents[0].to_vec();
        self.make(Call::Guard(GuardCall { hash, boundary, predecessors: vec![self.base], content }));
    }

    fn evict_and_push_again(&mut self, f: &Frame) {
        self.make(Call::Evict { sender: f.from });
        self.make(Call::Push(f.clone()));
    }

    fn enter_and_revive(&mut self, f: &Frame) {
        let consumed = self.consumed();
        self.make(Call::Enter { hash: f.hash, consumed });
        if self.r.once_in(2) {
            // the guard comes while the frame is tentative
            let predecessors = gap(f);
            let content = predecessors.iter().flat_map(|_| self.contents[0]).collect();
            let boundary = Some(f.expected);
            self.make(Call::Guard(GuardCall { hash: f.hash, boundary, predecessors, content }));
            self.make(Call::HasGuard(f.from));
        }
        self.make(Call::Reorg { block: consumed.block, hash: None });
    }

    /// A frame of the same hash and sender with an earlier claim stands before; its rescue drops the guard in the same poll.
    fn poll_shorter_twin_first(&mut self, f: &Frame) {
        let mut twin = f.clone();
        twin.claim = f.claim.saturating_sub(1);
        self.make(Call::Evict { sender: f.from });
        self.make(Call::Push(twin));
        self.make(Call::Push(f.clone()));
        let head = f.claim.saturating_sub(1);
        let preds = predecessors(f, head);
        let content: Vec<u8> = preds.iter().flat_map(|_| self.contents[0]).collect();
        self.make(Call::Guard(GuardCall {
            hash: f.hash,
            boundary: None,
            predecessors: preds.clone(),
            content: content.clone(),
        }));
        let content = Some(Content { nonces: preds, hashes: content });
        self.make(Call::poll(f.from, head, gap(f), content));
    }

    /// A rescue without content drops the guard; the same frame pushed again meets none.
    fn rescue_and_push_again(&mut self, f: &Frame, head: u64) {
        self.make(Call::poll(f.from, head, gap(f), None));
        self.make(Call::Push(f.clone()));
    }

    /// A twin of the frame is final; the guard of their hash goes with it.
    fn finish_and_push_again(&mut self, f: &Frame) {
        let consumed = self.consumed();
        self.make(Call::Enter { hash: f.hash, consumed });
        self.make(Call::Guard(GuardCall {
            hash: f.hash,
            boundary: None,
            predecessors: Vec::new(),
            content: self.contents[0].to_vec(),
        }));
        self.make(Call::Finality { block: consumed.block });
        self.make(Call::Push(f.clone()));
        let content = Some(Content { nonces: vec![self.base], hashes: self.contents[0].to_vec() });
        self.make(Call::poll(f.from, f.claim, Vec::new(), content));
    }

    /// Two enterings of one frame: the second says false and leaves a guard that came between.
    fn fail_to_enter(&mut self, f: &Frame) {
        let consumed = self.consumed();
        self.make(Call::Enter { hash: f.hash, consumed });
        self.guard_again(f.hash);
        self.make(Call::Enter { hash: f.hash, consumed });
        self.make(Call::HasGuard(f.from));
    }

    /// Another sender's frame of the same hash is rescued; the guard of their hash goes with it.
    fn rescue_twin_of_another_sender(&mut self, f: &Frame) {
        let mut twin = f.clone();
        twin.from = self.sender();
        self.ticket += 1;
        twin.ticket = self.ticket;
        self.make(Call::Push(twin.clone()));
        self.make(Call::poll(twin.from, f.claim, Vec::new(), None));
    }

    fn guard(&mut self) {
        let mut predecessors: Vec<u64> = (0..self.r.below(4)).map(|i| self.base.wrapping_add(i)).collect();
        let mut content: Vec<u8> = predecessors.iter().flat_map(|_| self.contents[0]).collect();
        match self.r.below(12) {
            0 => predecessors.resize(16 + self.r.index(2), self.base),
            1 => content.resize(512 + 32 * self.r.index(2), 5),
            2 => content.push(1),
            3 => content = vec![3; 31],
            _ => {}
        }
        let hash = self.hash();
        let boundary = if self.r.once_in(2) { None } else { Some(self.base) };
        self.make(Call::Guard(GuardCall { hash, boundary, predecessors, content }));
    }

    fn fill_guards(&mut self) {
        for i in 0..62 + self.r.below(6) {
            let mut hash = [0x20; 32];
            hash[0] = i as u8;
            self.make(Call::Guard(GuardCall { hash, boundary: None, predecessors: Vec::new(), content: Vec::new() }));
        }
        self.guard();
        if self.r.once_in(2) {
            // one guard goes with its frame, and another may come
            let mut f = self.frame();
            (f.hash, f.claim) = ([0x20; 32], f.expected);
            f.hash[0] = 3;
            self.make(Call::Push(f.clone()));
            self.make(Call::Evict { sender: f.from });
        }
        for place in [3, 3, 5, 90, 91] {
            let mut hash = [0x20; 32];
            hash[0] = place;
            self.make(Call::Guard(GuardCall { hash, boundary: Some(1), predecessors: vec![1], content: vec![9; 32] }));
        }
    }

    // ---- the others

    fn enter(&mut self) {
        let hash = match self.held() {
            Some(e) if !self.r.once_in(6) => e.frame.hash,
            _ => self.hash(),
        };
        let consumed = self.consumed();
        self.make(Call::Enter { hash, consumed });
    }

    fn reorg(&mut self) {
        let hash = if self.r.once_in(3) { None } else { Some(*self.r.pick(&self.block_hashes)) };
        let block = self.block();
        self.make(Call::Reorg { block, hash });
    }

    fn finality(&mut self) {
        let block = self.block();
        let block = if self.r.once_in(3) { block.saturating_sub(1) } else { block };
        self.make(Call::Finality { block });
    }

    /// A degraded frame is held, becomes tentative, comes back, and is polled at the same head or another.
    fn hold_through_revival(&mut self) {
        let wanted = |m: &Model, e: &Entry| e.state == State::Tracked && m.degraded(&e.frame);
        let Some(entry) = self.held_of(wanted) else {
            let mut f = self.frame();
            (f.chain_id, f.gas) = (0, 0);
            return self.make(Call::Push(f));
        };
        let f = entry.frame;
        let head = f.claim.saturating_sub(self.r.below(3));
        let poll = |head: u64, known: Vec<u64>| Call::poll(f.from, head, known, None);
        let known = self.known(&f);
        self.make(poll(head, known));
        if self.r.once_in(2) {
            self.make(poll(f.claim.saturating_add(1), Vec::new()));
        }
        if self.r.once_in(2) {
            let consumed = self.consumed();
            self.make(Call::Enter { hash: f.hash, consumed });
            if self.r.once_in(2) {
                self.make(Call::Reorg { block: consumed.block, hash: None });
            }
        }
        let head = if self.r.once_in(3) { head.saturating_sub(1) } else { head };
        let known = self.known(&f);
        self.make(poll(head, known));
    }

    fn read(&mut self) {
        let hash = self.hash();
        let sender = self.sender();
        let call = match self.r.below(9) {
            0 => Call::State(hash),
            1 => Call::Boundary(hash),
            2 => Call::Blocks,
            3 => Call::Len,
            4 => Call::Senders,
            5 => Call::TentativeCount,
            6 => {
                let f = match self.held() {
                    Some(e) => e.frame,
                    None => self.frame(),
                };
                let head = self.head(&f);
                let pending_count = match self.r.below(4) {
                    0 => f.claim,
                    1 => u64::MAX,
                    2 => f.expected.saturating_add(1),
                    _ => f.claim.saturating_sub(1),
                };
                Call::KnownGap { sender: f.from, head, pending_count }
            }
            7 => Call::HasGuard(sender),
            _ => Call::Dump,
        };
        self.make(call);
    }

    fn scene(&mut self) {
        if self.sweeps && self.r.once_in(6) {
            return self.sweep();
        }
        match self.r.below(20) {
            0..=4 => self.push(),
            5..=7 => self.poll(),
            8..=10 => self.guarded_poll(),
            11 | 12 => self.enter(),
            13 => self.reorg(),
            14 => self.finality(),
            15 if self.r.once_in(3) => {
                let sender = self.sender();
                self.make(Call::Evict { sender });
            }
            16 => self.guard(),
            17 => self.hold_through_revival(),
            18 if self.r.once_in(4) => self.at_a_limit(),
            _ => self.read(),
        }
    }

    /// Bytes that are no call: cut short, of an unknown mark, or with a bad byte.
    fn broken(&mut self) -> Vec<u8> {
        loop {
            let call = self.calls[self.r.index(self.calls.len())].clone();
            let mut bytes = Vec::new();
            write_call(&call, &mut bytes);
            match self.r.below(4) {
                0 => bytes.truncate(1 + self.r.index(bytes.len())),
                1 => bytes[1] = b'X',
                2 => bytes[0] = b'D',
                _ => {
                    let i = self.r.index(bytes.len());
                    bytes[i] = 4 + self.r.below(200) as u8;
                }
            }
            if read_script(&bytes).calls.is_empty() {
                return bytes;
            }
        }
    }
}
