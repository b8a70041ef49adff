//! The calls of a list that are aimed at a frame: polls, guards, enterings and sweeps; and those that are refused for their inputs.
use super::*;

/// What content hashes there are.
const CONTENTS: [Hash; 2] = [[0xc0; 32], [0xc1; 32]];

impl Maker {
    /// A head at, near or between the nonces of the frame.
    fn head(&mut self, f: &Frame) -> u64 {
        match self.r.below(8) {
            0 | 1 => f.claim,
            2 => f.claim.saturating_add(1),
            3 | 4 => f.expected,
            5 => f.claim.saturating_sub(1),
            6 => f.expected.saturating_sub(1),
            _ => 0,
        }
    }

    /// The gap, or all of it but one.
    fn known(&mut self, f: &Frame) -> Vec<u64> {
        let mut known = gap(f);
        if !known.is_empty() && self.r.once_in(2) {
            let i = self.r.index(known.len());
            known.remove(i);
        }
        known
    }

    /// The poll, or one time in three the same with short rows.
    fn formed(&mut self, poll: Call) -> Call {
        match self.r.once_in(3) {
            true => poll.short(),
            false => poll,
        }
    }

    pub(super) fn poll(&mut self) {
        let Some(f) = self.held() else {
            return;
        };
        let (head, known) = (self.head(&f), self.known(&f));
        let sender = if self.r.once_in(20) { self.sender().0 } else { f.from };
        let poll = Call::poll(sender, head, known, None);
        let poll = self.formed(poll);
        self.make(poll);
    }

    // ---- guards

    fn has_room_for_guard(&self) -> bool {
        self.model.guards.len() < GUARDS * self.shards.count
    }

    /// Where a guard and a poll should meet: a head, the predecessors there, and their content.
    fn meeting(f: &Frame) -> (u64, Vec<u64>, Vec<u8>) {
        let head = f.claim.saturating_sub(2);
        let nonces = predecessors(f, head);
        let hashes = CONTENTS[0].repeat(nonces.len().max(1));
        (head, nonces, hashes)
    }

    /// A guard that matches the frame where they should meet, or nearly.
    fn guard_for(&mut self, f: &Frame) -> Call {
        let (_, mut predecessors, mut content) = Self::meeting(f);
        let mut boundary = Some(f.expected);
        match self.r.below(10) {
            0 => boundary = Some(f.expected.wrapping_add(1)),
            1 => drop(predecessors.pop()),
            2 => content[0] = 0xc1,
            3..=5 => boundary = None,
            _ => {}
        }
        Call::Guard(GuardCall { hash: f.hash, boundary, predecessors, content })
    }

    /// The poll that the guard should meet.
    pub(super) fn poll_to_meet(&mut self, f: &Frame) -> Call {
        let (head, mut nonces, hashes) = Self::meeting(f);
        if nonces.is_empty() {
            nonces.push(f.claim);
        }
        let poll = Call::poll(f.from, head, gap(f), Some(Content { nonces, hashes }));
        self.formed(poll)
    }

    /// A guard of a held frame, and the poll that it should meet, at once or later.
    pub(super) fn guarded_poll(&mut self) {
        let Some(f) = self.held().filter(|_| self.has_room_for_guard()) else {
            return self.poll();
        };
        let guard = self.guard_for(&f);
        self.make(guard);
        let poll = self.poll_to_meet(&f);
        match self.r.once_in(2) {
            true => self.make(poll),
            false => self.later.push(poll),
        }
    }

    /// A guard whose frame comes later, or never.
    pub(super) fn guard_first(&mut self) {
        if !self.has_room_for_guard() || self.planned.len() > 8 * self.shards.count {
            return self.push();
        }
        let mut f = self.frame();
        let never = self.r.once_in(4);
        if never {
            f.hash = self.nobodys();
        }
        let guard = self.guard_for(&f);
        self.make(guard);
        if !never {
            self.planned.push(f);
        }
    }

    // ---- enterings

    pub(super) fn enter(&mut self) {
        let planned = self.planned.last().map(|f| f.hash);
        let held = self.held().map(|f| f.hash);
        let hash = match (self.r.below(12), planned, held) {
            (0, Some(hash), _) => hash,
            (2.., _, Some(hash)) => hash,
            _ => self.nobodys(),
        };
        let kind = 1 + self.r.below(3) as u8;
        let block = self.block - self.r.below(3);
        let block_hash = block_hash(block, u8::from(self.r.once_in(4)));
        let taker = if kind == 3 { CONTENTS[1] } else { [0; 32] };
        self.make(Call::Enter { hash, consumed: Consumed { kind, block, block_hash, taker } });
    }

    // ---- sweeps

    /// A sweep of some senders, each once or one of them twice.
    pub(super) fn sweep(&mut self) {
        let mut sweep = Sweep::default();
        let mut listed = BTreeSet::new();
        for _ in 0..*self.r.pick(&[0, 1, 2, 2, 3, 5, 8, 8, 12, 30]) {
            let Some(f) = self.held() else {
                break;
            };
            let sender = if self.r.once_in(12) { self.sender().0 } else { f.from };
            let (head, known) = (self.head(&f), self.known(&f));
            if listed.insert(sender) || self.r.once_in(8) {
                sweep.list(sender, head, &known);
            }
        }
        match self.r.below(24) {
            0 => sweep.heads.push(5),
            1 => sweep.nonces.push(5),
            2 => (0..65).for_each(|_| sweep.list([1; 20], 5, &[])),
            3 if self.r.once_in(4) => sweep.list([1; 20], 5, &[5; 257]),
            _ => {}
        }
        self.make(Call::Sweep(sweep));
    }

    // ---- calls that are refused for their inputs

    /// 3, 4, 6 and 7; 1 comes with the frames.
    pub(super) fn unfit(&mut self) {
        let Some(f) = self.held() else {
            return self.push();
        };
        let guard = |predecessors: usize, content: usize| {
            let (predecessors, content) = (vec![f.expected; predecessors], vec![0xc0; content]);
            Call::Guard(GuardCall { hash: f.hash, boundary: None, predecessors, content })
        };
        let poll = |known: usize, nonces: usize, hashes: usize| {
            let content = Content { nonces: vec![f.expected; nonces], hashes: vec![0xc0; hashes] };
            Call::poll(f.from, f.claim, vec![f.expected; known], Some(content))
        };
        let call = match self.r.below(6) {
            0 if self.r.once_in(3) => poll(257, 0, 0),
            1 if self.r.once_in(3) => poll(0, 65, 65 * 32),
            2 => guard(17, 32),
            3 => guard(1, 33),
            4 => guard(1, 17 * 32),
            _ => poll(0, 1, 31),
        };
        let call = if matches!(call, Call::Poll { .. }) { self.formed(call) } else { call };
        self.make(call);
    }
}
