//! Which shard is sent which call: the rule that is tried, and what wrong rules make of it.
use super::wrong::Wrong;
use crate::random::Random;
use crate::store::calls::{Address, Call, Form, Hash, Sweep};
use crate::store::refusals;
use std::collections::{BTreeMap, BTreeSet};

/// A number of shards, and which of the ways to place senders on them.
#[derive(Clone, Copy, Debug)]
pub struct Shards {
    pub count: usize,
    pub way: u64,
}

impl Shards {
    /// The shard of these bytes. Any function of a sender does, as long as the sender stays.
    pub fn shard_of(&self, bytes: &[u8]) -> usize {
        let mixed = bytes.chunks(8).fold(self.way, |sum, chunk| {
            let number = chunk.iter().fold(0, |number, byte| number << 8 | u64::from(*byte));
            Random::new(sum ^ number).draw()
        });
        (mixed % self.count as u64) as usize
    }
}

/// A call that is made for one of the list: on which shard, and its place in that shard's script.
#[derive(Clone, Copy)]
pub struct Sent {
    pub shard: usize,
    pub place: usize,
}

/// A script for each shard, and for each call of the list what is made for it.
pub struct Plan {
    pub scripts: Vec<Vec<Call>>,
    pub sent: Vec<Vec<Sent>>,
}

impl Plan {
    fn send(&mut self, now: usize, shard: usize, call: Call) {
        let place = self.scripts[shard].len();
        self.sent[now].push(Sent { shard, place });
        self.scripts[shard].push(call);
    }
}

/// Why a sweep is refused, whatever the stores hold: it is sent to no shard.
pub fn refused(sweep: &Sweep) -> Option<u8> {
    refusals::of_sweep(None, sweep, 0, 0)
}

/// Whether a sweep lists each sender once; else it is sent as its polls.
pub fn lists_once(sweep: &Sweep, wrong: Option<Wrong>) -> bool {
    let senders: BTreeSet<&[u8]> = sweep.senders.chunks(20).collect();
    senders.len() == sweep.heads.len() || wrong == Some(Wrong::SweepTwiceAtOnce)
}

/// The calls that go to all shards and change them.
fn is_for_all(call: &Call) -> bool {
    matches!(call, Call::Reorg { .. } | Call::Finality { .. })
}

struct Router<'a> {
    shards: Shards,
    /// The sender that pushes a hash, anywhere in the list.
    owners: BTreeMap<Hash, Address>,
    wrong: Option<Wrong>,
    /// What wrong rules go by: the calls of the list, and how many of them come before the one that is sent.
    calls: &'a [Call],
    now: usize,
}

/// Splits a list of calls over shards.
pub fn plan(calls: &[Call], shards: Shards, wrong: Option<Wrong>) -> Plan {
    let pushed = calls.iter().filter_map(|call| match call {
        Call::Push(f) => Some((f.hash, f.from)),
        _ => None,
    });
    let mut router = Router { shards, owners: pushed.collect(), wrong, calls, now: 0 };
    let mut plan = Plan { scripts: vec![Vec::new(); shards.count], sent: vec![Vec::new(); calls.len()] };
    let last = shards.count - 1;
    let mut late: Option<(usize, Call)> = None;
    for (now, call) in calls.iter().enumerate() {
        router.now = now;
        let before = late.take();
        for (shard, part) in router.parts(call) {
            match wrong == Some(Wrong::LastIsLate) && is_for_all(call) && shard == last {
                true => late = Some((now, part)),
                false => plan.send(now, shard, part),
            }
        }
        before.into_iter().for_each(|(then, part)| plan.send(then, last, part));
    }
    late.into_iter().for_each(|(then, part)| plan.send(then, last, part));
    plan
}

impl Router<'_> {
    fn plants(&self, wrong: Wrong) -> bool {
        self.wrong == Some(wrong)
    }

    /// The calls that are made for one of the list, and on which shards.
    fn parts(&self, call: &Call) -> Vec<(usize, Call)> {
        if let Call::Sweep(sweep) = call {
            return self.sweep(sweep);
        }
        let shards = match self.one(call) {
            Some(shard) => shard..shard + 1,
            None => self.all(call),
        };
        shards.map(|shard| (shard, call.clone())).collect()
    }

    /// The shards of a call that is for all.
    fn all(&self, call: &Call) -> std::ops::Range<usize> {
        let all = self.shards.count;
        match (self.wrong, call) {
            (Some(Wrong::ReorgToOne), Call::Reorg { .. }) | (Some(Wrong::FinalityToOne), Call::Finality { .. }) => 0..1,
            (Some(Wrong::ReorgNotToLast), Call::Reorg { .. }) | (Some(Wrong::FinalityNotToLast), Call::Finality { .. }) => {
                0..all - 1
            }
            _ => 0..all,
        }
    }

    /// The shard of a call that is a sender's, or about a hash.
    fn one(&self, call: &Call) -> Option<usize> {
        match call {
            Call::Push(f) if self.plants(Wrong::PushByHash) => Some(self.shards.shard_of(&f.hash)),
            Call::Push(f) if self.plants(Wrong::PushTwoShards) => Some(self.or_next(f.from, self.now % 2 == 1)),
            Call::Push(f) => Some(self.of_sender(&f.from)),
            Call::Poll { form: Form::Long, sender, .. } => Some(self.unless(*sender, Wrong::PollOfNext)),
            Call::Poll { form: Form::Short, sender, .. } => Some(self.unless(*sender, Wrong::ShortPollOfNext)),
            Call::Evict { sender } => Some(self.unless(*sender, Wrong::EvictOfNext)),
            Call::KnownGap { sender, .. } => Some(self.unless(*sender, Wrong::KnownGapOfNext)),
            Call::HasGuard(sender) => Some(self.unless(*sender, Wrong::HasGuardOfNext)),
            Call::Guard(g) if self.plants(Wrong::GuardBeforePush) && !self.pushed_before(&g.hash) => {
                Some(self.shards.shard_of(&g.hash))
            }
            Call::Guard(g) => Some(self.of_hash(&g.hash, Wrong::GuardByHash)),
            Call::Enter { hash, .. } => Some(self.of_hash(hash, Wrong::EnterByHash)),
            Call::State(hash) => Some(self.of_hash(hash, Wrong::StateByHash)),
            Call::Boundary(hash) => Some(self.of_hash(hash, Wrong::BoundaryByHash)),
            _ => None,
        }
    }

    fn of_sender(&self, sender: &[u8]) -> usize {
        let later = self.now >= self.calls.len() / 2;
        let less = usize::from(self.plants(Wrong::Resharded) && later && self.shards.count > 1);
        Shards { count: self.shards.count - less, ..self.shards }.shard_of(sender)
    }

    /// The sender's shard, or the one behind it.
    fn or_next(&self, sender: Address, next: bool) -> usize {
        (self.of_sender(&sender) + usize::from(next)) % self.shards.count
    }

    /// The sender's shard, unless this wrong rule is planted.
    fn unless(&self, sender: Address, wrong: Wrong) -> usize {
        self.or_next(sender, self.plants(wrong))
    }

    /// The shard of the sender that pushes the hash. A hash that nobody pushes has a shard of its own.
    fn of_hash(&self, hash: &Hash, wrong: Wrong) -> usize {
        match self.owners.get(hash) {
            Some(sender) if !self.plants(wrong) => self.of_sender(sender),
            _ => self.shards.shard_of(hash),
        }
    }

    fn pushed_before(&self, hash: &Hash) -> bool {
        self.calls[..self.now].iter().any(|call| matches!(call, Call::Push(f) if f.hash == *hash))
    }

    /// A sweep that lists each sender once, as a sweep of its own for each shard that has one of them; another as its polls.
    fn sweep(&self, sweep: &Sweep) -> Vec<(usize, Call)> {
        if refused(sweep).is_some() {
            return Vec::new();
        }
        let senders = sweep.senders.chunks(20).map(|sender| self.of_sender(sender));
        if self.plants(Wrong::SweepToFirst) {
            return senders.take(1).map(|shard| (shard, Call::Sweep(sweep.clone()))).collect();
        }
        if !lists_once(sweep, self.wrong) {
            return senders.zip(sweep.polls()).collect();
        }
        let mut parts: BTreeMap<usize, Sweep> = BTreeMap::new();
        for (shard, poll) in senders.zip(sweep.polls()) {
            if let Call::Poll { sender, head, known, .. } = poll {
                let part = parts.entry(shard).or_default();
                let first = part.heads.first().copied().filter(|_| self.plants(Wrong::SweepHeadOfFirst));
                part.list(sender, first.unwrap_or(head), &known);
            }
        }
        parts.into_iter().map(|(shard, part)| (shard, Call::Sweep(part))).collect()
    }
}
