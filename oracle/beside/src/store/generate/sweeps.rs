//! Sweeps of a few senders, of whom one may stand there twice or have no entry; at the limits of request 2027-05, just past one of
//! them or past two; and what shows that a refused one changed nothing.
use super::{gap, near, predecessors, Maker};
use crate::store::answers::{Entry, State};
use crate::store::calls::{Call, Hash, Sweep};
use crate::store::model::Model;

/// How many ways there are to make the lists of a sweep disagree.
const WAYS: u64 = 13;

impl Maker {
    pub(super) fn sweep(&mut self) {
        match self.r.below(8) {
            0 => return self.guarded_sweep(),
            1 => return self.long_sweep(),
            _ => {}
        }
        let mut sweep = Sweep::default();
        for _ in 0..*self.r.pick(&[0, 1, 2, 2, 2, 3, 3, 4]) {
            self.list_sender(&mut sweep);
        }
        if self.r.once_in(3) {
            self.unfit_sweep(&sweep);
        }
        self.make(Call::Sweep(sweep.clone()));
        if self.r.once_in(4) {
            self.make(Call::Sweep(sweep));
        }
    }

    /// A sender, whose head and nonces are aimed at one of its frames.
    fn list_sender(&mut self, sweep: &mut Sweep) {
        let wanted = |m: &Model, e: &Entry| m.degraded(&e.frame) && e.state == State::Tracked;
        let aimed = if self.r.once_in(3) { self.held_of(wanted) } else { None };
        let f = match aimed.or_else(|| self.held()) {
            Some(e) => e.frame,
            None => self.frame(),
        };
        let sender = match self.r.below(10) {
            0 => near(20),
            1 => self.sender(),
            _ => f.from,
        };
        let head = self.head(&f);
        let known = self.known(&f);
        sweep.list(sender, head, &known);
        if self.r.once_in(6) {
            // at once again, at the same head or another
            let head = if self.r.once_in(2) { head } else { self.head(&f) };
            sweep.list(sender, head, &known);
        }
    }

    /// A guard that a poll without content does not look at, and the sweep that it should meet.
    fn guarded_sweep(&mut self) {
        let wanted = |m: &Model, e: &Entry| e.state == State::Tracked && !m.degraded(&e.frame);
        let Some(entry) = self.held_of(wanted) else {
            return self.push();
        };
        let f = entry.frame;
        let head = f.claim.saturating_sub(self.r.below(3));
        let preds = predecessors(&f, head);
        let hashes: Vec<Hash> = preds.iter().map(|_| *self.r.pick(&self.contents)).collect();
        self.guard_for(&f, head, &preds, &hashes);
        let mut sweep = Sweep::default();
        if self.r.once_in(2) {
            self.list_sender(&mut sweep);
        }
        sweep.list(f.from, head, &gap(&f));
        self.make(Call::Sweep(sweep));
        // a guard that went with the rescue does not meet the frame that comes again
        self.make(Call::Push(f.clone()));
        self.make(Call::HasGuard(f.from));
    }

    /// 63 to 66 senders, or 255 to 258 nonces for one of a few.
    fn long_sweep(&mut self) {
        let mut sweep = Sweep::default();
        if self.r.once_in(2) {
            let senders = 63 + self.r.index(4);
            while sweep.heads.len() < senders {
                match self.r.once_in(20) {
                    true => self.list_sender(&mut sweep),
                    false => sweep.list(near(20 + sweep.heads.len()), self.base, &[]),
                }
            }
        } else {
            let f = self.held().map_or_else(|| self.frame(), |e| e.frame);
            let mut known = vec![f.claim; 255 + self.r.index(4)];
            let first = known.len() - gap(&f).len();
            known[first..].copy_from_slice(&gap(&f));
            self.list_sender(&mut sweep);
            let head = self.head(&f);
            sweep.list(f.from, head, &known);
            self.list_sender(&mut sweep);
        }
        if self.r.once_in(3) {
            self.unfit_sweep(&sweep);
        }
        self.make(Call::Sweep(sweep));
    }

    /// The sweep with lists that do not agree, in one way or in two.
    fn unfit_sweep(&mut self, sweep: &Sweep) {
        let mut unfit = sweep.clone();
        for _ in 0..1 + self.r.index(2) {
            self.spoil(&mut unfit);
        }
        self.make(Call::Sweep(unfit));
    }

    fn spoil(&mut self, s: &mut Sweep) {
        let last = s.counts.len().saturating_sub(1);
        match self.r.below(WAYS) {
            0 => s.senders.push(7),
            1 => drop(s.senders.pop()),
            2 => s.senders.extend_from_slice(&near::<20>(0)),
            3 => s.senders.truncate(s.senders.len().saturating_sub(20)),
            4 => s.heads.push(self.base),
            5 => {
                s.heads.push(self.base);
                s.senders.extend_from_slice(&self.senders[0]);
            }
            6 => drop(s.heads.pop()),
            7 => s.counts.push(0),
            8 => drop(s.counts.pop()),
            9 => s.nonces.push(self.base),
            10 => drop(s.nonces.pop()),
            11 if last > 0 => {
                // the sum is the same but for 2^64
                let more = s.counts[0].wrapping_add(1 + self.r.below(3));
                s.counts[0] = s.counts[0].wrapping_sub(more);
                s.counts[last] = s.counts[last].wrapping_add(more);
            }
            _ => s.counts.iter_mut().take(1).for_each(|count| *count = count.wrapping_add(1 << 32)),
        }
    }
}
