//! Calls at the limits of document 01's table, just past one of them, or past two at once; and what shows that a refused one
//! changed nothing.
use super::{gap, near, Maker};
use crate::store::calls::{Call, Content, Frame, GuardCall, Hash};

impl Maker {
    pub(super) fn at_a_limit(&mut self) {
        let f = match self.held() {
            Some(e) if !self.r.once_in(5) => e.frame,
            _ => self.frame(),
        };
        match self.r.below(5) {
            0 => self.wide_push(f),
            1 | 2 => self.wide_poll(&f),
            _ => {
                self.wide_guard(f.hash);
                self.make(Call::HasGuard(f.from));
            }
        }
    }

    /// A gap of 15 to 18.
    pub(super) fn wide_push(&mut self, mut f: Frame) {
        f.claim = f.expected.saturating_add(15 + self.r.below(4));
        self.make(Call::Push(f));
    }

    /// 256 or 257 known nonces, 64 or 65 pairs, hash bytes that are a byte or a hash too many or too few; then the same poll
    /// within the limits.
    fn wide_poll(&mut self, f: &Frame) {
        let head = f.claim.saturating_sub(self.r.below(3));
        let mut known = gap(f);
        if self.r.once_in(2) {
            known.resize(255 + self.r.index(3), f.claim);
        }
        let pairs = *self.r.pick(&[1, 2, 63, 64, 65]);
        let bytes = 32 * pairs as i64 + *self.r.pick(&[0, 0, 0, -32, -1, 1, 32]);
        let content = Content { nonces: vec![f.expected; pairs], hashes: vec![5; bytes as usize] };
        let content = if self.r.once_in(5) { None } else { Some(content) };
        self.make(Call::poll(f.from, head, known, content));
        if self.r.once_in(2) {
            self.make(Call::poll(f.from, head, Vec::new(), None));
        }
    }

    /// 16 or 17 predecessors, 16 or 17 hashes, or a part of one.
    pub(super) fn wide_guard(&mut self, hash: Hash) {
        let predecessors = vec![self.base; *self.r.pick(&[1, 15, 16, 17])];
        let content = vec![5; *self.r.pick(&[0, 32, 480, 512, 544, 31, 33, 511, 513])];
        let boundary = if self.r.once_in(2) { None } else { Some(self.base) };
        self.make(Call::Guard(GuardCall { hash, boundary, predecessors, content }));
    }

    /// The 62nd to 67th of something comes with calls that have a second cause to be refused.
    pub(super) fn two_causes(&mut self) {
        let f = self.frame();
        self.wide_push(f);
        for i in 60..64 {
            self.wide_guard(near(i));
        }
    }
}
