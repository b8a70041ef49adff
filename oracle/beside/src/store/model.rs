//! Document 01's store in plain Rust, written from the document: one list of entries in walk order, one list of guards. With an
//! entry that was found by its hash it answers sender and place, written from request 2027-02; short rows are written from
//! request 2027-03, and sweeps from request 2027-05. A wrong rule may be planted in it.
use super::answers::{Answer, Dump, Entry, Guard, Row, State, Whose};
use super::calls::{Address, Call, Consumed, Content, Form, Frame, GuardCall, Hash, Side};
use super::refusals;
use super::wrong::Wrong;

mod short;
mod sweep;

#[derive(Clone, Default)]
pub struct Model {
    pub entries: Vec<Entry>,
    pub guards: Vec<Guard>,
    /// Every frame that was ever held, which a wrong rule counts.
    pushed: Vec<Frame>,
    /// Whether it takes any number of frames and of guards, as the Rust does.
    unlimited: bool,
    wrong: Option<Wrong>,
}

/// Where entries of one hash stand in the walk.
struct OfHash {
    first: Option<usize>,
    last: Option<usize>,
    first_tracked: Option<usize>,
    last_tracked: Option<usize>,
}

/// The inputs of a poll, whether it is one of a sweep, and for a wrong rule the guards as they stood when it began.
struct Poll<'a> {
    form: Form,
    swept: bool,
    head: u64,
    known: &'a [u64],
    content: Option<&'a Content>,
    start: Vec<Guard>,
}

/// What the rules say of one entry: the code of their decision, and the nonces that it lists.
struct Said {
    frame: Frame,
    code: u64,
    nonces: Vec<u64>,
}

fn said(f: &Frame, code: u64, nonces: &[u64]) -> Said {
    Said { frame: f.clone(), code, nonces: nonces.to_vec() }
}

/// Ticket, code, count, nonces and zeros.
fn row(said: &Said) -> Row {
    let nonces = &said.nonces;
    let mut row = [0; 19];
    (row[0], row[1], row[2]) = (said.frame.ticket, said.code, nonces.len() as u64);
    row[3..3 + nonces.len()].copy_from_slice(nonces);
    row
}

impl Model {
    pub fn with(wrong: Option<Wrong>) -> Self {
        Model { wrong, ..Model::default() }
    }

    /// Without the limits of 64 frames and 64 guards.
    pub fn unlimited() -> Self {
        Model { unlimited: true, ..Model::default() }
    }

    /// The store as it stands, which only wrong rules look back at.
    fn to_look_back_at(&self) -> Model {
        match self.wrong {
            Some(_) => self.clone(),
            None => Model::default(),
        }
    }

    /// The guards as they stand, which only a wrong rule looks back at.
    fn guards_to_look_back_at(&self) -> Vec<Guard> {
        match self.plants(Wrong::GuardsAsAtStart) {
            true => self.guards.clone(),
            false => Vec::new(),
        }
    }

    fn plants(&self, wrong: Wrong) -> bool {
        self.wrong == Some(wrong)
    }

    /// Whether a wrong rule for short polls is planted, and this is one.
    fn plants_in(&self, form: Form, wrong: Wrong) -> bool {
        form == Form::Short && self.plants(wrong)
    }

    /// Whether a wrong rule for short polls or for those of a sweep is planted, and this is such a one.
    fn plants_for(&self, poll: &Poll, short: Wrong, swept: Wrong) -> bool {
        self.plants_in(poll.form, short) || poll.swept && self.plants(swept)
    }

    // ---- a frame

    pub fn degraded(&self, f: &Frame) -> bool {
        if self.plants(Wrong::DegradedByEither) {
            return f.chain_id == 0 || f.gas == 0;
        }
        f.chain_id == 0 && f.gas == 0
    }

    /// Every n with expected <= n < claim; more than 16 only a wrong rule lets in.
    fn gap(&self, f: &Frame) -> Vec<u64> {
        if self.plants(Wrong::GapHasClaim) && f.expected <= f.claim {
            return (f.expected..=f.claim).take(16).collect();
        }
        (f.expected..f.claim).take(16).collect()
    }

    fn predecessors(&self, f: &Frame, head: u64) -> Vec<u64> {
        let mut list = self.gap(f);
        if !self.plants(Wrong::GapIgnoresHead) {
            list.retain(|n| *n >= head);
        }
        list
    }

    fn unknown(&self, f: &Frame, head: u64, known: &[u64]) -> Vec<u64> {
        let mut list = self.predecessors(f, head);
        if self.plants(Wrong::UnknownIgnoresHead) {
            list = self.gap(f);
        }
        let known = if self.plants(Wrong::KnownAtHeadOnly) { &known[..known.len().min(1)] } else { known };
        list.retain(|n| !known.contains(n));
        list
    }

    fn consumed(&self, f: &Frame, head: u64) -> bool {
        head > f.claim || self.plants(Wrong::ConsumedAtClaim) && head == f.claim
    }

    // ---- guards

    fn guard_of(guards: &[Guard], hash: Hash) -> Option<&Guard> {
        guards.iter().find(|g| g.hash == hash)
    }

    fn drop_guard(&mut self, hash: Hash) {
        self.guards.retain(|g| g.hash != hash);
    }

    fn content_matches(&self, guarded: &[Hash], predecessors: &[u64], poll: &Poll) -> bool {
        let Some(content) = poll.content else {
            return self.plants(Wrong::GuardNoContentMatches) || poll.swept && self.plants(Wrong::SweepGuardMatches);
        };
        if guarded.is_empty() || content.nonces.is_empty() {
            return self.plants(Wrong::GuardEmptyContentMatches);
        }
        if self.plants(Wrong::GuardContentsEqualLength) && guarded.len() != predecessors.len() {
            return false;
        }
        let current: Vec<(u64, &[u8])> = content.nonces.iter().copied().zip(content.hashes.chunks(32)).collect();
        predecessors.iter().zip(guarded).enumerate().all(|(i, (nonce, hash))| {
            if self.plants(Wrong::GuardSearchesAllPairs) {
                return current.iter().any(|(n, h)| n == nonce && h == hash);
            }
            if self.plants(Wrong::GuardPairsByPlace) {
                return current.get(i).is_some_and(|(_, h)| h == hash);
            }
            current.iter().find(|(n, _)| n == nonce).is_some_and(|(_, h)| h == hash)
        })
    }

    fn guard_matches(&self, g: &Guard, f: &Frame, poll: &Poll) -> bool {
        let predecessors = self.predecessors(f, poll.head);
        if self.plants(Wrong::GuardNotAtFrontier) && g.boundary.is_none() && predecessors.is_empty() {
            return false;
        }
        let boundary = match g.boundary {
            Some(_) if self.plants(Wrong::GuardIgnoresBoundary) => true,
            Some(boundary) if self.plants(Wrong::GuardBoundaryIsHead) => boundary == poll.head,
            Some(boundary) => boundary == f.expected,
            None => true,
        };
        let same = match self.wrong {
            Some(Wrong::GuardIgnoresPredecessors) => true,
            Some(Wrong::GuardPredecessorsPrefix) => predecessors.starts_with(&g.predecessors),
            _ => g.predecessors == predecessors,
        };
        same && boundary && self.content_matches(&g.content, &predecessors, poll)
    }

    fn guard(&mut self, call: &GuardCall) -> Answer {
        if let Some(number) = refusals::of_guard(self.wrong, call, if self.unlimited { &[] } else { &self.guards }) {
            if self.plants(Wrong::RefusedGuardDrops) {
                self.drop_guard(call.hash);
            }
            return Answer::Refused(number);
        }
        let guard = Guard {
            hash: call.hash,
            boundary: call.boundary,
            predecessors: call.predecessors.clone(),
            content: call.content.chunks_exact(32).map(|h| h.try_into().expect("32 bytes")).collect(),
        };
        match self.guards.iter().position(|g| g.hash == call.hash) {
            Some(_) if self.plants(Wrong::GuardFirstStays) => {}
            Some(i) => self.guards[i] = guard,
            None => self.guards.push(guard),
        }
        Answer::Done
    }

    // ---- poll

    fn poll(&mut self, form: Form, sender: Address, head: u64, known: &[u64], content: Option<&Content>) -> Answer {
        if let Some(number) = refusals::of_poll(self.wrong, form, known, content) {
            if self.plants(Wrong::RefusedPollHolds) || self.plants_in(form, Wrong::ShortRefusedHolds) {
                let holds = |e: &&mut Entry| e.frame.from == sender && e.state == State::Tracked && head <= e.frame.claim;
                self.entries.iter_mut().filter(holds).for_each(|e| e.held = Some(head));
            }
            return Answer::Refused(number);
        }
        let before = self.plants_in(form, Wrong::ShortStoreStays).then(|| self.clone());
        let poll = Poll { form, swept: false, head, known, content, start: self.guards_to_look_back_at() };
        let rows = self.poll_sender(sender, &poll);
        if let Some(before) = before {
            *self = before;
        }
        match form {
            Form::Long => Answer::Rows(rows.iter().map(row).collect()),
            Form::Short => Answer::Short(rows.iter().map(|said| self.short_row(said, &poll)).collect()),
        }
    }

    /// What the rules say of the sender's entries, of which some leave.
    fn poll_sender(&mut self, sender: Address, poll: &Poll) -> Vec<Said> {
        let mut rows = Vec::new();
        let mut place = 0;
        while let Some(next) = self.entries[place..].iter().position(|e| e.frame.from == sender) {
            place += next;
            let mut entry = self.entries[place].clone();
            if self.poll_entry(&mut entry, poll, &mut rows) {
                self.entries[place] = entry;
                place += 1;
            } else {
                self.entries.remove(place);
            }
        }
        rows
    }

    /// Rules 1 to 7 for one entry of the sender; whether it stays.
    fn poll_entry(&mut self, entry: &mut Entry, poll: &Poll, rows: &mut Vec<Said>) -> bool {
        let f = entry.frame.clone();
        // 1
        if entry.state != State::Tracked && !self.plants(Wrong::TentativeIsPolled) {
            return true;
        }
        let unknown = self.unknown(&f, poll.head, poll.known);
        let predecessors = self.predecessors(&f, poll.head);
        // 2
        if self.degraded(&f) && !(self.plants(Wrong::DegradedIsRescued) && unknown.is_empty()) {
            return self.poll_degraded(entry, poll, rows);
        }
        // 3
        if self.consumed(&f, poll.head) {
            rows.push(said(&f, 2, &[]));
            return !self.plants(Wrong::ConsumedLeaves);
        }
        // 4 is in `gap`, `predecessors` and `unknown`
        let guards = if self.plants(Wrong::GuardsAsAtStart) { &poll.start } else { &self.guards };
        let guard = Self::guard_of(guards, f.hash);
        let guarded = guard.is_some_and(|g| self.guard_matches(g, &f, poll));
        // 5
        if !(unknown.is_empty() || self.plants(Wrong::GuardBeforeUnknown) && guarded) {
            rows.push(said(&f, 3, &unknown));
            return true;
        }
        // 6
        if guarded {
            rows.push(said(&f, 3, if self.plants(Wrong::GuardRowEmpty) { &[] } else { &predecessors }));
            return true;
        }
        // 7
        rows.push(said(&f, 1, &predecessors));
        if !self.plants(Wrong::GuardStaysAtRescue) && !self.plants_for(poll, Wrong::ShortGuardStays, Wrong::SweepGuardStays)
        {
            self.drop_guard(f.hash);
        }
        self.plants_for(poll, Wrong::ShortRescueStays, Wrong::SweepRescueStays)
    }

    /// Rule 2.
    fn poll_degraded(&self, entry: &mut Entry, poll: &Poll, rows: &mut Vec<Said>) -> bool {
        let (f, head) = (entry.frame.clone(), poll.head);
        if self.consumed(&f, head) {
            rows.push(said(&f, 2, &[]));
            if self.plants(Wrong::HeldWhenConsumed) {
                entry.held = Some(head);
            }
            return !self.plants(Wrong::ConsumedLeaves);
        }
        let reported = match self.wrong {
            Some(Wrong::HeldOncePerAdvance) => entry.held.is_none_or(|held| held < head),
            Some(Wrong::HeldEachPoll) => true,
            _ => entry.held != Some(head),
        };
        if reported {
            if !self.plants_for(poll, Wrong::ShortHeldStays, Wrong::SweepHeldStays) {
                entry.held = Some(head);
            }
            rows.push(match self.wrong {
                Some(Wrong::HeldListsPredecessors) => said(&f, 3, &self.predecessors(&f, head)),
                _ => said(&f, 3, &self.unknown(&f, head, poll.known)),
            });
        }
        true
    }

    // ---- lookup by hash

    fn of_hash(&self, hash: Hash) -> OfHash {
        let all = |e: &Entry| e.frame.hash == hash;
        let tracked = |e: &Entry| all(e) && e.state == State::Tracked;
        OfHash {
            first: self.entries.iter().position(all),
            last: self.entries.iter().rposition(all),
            first_tracked: self.entries.iter().position(tracked),
            last_tracked: self.entries.iter().rposition(tracked),
        }
    }

    /// The sender of an entry, and how many of the sender's entries stand before it.
    fn whose_at(&self, index: usize) -> Whose {
        let f = &self.entries[index].frame;
        let of_sender = |e: &&Entry| e.frame.from == f.from;
        let before = self.entries[..index].iter().filter(of_sender);
        let place = match self.wrong {
            Some(Wrong::PlaceOfAll) => index,
            Some(Wrong::PlaceOfTracked) => before.filter(|e| e.state == State::Tracked).count(),
            Some(Wrong::PlaceOfHash) => before.filter(|e| e.frame.hash == f.hash).count(),
            Some(Wrong::PlaceOfPushed) => {
                self.pushed.iter().filter(|p| p.from == f.from).position(|p| p == f).expect("it was pushed")
            }
            Some(Wrong::PlaceFromOne) => before.count() + 1,
            Some(Wrong::PlaceFromEnd) => self.entries[index + 1..].iter().filter(of_sender).count(),
            _ => before.count(),
        };
        Whose { sender: f.from, place: place as u64 }
    }

    /// Whose the entry found is; a wrong rule tells it of another one of the hash.
    fn whose(&self, found: Option<usize>, others: [(Wrong, Option<usize>); 2]) -> Option<Whose> {
        let other = others.into_iter().find(|(wrong, _)| self.plants(*wrong)).and_then(|(_, other)| other);
        found.map(|index| self.whose_at(other.unwrap_or(index)))
    }

    // ---- the other calls that change the store

    fn push(&mut self, f: &Frame) -> Answer {
        let refusal = refusals::of_push(self.wrong, f, if self.unlimited { &[] } else { &self.entries });
        if refusal.is_none() || refusal == Some(1) && self.plants(Wrong::RefusedPushHeld) {
            let place = self.entries.iter().position(|e| e.frame.from > f.from).unwrap_or(self.entries.len());
            let place = if self.plants(Wrong::WalkInPushOrder) { self.entries.len() } else { place };
            self.entries.insert(place, Entry { frame: f.clone(), state: State::Tracked, held: None });
            self.pushed.push(f.clone());
        }
        let counts = |e: &&Entry| e.state == State::Tracked || !self.plants(Wrong::TotalOfTracked);
        refusal.map_or(Answer::Total(self.entries.iter().filter(counts).count() as u64), Answer::Refused)
    }

    fn enter(&mut self, hash: Hash, consumed: Consumed) -> Answer {
        let OfHash { first, first_tracked, last_tracked, .. } = self.of_hash(hash);
        let found = match self.wrong {
            Some(Wrong::EnterFirstOnly) => first.filter(|_| first == first_tracked),
            Some(Wrong::EnterLast) => last_tracked,
            _ => first_tracked,
        };
        let whose = self.whose(found, [(Wrong::EnterWhoseFirst, first), (Wrong::EnterWhoseLast, last_tracked)]);
        if found.is_some() && !self.plants(Wrong::GuardStaysAtEntering)
            || found.is_none() && self.plants(Wrong::GuardDroppedByFailedEntering)
        {
            self.drop_guard(hash);
        }
        let clears = self.plants(Wrong::HeldClearedByEntering);
        if let Some(i) = found {
            self.entries[i].state = State::Tentative(consumed);
            if clears {
                self.entries[i].held = None;
            }
        }
        Answer::Truth(found.is_some()).of(whose)
    }

    fn reorg(&mut self, block: u64, hash: Option<Hash>) -> Answer {
        let wrong = self.wrong;
        let mut revived = Vec::new();
        for entry in &mut self.entries {
            let State::Tentative(c) = entry.state else {
                continue;
            };
            let there = c.block == block || wrong == Some(Wrong::ReorgFromBlock) && c.block > block;
            let differs = match (wrong, hash) {
                (Some(Wrong::ReorgNeedsHash), None) => false,
                (Some(Wrong::ReorgEqualRevives), Some(h)) => h == c.block_hash,
                (_, Some(h)) => h != c.block_hash,
                (_, None) => true,
            };
            if there && differs {
                entry.state = State::Tracked;
                if wrong == Some(Wrong::HeldClearedByRevival) {
                    entry.held = None;
                }
                revived.push(entry.frame.clone());
            }
        }
        if !self.plants(Wrong::GuardStaysAtRevival) {
            revived.iter().for_each(|f| self.drop_guard(f.hash));
        }
        Answer::Tickets(revived.iter().map(|f| f.ticket).collect())
    }

    fn finality(&mut self, n: u64) -> Answer {
        let wrong = self.wrong;
        let ends = |e: &Entry| match e.state {
            State::Tentative(c) if wrong == Some(Wrong::FinalityBelow) => c.block < n,
            State::Tentative(c) => c.block <= n,
            State::Tracked => false,
        };
        let senders: Vec<Address> = self.entries.iter().filter(|e| ends(e)).map(|e| e.frame.from).collect();
        let leaves = |e: &Entry| {
            ends(e)
                || wrong == Some(Wrong::FinalityTakesTracked) && e.state == State::Tracked && senders.contains(&e.frame.from)
        };
        let dead: Vec<Entry> = self.entries.iter().filter(|e| leaves(e)).cloned().collect();
        self.entries.retain(|e| !leaves(e));
        if !self.plants(Wrong::GuardStaysAtFinality) {
            dead.iter().for_each(|e| self.drop_guard(e.frame.hash));
        }
        let listed = dead.iter().filter_map(|e| match e.state {
            State::Tentative(c) => Some((e.frame.ticket, c)),
            State::Tracked => None,
        });
        Answer::Dead(listed.collect())
    }

    fn evict(&mut self, sender: Address) -> Answer {
        let stays = self.plants(Wrong::EvictKeepsTentative);
        let leaves = |e: &Entry| e.frame.from == sender && !(stays && e.state != State::Tracked);
        let gone: Vec<Frame> = self.entries.iter().filter(|e| leaves(e)).map(|e| e.frame.clone()).collect();
        self.entries.retain(|e| !leaves(e));
        if !self.plants(Wrong::GuardStaysAtEviction) {
            gone.iter().for_each(|f| self.drop_guard(f.hash));
        }
        Answer::Tickets(gone.iter().map(|f| f.ticket).collect())
    }

    // ---- the calls that only read

    fn state(&self, hash: Hash) -> Answer {
        let OfHash { first, last, first_tracked, .. } = self.of_hash(hash);
        let found = if self.plants(Wrong::StateOfLast) { last } else { first };
        let whose = self.whose(found, [(Wrong::StateWhoseLast, last), (Wrong::StateWhoseTracked, first_tracked)]);
        Answer::State(found.map(|i| self.entries[i].state)).of(whose)
    }

    fn boundary(&self, hash: Hash) -> Answer {
        let OfHash { first, last, first_tracked, .. } = self.of_hash(hash);
        let found = if self.plants(Wrong::BoundaryOfTracked) { first_tracked } else { first };
        let whose = self.whose(found, [(Wrong::BoundaryWhoseLast, last), (Wrong::BoundaryWhoseTracked, first_tracked)]);
        Answer::Boundary(found.map(|i| self.entries[i].frame.expected)).of(whose)
    }

    fn blocks(&self) -> Vec<(u64, Hash)> {
        let mut list: Vec<(u64, Hash)> = Vec::new();
        for entry in &self.entries {
            if let State::Tentative(c) = entry.state {
                match list.iter_mut().find(|(n, _)| *n == c.block) {
                    Some(_) if self.plants(Wrong::BlocksFirstHash) => {}
                    Some(block) => block.1 = c.block_hash,
                    None => list.push((c.block, c.block_hash)),
                }
            }
        }
        list.sort_by_key(|(n, _)| *n);
        list
    }

    fn senders(&self) -> Vec<Address> {
        let mut list: Vec<Address> = self.entries.iter().map(|e| e.frame.from).collect();
        list.dedup();
        list
    }

    fn known_gap(&self, sender: Address, head: u64, pending_count: u64) -> Vec<u64> {
        let mut list = Vec::new();
        for entry in self.entries.iter().filter(|e| e.frame.from == sender) {
            let tracked = entry.state == State::Tracked || self.plants(Wrong::KnownGapOfTentative);
            let degraded = self.degraded(&entry.frame) && !self.plants(Wrong::KnownGapOfDegraded);
            if tracked && !degraded {
                let end = |n: u64| n < pending_count || self.plants(Wrong::KnownGapToCount) && n == pending_count;
                list.extend(self.gap(&entry.frame).into_iter().filter(|n| *n >= head && end(*n)));
            }
        }
        list.sort_unstable();
        if !self.plants(Wrong::KnownGapTwice) {
            list.dedup();
        }
        list
    }

    fn has_guard(&self, sender: Address) -> bool {
        let counts = |e: &Entry| e.state == State::Tracked || !self.plants(Wrong::HasGuardTracked);
        let of_sender = self.entries.iter().filter(|e| e.frame.from == sender && counts(e));
        of_sender.into_iter().any(|e| Self::guard_of(&self.guards, e.frame.hash).is_some())
    }

    fn dump(&self) -> Dump {
        let mut guards = self.guards.clone();
        guards.sort_by_key(|g| g.hash);
        Dump { entries: self.entries.clone(), guards }
    }
}

impl Side for Model {
    fn answer(&mut self, call: &Call) -> Answer {
        match call {
            Call::Push(f) => self.push(f),
            Call::Poll { form, sender, head, known, content } => self.poll(*form, *sender, *head, known, content.as_ref()),
            Call::Sweep(s) => self.sweep(s),
            Call::Guard(g) => self.guard(g),
            Call::Enter { hash, consumed } => self.enter(*hash, *consumed),
            Call::Reorg { block, hash } => self.reorg(*block, *hash),
            Call::Finality { block } => self.finality(*block),
            Call::Evict { sender } => self.evict(*sender),
            Call::State(hash) => self.state(*hash),
            Call::Boundary(hash) => self.boundary(*hash),
            Call::Blocks => Answer::Blocks(self.blocks()),
            Call::Len => Answer::Number(self.entries.len() as u64),
            Call::Senders => Answer::Senders(self.senders()),
            Call::TentativeCount => Answer::Number(self.entries.iter().filter(|e| e.state != State::Tracked).count() as u64),
            Call::KnownGap { sender, head, pending_count } => {
                Answer::Numbers(self.known_gap(*sender, *head, *pending_count))
            }
            Call::HasGuard(sender) => Answer::Truth(self.has_guard(*sender)),
            Call::Dump => Answer::Dump(self.dump()),
        }
    }
}
