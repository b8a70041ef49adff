//! The store's calls, in the form that scripts carry them.

pub type Hash = [u8; 32];
pub type Address = [u8; 20];

#[derive(Clone, Debug, PartialEq, Eq)]
pub struct Frame {
    pub hash: Hash,
    pub from: Address,
    pub expected: u64,
    pub claim: u64,
    pub chain_id: u64,
    pub gas: u64,
    pub ticket: u64,
}

/// What consumed a nonce: kind 1 mined, 2 taken, 3 taken by a known hash; the taker is zeros unless the kind is 3.
#[derive(Clone, Copy, Debug, PartialEq, Eq)]
pub struct Consumed {
    pub kind: u8,
    pub block: u64,
    pub block_hash: Hash,
    pub taker: Hash,
}

/// The content given to a poll, as lent: nonces, and hash bytes that need not be 32 for each.
#[derive(Clone, Debug, PartialEq, Eq)]
pub struct Content {
    pub nonces: Vec<u64>,
    pub hashes: Vec<u8>,
}

/// Kind 1 Reparked has a boundary, kind 2 Unhydratable none.
#[derive(Clone, Debug, PartialEq, Eq)]
pub struct GuardCall {
    pub hash: Hash,
    pub boundary: Option<u64>,
    pub predecessors: Vec<u64>,
    pub content: Vec<u8>,
}

/// The lists of a sweep, as lent: the sender bytes need not be 20 for each head, nor the counts sum to the number of nonces.
#[derive(Clone, Debug, Default, PartialEq, Eq)]
pub struct Sweep {
    pub senders: Vec<u8>,
    pub heads: Vec<u64>,
    pub counts: Vec<u64>,
    pub nonces: Vec<u64>,
}

impl Sweep {
    /// One more sender, with its head and its nonces.
    pub fn list(&mut self, sender: Address, head: u64, nonces: &[u64]) {
        self.senders.extend_from_slice(&sender);
        self.heads.push(head);
        self.counts.push(nonces.len() as u64);
        self.nonces.extend_from_slice(nonces);
    }

    /// The polls that a sweep is read as, which is not refused.
    pub fn polls(&self) -> Vec<Call> {
        let mut nonces = self.nonces.iter().copied();
        let each = self.senders.chunks_exact(20).zip(&self.heads).zip(&self.counts);
        let poll = |((sender, head), count): ((&[u8], &u64), &u64)| {
            let known = nonces.by_ref().take(*count as usize).collect();
            Call::poll(sender.try_into().expect("20 bytes"), *head, known, None)
        };
        each.map(poll).collect()
    }
}

/// How a poll writes its rows: as 19 numbers, or as five.
#[derive(Clone, Copy, Debug, PartialEq, Eq)]
pub enum Form {
    Long,
    Short,
}

#[derive(Clone, Debug, PartialEq, Eq)]
pub enum Call {
    Push(Frame),
    Poll { form: Form, sender: Address, head: u64, known: Vec<u64>, content: Option<Content> },
    Sweep(Sweep),
    Guard(GuardCall),
    Enter { hash: Hash, consumed: Consumed },
    Reorg { block: u64, hash: Option<Hash> },
    Finality { block: u64 },
    Evict { sender: Address },
    State(Hash),
    Boundary(Hash),
    Blocks,
    Len,
    Senders,
    TentativeCount,
    KnownGap { sender: Address, head: u64, pending_count: u64 },
    HasGuard(Address),
    Dump,
}

impl Call {
    /// A sweep of these senders, each with its head and its nonces.
    pub fn sweep(senders: &[(Address, u64, &[u64])]) -> Call {
        let mut sweep = Sweep::default();
        senders.iter().for_each(|(sender, head, nonces)| sweep.list(*sender, *head, nonces));
        Call::Sweep(sweep)
    }

    /// A poll with long rows.
    pub fn poll(sender: Address, head: u64, known: Vec<u64>, content: Option<Content>) -> Call {
        Call::Poll { form: Form::Long, sender, head, known, content }
    }

    /// The same poll with short rows.
    pub fn short(mut self) -> Call {
        match &mut self {
            Call::Poll { form, .. } => *form = Form::Short,
            other => panic!("{} has no rows", other.mark()),
        }
        self
    }

    pub fn mark(&self) -> &'static str {
        match self {
            Call::Push(_) => "CP",
            Call::Poll { form: Form::Long, .. } => "CQ",
            Call::Poll { form: Form::Short, .. } => "CM",
            Call::Sweep(_) => "CW",
            Call::Guard(_) => "CG",
            Call::Enter { .. } => "CE",
            Call::Reorg { .. } => "CR",
            Call::Finality { .. } => "CF",
            Call::Evict { .. } => "CV",
            Call::State(_) => "CS",
            Call::Boundary(_) => "CB",
            Call::Blocks => "CT",
            Call::Len => "CL",
            Call::Senders => "CN",
            Call::TentativeCount => "CC",
            Call::KnownGap { .. } => "CK",
            Call::HasGuard(_) => "CH",
            Call::Dump => "CD",
        }
    }

    /// The calls that a trace may have.
    pub fn is_traced(&self) -> bool {
        TRACE_MARKS.iter().any(|mark| mark[..] == *self.mark().as_bytes())
    }

    /// The calls that may change the store.
    pub fn changes(&self) -> bool {
        matches!(
            self,
            Call::Push(_)
                | Call::Poll { .. }
                | Call::Sweep(_)
                | Call::Guard(_)
                | Call::Enter { .. }
                | Call::Reorg { .. }
                | Call::Finality { .. }
                | Call::Evict { .. }
        )
    }
}

/// The marks of the calls that a trace may have.
pub const TRACE_MARKS: [&[u8; 2]; 7] = [b"CP", b"CQ", b"CG", b"CE", b"CR", b"CF", b"CV"];

/// Something that answers calls: the Rust, a model of document 01, or what is due by both.
pub trait Side {
    fn answer(&mut self, call: &Call) -> super::answers::Answer;
}
