//! Calls read from bytes: those of scripts, for the model behind replay's formats and to know that broken bytes are broken; and
//! those of traces, written from request 2027-06, where a wrong rule may be planted.
use super::calls::{Address, Call, Consumed, Content, Form, Frame, GuardCall, Sweep, TRACE_MARKS};
use super::trace::wrong::Wrong;

/// Why no call is read.
#[derive(Clone, Copy, Debug, PartialEq, Eq)]
pub enum Bad {
    Mark,
    Optional,
    GuardKind,
    EnterKind,
    Cut,
    /// The whole trace is too long.
    Limit,
}

type Read<T> = Result<T, Bad>;

pub struct Reader<'a> {
    pub rest: &'a [u8],
    wrong: Option<Wrong>,
}

impl<'a> Reader<'a> {
    pub fn new(bytes: &'a [u8], wrong: Option<Wrong>) -> Self {
        Reader { rest: bytes, wrong }
    }

    fn is(&self, wrong: Wrong) -> bool {
        self.wrong == Some(wrong)
    }

    // ---- parts

    fn take(&mut self, count: usize) -> Read<&'a [u8]> {
        let part = self.rest.get(..count).ok_or(Bad::Cut)?;
        self.rest = &self.rest[count..];
        Ok(part)
    }

    /// So many bytes as the type says: a hash, an address, or a number's.
    fn array<const N: usize>(&mut self) -> Read<[u8; N]> {
        Ok(self.take(N)?.try_into().expect("as many as were taken"))
    }

    fn byte(&mut self) -> Read<u8> {
        Ok(self.take(1)?[0])
    }

    fn number(&mut self) -> Read<u64> {
        let bytes = self.array()?;
        Ok(if self.is(Wrong::NumbersHighFirst) { u64::from_be_bytes(bytes) } else { u64::from_le_bytes(bytes) })
    }

    fn count(&mut self) -> Read<usize> {
        let bytes = self.array()?;
        let count = if self.is(Wrong::CountsHighFirst) { u16::from_be_bytes(bytes) } else { u16::from_le_bytes(bytes) };
        Ok(usize::from(count))
    }

    fn numbers(&mut self) -> Read<Vec<u64>> {
        let count = self.count()?;
        if self.is(Wrong::CountOfBytes) {
            let mut inner = Reader::new(self.take(count)?, self.wrong);
            return (0..count / 8).map(|_| inner.number()).collect();
        }
        (0..count).map(|_| self.number()).collect()
    }

    fn bytes(&mut self) -> Read<Vec<u8>> {
        let count = self.count()?;
        let size = if self.is(Wrong::CountOfHashes) { 32 * count } else { count };
        Ok(self.take(size)?.to_vec())
    }

    fn optional(&mut self) -> Read<bool> {
        match self.byte()? {
            0 => Ok(false),
            1 => Ok(true),
            2 if self.is(Wrong::OptionalTwo) => Ok(true),
            _ if self.is(Wrong::OptionalAnyAbsent) => Ok(false),
            _ if self.is(Wrong::OptionalAnyPresent) => Ok(true),
            _ => Err(Bad::Optional),
        }
    }

    // ---- calls

    fn push(&mut self) -> Read<Call> {
        let (hash, from) = (self.array()?, self.array()?);
        let (mut expected, mut claim) = (self.number()?, self.number()?);
        if self.is(Wrong::ClaimFirst) {
            (expected, claim) = (claim, expected);
        }
        let (chain_id, gas, ticket) = (self.number()?, self.number()?, self.number()?);
        Ok(Call::Push(Frame { hash, from, expected, claim, chain_id, gas, ticket }))
    }

    fn content(&mut self) -> Read<Content> {
        if self.is(Wrong::HashesFirst) {
            let hashes = self.bytes()?;
            return Ok(Content { nonces: self.numbers()?, hashes });
        }
        Ok(Content { nonces: self.numbers()?, hashes: self.bytes()? })
    }

    fn poll(&mut self, form: Form) -> Read<Call> {
        let (sender, head, known): (Address, u64, Vec<u64>) = (self.array()?, self.number()?, self.numbers()?);
        let content = match self.optional()? {
            false => None,
            true => Some(self.content()?),
        };
        Ok(Call::Poll { form, sender, head, known, content })
    }

    fn sweep(&mut self) -> Read<Call> {
        let (senders, heads) = (self.bytes()?, self.numbers()?);
        Ok(Call::Sweep(Sweep { senders, heads, counts: self.numbers()?, nonces: self.numbers()? }))
    }

    fn guard(&mut self) -> Read<Call> {
        let reparked = match self.byte()? {
            1 => true,
            2 => false,
            0 if self.is(Wrong::GuardKindZero) => true,
            3 if self.is(Wrong::GuardKindThree) => false,
            _ => return Err(Bad::GuardKind),
        };
        let (hash, predecessors, content) = (self.array()?, self.numbers()?, self.bytes()?);
        let stands = (reparked || self.is(Wrong::BoundaryAfterTwo)) && !self.is(Wrong::BoundaryNever);
        let boundary = if stands { self.number()? } else { 0 };
        Ok(Call::Guard(GuardCall { hash, boundary: reparked.then_some(boundary), predecessors, content }))
    }

    fn enter(&mut self) -> Read<Call> {
        let hash = self.array()?;
        let kind = match self.byte()? {
            kind @ 1..=3 => kind,
            0 if self.is(Wrong::EnterKindZero) => 1,
            4 if self.is(Wrong::EnterKindFour) => 3,
            _ => return Err(Bad::EnterKind),
        };
        let (block, block_hash) = (self.number()?, self.array()?);
        let stands = (kind == 3 || kind == 2 && self.is(Wrong::TakerAfterTwo)) && !self.is(Wrong::TakerNever);
        let taker = if stands { self.array()? } else { [0; 32] };
        Ok(Call::Enter { hash, consumed: Consumed { kind, block, block_hash, taker } })
    }

    fn reorg(&mut self) -> Read<Call> {
        let block = self.number()?;
        let hash = match self.optional()? {
            false => None,
            true => Some(self.array()?),
        };
        Ok(Call::Reorg { block, hash })
    }

    /// The call of a mark that was read.
    fn inputs(&mut self, mark: &[u8; 2]) -> Read<Call> {
        match mark {
            b"CP" => self.push(),
            b"CQ" => self.poll(Form::Long),
            b"CM" => self.poll(Form::Short),
            b"CW" => self.sweep(),
            b"CG" => self.guard(),
            b"CE" => self.enter(),
            b"CR" => self.reorg(),
            b"CF" => Ok(Call::Finality { block: self.number()? }),
            b"CV" => Ok(Call::Evict { sender: self.array()? }),
            b"CS" => Ok(Call::State(self.array()?)),
            b"CB" => Ok(Call::Boundary(self.array()?)),
            b"CT" => Ok(Call::Blocks),
            b"CL" => Ok(Call::Len),
            b"CN" => Ok(Call::Senders),
            b"CC" => Ok(Call::TentativeCount),
            b"CK" => Ok(Call::KnownGap { sender: self.array()?, head: self.number()?, pending_count: self.number()? }),
            b"CH" => Ok(Call::HasGuard(self.array()?)),
            b"CD" => Ok(Call::Dump),
            _ => Err(Bad::Mark),
        }
    }

    /// A call of a script.
    pub fn call(&mut self) -> Read<Call> {
        let mark = self.array()?;
        self.inputs(&mark)
    }

    /// A call of a trace, which has seven of the marks.
    pub fn trace_call(&mut self) -> Read<Call> {
        let mut mark: [u8; 2] = self.array()?;
        if self.is(Wrong::MarkBySecond) {
            mark[0] = b'C';
        }
        if TRACE_MARKS.contains(&&mark) || self.is(Wrong::MarksOfScripts) {
            return self.inputs(&mark);
        }
        Err(Bad::Mark)
    }
}
