//! What the store's calls answer, and the lines that `replay` prints of it.
use super::calls::{Address, Consumed, Frame, Hash};
use crate::hex::hex;
use std::fmt;

/// Ticket; 1 Rescue, 2 NonceConsumed, 3 StillWaiting; count; up to 16 nonces, then zeros.
pub type Row = [u64; 19];

/// Ticket; code as in a long row; the frame's expected nonce; a mark of 16 bits, in which bit i, lowest first, is set if nonce
/// expected + i is listed; how many are set.
pub type ShortRow = [u64; 5];

#[derive(Clone, Copy, Debug, PartialEq, Eq)]
pub enum State {
    Tracked,
    Tentative(Consumed),
}

#[derive(Clone, Debug, PartialEq, Eq)]
pub struct Entry {
    pub frame: Frame,
    pub state: State,
    pub held: Option<u64>,
}

/// A Reparked guard has a boundary, an Unhydratable one none.
#[derive(Clone, Debug, PartialEq, Eq)]
pub struct Guard {
    pub hash: Hash,
    pub boundary: Option<u64>,
    pub predecessors: Vec<u64>,
    pub content: Vec<Hash>,
}

/// Whose entry a lookup by hash found: its sender, and its place among the sender's held entries in push order, from 0.
#[derive(Clone, Copy, Debug, PartialEq, Eq)]
pub struct Whose {
    pub sender: Address,
    pub place: u64,
}

/// A whole store: entries in walk order, guards in ascending order of their hash.
#[derive(Clone, Debug, PartialEq, Eq)]
pub struct Dump {
    pub entries: Vec<Entry>,
    pub guards: Vec<Guard>,
}

#[derive(Clone, Debug, PartialEq, Eq)]
pub enum Answer {
    Total(u64),
    Rows(Vec<Row>),
    Short(Vec<ShortRow>),
    Done,
    Truth(bool),
    Tickets(Vec<u64>),
    Dead(Vec<(u64, Consumed)>),
    State(Option<State>),
    Boundary(Option<u64>),
    Blocks(Vec<(u64, Hash)>),
    Numbers(Vec<u64>),
    Number(u64),
    Senders(Vec<Address>),
    Dump(Dump),
    Refused(u8),
    /// What is told of an entry that was found by its hash, and whose it is, which the Rust does not tell.
    Of(Box<Answer>, Whose),
}

impl Answer {
    /// The answer, with whose entry it is about if one was found.
    pub fn of(self, whose: Option<Whose>) -> Answer {
        match whose {
            Some(whose) => Answer::Of(Box::new(self), whose),
            None => self,
        }
    }

    pub fn whose(&self) -> Option<Whose> {
        match self {
            Answer::Of(_, whose) => Some(*whose),
            _ => None,
        }
    }

    /// What the Rust tells of it.
    pub fn told(&self) -> &Answer {
        match self {
            Answer::Of(answer, _) => answer,
            answer => answer,
        }
    }
}

fn numbers(list: &[u64], f: &mut fmt::Formatter<'_>) -> fmt::Result {
    list.iter().try_for_each(|n| write!(f, " {n}"))
}

/// A word, how many rows there are, and each row behind a bar.
fn rows<const N: usize>(word: &str, list: &[[u64; N]], f: &mut fmt::Formatter<'_>) -> fmt::Result {
    write!(f, "{word} {}", list.len())?;
    list.iter().try_for_each(|row| {
        f.write_str(" |")?;
        numbers(row, f)
    })
}

fn consumed(c: &Consumed, f: &mut fmt::Formatter<'_>) -> fmt::Result {
    write!(f, "{} {} {} {}", c.block, c.kind, hex(&c.block_hash), hex(&c.taker))
}

impl fmt::Display for State {
    fn fmt(&self, f: &mut fmt::Formatter<'_>) -> fmt::Result {
        match self {
            State::Tracked => f.write_str("tracked"),
            State::Tentative(c) => write!(f, "tentative {} {} {} {}", c.kind, c.block, hex(&c.block_hash), hex(&c.taker)),
        }
    }
}

impl fmt::Display for Entry {
    fn fmt(&self, f: &mut fmt::Formatter<'_>) -> fmt::Result {
        let x = &self.frame;
        write!(f, "{} {} {} {}", hex(&x.from), hex(&x.hash), x.expected, x.claim)?;
        write!(f, " {} {} {} {} ", x.chain_id, x.gas, x.ticket, self.state)?;
        match self.held {
            None => f.write_str("-"),
            Some(head) => write!(f, "{head}"),
        }
    }
}

impl fmt::Display for Guard {
    fn fmt(&self, f: &mut fmt::Formatter<'_>) -> fmt::Result {
        match self.boundary {
            Some(boundary) => write!(f, "{} 1 {boundary}", hex(&self.hash))?,
            None => write!(f, "{} 2 -", hex(&self.hash))?,
        }
        write!(f, " preds {}", self.predecessors.len())?;
        numbers(&self.predecessors, f)?;
        write!(f, " content {}", self.content.len())?;
        self.content.iter().try_for_each(|h| write!(f, " {}", hex(h)))
    }
}

impl fmt::Display for Answer {
    fn fmt(&self, f: &mut fmt::Formatter<'_>) -> fmt::Result {
        match self {
            Answer::Total(n) => write!(f, "total {n}"),
            Answer::Rows(list) => rows("rows", list, f),
            Answer::Short(list) => rows("short", list, f),
            Answer::Done => f.write_str("done"),
            Answer::Truth(b) => write!(f, "{b}"),
            Answer::Tickets(list) => {
                write!(f, "tickets {}", list.len())?;
                numbers(list, f)
            }
            Answer::Dead(list) => {
                write!(f, "dead {}", list.len())?;
                list.iter().try_for_each(|(ticket, c)| {
                    write!(f, " | {ticket} ")?;
                    consumed(c, f)
                })
            }
            Answer::State(None) | Answer::Boundary(None) => f.write_str("none"),
            Answer::State(Some(state)) => write!(f, "{state}"),
            Answer::Boundary(Some(n)) => write!(f, "some {n}"),
            Answer::Blocks(list) => {
                write!(f, "blocks {}", list.len())?;
                list.iter().try_for_each(|(n, h)| write!(f, " | {n} {}", hex(h)))
            }
            Answer::Numbers(list) => {
                write!(f, "numbers {}", list.len())?;
                numbers(list, f)
            }
            Answer::Number(n) => write!(f, "number {n}"),
            Answer::Senders(list) => {
                write!(f, "senders {}", list.len())?;
                list.iter().try_for_each(|a| write!(f, " {}", hex(a)))
            }
            Answer::Dump(dump) => {
                write!(f, "entries {}", dump.entries.len())?;
                dump.entries.iter().try_for_each(|e| write!(f, " | {e}"))?;
                write!(f, " guards {}", dump.guards.len())?;
                dump.guards.iter().try_for_each(|g| write!(f, " | {g}"))
            }
            Answer::Refused(n) => write!(f, "refused {n}"),
            Answer::Of(answer, whose) => write!(f, "{answer} of {} {}", hex(&whose.sender), whose.place),
        }
    }
}
