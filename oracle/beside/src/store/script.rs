//! Scripts as bytes: calls one after another, and perhaps a broken call at the end.
use super::answers::Answer;
use super::calls::{Call, Side};
use super::reading::Reader;
use std::fmt::Write;

/// The longest script and the longest standard input that `replay` takes.
pub const SCRIPT_LIMIT: usize = 65_536;
pub const INPUT_LIMIT: usize = 1_048_576;

#[derive(Clone, Debug)]
pub struct Script {
    pub calls: Vec<Call>,
    /// Bytes that are no call, or nothing.
    pub broken: Vec<u8>,
}

impl Script {
    pub fn bytes(&self) -> Vec<u8> {
        let mut out = bytes_of(&self.calls);
        out.extend_from_slice(&self.broken);
        out
    }

    /// The lines of one script, in the form of `replay`, with the answers of one side.
    pub fn lines(&self, number: usize, side: &mut dyn Side) -> (String, Vec<Answer>) {
        let mut text = format!("== {number}\n");
        let mut answers = Vec::with_capacity(self.calls.len());
        for (place, call) in self.calls.iter().enumerate() {
            let answer = side.answer(call);
            writeln!(text, "{place} {} {answer}", call.mark()).expect("a string takes all");
            answers.push(answer);
        }
        if !self.broken.is_empty() {
            writeln!(text, "{} bad", self.calls.len()).expect("a string takes all");
        }
        (text, answers)
    }
}

/// A script as it stands on standard input, led by its length.
pub fn led(bytes: &[u8]) -> Vec<u8> {
    let mut out = (bytes.len() as u32).to_le_bytes().to_vec();
    out.extend_from_slice(bytes);
    out
}

fn put_number(n: u64, out: &mut Vec<u8>) {
    out.extend_from_slice(&n.to_le_bytes());
}

fn put_count(n: usize, out: &mut Vec<u8>) {
    out.extend_from_slice(&u16::try_from(n).expect("lists are short").to_le_bytes());
}

fn put_numbers(list: &[u64], out: &mut Vec<u8>) {
    put_count(list.len(), out);
    for n in list {
        put_number(*n, out);
    }
}

fn put_bytes(list: &[u8], out: &mut Vec<u8>) {
    put_count(list.len(), out);
    out.extend_from_slice(list);
}

/// The bytes of these calls, one after another.
pub fn bytes_of(calls: &[Call]) -> Vec<u8> {
    let mut out = Vec::new();
    calls.iter().for_each(|call| write_call(call, &mut out));
    out
}

pub fn write_call(call: &Call, out: &mut Vec<u8>) {
    out.extend_from_slice(call.mark().as_bytes());
    match call {
        Call::Push(f) => {
            out.extend_from_slice(&f.hash);
            out.extend_from_slice(&f.from);
            for n in [f.expected, f.claim, f.chain_id, f.gas, f.ticket] {
                put_number(n, out);
            }
        }
        Call::Poll { form: _, sender, head, known, content } => {
            out.extend_from_slice(sender);
            put_number(*head, out);
            put_numbers(known, out);
            match content {
                None => out.push(0),
                Some(c) => {
                    out.push(1);
                    put_numbers(&c.nonces, out);
                    put_bytes(&c.hashes, out);
                }
            }
        }
        Call::Sweep(s) => {
            put_bytes(&s.senders, out);
            for list in [&s.heads, &s.counts, &s.nonces] {
                put_numbers(list, out);
            }
        }
        Call::Guard(g) => {
            out.push(if g.boundary.is_some() { 1 } else { 2 });
            out.extend_from_slice(&g.hash);
            put_numbers(&g.predecessors, out);
            put_bytes(&g.content, out);
            if let Some(boundary) = g.boundary {
                put_number(boundary, out);
            }
        }
        Call::Enter { hash, consumed } => {
            out.extend_from_slice(hash);
            out.push(consumed.kind);
            put_number(consumed.block, out);
            out.extend_from_slice(&consumed.block_hash);
            if consumed.kind == 3 {
                out.extend_from_slice(&consumed.taker);
            }
        }
        Call::Reorg { block, hash } => {
            put_number(*block, out);
            match hash {
                None => out.push(0),
                Some(h) => {
                    out.push(1);
                    out.extend_from_slice(h);
                }
            }
        }
        Call::Finality { block } => put_number(*block, out),
        Call::Evict { sender } | Call::HasGuard(sender) => out.extend_from_slice(sender),
        Call::State(hash) | Call::Boundary(hash) => out.extend_from_slice(hash),
        Call::KnownGap { sender, head, pending_count } => {
            out.extend_from_slice(sender);
            put_number(*head, out);
            put_number(*pending_count, out);
        }
        Call::Blocks | Call::Len | Call::Senders | Call::TentativeCount | Call::Dump => {}
    }
}

/// The calls of a script's bytes up to its end, or up to the first bytes that are no call.
pub fn read_script(bytes: &[u8]) -> Script {
    let mut rest = bytes;
    let mut calls = Vec::new();
    while !rest.is_empty() {
        let mut reader = Reader::new(rest, None);
        match reader.call() {
            Ok(call) => calls.push(call),
            Err(_) => return Script { calls, broken: rest.to_vec() },
        }
        rest = reader.rest;
    }
    Script { calls, broken: Vec::new() }
}
