//! A call in few words, for a reader.
use super::calls::{Call, Form, Sweep};

/// The first byte of a hash or an address and, behind a dot, its last.
fn short(bytes: &[u8]) -> String {
    format!("{:02x}.{:02x}", bytes[0], bytes[bytes.len() - 1])
}

/// A list of numbers, or how many there are.
fn few(list: &[u64]) -> String {
    match list.len() {
        0..=20 => format!("{list:?}"),
        many => format!("{many} numbers"),
    }
}

/// The senders of a sweep, or how many bytes they are, and its other lists.
fn swept(s: &Sweep) -> String {
    let senders = match s.senders.len() {
        0..=200 => s.senders.chunks(20).map(short).collect::<Vec<String>>().join(" "),
        bytes => format!("{bytes} bytes"),
    };
    format!("sweep [{senders}] heads {} counts {} nonces {}", few(&s.heads), few(&s.counts), few(&s.nonces))
}

/// A call in few words.
pub fn brief(call: &Call) -> String {
    match call {
        Call::Push(f) => format!(
            "push hash {} from {} expected {} claim {} chain_id {} gas {} ticket {}",
            short(&f.hash),
            short(&f.from),
            f.expected,
            f.claim,
            f.chain_id,
            f.gas,
            f.ticket
        ),
        Call::Poll { form, sender, head, known, content } => {
            let name = match form {
                Form::Long => "poll",
                Form::Short => "short poll",
            };
            let content = match content {
                None => "no content".to_string(),
                Some(c) => {
                    let hashes: Vec<String> = c.hashes.chunks(32).map(short).collect();
                    format!("content {:?} {}", c.nonces, hashes.join(" "))
                }
            };
            format!("{name} {} head {head} known {} {content}", short(sender), few(known))
        }
        Call::Sweep(s) => swept(s),
        Call::Guard(g) => {
            let hashes: Vec<String> = g.content.chunks(32).map(short).collect();
            let kind = match g.boundary {
                Some(boundary) => format!("Reparked, boundary {boundary},"),
                None => "Unhydratable".to_string(),
            };
            format!("guard {kind} hash {} preds {:?} content {}", short(&g.hash), g.predecessors, hashes.join(" "))
        }
        Call::Enter { hash, consumed: c } => {
            format!("enter {} kind {} block {} hash {}", short(hash), c.kind, c.block, short(&c.block_hash))
        }
        Call::Reorg { block, hash } => format!("reorganisation {block} hash {:?}", hash.map(|h| short(&h))),
        Call::Finality { block } => format!("finality {block}"),
        Call::Evict { sender } => format!("evict {}", short(sender)),
        Call::State(hash) => format!("state {}", short(hash)),
        Call::Boundary(hash) => format!("expected_boundary {}", short(hash)),
        Call::KnownGap { sender, head, pending_count } => {
            format!("pool_known_gap {} head {head} pending_count {pending_count}", short(sender))
        }
        Call::HasGuard(sender) => format!("has_guard_for_sender {}", short(sender)),
        Call::Blocks => "tentative_blocks".to_string(),
        Call::Len => "len".to_string(),
        Call::Senders => "senders".to_string(),
        Call::TentativeCount => "tentative_count".to_string(),
        Call::Dump => "dump".to_string(),
    }
}
