//! Records, values and answers in few words, for a reader.
use super::layout::{read, Reading};
use super::outcome::Restored;
use super::records::Record;
use super::writing::value::{NumberValue, TentativeValue, Value};
use crate::hex::hex;

/// A record with its hashes and addresses cut to a byte.
fn brief(record: &Record) -> String {
    let hash = |h: &[u8]| format!("{:02x}", h[0]);
    let maybe = |h: Option<&[u8]>| h.map_or("-".to_string(), |h| format!("{:02x}", h[0]));
    let number = |n: Option<u64>| n.map_or("-".to_string(), |n| n.to_string());
    match record {
        Record::Park(p) => format!(
            "QP v{} text {:?} from {} sender {} chain_id {} gas {} wire {} list {} claimed {} expected {} {} tentative {}",
            p.version, String::from_utf8_lossy(&p.text), maybe(p.from.as_ref().map(|a| &a[..])),
            maybe(p.sender.as_ref().map(|a| &a[..])), p.chain_id, p.gas, u8::from(p.wire), u8::from(p.list), p.claimed,
            p.expected, if p.degraded { "degraded" } else { "full" }, u8::from(p.tentative.is_some()),
        ),
        Record::Tentative(t) => format!("QT v{} hash {} kind {} block {}", t.version, hash(&t.hash), t.consumed.kind, t.consumed.block),
        Record::Resolve(x) => format!("QR v{} hash {} resolution {}", x.version, hash(&x.hash), x.resolution),
        Record::Legacy(l) => format!(
            "QL frame hash {} top hash {} claimed {} frame nonce {} top nonce {} sender {} from {} expected {} chain_id {} gas {} rest {} tentative {}",
            maybe(l.frame_hash.as_ref().map(|h| &h[..])), maybe(l.top_hash.as_ref().map(|h| &h[..])), number(l.claimed),
            number(l.frame_nonce), number(l.top_nonce), maybe(l.sender.as_ref().map(|a| &a[..])),
            maybe(l.from.as_ref().map(|a| &a[..])), number(l.expected), number(l.chain_id), number(l.gas), u8::from(l.rest),
            u8::from(l.tentative.is_some()),
        ),
        Record::Other(_) => "QX".to_string(),
    }
}

/// A value with each hash, address and text cut to its first byte and its length.
pub fn brief_value(value: &Value) -> String {
    let cut = |b: &[u8]| b.first().map_or("-".to_string(), |first| format!("{first:02x}..({})", b.len()));
    let number = |n: NumberValue| format!("{}:{}", n.has, n.number);
    let tentative =
        |t: &TentativeValue| format!("kind {} block {} hash {} by {}", t.kind, t.block, cut(&t.hash), cut(&t.by));
    match value {
        Value::Park(p) => format!(
            "QP v{} text {} from {} sender {} chain_id {} gas {} wire {} list {} claimed {} expected {} fidelity {} {}",
            p.version, cut(&p.text), cut(&p.from), cut(&p.sender), p.chain_id, p.gas, p.wire, p.list, p.claimed, p.expected,
            p.fidelity, tentative(&p.tentative),
        ),
        Value::Entry(t) => format!("QT v{} hash {} {}", t.version, cut(&t.hash), tentative(&t.consumed)),
        Value::Resolve(x) => format!("QR v{} hash {} resolution {}", x.version, cut(&x.hash), x.resolution),
        Value::Legacy(l) => format!(
            "QL frame hash {} top hash {} claimed {} frame nonce {} top nonce {} sender {} from {} expected {} parked_at {} chain_id {} gas {} rest {} {}",
            cut(&l.frame_hash), cut(&l.top_hash), number(l.claimed), number(l.frame_nonce), number(l.top_nonce), cut(&l.sender),
            cut(&l.from), number(l.expected), number(l.parked_at), number(l.chain_id), number(l.gas), l.rest,
            tentative(&l.tentative),
        ),
        Value::Other(ticket) => format!("QX ticket {ticket}"),
    }
}

pub fn shown(restored: &Restored) -> String {
    match restored {
        Ok(frame) => format!("frame {}", hex(frame)),
        Err(number) => format!("refused {number}"),
    }
}

pub fn say_parts(parts: &[Vec<u8>]) {
    for part in parts {
        match read(part) {
            Reading::Whole(record, _) => println!("    {}", brief(&record)),
            _ => println!("    bytes {}", hex(part)),
        }
    }
}
