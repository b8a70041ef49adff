//! The JSON line that a record stands for. Where several lines make the same record, one is picked at random.
//! The ticket rides in `to`, as the last eight bytes of the address, big-endian; so `to` always decodes.
use super::records::{Address, Hash, Legacy, Park, Record, Resolve, Tentative, TentativeEntry};
use crate::hex::hex;
use crate::random::Random;
use published::gap_quarantine_journal::JournalRecordPayload;
use serde_json::{json, Map, Value};

pub fn line(record: &Record, r: &mut Random) -> String {
    match record {
        Record::Park(p) => park(p, r).to_string(),
        Record::Tentative(t) => tentative_entry(t, r).to_string(),
        Record::Resolve(x) => resolve(x, r).to_string(),
        Record::Legacy(l) => legacy(l, r).to_string(),
        Record::Other(_) => other(r),
    }
}

// ---- texts

/// Any spelling that parses: with or without 0x, digits of either case.
fn spelled(bytes: &[u8], r: &mut Random) -> String {
    let digits = match r.below(4) {
        0 => hex(bytes).to_uppercase(),
        _ => hex(bytes),
    };
    if r.once_in(4) {
        digits
    } else {
        format!("0x{digits}")
    }
}

/// A text that is no address and no hash.
fn unparsable(r: &mut Random) -> String {
    match r.below(7) {
        0 => String::new(),
        1 => "0x".to_string(),
        2 => "4".repeat(39),
        3 => "4".repeat(41),
        4 => format!("0X{}", "4".repeat(40)),
        5 => format!("0x0x{}", "4".repeat(40)),
        _ => format!("0x{}", "g".repeat(40)),
    }
}

fn to(ticket: u64) -> String {
    format!("0x{}{}", "cd".repeat(12), hex(&ticket.to_be_bytes()))
}

/// The ticket of the `to` of a record that the fold gave back.
pub fn ticket(to: Option<&str>) -> u64 {
    match to {
        None => 0,
        Some(text) => {
            let bytes = alloy::hex::decode(text).expect("`to` is always an address here");
            u64::from_be_bytes(bytes[12..20].try_into().expect("20 bytes"))
        }
    }
}

/// Absent: the key is missing, or null.
fn put(map: &mut Map<String, Value>, key: &str, value: Option<Value>, r: &mut Random) {
    match value {
        Some(value) => {
            map.insert(key.to_string(), value);
        }
        None if r.once_in(3) => {
            map.insert(key.to_string(), Value::Null);
        }
        None => {}
    }
}

fn address(value: &Option<Address>, r: &mut Random) -> Option<Value> {
    value.map(|a| json!(spelled(&a, r)))
}

fn hash(value: &Option<Hash>, r: &mut Random) -> Option<Value> {
    value.map(|h| json!(spelled(&h, r)))
}

fn number(value: Option<u64>) -> Option<Value> {
    value.map(|n| json!(n))
}

fn tentative(t: &Tentative, r: &mut Random) -> Value {
    let mut map = Map::new();
    map.insert("block".to_string(), json!(t.block));
    map.insert("block_hash".to_string(), json!(spelled(&t.hash, r)));
    map.insert("kind".to_string(), json!(if t.kind == 1 { "mined" } else { "slot_taken" }));
    let by = hash(&t.by, r);
    put(&mut map, "by", by, r);
    Value::Object(map)
}

/// Version 1 may go unsaid.
fn put_version(map: &mut Map<String, Value>, version: u32, r: &mut Random) {
    if version != 1 || r.once_in(2) {
        map.insert("v".to_string(), json!(version));
    }
}

// ---- QP, QT, QR

/// The wire fields other than hash, from, chain_id, gas, nonce, to and the list; all sound, or one that does not decode.
fn wire(map: &mut Map<String, Value>, sound: bool, r: &mut Random) {
    map.insert("value".to_string(), json!(*r.pick(&["0x0", "0xff", "1", " 0x2 ", &format!("0x{}", "f".repeat(64))])));
    map.insert("data".to_string(), json!(*r.pick(&["0x", "0xabCD", "", "12", "0x0x12"])));
    map.insert("max_fee_per_gas".to_string(), json!(*r.pick(&["0", "7", "340282366920938463463374607431768211455"])));
    map.insert("max_priority_fee_per_gas".to_string(), json!(*r.pick(&["0", "1"])));
    map.insert("tx_type".to_string(), json!(1 + r.below(255)));
    map.insert("received_unix_ms".to_string(), json!(r.draw()));
    let raw = if r.once_in(2) { None } else { Some(json!(*r.pick(&["0x", "0x02ff", "02"]))) };
    put(map, "raw_signed_tx", raw, r);
    if !sound {
        let (key, text) = *r.pick(&[
            ("value", "0xzz"),
            ("value", "0x1 2"),
            ("data", "0x1"),
            ("data", "0xgg"),
            ("max_fee_per_gas", ""),
            ("max_fee_per_gas", "0x5"),
            ("max_fee_per_gas", "340282366920938463463374607431768211456"),
            ("max_priority_fee_per_gas", "-1"),
            ("max_priority_fee_per_gas", "1.0"),
            ("raw_signed_tx", "0x1"),
            ("raw_signed_tx", "raw"),
        ]);
        map.insert(key.to_string(), json!(text));
    }
}

fn put_to(map: &mut Map<String, Value>, ticket: u64, r: &mut Random) {
    let text = if ticket == 0 && r.once_in(2) { None } else { Some(json!(to(ticket))) };
    put(map, "to", text, r);
}

fn array(r: &mut Random) -> Value {
    if r.once_in(2) {
        json!([])
    } else {
        json!([{"address": "0x00", "storageKeys": []}])
    }
}

fn no_array(r: &mut Random) -> Value {
    r.pick(&[json!({}), json!(5), json!("[]"), Value::Null]).clone()
}

fn park(p: &Park, r: &mut Random) -> Value {
    let mut frame = Map::new();
    wire(&mut frame, p.wire, r);
    let text = std::str::from_utf8(&p.text).expect("text bytes are ASCII");
    frame.insert("hash".to_string(), json!(text));
    let from = match p.from {
        Some(a) => spelled(&a, r),
        None => unparsable(r),
    };
    frame.insert("from".to_string(), json!(from));
    put_to(&mut frame, p.ticket, r);
    frame.insert("chain_id".to_string(), json!(p.chain_id));
    frame.insert("gas".to_string(), json!(p.gas));
    // nobody reads the frame's own nonce
    frame.insert("nonce".to_string(), json!(r.draw()));
    frame.insert("access_list".to_string(), if p.list { array(r) } else { no_array(r) });
    let mut map = Map::new();
    put_version(&mut map, p.version, r);
    map.insert("kind".to_string(), json!("park"));
    map.insert("frame".to_string(), Value::Object(frame));
    let sender = address(&p.sender, r);
    put(&mut map, "sender", sender, r);
    map.insert("claimed_nonce".to_string(), json!(p.claimed));
    map.insert("expected_nonce".to_string(), json!(p.expected));
    map.insert("parked_at_unix_ms".to_string(), json!(p.parked_at));
    let t = p.tentative.as_ref().map(|t| tentative(t, r));
    put(&mut map, "tentative", t, r);
    if p.degraded || r.once_in(2) {
        map.insert("fidelity".to_string(), json!(if p.degraded { "degraded" } else { "full" }));
    }
    Value::Object(map)
}

fn tentative_entry(t: &TentativeEntry, r: &mut Random) -> Value {
    let mut map = Map::new();
    put_version(&mut map, t.version, r);
    map.insert("kind".to_string(), json!("tentative"));
    map.insert("frame_hash".to_string(), json!(spelled(&t.hash, r)));
    map.insert("consumed".to_string(), tentative(&t.consumed, r));
    map.insert("entered_at_unix_ms".to_string(), json!(t.entered_at));
    Value::Object(map)
}

fn resolve(x: &Resolve, r: &mut Random) -> Value {
    let names = ["mined_finalized", "slot_taken_finalized", "rescue_consumed", "evicted"];
    let mut map = Map::new();
    put_version(&mut map, x.version, r);
    map.insert("kind".to_string(), json!("resolve"));
    map.insert("frame_hash".to_string(), json!(spelled(&x.hash, r)));
    map.insert("resolution".to_string(), json!(names[usize::from(x.resolution) - 1]));
    map.insert("resolved_at_unix_ms".to_string(), json!(x.resolved_at));
    Value::Object(map)
}

// ---- QL: typed only by LegacyParkRecord, or so typed with a version above 2

fn legacy(l: &Legacy, r: &mut Random) -> Value {
    let mut map = Map::new();
    map.insert("kind".to_string(), json!("park"));
    let frame = legacy_frame(l, r);
    let empty = frame.as_object().is_some_and(Map::is_empty);
    let frame = if empty && r.once_in(2) { None } else { Some(frame) };
    put(&mut map, "frame", frame, r);
    let (top_hash, sender) = (hash(&l.top_hash, r), address(&l.sender, r));
    put(&mut map, "hash", top_hash, r);
    put(&mut map, "sender", sender, r);
    put(&mut map, "claimed_nonce", number(l.claimed), r);
    put(&mut map, "nonce", number(l.top_nonce), r);
    put(&mut map, "expected_nonce", number(l.expected), r);
    put(&mut map, "parked_at_unix_ms", number(l.parked_at), r);
    let t = match &l.tentative {
        Some(t) => Some(tentative(t, r)),
        // one that does not type is dropped
        None if r.once_in(4) => Some(json!({"block": 1, "kind": "mined"})),
        None => None,
    };
    put(&mut map, "tentative", t, r);
    // what a fidelity says is not read here
    if r.once_in(5) {
        map.insert("fidelity".to_string(), json!("degraded"));
    }
    let typed = serde_json::from_value::<JournalRecordPayload>(Value::Object(map.clone())).is_ok();
    let above = [json!(3), json!(4_294_967_296u64), json!("2"), json!(2.0), json!(-1), Value::Null];
    match r.below(3) {
        0 | 1 if !typed => put_version(&mut map, r.below(3) as u32, r),
        _ => {
            map.insert("v".to_string(), r.pick(&above).clone());
        }
    }
    Value::Object(map)
}

fn legacy_frame(l: &Legacy, r: &mut Random) -> Value {
    let mut frame = Map::new();
    let bare = [l.frame_nonce, l.chain_id, l.gas].iter().all(Option::is_none) && l.frame_hash.is_none() && l.from.is_none();
    if bare && !l.rest && l.ticket == 0 && r.once_in(2) {
        return Value::Object(frame);
    }
    let unsound = if l.rest { 0 } else { 1 + r.below(4) };
    wire(&mut frame, unsound != 1, r);
    frame.insert("access_list".to_string(), if unsound == 2 { no_array(r) } else { array(r) });
    if unsound > 2 {
        // a wire field that full needs is absent
        let key = *r.pick(&[
            "value",
            "data",
            "max_fee_per_gas",
            "max_priority_fee_per_gas",
            "tx_type",
            "received_unix_ms",
            "access_list",
        ]);
        frame.remove(key);
        put(&mut frame, key, None, r);
    }
    let frame_hash = match l.frame_hash {
        None if r.once_in(2) => Some(json!(unparsable(r))),
        given => hash(&given, r),
    };
    put(&mut frame, "hash", frame_hash, r);
    let from = match l.from {
        None if r.once_in(2) => Some(json!(unparsable(r))),
        given => address(&given, r),
    };
    put(&mut frame, "from", from, r);
    put_to(&mut frame, l.ticket, r);
    put(&mut frame, "chain_id", number(l.chain_id), r);
    put(&mut frame, "gas", number(l.gas), r);
    put(&mut frame, "nonce", number(l.frame_nonce), r);
    Value::Object(frame)
}

// ---- QX: any other line

fn other(r: &mut Random) -> String {
    let h = "0x".to_string() + &"11".repeat(32);
    let lines = [
        "{".to_string(),
        "not JSON".to_string(),
        "null".to_string(),
        "[]".to_string(),
        "{}".to_string(),
        "\u{feff}".to_string(),
        json!({"v": 2, "kind": "parked"}).to_string(),
        json!({"v": 3, "kind": "resolve", "frame_hash": h, "resolution": "evicted", "resolved_at_unix_ms": 1}).to_string(),
        json!({"v": 2, "kind": "resolve", "frame_hash": "0x11", "resolution": "evicted", "resolved_at_unix_ms": 1})
            .to_string(),
        json!({"v": 2, "kind": "resolve", "frame_hash": h, "resolution": "lost", "resolved_at_unix_ms": 1}).to_string(),
        json!({"v": 2, "kind": "tentative", "frame_hash": h, "entered_at_unix_ms": 1}).to_string(),
        json!({"v": 2, "kind": "park", "hash": "0x11", "nonce": 3}).to_string(),
        json!({"v": 2, "kind": "park", "hash": h, "nonce": "3"}).to_string(),
        json!({"v": 2, "kind": "park", "hash": h, "nonce": 3, "sender": "nobody"}).to_string(),
        json!({"v": 2, "kind": "park", "hash": h, "nonce": 3, "frame": {"tx_type": 256}}).to_string(),
        json!({"v": 2, "kind": "park", "hash": h, "nonce": 3, "frame": 7}).to_string(),
    ];
    r.pick(&lines).clone()
}

/// A line that stands for no record.
pub fn blank(r: &mut Random) -> String {
    r.pick(&["", " ", "\t", "  \t "]).to_string()
}
