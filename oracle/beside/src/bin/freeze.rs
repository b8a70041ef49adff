//! Writes frozen answers: scripts, a trace and journals as standard input of programs, and the Rust's own answers as what they
//! print. The sender and the place of an entry, and what is printed of records that are written again, are the driver's own.
//!
//! freeze FOLDER: writes stdin and stdout in each of FOLDER/scripts, FOLDER/trace and FOLDER/journals.
//! The sample has document 01's examples, the scripts that the manual shows, a smallest input for each wrong rule, inputs at each
//! limit, and random ones. The trace is made of the scripts that the manual shows.
use beside::journal::items::Item;
use beside::journal::original::Original as Journal;
use beside::journal::outcome::{Restored, ENOUGH, JOURNAL_LIMIT};
use beside::journal::records::{Record, PARK_SIZE};
use beside::journal::writing::case::Case;
use beside::journal::wrong::Wrong;
use beside::journal::{self, strength as journals};
use beside::scratch::Scratch;
use beside::store::answers::Answer;
use beside::store::calls::Call;
use beside::store::due::Due;
use beside::store::generate::{long_script, script, unswept_script};
use beside::store::original::Original as Store;
use beside::store::script::{bytes_of, led, Script};
use beside::store::trace::lines::{lines, places, run, text};
use beside::store::trace::wrong::{Wrong as Misread, ALL as MISREAD};
use beside::store::{self, strength as stores};
use std::collections::BTreeSet;
use std::fs;
use std::path::Path;

/// Random inputs are looked through from this seed on.
const SEED: u64 = 1_000_000;

/// How many random scripts, as many more with short polls and with sweeps, journals and records to write are kept beside the
/// small ones.
const RANDOM_SCRIPTS: u64 = 8;
const RANDOM_JOURNALS: u64 = 30;
const RANDOM_RECORDS: usize = 20;

/// How many random journals a wrong rule is looked for in.
const JOURNALS_FOR_WRONG: u64 = 6000;

/// The wrong rules that only a second slice that is not 40 bytes, or a frame's that is not 92, can tell.
const LENGTHS_ONLY: [Wrong; 6] = [
    Wrong::TotalsLonger,
    Wrong::TotalsShorter,
    Wrong::FrameLonger,
    Wrong::FrameShorter,
    Wrong::ThirteenBeforeRecords,
    Wrong::RestoreThirteenFirst,
];

/// The refusals that a script can meet, whose slices are always long enough.
const STORE_REFUSALS: [u8; 7] = [1, 2, 3, 4, 6, 7, 8];

/// Those of them that a poll can meet.
const POLL_REFUSALS: [u8; 2] = [3, 4];

/// The refusals that a sweep can meet in a script.
const SWEEP_REFUSALS: [u8; 3] = [17, 18, 3];

/// The wrong rules for traces that are not told by one trace, below the limit and whole up to a last call that is cut short, so that it
/// has no totals.
const NOT_BY_ONE: [Misread; 38] = [
    Misread::MarksOfScripts,
    Misread::MarkBySecond,
    Misread::OptionalTwo,
    Misread::OptionalAnyPresent,
    Misread::OptionalAnyAbsent,
    Misread::GuardKindZero,
    Misread::GuardKindThree,
    Misread::EnterKindZero,
    Misread::EnterKindFour,
    Misread::ByteLeft,
    Misread::LimitOneMore,
    Misread::LimitOneLess,
    Misread::LimitIgnored,
    Misread::LimitRunsUp,
    Misread::LimitBehind,
    Misread::RunsOn,
    Misread::EmptyRefused,
    Misread::AcceptedRefused,
    Misread::AcceptedCalls,
    Misread::AcceptedOnce,
    Misread::AcceptedTotal,
    Misread::HeldTracked,
    Misread::HeldLessRescued,
    Misread::RescuedRows,
    Misread::RescuedConsumed,
    Misread::RescuedPolls,
    Misread::DeadConsumed,
    Misread::DeadEntered,
    Misread::DeadEvicted,
    Misread::EvictedDead,
    Misread::EvictedRevived,
    Misread::EvictedCalls,
    Misread::TotalsNever,
    Misread::TotalsFirst,
    Misread::TotalsNotOfEmpty,
    Misread::TotalsNotOfRefused,
    Misread::TotalsHeldLast,
    Misread::TotalsInAByte,
];

/// The refusals that random journals with a long output, and records alone, meet.
const FOLD_REFUSALS: [u8; 3] = [10, 11, 12];
const RESTORE_REFUSALS: [u8; 4] = [11, 14, 15, 16];

/// The records that are written again and spoiled: their marks, and whether the fields that may be absent are all present or all
/// absent. QR and QX have none.
const WHOLE_RECORDS: [(&[u8; 2], bool); 8] = [
    (b"QP", true),
    (b"QP", false),
    (b"QT", true),
    (b"QT", false),
    (b"QR", true),
    (b"QL", true),
    (b"QL", false),
    (b"QX", true),
];

/// How a line begins that is printed of a record to write: one of each length, and both ways to write none.
const WRITTEN_LINES: [&str; 7] =
    ["written 240 ", "written 120 ", "written 47 ", "written 256 ", "written 10 ", "refused 13\n", "no record\n"];

// ---- scripts

fn answers(script: &Script) -> Vec<Answer> {
    script.lines(0, &mut Due::default()).1
}

fn scripts() -> Vec<Script> {
    let whole = |mut calls: Vec<Call>| {
        calls.push(Call::Dump);
        Script { calls, broken: Vec::new() }
    };
    let as_given = |calls: Vec<Call>| Script { calls, broken: Vec::new() };
    // the manual names these by their place, so they stand first
    let mut list = vec![as_given(store::manual::life())];
    list.extend(store::examples::examples().into_iter().map(|e| whole(e.calls)));
    list.extend(store::manual::answers().into_iter().map(as_given));
    for (wrong, says) in store::wrong::ALL.iter().filter(|(wrong, _)| !wrong.is_about_slices()) {
        let calls = stores::smallest_for(*wrong, SEED, 30_000);
        list.push(whole(calls.unwrap_or_else(|| panic!("no script tells: {says}"))));
    }
    // each refusal once more, in a script as it was made
    for number in STORE_REFUSALS {
        let refuses = |script: &Script| answers(script).contains(&Answer::Refused(number));
        list.push((SEED..).map(long_script).find(refuses).expect("the seeds do not end"));
    }
    list.extend((SEED..SEED + RANDOM_SCRIPTS).map(long_script));
    // scripts that break off
    list.extend((SEED..).map(long_script).filter(|s| !s.broken.is_empty() && s.calls.len() < 20).take(6));
    list.extend(scripts_with("CM", &POLL_REFUSALS, unswept_script, SEED + RANDOM_SCRIPTS));
    list.extend(scripts_with("CW", &SWEEP_REFUSALS, script, SEED + 2 * RANDOM_SCRIPTS));
    let marks: BTreeSet<&str> = list.iter().flat_map(|s| s.calls.iter().map(Call::mark)).collect();
    assert_eq!(marks.len(), 18, "every call stands in the sample");
    list
}

/// Scripts as they were made, with calls of a mark: each of its refusals, random ones from a seed on, and some that break off in
/// such a call.
fn scripts_with(mark: &str, refusals: &[u8], script: fn(u64) -> Script, seed: u64) -> Vec<Script> {
    let refuses = |script: &Script, number: u8| {
        let mut answered = script.calls.iter().zip(answers(script));
        answered.any(|(call, answer)| call.mark() == mark && answer == Answer::Refused(number))
    };
    let first = |number: &u8| (SEED..).map(script).find(|s| refuses(s, *number)).expect("the seeds do not end");
    let mut list: Vec<Script> = refusals.iter().map(first).collect();
    list.extend((seed..seed + RANDOM_SCRIPTS).map(script));
    let breaks_off = |s: &Script| s.broken.starts_with(mark.as_bytes()) && s.calls.len() < 20;
    list.extend((SEED..).map(script).filter(breaks_off).take(2));
    list
}

fn freeze_scripts(folder: &Path) {
    let (mut input, mut output) = (Vec::new(), String::new());
    let list = scripts();
    for (number, script) in list.iter().enumerate() {
        input.extend_from_slice(&led(&script.bytes()));
        output.push_str(&script.lines(number, &mut Due::default()).0);
    }
    // the input breaks off in a script's length
    input.extend_from_slice(&[1, 0]);
    output.push_str("bad input\n");
    write(folder, &input, &output);
    println!("scripts: {}, standard input {} bytes, output {} bytes", list.len(), input.len(), output.len());
}

// ---- the trace

/// Which optional values a call has, or its kind.
fn form(call: &Call) -> u8 {
    match call {
        Call::Poll { content, .. } => u8::from(content.is_some()),
        Call::Guard(g) => u8::from(g.boundary.is_some()),
        Call::Enter { consumed, .. } => consumed.kind,
        Call::Reorg { hash, .. } => u8::from(hash.is_some()),
        _ => 0,
    }
}

fn freeze_trace(folder: &Path) {
    let mut input = bytes_of(&store::manual::traced());
    // the last call is cut short
    input.pop();
    let read = places(&input, None);
    let ran = run(&read, &mut Store::default(), None);
    let output = text(&ran, None);
    let forms: BTreeSet<(&str, u8)> = read.iter().flatten().map(|call| (call.mark(), form(call))).collect();
    assert_eq!(forms.len(), 12, "every call in every form stands in the trace");
    for number in STORE_REFUSALS {
        assert!(ran.numbers.contains(&number), "refusal {number} stands in the trace");
    }
    assert!(output.ends_with(" 19\n"), "the trace ends so");
    let tells = |wrong: Misread| lines(&input, Some(wrong)) != output;
    let untold: Vec<Misread> = MISREAD.iter().map(|(wrong, _)| *wrong).filter(|wrong| !tells(*wrong)).collect();
    assert_eq!(untold, NOT_BY_ONE, "what the trace does not tell");
    write(folder, &input, &output);
    println!("trace: {} lines, standard input {} bytes, output {} bytes", read.len(), input.len(), output.len());
}

// ---- journals

/// A random journal that passes a test.
fn found(test: impl Fn(&Vec<u8>) -> bool) -> Vec<u8> {
    (SEED..).map(journal::generate::journal).find(test).expect("the seeds do not end")
}

fn folded(original: &Journal) -> Vec<Vec<u8>> {
    let mut list: Vec<Vec<u8>> = journal::examples::examples().into_iter().map(|e| e.journal).collect();
    for number in FOLD_REFUSALS {
        list.push(found(|bytes| matches!(original.fold(bytes, 0).0, Err((n, _)) if n == number)));
    }
    // 9: a byte more than a fold takes
    let mut long = Record::Other(7).bytes().repeat(JOURNAL_LIMIT / 10 + 1);
    long.truncate(JOURNAL_LIMIT + 1);
    list.push(long);
    list.extend((SEED..).map(journal::generate::journal).filter(|b| b.len() < 5000).take(RANDOM_JOURNALS as usize));
    list
}

/// An input for each wrong rule, but for those that only slices of other lengths tell, which the program never lends.
fn telling(original: &Journal) -> Vec<Item> {
    let cases = journals::answered(SEED, JOURNALS_FOR_WRONG, original);
    let mut list: Vec<Item> = Vec::new();
    let mut untold = Vec::new();
    for (wrong, _) in journal::wrong::ALL {
        match journals::smallest_for(*wrong, &cases, original) {
            Some(item) if list.contains(&item) => {}
            Some(item) => list.push(item),
            None => untold.push(*wrong),
        }
    }
    assert_eq!(untold, LENGTHS_ONLY, "what the program cannot be told by");
    list
}

/// 13: journals whose output is exactly long enough, a byte short, or empty.
fn narrow(original: &Journal) -> Vec<Item> {
    let bytes = found(|bytes| original.fold(bytes, 0).0.map_or(0, |f| f.pending.len()) == 2);
    [2 * PARK_SIZE, 2 * PARK_SIZE - 1, 0].map(|room| Item::Journal(bytes.clone(), room)).into()
}

/// Records alone: each refusal, and a full and a degraded frame.
fn parks(original: &Journal) -> Vec<Item> {
    let found = |test: &dyn Fn(&Restored) -> bool| {
        let park = (SEED..).find(|seed| test(&original.restore(&journal::generate::park_bytes(*seed), *seed)));
        Item::Park(journal::generate::park_bytes(park.expect("the seeds do not end")))
    };
    let mut list: Vec<Item> = RESTORE_REFUSALS.iter().map(|number| found(&|r| *r == Err(*number))).collect();
    // chain_id stands at 68
    list.push(found(&|r| r.as_ref().is_ok_and(|frame| frame[68] != 0)));
    list.push(found(&|r| r.as_ref().is_ok_and(|frame| frame[68] == 0)));
    list
}

/// A random record of a mark, whose fields are all present or all absent.
fn record_of(mark: &[u8], present: bool) -> Vec<u8> {
    let wanted = |bytes: &Vec<u8>| {
        bytes.starts_with(mark) && journal::generate::tagged(mark).all(|(at, _)| (bytes[at] != 0) == present)
    };
    random_records().map(|(bytes, _)| bytes).find(wanted).expect("the seeds do not end")
}

/// Records of random values, and how many bytes are lent to their writers.
fn random_records() -> impl Iterator<Item = (Vec<u8>, usize)> {
    let cases = (SEED..).map(Case::new);
    cases.filter_map(|case| Some((case.record()?.bytes(), case.slice.len().min(ENOUGH))))
}

/// One record in all that may come of it: written to a slice that is longer or just long enough, refused where the slice is a
/// byte short or empty, and no record where a field is spoiled or the bytes are not exactly one record.
fn rewritten(record: &[u8]) -> Vec<Item> {
    let size = record.len();
    let mut list: Vec<Item> = [ENOUGH, size + 1, size, size - 1, 0].map(|room| Item::Record(record.to_vec(), room)).into();
    let mut bad = journal::generate::spoiled(record);
    bad.extend([record[..size - 1].to_vec(), [record, &[0]].concat(), record.repeat(2)]);
    list.extend(bad.into_iter().map(|bytes| Item::Record(bytes, ENOUGH)));
    list
}

/// Records to write again.
fn records() -> Vec<Item> {
    let mut list: Vec<Item> =
        WHOLE_RECORDS.iter().flat_map(|(mark, present)| rewritten(&record_of(*mark, *present))).collect();
    // no bytes, a byte, a mark alone, an unknown mark; the last two have no room either
    let unknown = [b"QQ", &Record::Other(7).bytes()[2..]].concat();
    let bad = [(&b""[..], ENOUGH), (b"Q", ENOUGH), (b"QX", ENOUGH), (&unknown, ENOUGH), (&unknown, 0), (b"", 0)];
    list.extend(bad.map(|(bytes, room)| Item::Record(bytes.to_vec(), room)));
    list.extend(random_records().take(RANDOM_RECORDS).map(|(bytes, room)| Item::Record(bytes, room)));
    list
}

fn freeze_journals(folder: &Path) {
    let scratch = Scratch::new();
    let original = Journal::new(scratch.path());
    let mut list: Vec<Item> = folded(&original).into_iter().map(|bytes| Item::Journal(bytes, ENOUGH)).collect();
    list.extend(telling(&original));
    list.extend(narrow(&original));
    list.extend(parks(&original));
    list.extend(records());
    let (mut input, mut output) = (Vec::new(), String::new());
    for (number, item) in list.iter().enumerate() {
        input.extend(item.bytes());
        output.push_str(&item.lines(number, &original));
    }
    // the input breaks off in an item's length
    input.extend_from_slice(&[1, 0]);
    output.push_str("bad input\n");
    for number in 9..=16 {
        let refused = [format!("refused {number} at"), format!("restore refused {number}\n")];
        assert!(refused.iter().any(|line| output.contains(line)), "refusal {number} stands in the sample");
    }
    for line in WRITTEN_LINES {
        assert!(output.contains(&format!("\n{line}")), "{line:?} stands in the sample");
    }
    write(folder, &input, &output);
    println!("journals: {}, standard input {} bytes, output {} bytes", list.len(), input.len(), output.len());
}

fn write(folder: &Path, input: &[u8], output: &str) {
    fs::create_dir_all(folder).unwrap_or_else(|e| panic!("{}: {e}", folder.display()));
    fs::write(folder.join("stdin"), input).expect("the folder is writable");
    fs::write(folder.join("stdout"), output).expect("the folder is writable");
}

fn main() {
    let folder = std::env::args().nth(1).expect("freeze FOLDER");
    freeze_scripts(&Path::new(&folder).join("scripts"));
    freeze_trace(&Path::new(&folder).join("trace"));
    freeze_journals(&Path::new(&folder).join("journals"));
}
