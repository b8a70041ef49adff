//! The archive's writers: on 10,000 random records, on damaged ones, and on arguments that no typed record has.

mod random;
mod raw;
mod records;

use gap_quarantine_journal::{
    fold, LegacyParkRecord, ParkRecord, Refusal, ResolveRecord, TentativeEntryRecord, Totals, ENOUGH, LEGACY, OTHER, PARK,
    RESOLVE, TENTATIVE,
};
use random::{Random, Record};
use raw::{Arguments, SOUND};
use records::{park, Layout};

const BAD: Refusal = Refusal::BadRecord { offset: None };
const SHORT: Refusal = Refusal::ShortOutput { offset: None };

/// Longer than any record.
const LONG: usize = 300;

/// Runs a test on each of 10,000 random records.
fn each(test: impl Fn(&Record)) {
    let mut random = Random::new(1);
    for _ in 0..100 {
        let names = random.names();
        for _ in 0..100 {
            test(&random.record(&names));
        }
    }
}

fn written(record: &Record) -> Vec<u8> {
    let mut out = [7; LONG];
    let length = record.write(&mut out).expect("a record that is not refused");
    out[..length].to_vec()
}

fn folded(journal: &[u8]) -> Result<Totals, Refusal> {
    fold(journal, &mut [0; ENOUGH])
}

/// The record is refused on a slice of this length, which stays as it was.
fn assert_refused(record: &Record, length: usize, refusal: Refusal) {
    let mut out = vec![7; length];
    assert_eq!(record.write(&mut out), Err(refusal));
    assert!(out.iter().all(|b| *b == 7));
}

#[test]
fn the_answer_is_the_length() {
    each(|record| {
        let length = match record {
            Record::Park(_) => PARK,
            Record::Enter(_) => TENTATIVE,
            Record::Resolve(_) => RESOLVE,
            Record::Legacy(_) => LEGACY,
            Record::Other(_) => OTHER,
        };
        assert_eq!(record.write(&mut [0; LONG]), Ok(length));
    });
}

#[test]
fn the_bytes_are_those_of_the_layout() {
    each(|record| assert_eq!(written(record), record.bytes()));
}

#[test]
fn what_lies_past_stays() {
    each(|record| {
        let mut out = [7; LONG];
        let length = record.write(&mut out).unwrap();
        assert!(out[length..].iter().all(|b| *b == 7));
    });
}

#[test]
fn a_slice_just_long_enough_is_filled() {
    each(|record| {
        let mut out = vec![7; record.bytes().len()];
        assert_eq!(record.write(&mut out), Ok(out.len()));
        assert_eq!(out, record.bytes());
    });
}

#[test]
fn a_slice_one_byte_short_gives_13_and_stays() {
    each(|record| assert_refused(record, record.bytes().len() - 1, SHORT));
}

#[test]
fn the_fold_takes_each_alone() {
    each(|record| {
        let bytes = written(record);
        assert_eq!(folded(&bytes).map(|totals| totals.end), Ok(bytes.len()));
    });
}

#[test]
fn the_fold_takes_journals_of_many() {
    let mut random = Random::new(2);
    for _ in 0..100 {
        let names = random.names();
        let records: Vec<Record> = (0..400).map(|_| random.record(&names)).collect();
        let mut journal = vec![0; 65536];
        let mut end = 0;
        for record in &records {
            end += record.write(&mut journal[end..]).unwrap();
        }
        let totals = folded(&journal[..end]).unwrap();
        let counted = records.iter().filter(|record| matches!(record, Record::Legacy(_) | Record::Other(_)));
        assert_eq!((totals.skipped + totals.migrated, totals.end), (counted.count(), end));
    }
}

#[test]
fn a_version_above_2_is_refused() {
    let mut random = Random::new(3);
    let names = random.names();
    for version in [3, 256, u32::MAX] {
        assert_refused(&Record::Park(ParkRecord { version, ..random.park(&names) }), LONG, BAD);
        assert_refused(&Record::Enter(TentativeEntryRecord { version, ..random.enter(&names) }), LONG, BAD);
        assert_refused(&Record::Resolve(ResolveRecord { version, ..random.resolve(&names) }), LONG, BAD);
    }
}

#[test]
fn a_text_over_66_bytes_is_refused() {
    for length in [67, 255, 256, 322] {
        assert_refused(&Record::Park(park(&vec![b'a'; length])), LONG, BAD);
    }
}

#[test]
fn a_text_byte_outside_32_to_126_is_refused() {
    for place in [0, 33, 65] {
        for byte in 0..=255 {
            let mut text = [b'a'; 66];
            text[place] = byte;
            match byte {
                32..=126 => assert_eq!(park(&text).write(&mut [0; LONG]), Ok(PARK)),
                _ => assert_refused(&Record::Park(park(&text)), LONG, BAD),
            }
        }
    }
}

/// Bytes, each with the places of a record where it is outside the layout, whatever stands around it.
fn outside(record: &Record) -> &'static [(u8, &'static [usize])] {
    match record {
        // version and kind; the text's length; the text; the tags, wire, list and fidelity
        Record::Park(_) => &[(3, &[2, 158]), (67, &[6]), (31, &[7]), (127, &[7]), (2, &[73, 94, 131, 132, 157, 199])],
        // version and kind; kind; the tag of by
        Record::Enter(_) => &[(3, &[2, 38]), (0, &[38]), (2, &[79])],
        // version; resolution
        Record::Resolve(_) => &[(3, &[2]), (0, &[38]), (5, &[38])],
        // the tags and rest; kind
        Record::Legacy(_) => &[(2, &[2, 35, 68, 77, 86, 95, 116, 137, 146, 155, 164, 173, 215]), (3, &[174])],
        Record::Other(_) => &[],
    }
}

#[test]
fn the_fold_refuses_a_field_outside_its_layout() {
    each(|record| {
        for (byte, places) in outside(record) {
            for &place in *places {
                let mut damaged = written(record);
                damaged[place] = *byte;
                assert_eq!(folded(&damaged), Err(Refusal::BadRecord { offset: Some(0) }));
            }
        }
    });
}

/// No tag, flag or kind may be 3, and no byte of an absent field.
#[test]
fn the_fold_refuses_each_byte_of_an_empty_older_park() {
    let record = written(&Record::Legacy(LegacyParkRecord::default()));
    for place in 2..LEGACY - 8 {
        let mut damaged = record.clone();
        damaged[place] = 3;
        assert_eq!(folded(&damaged), Err(Refusal::BadRecord { offset: Some(0) }));
    }
}

/// A C function, and the length of its record.
type Writer = (fn(&Arguments, &mut [u8]) -> u64, u64);

const RAW_PARK: Writer = (Arguments::park, 240);
const RAW_TENTATIVE: Writer = (Arguments::tentative, 120);
const RAW_RESOLVE: Writer = (Arguments::resolve, 47);
const RAW_LEGACY: Writer = (Arguments::legacy, 256);
const RAW_OTHER: Writer = (Arguments::other, 10);

static BYTES: [u8; 64] = [9; 64];

/// Each writer takes the arguments, or refuses them with 11 and writes nothing.
fn assert_taken(taken: bool, writers: &[Writer], arguments: Arguments) {
    for (write, length) in writers {
        let mut out = [7; LONG];
        let code = write(&arguments, &mut out);
        assert_eq!(code, if taken { 256 * length } else { 11 });
        assert!(taken || out == [7; LONG]);
    }
}

#[test]
fn the_code_is_256_times_the_length() {
    assert_taken(true, &[RAW_PARK, RAW_TENTATIVE, RAW_RESOLVE, RAW_LEGACY, RAW_OTHER], SOUND);
}

/// Each writer gives this code on every slice that is too short, which stays as it was.
fn assert_short(code: u64, writers: &[Writer], arguments: Arguments) {
    for (write, length) in writers {
        for length in 0..*length as usize {
            let mut out = vec![7; length];
            assert_eq!(write(&arguments, &mut out), code);
            assert!(out.iter().all(|b| *b == 7));
        }
    }
}

#[test]
fn a_slice_that_is_too_short_gives_13() {
    assert_short(13, &[RAW_PARK, RAW_TENTATIVE, RAW_RESOLVE, RAW_LEGACY, RAW_OTHER], SOUND);
}

#[test]
fn refusal_11_comes_before_13() {
    let arguments = Arguments { version: 3, from: &BYTES[..19], ..SOUND };
    assert_short(11, &[RAW_PARK, RAW_TENTATIVE, RAW_RESOLVE, RAW_LEGACY], arguments);
}

#[test]
fn an_address_is_20_bytes_or_absent() {
    for length in 0..=40 {
        let taken = [0, 20].contains(&length);
        assert_taken(taken, &[RAW_PARK, RAW_LEGACY], Arguments { from: &BYTES[..length], ..SOUND });
        assert_taken(taken, &[RAW_PARK, RAW_LEGACY], Arguments { sender: &BYTES[..length], ..SOUND });
    }
}

#[test]
fn an_optional_hash_is_32_bytes_or_absent() {
    for length in 0..=64 {
        let taken = [0, 32].contains(&length);
        assert_taken(taken, &[RAW_PARK, RAW_TENTATIVE, RAW_LEGACY], Arguments { by: &BYTES[..length], ..SOUND });
        assert_taken(taken, &[RAW_LEGACY], Arguments { frame_hash: &BYTES[..length], ..SOUND });
        assert_taken(taken, &[RAW_LEGACY], Arguments { top_hash: &BYTES[..length], ..SOUND });
    }
}

#[test]
fn a_hash_is_32_bytes() {
    for length in 0..=64 {
        let taken = length == 32;
        assert_taken(taken, &[RAW_TENTATIVE, RAW_RESOLVE], Arguments { hash: &BYTES[..length], ..SOUND });
        assert_taken(taken, &[RAW_PARK, RAW_TENTATIVE, RAW_LEGACY], Arguments { block_hash: &BYTES[..length], ..SOUND });
    }
}

#[test]
fn a_flag_is_0_or_1() {
    for flag in 0..=255 {
        assert_taken(flag < 2, &[RAW_PARK], Arguments { wire: flag, ..SOUND });
        assert_taken(flag < 2, &[RAW_PARK], Arguments { list: flag, ..SOUND });
        assert_taken(flag < 2, &[RAW_PARK], Arguments { fidelity: flag, ..SOUND });
        assert_taken(flag < 2, &[RAW_LEGACY], Arguments { rest: flag, ..SOUND });
        for place in 0..7 {
            let mut has = SOUND.has;
            has[place] = flag;
            assert_taken(flag < 2, &[RAW_LEGACY], Arguments { has, ..SOUND });
        }
    }
}

#[test]
fn a_kind_is_at_most_2_and_not_0_in_a_tentative_entry() {
    for kind in 0..=255 {
        assert_taken(kind < 3, &[RAW_PARK, RAW_LEGACY], Arguments { kind, ..SOUND });
        assert_taken((1..3).contains(&kind), &[RAW_TENTATIVE], Arguments { kind, ..SOUND });
    }
}

#[test]
fn a_resolution_is_1_to_4() {
    for resolution in 0..=255 {
        assert_taken((1..5).contains(&resolution), &[RAW_RESOLVE], Arguments { resolution, ..SOUND });
    }
}

/// What is written of a park and an older park with these arguments.
fn parks(arguments: Arguments) -> [[u8; LEGACY]; 2] {
    let mut out = [[0; LEGACY]; 2];
    arguments.park(&mut out[0]);
    arguments.legacy(&mut out[1]);
    out
}

#[test]
fn with_kind_0_block_and_hashes_are_not_looked_at() {
    let absent = parks(Arguments { kind: 0, block: 0, block_hash: &[], by: &[], ..SOUND });
    for length in 0..=64 {
        let any = || Arguments { kind: 0, block_hash: &BYTES[..length], by: &BYTES[..length], ..SOUND };
        assert_taken(true, &[RAW_PARK, RAW_LEGACY], any());
        assert_eq!(parks(any()), absent);
    }
}

#[test]
fn an_absent_number_is_not_looked_at() {
    let absent = Arguments { has: [0; 7], numbers: [0; 7], ..SOUND };
    assert_eq!(parks(Arguments { has: [0; 7], ..SOUND }), parks(absent));
}
