//! Holds our store and journal beside the published Rust: document 01's examples, random scripts, all short runs, random traces,
//! slices of all lengths, the order rule, the sharding rule, random journals, cuts, restores, records written, and wrong rules. The
//! last line has the counts and the number of differences. A run fails by a difference, by a wrong rule that was not caught, and by
//! a kind of answer that was not seen.
//!
//! compare [--replay PROGRAM] [--short-slices PROGRAM] [--trace PROGRAM] [--calls N] [--traces N] [--orders N] [--shards N]
//!     [--journals N] [--records N] [--seed N]
use beside::intended;
use beside::journal::original::Original;
use beside::journal::ours::{ours, Ours};
use beside::journal::writing::{compare as writers, strength as writer_strength, wrong as writer_wrong};
use beside::journal::{compare as journals, strength as journal_strength, wrong as journal_wrong};
use beside::program::Program;
use beside::scratch::Scratch;
use beside::seen::{self, Seen};
use beside::store::menu::{menu, LONGEST};
use beside::store::shards::{compare as shards, strength as shard_strength, wrong as shard_wrong};
use beside::store::trace::{compare as traces, strength as trace_strength, wrong as trace_wrong};
use beside::store::{compare as stores, order, slices, strength as store_strength, wrong as store_wrong};
use std::path::Path;
use std::process::ExitCode;

/// How many random scripts, traces, lists for shards, journals, and values to write, a wrong rule is looked for in.
const SCRIPTS_FOR_WRONG: u64 = 3000;
const TRACES_FOR_WRONG: u64 = 1500;
const LISTS_FOR_WRONG: u64 = 60;
const JOURNALS_FOR_WRONG: u64 = 6000;
const VALUES_FOR_WRONG: u64 = 20_000;

/// How many journals are cut at every byte.
const JOURNALS_CUT: u64 = 200;

struct Sizes {
    calls: usize,
    traces: u64,
    orders: u64,
    shards: usize,
    journals: u64,
    records: u64,
    seed: u64,
    replay: Option<String>,
    short_slices: Option<String>,
    trace: Option<String>,
}

fn sizes() -> Sizes {
    let mut sizes = Sizes {
        calls: 1_200_000,
        traces: 3000,
        orders: 100_000,
        shards: 220_000,
        journals: 100_000,
        records: 150_000,
        seed: 0,
        replay: None,
        short_slices: None,
        trace: None,
    };
    let mut words = std::env::args().skip(1);
    while let Some(word) = words.next() {
        let value = words.next().unwrap_or_else(|| panic!("{word} needs a value"));
        let number = || value.parse::<u64>().unwrap_or_else(|_| panic!("{word} needs a number"));
        match word.as_str() {
            "--replay" => sizes.replay = Some(value),
            "--short-slices" => sizes.short_slices = Some(value),
            "--trace" => sizes.trace = Some(value),
            "--calls" => sizes.calls = number() as usize,
            "--traces" => sizes.traces = number(),
            "--orders" => sizes.orders = number(),
            "--shards" => sizes.shards = number() as usize,
            "--journals" => sizes.journals = number(),
            "--records" => sizes.records = number(),
            "--seed" => sizes.seed = number(),
            _ => panic!("unknown word {word}"),
        }
    }
    sizes
}

/// What is held beside the Rust, and what a run comes to.
struct Run<'a> {
    sizes: &'a Sizes,
    replay: Option<&'a Program>,
    trace: Option<&'a Program>,
    linked: Option<&'a dyn Ours>,
    original: &'a Original,
    folder: &'a Path,
    differences: usize,
    counts: Vec<String>,
    seen: Seen,
}

impl Run<'_> {
    fn examples(&mut self) {
        let (store, c) = stores::examples(self.replay);
        let (journal, d) = journals::examples(self.original, self.linked);
        println!(
            "document 01's examples, on the Rust: {store} of {} for the store, {journal} of {} for the journal",
            c.scripts, d.journals
        );
        self.differences += c.scripts - store + d.journals - journal + c.model + c.replay + d.model + d.ours;
        self.seen.add(&c.seen);
        self.seen.add(&d.seen);
        let totals = usize::from(traces::example(self.trace));
        println!("request 2027-07's example, with its totals: {totals} of 1");
        self.differences += 1 - totals;
        let mut hold = 0;
        for (says, check) in intended::ALL {
            match check(self.folder) {
                true => hold += 1,
                false => println!("NOT SO: {says}"),
            }
        }
        println!("what docs/DIFFERENCES.md says of the Rust: {hold} of {} hold", intended::ALL.len());
        self.differences += intended::ALL.len() - hold;
    }

    fn store(&mut self) {
        let random = stores::random(self.sizes.seed, self.sizes.calls, self.replay);
        println!("store, random: {random}");
        let short = stores::short_runs(self.replay);
        println!("store, every run of up to {LONGEST} calls of a menu of {}: {short}", menu().len());
        let largest = stores::largest_sweeps(self.replay);
        println!("store, the largest sweeps: {largest}");
        self.differences += random.model + random.replay + short.model + short.replay + largest.model + largest.replay;
        self.differences += self.replay.map_or(0, stores::bad_inputs);
        self.seen.add(&random.seen);
        self.seen.add(&short.seen);
        self.seen.add(&largest.seen);
        self.counts.push(format!("{} store calls", random.calls + short.calls + largest.calls));
        self.counts.push(format!("{} random scripts and {} short runs", random.scripts, short.scripts));
    }

    fn traces(&mut self) {
        let random = traces::random(self.sizes.seed, self.sizes.traces, self.trace);
        println!("traces, random: {random}");
        self.differences += random.unread + random.uneven + random.model + random.program;
        self.seen.add(&random.seen);
        self.counts.push(format!("{} traces of {} calls", random.traces, random.calls));
    }

    fn slices(&mut self) {
        let lines = slices::lines(&mut self.seen);
        for (due, model) in slices::beside_model(None).iter().filter(|(due, model)| due != model) {
            println!("DIFFERENCE between the Rust and the model, lent a slice:\n  the Rust: {due}\n  it:       {model}");
            self.differences += 1;
        }
        if let Some(program) = &self.sizes.short_slices {
            let differences = slices::compare(Path::new(program), &lines);
            println!("slices: {} lines of short_slices, {differences} differences", lines.len());
            self.differences += differences;
            self.counts.push(format!("{} lines of short_slices", lines.len()));
        }
    }

    fn orders(&mut self) {
        let (mut pairs, mut reordered, mut short, mut swept, mut differences) = (0, 0, 0, 0, 0);
        let (mut reversed, mut misplaced, mut ill_swept) = (0, 0, 0);
        for seed in self.sizes.seed..self.sizes.seed + self.sizes.orders {
            match order::try_orders(seed) {
                order::Outcome::NoRoom => {}
                order::Outcome::SameOrder => pairs += 1,
                order::Outcome::Equal { short_rows, swept_rows } => {
                    (pairs, reordered) = (pairs + 1, reordered + 1);
                    (short, swept) = (short + usize::from(short_rows), swept + usize::from(swept_rows));
                }
                order::Outcome::Different(says) => {
                    (pairs, reordered, differences) = (pairs + 1, reordered + 1, differences + 1);
                    println!("DIFFERENCE between two orders: {says}");
                }
            }
            reversed += usize::from(order::reversed_differs(seed));
            misplaced += usize::from(order::wrong_place_differs(seed));
            ill_swept += usize::from(order::wrong_sweep_differs(seed));
        }
        print!("order rule, on the Rust with the model's sender and place: {pairs} pairs with room, ");
        print!("{reordered} truly reordered, {short} of them with short rows, ");
        println!("{swept} with rows of sweeps whose polls come apart, {differences} differences");
        println!("  the reverse of the list, which is no legal order, was told apart in {reversed}");
        println!("  a place counted over all senders, which hangs on the order, was told apart in {misplaced}");
        println!(
            "  a sweep that gives each sender the first nonces, and so is not its polls, was told apart in {ill_swept}"
        );
        self.differences += differences;
        self.counts.push(format!("{reordered} true reorderings"));
    }

    fn shards(&mut self) {
        let random = shards::random(self.sizes.seed, self.sizes.shards, self.replay);
        println!("sharding rule: {random}");
        let lists = shard_strength::answered(self.sizes.seed, LISTS_FOR_WRONG);
        let shared = shard_strength::shared_hashes_differ(&lists);
        println!(
            "  senders that share hashes, which the rule leaves out, were told apart in {shared} of {} lists",
            lists.len()
        );
        self.differences += random.model + random.replay;
        self.seen.add(&random.seen);
        self.counts.push(format!("{} calls split over shards", random.calls));
    }

    fn journal(&mut self) {
        let random = journals::random(self.sizes.seed, self.sizes.journals, self.original, self.linked);
        println!("journal, random: {random}");
        let (cuts, differences) = journals::cuts(self.sizes.seed, JOURNALS_CUT, self.original, self.linked);
        println!("journal, cut at every byte: {cuts} cuts, {differences} differences");
        self.differences += random.model + random.ours + differences;
        self.seen.add(&random.seen);
        self.counts.push(format!("{} journals, {} restores, {cuts} cuts", random.journals, random.restores));
    }

    /// Our functions write records where they are linked; without them, the comparison's own writer and reader are still run.
    fn records(&mut self) {
        let random = writers::random(self.sizes.seed, self.sizes.records, self.linked);
        println!("records, random: {random}");
        self.differences += random.unread + random.ours;
        self.seen.add(&random.seen);
        if self.linked.is_some() {
            self.counts.push(format!("{} values to write, {} records written", random.values, random.written));
        }
    }

    /// Says whether every wrong rule was caught.
    fn strength(&mut self) -> bool {
        let seed = self.sizes.seed;
        println!("wrong rules for the store:");
        let store = store_wrong::ALL;
        let answers = store_strength::answered(seed, SCRIPTS_FOR_WRONG);
        let in_store = store.iter().filter(|(w, says)| store_strength::catches(*w, says, &answers)).count();
        println!("wrong rules for traces:");
        let trace = trace_wrong::ALL;
        let answers = trace_strength::answered(seed, TRACES_FOR_WRONG);
        let in_trace = trace.iter().filter(|(w, says)| trace_strength::catches(*w, says, &answers)).count();
        println!("wrong rules for the sharding rule:");
        let shard = shard_wrong::ALL;
        let answers = shard_strength::answered(seed, LISTS_FOR_WRONG);
        let in_shard = shard.iter().filter(|(w, says)| shard_strength::catches(*w, says, &answers)).count();
        println!("wrong rules for the journal:");
        let journal = journal_wrong::ALL;
        let answers = journal_strength::answered(seed, JOURNALS_FOR_WRONG, self.original);
        let in_journal =
            journal.iter().filter(|(w, says)| journal_strength::catches(*w, says, &answers, self.original)).count();
        println!("wrong rules for the writers:");
        let writer = writer_wrong::ALL;
        let cases = writer_strength::cases(seed, VALUES_FOR_WRONG);
        let in_writer = writer.iter().filter(|(w, says)| writer_strength::catches(*w, says, &cases)).count();
        let caught = [
            (in_store, store.len()),
            (in_trace, trace.len()),
            (in_shard, shard.len()),
            (in_journal, journal.len()),
            (in_writer, writer.len()),
        ];
        let says = caught.map(|(caught, all)| format!("{caught} of {all}"));
        self.counts.push(format!("wrong rules caught {}", says.join(" and ")));
        caught.iter().all(|(caught, all)| caught == all)
    }

    /// Says whether every kind of answer was seen.
    fn seen(&mut self) -> bool {
        print!("refusals and kinds of answers, seen in the Rust's answers, ");
        println!("in the model's senders and places, and in the driver's refusals and records:");
        let (seen, all) = (self.seen.table(), seen::ALL.len());
        self.counts.push(format!("kinds of answers seen {seen} of {all}"));
        seen == all
    }

    /// What was held beside the Rust, and what was not given.
    fn sides(&self) -> String {
        let replay = (self.replay.is_some(), "replay");
        let slices = (self.sizes.short_slices.is_some(), "short_slices");
        let trace = (self.trace.is_some(), "trace");
        let linked = (self.linked.is_some(), "the C functions of fold, restore and writing");
        let named = |wanted: bool| {
            let of = [replay, slices, trace, linked].into_iter().filter(|(given, _)| *given == wanted);
            of.map(|(_, name)| name).collect::<Vec<&str>>().join(", ")
        };
        match (named(true), named(false)) {
            (given, none) if none.is_empty() => format!("the Rust beside {given}, and the model"),
            (none, missing) if none.is_empty() => format!("the Rust beside the model only, without {missing}"),
            (given, missing) => format!("the Rust beside {given}, and the model, without {missing}"),
        }
    }
}

fn main() -> ExitCode {
    let sizes = sizes();
    let scratch = Scratch::new();
    let program = |path: &String| Program::new(Path::new(path), scratch.path());
    let (replay, trace) = (sizes.replay.as_ref().map(program), sizes.trace.as_ref().map(program));
    let linked = ours();
    let original = Original::new(scratch.path());
    let mut run = Run {
        sizes: &sizes,
        replay: replay.as_ref(),
        trace: trace.as_ref(),
        linked: linked.as_deref(),
        original: &original,
        folder: scratch.path(),
        differences: 0,
        counts: Vec::new(),
        seen: Seen::default(),
    };
    run.examples();
    run.store();
    run.traces();
    run.slices();
    run.orders();
    run.shards();
    run.journal();
    run.records();
    let caught = run.strength();
    let seen = run.seen();
    println!("{}: {}; {} differences", run.sides(), run.counts.join(", "), run.differences);
    match caught && seen && run.differences == 0 {
        true => ExitCode::SUCCESS,
        false => ExitCode::FAILURE,
    }
}
