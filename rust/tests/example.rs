//! What the examples print, and their status: `fold.stdout` of the journal of the program `fold`, `write.stdout`, and the
//! messages of the example `fold`.

use std::process::{Command, Output};

fn example(name: &str, words: &[&str]) -> Output {
    let mut cargo = Command::new(env!("CARGO"));
    cargo.current_dir(env!("CARGO_MANIFEST_DIR")).args(["run", "--quiet", "--example", name, "--"]).args(words);
    cargo.output().expect("cargo runs")
}

fn assert_printed(output: Output, lines: &str) {
    assert_eq!(String::from_utf8_lossy(&output.stdout), lines);
    assert_eq!((output.stderr.len(), output.status.code()), (0, Some(0)));
}

fn assert_message(words: &[&str], message: &str, status: i32) {
    let output = example("fold", words);
    assert_eq!(String::from_utf8_lossy(&output.stderr), message);
    assert_eq!((output.stdout.len(), output.status.code()), (0, Some(status)));
}

#[test]
fn totals_and_a_line_for_each_record() {
    assert_printed(example("fold", &["../crates/fold/stdin"]), include_str!("fold.stdout"));
}

#[test]
fn a_journal_written_and_folded() {
    assert_printed(example("write", &[]), include_str!("write.stdout"));
}

#[test]
fn not_one_file() {
    assert_message(&[], "usage: fold FILE\n", 2);
    assert_message(&["one", "two"], "usage: fold FILE\n", 2);
}

#[test]
fn no_such_file() {
    assert_message(&["nowhere"], "fold: nowhere: No such file or directory (os error 2)\n", 1);
}

#[test]
fn a_refused_journal() {
    let file = concat!(env!("CARGO_TARGET_TMPDIR"), "/bad");
    std::fs::write(file, b"QX\x05\0\0\0\0\0\0\0??").expect("a file that can be written");
    assert_message(&[file], &format!("fold: {file}: refusal 10 at byte 10: unknown mark\n"), 1);
}

#[test]
fn an_endless_file() {
    assert_message(&["/dev/zero"], "fold: /dev/zero: refusal 9 at byte 65536: journal over 65,536 bytes\n", 1);
}
