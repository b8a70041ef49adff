//! Folds the journal of a file and restores what is pending: `cargo run --example fold -- FILE`.
//!
//! The status is 2 if not just one file is named, and 1 if it cannot be read or its journal is refused. A record that restore
//! refuses is a line like any other.

mod pending;

use std::error::Error;
use std::ffi::OsString;
use std::fs::File;
use std::io::Read;
use std::path::Path;
use std::process::ExitCode;

fn main() -> ExitCode {
    let words: Vec<OsString> = std::env::args_os().collect();
    let [_, file] = words.as_slice() else {
        eprintln!("usage: fold FILE");
        return ExitCode::from(2);
    };
    let file = Path::new(file);
    if let Err(error) = tell(file) {
        eprintln!("fold: {}: {error}", file.display());
        return ExitCode::from(1);
    }
    ExitCode::SUCCESS
}

/// One byte more than a fold takes, so that a longer file is refused with 9 and is not read whole.
const LONGEST: u64 = 65_537;

fn tell(file: &Path) -> Result<(), Box<dyn Error>> {
    let mut journal = Vec::new();
    File::open(file)?.take(LONGEST).read_to_end(&mut journal)?;
    Ok(pending::tell(&journal)?)
}
