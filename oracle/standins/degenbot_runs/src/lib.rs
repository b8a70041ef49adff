//! A stand-in for degenbot_runs: the folder of the live journal, which no comparison opens.
use std::io;
use std::path::PathBuf;

pub fn resolve_state_root() -> io::Result<PathBuf> {
    Err(io::Error::new(io::ErrorKind::Unsupported, "the oracle has no state folder"))
}
