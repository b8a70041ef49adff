//! Scripts for our program `replay`, many at a time.
use super::script::{Script, INPUT_LIMIT};

/// Scripts gathered for one run of the program, with the lines that are due.
#[derive(Default)]
pub struct Batch {
    pub scripts: Vec<Script>,
    pub input: Vec<u8>,
    pub lines: String,
}

impl Batch {
    /// Whether this many more bytes keep the input within the program's limit.
    pub fn has_room(&self, more: usize) -> bool {
        self.input.len() + 4 + more <= INPUT_LIMIT
    }
}

/// The first script for which the two texts differ, and its line in both.
pub fn first_difference(expected: &str, found: &str) -> Option<(usize, String, String)> {
    let (mut left, mut right) = (expected.lines(), found.lines());
    let mut script = 0;
    loop {
        match (left.next(), right.next()) {
            (None, None) => return None,
            (a, b) if a == b => {
                if let Some(number) = a.and_then(|line| line.strip_prefix("== ")) {
                    script = number.parse().unwrap_or(script);
                }
            }
            (a, b) => return Some((script, a.unwrap_or("(nothing)").to_string(), b.unwrap_or("(nothing)").to_string())),
        }
    }
}
