//! One value with the slice that is lent for it, and what its writer is to return and to leave.
use super::fields::record_as;
use super::generate::given;
use super::model::Model;
use super::value::Value;
use crate::journal::brief::brief_value;
use crate::journal::records::Record;

/// What a writer returns, and what it leaves in the slice lent to it.
#[derive(PartialEq, Eq)]
pub struct Handed {
    pub code: u64,
    pub left: Vec<u8>,
}

pub struct Case {
    pub seed: u64,
    pub value: Value,
    pub slice: Vec<u8>,
    pub due: Handed,
}

fn handed(value: &Value, slice: &[u8], write: impl FnOnce(&Value, &mut [u8]) -> u64) -> Handed {
    let mut left = slice.to_vec();
    let code = write(value, &mut left);
    Handed { code, left }
}

impl Case {
    pub fn new(seed: u64) -> Self {
        let (value, slice) = given(seed);
        let due = handed(&value, &slice, |value, out| Model::default().write(value, out));
        Case { seed, value, slice, due }
    }

    /// What another writer does with the value and the slice.
    pub fn by(&self, write: impl FnOnce(&Value, &mut [u8]) -> u64) -> Handed {
        handed(&self.value, &self.slice, write)
    }

    /// The record of the value, if it is inside its layout.
    pub fn record(&self) -> Option<Record> {
        let (record, sound) = record_as(None, &self.value);
        sound.then_some(record)
    }

    /// The bytes that are to be written, if neither the value nor the slice is refused.
    pub fn written(&self) -> Option<&[u8]> {
        let length = (self.due.code / 256) as usize;
        (length > 0).then(|| &self.due.left[..length])
    }

    /// Prints the value, and what is due beside what another writer did.
    pub fn show(&self, other: &Handed) {
        println!("    {}, a slice of {} bytes", brief_value(&self.value), self.slice.len());
        println!("      due:   returns {}", self.due.code);
        println!("      other: returns {}", other.code);
        let pairs = self.due.left.iter().zip(&other.left);
        if let Some((place, (due, found))) = pairs.enumerate().find(|(_, (a, b))| a != b) {
            println!("      the slices differ first at {place}: due {due}, other {found}");
        }
    }
}
