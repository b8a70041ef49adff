//! The writers of records: values for them, what they are to return and to leave, wrong rules, and the comparison.
pub mod case;
pub mod compare;
mod fields;
mod generate;
mod model;
pub mod strength;
pub mod value;
pub mod wrong;
