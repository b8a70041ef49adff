//! The journal: records and their writers, the Rust, a model of document 01, our C functions, and where their inputs come from.
mod brief;
pub mod case;
pub mod compare;
pub mod examples;
pub mod generate;
pub mod items;
pub mod layout;
pub mod lines;
pub mod model;
pub mod original;
pub mod ours;
pub mod outcome;
pub mod records;
mod refusals;
pub mod strength;
#[cfg(fold_linked)]
mod writers;
pub mod writing;
pub mod wrong;
