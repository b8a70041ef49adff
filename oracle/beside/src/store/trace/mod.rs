//! Traces of calls: how they are read, what is to be printed of them, their generator, wrong rules, and the comparison.
pub mod compare;
pub mod generate;
pub mod lines;
pub mod strength;
pub mod totals;
pub mod wrong;
