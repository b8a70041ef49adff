//! The sharding rule, tried on the Rust itself: lists of calls that hold more frames than one store of ours has room for. They are
//! made on the Rust as one store without limits, and on many stores with document 01's, each of which is sent the calls of its
//! senders, and every reorganisation and finality. What the stores answer, joined, is what the one store answers.
pub mod compare;
mod generate;
pub mod join;
pub mod route;
mod stores;
pub mod strength;
pub mod wrong;
