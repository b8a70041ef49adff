//! The quarantine beside the published Rust.
#[macro_use]
mod sayings;
pub mod hex;
pub mod intended;
pub mod journal;
pub mod program;
pub mod random;
mod report;
pub mod scratch;
pub mod seen;
pub mod shrink;
pub mod speed;
pub mod store;
