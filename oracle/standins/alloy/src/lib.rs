//! A stand-in for alloy: only what the two published files use, written from document 01's rules.
//! What alloy does with texts that document 01 does not speak of is a guess; the README lists those places.
mod bytes;
mod fixed;
pub mod hex;
mod uint;

pub mod primitives {
    pub use crate::bytes::Bytes;
    pub use crate::fixed::{Address, B256};
    pub use crate::uint::U256;

    pub mod ruint {
        pub use crate::uint::ParseError;
    }
}
