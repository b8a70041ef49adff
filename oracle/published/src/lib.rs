//! The two published files, compiled unchanged and in place.
include!(concat!(env!("OUT_DIR"), "/modules.rs"));
