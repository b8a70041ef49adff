//! What the speed table needs beside the comparisons.
pub mod store_loops;
