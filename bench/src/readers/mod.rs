//! Plain readers of the formats: std alone, written for the comparison with the proved ones, in the
//! manner of the Rust crate. The bench measures them, and the fuzzing run (`tests/outside/fuzz`) compares
//! what they find.

pub mod config;
pub mod info;
pub mod log1;
pub mod log2;
pub mod map;
pub mod node;
pub mod path;
pub mod pci;
pub mod time;
