//! The Rust itself, unchanged, with the oracle's doors to its private parts.

include!(concat!(env!("GEAR_SOURCE_ABS"), "/crates/dali2rust-gear-model/src/gear.rs"));
#[path = "../../../oracle/src/gear/access.rs"]
pub mod access;
