//! The bytes of document 01's tables of writes and of queries, in order.

use dali2rust_domain::dali::pres::standard::StandardCommand;

pub fn write_bytes() -> Vec<u8> {
    (0..=255).filter(|byte| StandardCommand::write(*byte).is_some()).collect()
}

pub fn query_bytes() -> Vec<u8> {
    (0..=255).filter(|byte| StandardCommand::query(*byte).is_some()).collect()
}
