//! Stand-in for the crate `dali2rust_platform`: the outcome of a query, the one name gear.rs takes.

pub mod dali {
    /// Document 01, "Session file and runner": "a decimal answer or `-` (none)". A query has one
    /// byte for an answer, or no answer; the two names are those that gear.rs builds.
    #[derive(Debug, Clone, Copy, PartialEq, Eq)]
    pub enum TransferOutcome {
        Answer(u8),
        NoAnswer,
    }
}
