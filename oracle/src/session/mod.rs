//! The session file and its runner, written from document 01, "Session file and runner", and document 02, 2.

pub mod commands;
pub mod file;
pub mod frames;
pub mod lines;
pub mod step;
