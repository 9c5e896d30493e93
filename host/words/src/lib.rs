//! Recorded calls for the Rattle program `replay`: its input in the word format
//! of docs/CALLS.md, and what it must print.
//!
//! Every expected line is made from the answer of the unchanged Rust; the port
//! is never run. Of the port's crates only the types of calls and their words
//! are used.
mod answers;
mod calls;
mod recording;
mod store;

pub use recording::Recording;
