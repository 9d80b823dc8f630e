//! Tries one engine against another on random books: all thirteen calls, answers, buffers and records.
#![forbid(unsafe_code)]
#![warn(missing_docs)]

pub mod actions;
pub mod alike;
pub mod answer;
pub mod categories;
pub mod closed;
pub mod compare;
pub mod culprits;
pub mod edit_counts;
pub mod edits;
pub mod engine;
pub mod histories;
pub mod hold_counts;
pub mod kept;
pub mod kinds;
pub mod mixing;
pub mod reached;
pub mod records;
pub mod run;
pub mod steps;
pub mod text;
pub mod tree;
pub mod tree_counts;
pub mod withdrawn_counts;
pub mod words;

pub use compare::Difference;
pub use engine::Engine;
pub use reached::Reached;
pub use run::{run, Limit};
