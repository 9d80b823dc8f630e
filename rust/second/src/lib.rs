//! A second implementation of the thirteen calls of the policy engine.
//!
//! It is written from the sentences of documents 01 and 02, each quoted where it is followed, with
//! ordinary sets, explicit paths and explicit choices. It is made to be read and believed, not to be quick:
//! the engine is tried against it.
//!
//! ```
//! let book = books::named::small_shop().bytes();
//! assert_eq!(second::check(&book), Ok(3));
//! ```
#![forbid(unsafe_code)]
#![warn(missing_docs)]

pub mod access;
pub mod alike;
pub mod block;
pub mod blocked;
pub mod book;
pub mod breaking;
pub mod choice;
pub mod culprits;
pub mod editing;
pub mod hierarchy;
pub mod holds;
pub mod idle;
pub mod ledger;
pub mod operation;
pub mod path;
pub mod plan;
pub mod reading;
pub mod refusal;
pub mod rule;
pub mod shown;
pub mod tree;

mod calls;

pub use calls::{
    ask, blocked, blocked_naive, blocked_within, check, commit, culprits, culprits_naive,
    culprits_within, drop_hold, flows, idle, idle_naive, idle_within, judge, seal, tree, Asked,
};
pub use editing::{arrive, arrive_by, depart, depart_by};
pub use holds::{Holds, Place};
pub use ledger::{Counts, Tally};
pub use refusal::Refusal;
