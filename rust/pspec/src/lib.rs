#![doc = include_str!("../README.md")]
#![warn(missing_docs)]

mod accesses;
mod asked;
mod blocking;
mod book;
mod causes;
mod editing;
mod holds;
mod idleness;
mod ledger;
mod plan;
pub mod raw;
mod refusal;
mod rules;
mod stored;
mod tally;
mod tree;
mod verdict;

pub use accesses::{Access, Accesses, Action};
pub use asked::Asked;
pub use blocking::{Blocking, Datum};
pub use book::{seal, Book, BLOCK};
pub use causes::Causes;
pub use editing::Editing;
pub use holds::{Hold, Holds};
pub use idleness::Idleness;
pub use ledger::Ledger;
pub use plan::Plan;
pub use refusal::Refusal;
pub use rules::Rules;
pub use stored::WrongLength;
pub use tally::Tally;
pub use tree::{Node, Tree};
pub use verdict::{Broken, Verdict};
