//! Books, plans and calls to try an engine with: random ones by a seed, and named ones.
//!
//! The same seed gives the same books on every machine.
//!
//! ```
//! use books::{valid, Random};
//! let one = valid::draft(&mut Random::new(7), valid::Size::Small);
//! let two = valid::draft(&mut Random::new(7), valid::Size::Small);
//! assert_eq!(one.bytes(), two.bytes());
//! ```
#![forbid(unsafe_code)]
#![warn(missing_docs)]

pub mod addresses;
pub mod alike;
pub mod blocked;
pub mod case;
pub mod change;
pub mod change_withdrawn;
pub mod culprits;
pub mod draft;
pub mod edit_lists;
pub mod edits;
pub mod histories;
pub mod named;
pub mod needed;
pub mod numbers;
pub mod plans;
pub mod random;
pub mod records;
pub mod relatives;
pub mod reserve;
pub mod shop;
pub mod trees;
pub mod valid;
pub mod withdrawn;

pub use case::Case;
pub use draft::Draft;
pub use random::Random;
