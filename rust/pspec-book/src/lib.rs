//! Policies as text, over the safe wrapper of the engine.
//!
//! A policy file names users, data, columns, functions and rules; `build` makes the engine's blocks
//! of it and `show` makes text of blocks again. `report`, `blocked`, `judge`, `flows` and
//! `lineage_tree` put the engine's answers in the policy's names, and `editor` changes a policy's rules with
//! the engine's marks of the idle ones showing.
//!
//! All of this stands outside the proved core. The engine decides whether a book is accepted, which
//! rules a plan breaks and which are idle or blocked; that the text means the blocks is this crate's
//! word, which its tests try.
//!
//! ```
//! let text = "
//! users
//!   Analyst
//! data
//!   All
//!     Name
//!     Price [avg]
//! columns
//!   price: Price
//! rules
//!   Analyst, [projection Price] => [{avg}]
//! ";
//! let policy = pspec_book::policy::read(text)?;
//! let book = pspec_book::build::book(&policy)?;
//! assert_eq!(book.rule_count(), 1);
//! # Ok::<(), pspec_book::mistake::Mistakes>(())
//! ```
#![forbid(unsafe_code)]
#![warn(missing_docs)]

pub mod action;
pub mod arguments;
pub mod blocked;
pub mod breaking;
pub mod build;
pub mod command;
pub mod contents;
pub mod covering;
pub mod drawing;
pub mod edit;
pub mod edit_answer;
pub mod edit_line;
pub mod editor;
pub mod explain;
pub mod fault;
pub mod files;
pub mod help;
pub mod hierarchy;
pub mod html;
pub mod json;
pub mod judge;
pub mod labels;
pub mod lineage;
pub mod lineage_tree;
pub mod mistake;
pub mod named;
pub mod names;
pub mod phrases;
pub mod plan;
pub mod policy;
pub mod policy_text;
pub mod report;
pub mod rule;
pub mod show;
pub mod text;
pub mod tree;
pub mod withdrawn;
pub mod words;
