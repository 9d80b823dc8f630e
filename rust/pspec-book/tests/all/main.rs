//! The examples, every mistake, the program, withdrawn operations, random books there and back, edits, and
//! texts of any kind.

mod any_rows;
mod any_text;
mod blocked;
mod commands;
mod common;
mod edit;
mod edit_files;
mod examples;
mod format;
mod idle;
mod imports;
mod lineage_tree;
mod mistakes;
mod page;
mod program;
mod round_trip;
mod running;
mod scripts;
mod stopped;
mod withdrawn;
