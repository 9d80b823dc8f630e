//! Asks, commits and drops in document 01's small shop, worked out by hand, records that no list of calls reaches,
//! and a user's replies beside those of others (document 02, N3, N8 and N10).

mod admitted;
mod alike;
mod histories;
mod kept;
mod no_list;
mod refusals;
