//! The book of a policy.

use crate::explain;
use crate::mistake::Mistakes;
use crate::policy::Policy;
use pspec::Book;

/// The sealed book, if the engine accepts it; else why not, in the policy's words.
pub fn book(policy: &Policy) -> Result<Book, Mistakes> {
    let book = policy.contents.book();
    book.map_err(|refusal| explain::book(refusal, policy))
}
