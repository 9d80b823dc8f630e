//! Why a command gives no answer.

/// Why a command gives no answer.
#[derive(Clone, Debug, PartialEq, Eq)]
pub enum Fault {
    /// The arguments are wrong.
    Usage(String),
    /// A file can't be read or written, or the names are not the book's.
    File(String),
    /// The policy, the book, the user, the plan or the row is refused.
    Refused(String),
}
