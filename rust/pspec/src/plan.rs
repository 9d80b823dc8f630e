//! A plan's bytes.

use std::fmt;

/// A plan: rows of four bytes, as `docs/FORMAT.md` says.
///
/// Any bytes make one. Whether they are a plan depends on the book, and is said by the call that
/// takes both. It is written as eight hexadecimal digits a row:
///
/// ```
/// let plan = pspec::Plan::new([1, 2, 0, 0, 4, 0, 0, 0]); // column 2, put out
/// assert_eq!(plan.to_string(), "01020000 04000000");
/// ```
#[derive(Clone, Debug, Default, PartialEq, Eq, Hash)]
pub struct Plan {
    bytes: Vec<u8>,
}

impl Plan {
    /// The plan with these bytes.
    pub fn new(bytes: impl Into<Vec<u8>>) -> Plan {
        let bytes = bytes.into();
        Plan { bytes }
    }

    /// The bytes, four a row.
    pub fn bytes(&self) -> &[u8] {
        &self.bytes
    }

    /// The rows: kind, a, b, c. Bytes after the last whole row are in none.
    pub fn rows(&self) -> impl Iterator<Item = [u8; 4]> + '_ {
        let rows = self.bytes.chunks_exact(4);
        rows.map(|row| [row[0], row[1], row[2], row[3]])
    }
}

impl fmt::Display for Plan {
    fn fmt(&self, f: &mut fmt::Formatter<'_>) -> fmt::Result {
        for (i, row) in self.bytes.chunks(4).enumerate() {
            f.write_str(if i == 0 { "" } else { " " })?;
            for byte in row {
                write!(f, "{byte:02x}")?;
            }
        }
        Ok(())
    }
}
