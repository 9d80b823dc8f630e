//! What is read back from stored bytes.

use std::error::Error;
use std::fmt;

/// Bytes that are no stored [`Ledger`](crate::Ledger), [`Tally`](crate::Tally),
/// [`Holds`](crate::Holds) or [`Editing`](crate::Editing), as they are too many or too few.
///
/// ```
/// let wrong = pspec::Ledger::from_bytes(&[0; 8_191]).unwrap_err();
/// assert_eq!(wrong.to_string(), "found 8191 bytes; expected 8192");
/// ```
#[derive(Clone, Copy, Debug, PartialEq, Eq, Hash)]
pub struct WrongLength {
    /// The bytes that there are.
    pub found: usize,
    /// The bytes that there should be.
    pub expected: usize,
}

impl WrongLength {
    /// The bytes, if they are as many as expected.
    pub(crate) fn exact<const N: usize>(bytes: &[u8]) -> Result<&[u8; N], WrongLength> {
        let (found, expected) = (bytes.len(), N);
        let wrong = WrongLength { found, expected };
        bytes.try_into().map_err(|_| wrong)
    }
}

impl fmt::Display for WrongLength {
    fn fmt(&self, f: &mut fmt::Formatter<'_>) -> fmt::Result {
        let WrongLength { found, expected } = self;
        write!(f, "found {found} bytes; expected {expected}")
    }
}

impl Error for WrongLength {}

/// Numbers of 4 bytes each, little-endian.
pub(crate) fn numbers(bytes: &[u8]) -> impl Iterator<Item = u32> + '_ {
    bytes.chunks_exact(4).map(|bytes| number(bytes) as u32)
}

/// Words of 8 bytes each, little-endian.
pub(crate) fn words(bytes: &[u8]) -> impl Iterator<Item = u64> + '_ {
    bytes.chunks_exact(8).map(number)
}

fn number(bytes: &[u8]) -> u64 {
    let behind = |number, &byte: &u8| number << 8 | u64::from(byte);
    bytes.iter().rfold(0, behind)
}
