//! Blocks of 512 bytes, their check and their unused bytes.

use std::ops::Range;

/// "blocks of 512 bytes"
pub const SIZE: usize = 512;

/// "the sum of (i + 1) × byte i, for i from 0 to 509, modulo 65,521"
pub fn sum(block: &[u8]) -> u32 {
    let terms = (0..510).map(|i| (i as u64 + 1) * u64::from(block[i]));
    (terms.sum::<u64>() % 65_521) as u32
}

/// "Bytes 510 and 511 hold the check, high byte first"
pub fn stored(block: &[u8]) -> u32 {
    256 * u32::from(block[510]) + u32::from(block[511])
}

/// Writes the check into bytes 510 and 511.
pub fn write_check(block: &mut [u8]) {
    let check = sum(block);
    block[510] = (check / 256) as u8;
    block[511] = (check % 256) as u8;
}

/// "Every byte below 510 that no field covers is zero."
pub fn rest_is_zero(block: &[u8], fields: &[Range<usize>]) -> bool {
    (0..510).all(|i| block[i] == 0 || fields.iter().any(|field| field.contains(&i)))
}

#[cfg(test)]
mod tests {
    use super::*;

    #[test]
    fn checks_of_document_01() {
        let mut block = [0; SIZE];
        block[0] = 4;
        assert_eq!(sum(&block), 4);
        block[0] = 0;
        block[509] = 255;
        assert_eq!(sum(&block), 64_529);
    }

    #[test]
    fn only_bytes_outside_fields_must_be_zero() {
        let mut block = [0; SIZE];
        block[7] = 1;
        assert!(rest_is_zero(&block, &[0..2, 7..8]));
        assert!(!rest_is_zero(&block, &[0..2, 8..9]));
        block[7] = 0;
        block[510] = 9;
        assert!(rest_is_zero(&block, &[]));
    }
}
