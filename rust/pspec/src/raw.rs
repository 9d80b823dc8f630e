//! The calls as C has them: slices in, one packed number out. For tests and timing, which want every
//! buffer and every number as the engine leaves it; a gate uses [`Book`](crate::Book).
//!
//! A slice goes over as its pointer and its length in elements; the pointer of an empty slice is not
//! null, as in Rust. An answer is number × 2^40 + place × 2^32 + value, where number is 0 if nothing
//! is refused. In that of `ask` for a held plan 1 stands in the field of the place: see [`held`].

use crate::Refusal;

/// The bytes of the blocks in a record that is edited: room for the longest book.
pub const BLOCKS: usize = 18_432;
/// The words that `flows` fills.
pub const WORDS: usize = 32;
/// The bytes that `idle` asks of its buffer.
pub const BUFFER: usize = 36;
/// The words of a ledger: [`WORDS`] for each user number.
pub const LEDGER: usize = 1_024;
/// The places of a hold record.
pub const PLACES: usize = 8;
/// Bytes with room for every text that `tree` writes: 4,096 nodes of at most 136 bytes.
pub const TREE: usize = 4_096 * 136;

/// The tally as C has it: three counts for each user number.
#[repr(C)]
#[derive(Clone, Copy, Debug, Default, PartialEq, Eq, Hash)]
pub struct Tally {
    /// The plans admitted, by user number.
    pub admitted: [u32; 32],
    /// The plans declined, by user number.
    pub declined: [u32; 32],
    /// The plans dropped, by user number.
    pub dropped: [u32; 32],
}

/// The hold record as C has it: a user, a number and [`WORDS`] words for each place. A place whose number
/// is 0 is empty, whatever else it has.
#[repr(C)]
#[derive(Clone, Copy, Debug, PartialEq, Eq, Hash)]
pub struct Holds {
    /// The user of each place.
    pub users: [u32; PLACES],
    /// The number that was given to each place.
    pub numbers: [u32; PLACES],
    /// The accesses of each place, laid out as `flows` does.
    pub words: [u64; PLACES * WORDS],
}

/// All zero: every place is empty.
impl Default for Holds {
    fn default() -> Holds {
        Holds {
            users: [0; PLACES],
            numbers: [0; PLACES],
            words: [0; PLACES * WORDS],
        }
    }
}

mod c {
    extern "C" {
        pub fn pspec_check(book: *const u8, book_len: usize) -> u64;
        pub fn pspec_seal(block: *mut u8, block_len: usize) -> u64;
        pub fn pspec_flows(
            book: *const u8,
            book_len: usize,
            plan: *const u8,
            plan_len: usize,
            words: *mut u64,
            words_len: usize,
        ) -> u64;
        pub fn pspec_judge(
            book: *const u8,
            book_len: usize,
            user: u32,
            plan: *const u8,
            plan_len: usize,
        ) -> u64;
        pub fn pspec_idle(
            book: *const u8,
            book_len: usize,
            rule: u32,
            buffer: *mut u8,
            buffer_len: usize,
        ) -> u64;
        pub fn pspec_blocked(book: *const u8, book_len: usize, rule: u32) -> u64;
        pub fn pspec_culprits(book: *const u8, book_len: usize, rule: u32) -> u64;
        pub fn pspec_ask(
            book: *const u8,
            book_len: usize,
            user: u32,
            plan: *const u8,
            plan_len: usize,
            ledger: *const u64,
            ledger_len: usize,
            tally: *mut super::Tally,
            holds: *mut super::Holds,
        ) -> u64;
        pub fn pspec_commit(
            book: *const u8,
            book_len: usize,
            user: u32,
            number: u32,
            ledger: *mut u64,
            ledger_len: usize,
            tally: *mut super::Tally,
            holds: *mut super::Holds,
        ) -> u64;
        pub fn pspec_drop(
            book: *const u8,
            book_len: usize,
            user: u32,
            number: u32,
            ledger: *const u64,
            ledger_len: usize,
            tally: *mut super::Tally,
            holds: *mut super::Holds,
        ) -> u64;
        pub fn pspec_tree(
            book: *const u8,
            book_len: usize,
            plan: *const u8,
            plan_len: usize,
            row: u32,
            buffer: *mut u8,
            buffer_len: usize,
        ) -> u64;
        pub fn pspec_arrive(
            blocks: *mut u8,
            rules: *mut u32,
            marks: *mut u32,
            block: *const u8,
            block_len: usize,
        ) -> u64;
        pub fn pspec_depart(blocks: *mut u8, rules: *mut u32, marks: *mut u32, rule: u32) -> u64;
    }
}

/// The book check. Value: the number of rules.
pub fn check(book: &[u8]) -> u64 {
    // SAFETY: the pointer and the length are those of one slice, which the call only reads.
    unsafe { c::pspec_check(book.as_ptr(), book.len()) }
}

/// Writes a block's check. Value: 0.
pub fn seal(block: &mut [u8]) -> u64 {
    // SAFETY: as above; the call may write, and the slice is lent to be written.
    unsafe { c::pspec_seal(block.as_mut_ptr(), block.len()) }
}

/// Writes a plan's accesses. Value: 0.
pub fn flows(book: &[u8], plan: &[u8], words: &mut [u64]) -> u64 {
    let (to, room) = (words.as_mut_ptr(), words.len());
    // SAFETY: as above; the buffer overlaps neither the book nor the plan, as it is lent alone.
    unsafe {
        c::pspec_flows(
            book.as_ptr(),
            book.len(),
            plan.as_ptr(),
            plan.len(),
            to,
            room,
        )
    }
}

/// Which rules a user and a plan break. Value: bit r for rule r.
pub fn judge(book: &[u8], user: u32, plan: &[u8]) -> u64 {
    // SAFETY: as above; the call only reads.
    unsafe { c::pspec_judge(book.as_ptr(), book.len(), user, plan.as_ptr(), plan.len()) }
}

/// Whether a rule is idle. Value: see `shown`; the plan is at the buffer's front.
pub fn idle(book: &[u8], rule: u32, buffer: &mut [u8]) -> u64 {
    let (to, room) = (buffer.as_mut_ptr(), buffer.len());
    // SAFETY: as above; the buffer does not overlap the book, as it is lent alone.
    unsafe { c::pspec_idle(book.as_ptr(), book.len(), rule, to, room) }
}

/// Whether a rule speaks of data that no operation can open. Value: see `closed`.
pub fn blocked(book: &[u8], rule: u32) -> u64 {
    // SAFETY: as above; the call only reads.
    unsafe { c::pspec_blocked(book.as_ptr(), book.len(), rule) }
}

/// Which few rules close the data that `blocked` names. Value: see `others`.
pub fn culprits(book: &[u8], rule: u32) -> u64 {
    // SAFETY: as above; the call only reads.
    unsafe { c::pspec_culprits(book.as_ptr(), book.len(), rule) }
}

/// Holds a user's plan or declines it. The answer of a held plan is 2^32 + its number: see [`held`]. The
/// value of a declined one is the mask of the rules that it breaks with the user's words and held plans.
pub fn ask(
    book: &[u8],
    user: u32,
    plan: &[u8],
    ledger: &[u64],
    tally: &mut Tally,
    holds: &mut Holds,
) -> u64 {
    // SAFETY: as above; the tally and the hold record are laid out as in C, and each is lent alone.
    unsafe {
        c::pspec_ask(
            book.as_ptr(),
            book.len(),
            user,
            plan.as_ptr(),
            plan.len(),
            ledger.as_ptr(),
            ledger.len(),
            tally,
            holds,
        )
    }
}

/// Admits the plan that a user holds under this number. Value: the number.
pub fn commit(
    book: &[u8],
    user: u32,
    number: u32,
    ledger: &mut [u64],
    tally: &mut Tally,
    holds: &mut Holds,
) -> u64 {
    let (to, room) = (ledger.as_mut_ptr(), ledger.len());
    // SAFETY: as above; the ledger may be written too, and is lent alone.
    unsafe {
        c::pspec_commit(
            book.as_ptr(),
            book.len(),
            user,
            number,
            to,
            room,
            tally,
            holds,
        )
    }
}

/// Forgets the plan that a user holds under this number. Value: the number.
pub fn drop_hold(
    book: &[u8],
    user: u32,
    number: u32,
    ledger: &[u64],
    tally: &mut Tally,
    holds: &mut Holds,
) -> u64 {
    // SAFETY: as above; the ledger is only read.
    unsafe {
        c::pspec_drop(
            book.as_ptr(),
            book.len(),
            user,
            number,
            ledger.as_ptr(),
            ledger.len(),
            tally,
            holds,
        )
    }
}

/// Writes the lineage tree of a row. Value: see `drawn`; the text is at the buffer's front.
pub fn tree(book: &[u8], plan: &[u8], row: u32, buffer: &mut [u8]) -> u64 {
    let (to, room) = (buffer.as_mut_ptr(), buffer.len());
    // SAFETY: as above; the buffer overlaps neither the book nor the plan, as it is lent alone.
    unsafe {
        c::pspec_tree(
            book.as_ptr(),
            book.len(),
            plan.as_ptr(),
            plan.len(),
            row,
            to,
            room,
        )
    }
}

/// Puts a rule behind the last one of the book at the front of the blocks. Value: the new marks, bit r
/// for an idle rule r.
pub fn arrive(blocks: &mut [u8; BLOCKS], rules: &mut u32, marks: &mut u32, block: &[u8]) -> u64 {
    let (from, length) = (block.as_ptr(), block.len());
    // SAFETY: as above; blocks, rules and marks are each lent alone, and the blocks are as many bytes as
    // the call has there.
    unsafe { c::pspec_arrive(blocks.as_mut_ptr(), rules, marks, from, length) }
}

/// Takes a rule out of the book at the front of the blocks; later ones move down. Value: the new marks.
pub fn depart(blocks: &mut [u8; BLOCKS], rules: &mut u32, marks: &mut u32, rule: u32) -> u64 {
    // SAFETY: as above.
    unsafe { c::pspec_depart(blocks.as_mut_ptr(), rules, marks, rule) }
}

/// The value of an answer, or its refusal. Of `ask` only where [`held`] is none: the value is then the
/// mask, and else the number.
pub fn value(answer: u64) -> Result<u32, Refusal> {
    let number = (answer >> 40) as u32;
    let place = (answer >> 32) as u32 & 255;
    match number {
        0 => Ok(answer as u32),
        _ => Err(Refusal::of(number, place)),
    }
}

/// The user and the number of rows in a value of `idle`; none for an idle rule, as a shown plan has
/// at least two rows.
pub fn shown(value: u32) -> Option<(u32, u32)> {
    match value {
        0 => None,
        _ => Some((value / 256, value % 256)),
    }
}

/// The user and the byte of each reference in a value of `blocked`; none for a rule that is open, as
/// the first byte of a closed one is not 0. A byte is 128 + 64 × action + leaf, and 0 for an absent
/// reference.
pub fn closed(value: u32) -> Option<(u32, [u8; 3])> {
    match (value, value.to_be_bytes()) {
        (0, _) => None,
        (_, [user, third, second, first]) => Some((user.into(), [first, second, third])),
    }
}

/// The mask of the other rules in a value of `culprits` for this rule; none where it is not blocked, as
/// the value of a blocked one has the rule's own bit too.
pub fn others(value: u32, rule: u32) -> Option<u32> {
    let asking = 1u32.checked_shl(rule).unwrap_or(0);
    match value {
        0 => None,
        _ => Some(value & !asking),
    }
}

/// The number of the hold in an answer of `ask`; none where the plan is declined or something is refused,
/// as a mask is below 2^32 and a refusal 2^40 or more.
pub fn held(answer: u64) -> Option<u32> {
    (answer >> 32 == 1).then_some(answer as u32)
}

/// The nodes and the text's bytes in a value of `tree`. A tree has at least one node, so the value has
/// one less.
pub fn drawn(value: u32) -> (u32, u32) {
    ((value >> 20) + 1, value & 0xF_FFFF)
}

#[cfg(test)]
mod tests {
    use super::*;
    use std::mem::{align_of, offset_of, size_of};

    #[test]
    fn a_tally_is_laid_out_as_in_c() {
        assert_eq!((size_of::<Tally>(), align_of::<Tally>()), (384, 4));
        assert_eq!(offset_of!(Tally, admitted), 0);
        assert_eq!(offset_of!(Tally, declined), 128);
        assert_eq!(offset_of!(Tally, dropped), 256);
    }

    #[test]
    fn a_hold_record_is_laid_out_as_in_c() {
        assert_eq!((size_of::<Holds>(), align_of::<Holds>()), (2_112, 8));
        assert_eq!(offset_of!(Holds, users), 0);
        assert_eq!(offset_of!(Holds, numbers), 32);
        assert_eq!(offset_of!(Holds, words), 64);
    }

    #[test]
    fn values() {
        assert_eq!(value(0), Ok(0));
        assert_eq!(value(0xFFFF_FFFF), Ok(u32::MAX));
        let refusal = Refusal::FaultyRow { row: 63 };
        assert_eq!(value((22 << 40) + (63 << 32)), Err(refusal));
        assert!(value(1 << 63).is_err());
    }

    /// At both ends of a number, of a mask and of a refusal.
    #[test]
    fn numbers_of_holds() {
        assert_eq!(held((1 << 32) + 1), Some(1));
        assert_eq!(held((1 << 32) + 1_000_000), Some(1_000_000));
        assert_eq!(held((1 << 33) - 1), Some(u32::MAX));
        for declined in [1, 1_000_000, (1 << 32) - 1] {
            assert_eq!(
                (held(declined), value(declined)),
                (None, Ok(declined as u32))
            );
        }
        for refusal in [1 << 40, (22 << 40) + (1 << 32), 31 << 40] {
            assert_eq!(held(refusal), None);
            assert!(value(refusal).is_err());
        }
    }

    #[test]
    fn users_and_rows() {
        assert_eq!(shown(0), None);
        assert_eq!(shown(2), Some((0, 2)));
        assert_eq!(shown(31 * 256 + 9), Some((31, 9)));
    }

    #[test]
    fn users_and_bytes() {
        assert_eq!(closed(0), None);
        assert_eq!(closed(128), Some((0, [128, 0, 0])));
        let value = 31 * (1 << 24) + 255 * (1 << 16) + 130 * 256 + 195;
        assert_eq!(closed(value), Some((31, [195, 130, 255])));
    }

    #[test]
    fn rules_but_the_asking_one() {
        assert_eq!(others(0, 5), None);
        assert_eq!(others(1 << 31, 31), Some(0));
        assert_eq!(others(0b1011, 0), Some(0b1010));
        assert_eq!(others(u32::MAX, 31), Some(u32::MAX >> 1));
        // No value is of such a rule, but nothing is shifted out.
        assert_eq!(others(0b11, 32), Some(0b11));
        assert_eq!(others(0b11, u32::MAX), Some(0b11));
    }

    #[test]
    fn nodes_and_bytes() {
        assert_eq!(drawn(9), (1, 9));
        assert_eq!(drawn(4_095 * (1 << 20) + TREE as u32), (4_096, 557_056));
        assert_eq!(drawn(u32::MAX), (4_096, 0xF_FFFF));
    }
}
