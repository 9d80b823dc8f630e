//! Why a call refuses.

/// A refusal: its number, and its place. "Places not named are 0."
#[derive(Clone, Copy, Debug, PartialEq, Eq)]
pub struct Refusal {
    /// The document's number.
    pub number: u32,
    /// The block or the row, where the document names one.
    pub place: u32,
}

impl Refusal {
    /// A refusal whose place is not named.
    pub fn of(number: u32) -> Refusal {
        Refusal { number, place: 0 }
    }

    /// A refusal at a block or a row.
    pub fn at(number: u32, place: usize) -> Refusal {
        let place = u32::try_from(place).expect("blocks and rows are few");
        Refusal { number, place }
    }
}

/// "1: length not 512 times 4 to 36, place 0."
pub const BOOK_LENGTH: u32 = 1;
/// "2: lowest block with a wrong check."
pub const WRONG_CHECK: u32 = 2;
/// "3: lowest block of the wrong kind."
pub const WRONG_KIND: u32 = 3;
/// "4, a count outside its bounds (too low or too high) or a byte that should be zero and isn't"
pub const COUNT_OR_ZERO: u32 = 4;
/// "5, parent or own-operation law"; and document 02, N9: "An operation in both masks, or bit 0 in
/// either, is refusal 5."
pub const PARENT_OR_OWN: u32 = 5;
/// "6, a label that is no leaf and not 255, or a function above 15"
pub const LABEL_OR_FUNCTION: u32 = 6;
/// "7, a rule's category number, action or exclusion"
pub const RULE_NUMBERS: u32 = 7;
/// "8, references sharing a leaf"
pub const SHARED_LEAF: u32 = 8;
/// "9, a mask with bit 0, an unsupported operation or a set bit for an absent reference"
pub const MASK: u32 = 9;
/// "10, not 512 bytes."
pub const BLOCK_LENGTH: u32 = 10;
/// "20, the user is no leaf"
pub const NO_USER: u32 = 20;
/// "21, plan length not a multiple of 4 or above 256"
pub const PLAN_LENGTH: u32 = 21;
/// "22, lowest faulty row, place the row"
pub const FAULTY_ROW: u32 = 22;
/// "23, buffer not 32 words"
pub const WORDS_LENGTH: u32 = 23;
/// "24, no such rule"
pub const NO_RULE: u32 = 24;
/// "25, buffer under 36 bytes"
pub const SHORT_BUFFER: u32 = 25;
/// "26 if the rule forbids"
pub const RULE_FORBIDS: u32 = 26;
/// "27 for a ledger not of 1,024 words"
pub const LEDGER_LENGTH: u32 = 27;
/// "28 is now for an ask when that sum is 1,000,000 or more"
pub const COUNTS_FULL: u32 = 28;
/// "29 if the row is absent or not of kind 1 to 3"
pub const NO_VALUE_ROW: u32 = 29;
/// "30 if the tree has above 4,096 nodes or its text exceeds the buffer"
pub const TREE_SIZE: u32 = 30;
/// "31 exactly while eight are held"
pub const EIGHT_HELD: u32 = 31;
/// "32 for a number that user doesn't hold"
pub const NOT_HELD: u32 = 32;
/// "an arrival at 32 rules or more is 33, tested first"
pub const RULES_FULL: u32 = 33;
