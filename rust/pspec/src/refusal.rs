//! Why the engine refuses.

use std::error::Error;
use std::fmt;

macro_rules! refusals {
    ($($number:literal $name:ident $({ $place:ident })? $sentence:literal,)*) => {
        /// Why the engine refuses. `include/pspec.h` has the same names and numbers, and
        /// `docs/FORMAT.md` says what causes each and what to do.
        ///
        /// ```
        /// let refusal = pspec::Book::new([]).unwrap_err();
        /// assert_eq!(refusal, pspec::Refusal::BookLength);
        /// assert_eq!(refusal.to_string(), "refused 1: the book is not 4 to 36 blocks of 512 bytes");
        /// ```
        #[derive(Clone, Copy, Debug, PartialEq, Eq, Hash)]
        #[non_exhaustive]
        pub enum Refusal {
            $(
                #[doc = concat!($number, ": ", $sentence, ".")]
                $name $({
                    #[doc = concat!("The ", stringify!($place), " at fault.")]
                    $place: u32,
                })?,
            )*
            /// A number that this wrapper does not know.
            Unknown {
                /// The number.
                number: u32,
                /// The block or row, if it has one.
                place: u32,
            },
        }

        impl Refusal {
            /// The refusal of a number and a place.
            pub fn of(number: u32, place: u32) -> Refusal {
                match number {
                    $($number => Refusal::$name $({ $place: place })?,)*
                    _ => Refusal::Unknown { number, place },
                }
            }

            /// Its number.
            pub fn number(self) -> u32 {
                match self {
                    $(Refusal::$name { .. } => $number,)*
                    Refusal::Unknown { number, .. } => number,
                }
            }

            /// The block or the row at fault; 0 where there is none.
            pub fn place(self) -> u32 {
                match self {
                    $(Refusal::$name $({ $place })? => 0 $(+ $place)?,)*
                    Refusal::Unknown { place, .. } => place,
                }
            }

            /// What is wrong, as a sentence without its full stop.
            pub fn sentence(self) -> &'static str {
                match self {
                    $(Refusal::$name { .. } => $sentence,)*
                    Refusal::Unknown { .. } => "this wrapper does not know the number",
                }
            }

            /// What the place counts, where there is one.
            fn place_name(self) -> Option<&'static str> {
                match self {
                    $(Refusal::$name { .. } => [$(stringify!($place))?].first().copied(),)*
                    Refusal::Unknown { .. } => Some("place"),
                }
            }
        }
    };
}

refusals! {
    1 BookLength "the book is not 4 to 36 blocks of 512 bytes",
    2 BlockCheck { block } "a block has a wrong check",
    3 BlockKind { block } "a block is of the wrong kind",
    4 CountOrZero { block } "a count is out of bounds, or a byte that should be zero is not",
    5 ParentOrOwn { block } "a parent is not lower, a mask of own or withdrawn operations has bit 0, or an operation is in both",
    6 LabelOrFunction { block } "a label is no leaf and not 255, or a function is above 15",
    7 RuleNumber { block } "a rule has a wrong category number, action or exclusion",
    8 SharedLeaf { block } "two references of a rule share a leaf",
    9 MaskOperation { block } "a mask has bit 0, an unsupported operation or a bit for an absent reference",
    10 BlockLength "the block is not 512 bytes",
    20 NoUser "the user is no leaf",
    21 PlanLength "the plan's length is not a multiple of 4, or above 256",
    22 FaultyRow { row } "a row of the plan is faulty",
    23 WordCount "the buffer is not 32 words",
    24 NoRule "there is no such rule",
    25 BufferLength "the buffer is under 36 bytes",
    26 RuleForbids "the rule forbids: it has no restriction",
    27 LedgerLength "the ledger is not 1,024 words",
    28 CountsFull "the user's admitted, dropped, held and declined plans together are already 1,000,000 or more",
    29 NoValueRow "the row is absent, or no Column, Apply or Choose",
    30 TreeSize "the tree has above 4,096 nodes, or its text exceeds the buffer",
    31 PlacesFull "eight plans are held already, over all users",
    32 NotHeld "the user holds no plan under this number",
    33 RulesFull "the record has 32 rules or more",
}

impl fmt::Display for Refusal {
    fn fmt(&self, f: &mut fmt::Formatter<'_>) -> fmt::Result {
        write!(f, "refused {}", self.number())?;
        if let Some(name) = self.place_name() {
            write!(f, " at {name} {}", self.place())?;
        }
        write!(f, ": {}", self.sentence())
    }
}

impl Error for Refusal {}

#[cfg(test)]
mod tests {
    use super::*;

    #[test]
    fn numbers_and_places_come_back() {
        for number in 0..256 {
            let refusal = Refusal::of(number, 7);
            assert_eq!(refusal.number(), number);
            let placed = matches!(number, 2..=9 | 22) || matches!(refusal, Refusal::Unknown { .. });
            assert_eq!(refusal.place(), if placed { 7 } else { 0 });
        }
    }

    #[test]
    fn a_place_is_said_where_there_is_one() {
        let said = |number, place| Refusal::of(number, place).to_string();
        assert!(said(22, 63).starts_with("refused 22 at row 63: "));
        assert!(said(9, 4).starts_with("refused 9 at block 4: "));
        assert!(said(24, 0).starts_with("refused 24: "));
        assert!(said(99, 3).starts_with("refused 99 at place 3: "));
    }
}
