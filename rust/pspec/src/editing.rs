//! A book whose rules arrive and leave, with the marks of its idle ones.

use crate::raw::{self, BLOCKS};
use crate::stored::numbers;
use crate::{Book, Refusal, Rules, WrongLength, BLOCK};
use std::fmt;

/// The blocks of a book before its rules.
const HEAD: usize = 4;

/// A book that is edited, and the marks of its idle rules: rules arrive at the end or leave by number, later
/// ones moving down, and after each edit the marks say which rules are idle.
///
/// The marks are those that [`Book::idle`] gives afresh for each rule, after every list of edits of one that
/// was made by [`Editing::new`]. No arrival makes an idle rule needed, and no departure makes a needed rule
/// idle; so an arrival keeps the marks that are set, a departure those that are clear, and only the others
/// are searched for.
///
/// To be stored it is 18,440 bytes: the blocks, with zero bytes behind the book, then the number of rules
/// and the marks, 32 bits each, little-endian. Any bytes make one. A book that is not accepted is refused by
/// the next edit and by [`Editing::book`]. Marks that are wrong stay so as far as an edit keeps marks:
/// `Editing::new` of the book makes right ones.
///
/// ```
/// use pspec::{Book, Editing, Refusal, BLOCK};
///
/// # let bytes = books::named::small_shop().bytes();
/// let book = Book::new(bytes)?; // the small shop
/// let mut editing = Editing::new(&book);
/// assert_eq!(editing.marks().to_string(), "rules 0 and 2");
///
/// // Without rule 1 the others are needed; the last one is rule 1 now.
/// assert!(editing.depart(1)?.is_empty());
/// assert_eq!(editing.rule_count(), 2);
///
/// let block = &book.bytes()[BLOCK * 5..BLOCK * 6]; // rule 1 as it was
/// assert_eq!(editing.arrive(block)?.to_string(), "rules 0 and 1");
/// assert_eq!(editing.arrive(&block[1..]), Err(Refusal::BookLength));
/// assert_eq!(editing.depart(3), Err(Refusal::NoRule));
/// assert_eq!(editing.book()?.bytes()[BLOCK * 6..], *block);
///
/// let stored = editing.to_bytes();
/// assert_eq!(stored[18_432..], [3, 0, 0, 0, 0b11, 0, 0, 0]);
/// assert_eq!(Editing::from_bytes(&stored)?, editing);
/// # Ok::<(), Box<dyn std::error::Error>>(())
/// ```
#[derive(Clone, PartialEq, Eq, Hash)]
pub struct Editing {
    blocks: Box<[u8; BLOCKS]>,
    rules: u32,
    marks: u32,
}

impl Editing {
    /// The bytes of a stored one: 36 blocks and two numbers of 4 bytes.
    pub const BYTES: usize = BLOCKS + 2 * 4;

    /// This book with its marks. Its last rule arrives at the book without it, no mark being set: an arrival
    /// searches for every mark that is clear, so each rule is searched for once.
    pub fn new(book: &Book) -> Editing {
        let others = book.rule_count().saturating_sub(1);
        let (front, last) = book.bytes().split_at(BLOCK * (HEAD + others as usize));
        let mut editing = Editing {
            blocks: Box::new([0; BLOCKS]),
            rules: others,
            marks: 0,
        };
        editing.blocks[..front.len()].copy_from_slice(front);
        if !last.is_empty() {
            let arrived = editing.arrive(last);
            arrived.expect("the book with its last rule is accepted");
        }
        editing
    }

    /// Puts a rule, as a sealed block, behind the last one; gives the new marks. Refused are a 33rd rule
    /// ([`Refusal::RulesFull`]), before anything else is looked at; a block that is not 512 bytes
    /// ([`Refusal::BookLength`]); and what [`Book::new`] refuses of the book with the new block. A refusal
    /// changes nothing.
    pub fn arrive(&mut self, block: &[u8]) -> Result<Rules, Refusal> {
        let Editing {
            blocks,
            rules,
            marks,
        } = self;
        raw::value(raw::arrive(blocks, rules, marks, block)).map(Rules::of)
    }

    /// Takes a rule out, and later ones move down by one; gives the new marks. Refused are what
    /// [`Book::new`] refuses of the book as it is, and a rule that it does not have ([`Refusal::NoRule`]). A
    /// refusal changes nothing.
    pub fn depart(&mut self, rule: u32) -> Result<Rules, Refusal> {
        let Editing {
            blocks,
            rules,
            marks,
        } = self;
        raw::value(raw::depart(blocks, rules, marks, rule)).map(Rules::of)
    }

    /// The idle rules. Bits past the last rule, which stored bytes may have, do not count.
    pub fn marks(&self) -> Rules {
        let of_rules = 1u32.checked_shl(self.rules).map_or(u32::MAX, |bit| bit - 1);
        Rules::of(self.marks & of_rules)
    }

    /// The number of rules: 0 to 32, but that stored bytes may have any number.
    pub fn rule_count(&self) -> u32 {
        self.rules
    }

    /// The book. It is refused only where stored bytes are of no accepted one; a number of rules above 32
    /// makes it too long ([`Refusal::BookLength`]).
    pub fn book(&self) -> Result<Book, Refusal> {
        let bytes = (HEAD as u64 + u64::from(self.rules)) * BLOCK as u64;
        let book = usize::try_from(bytes)
            .ok()
            .and_then(|end| self.blocks.get(..end));
        Book::new(book.ok_or(Refusal::BookLength)?)
    }

    /// The record as bytes, both numbers little-endian.
    pub fn to_bytes(&self) -> Vec<u8> {
        let (rules, marks) = (self.rules.to_le_bytes(), self.marks.to_le_bytes());
        [&self.blocks[..], &rules, &marks].concat()
    }

    /// The record that was stored as these bytes, if they are 18,440.
    pub fn from_bytes(bytes: &[u8]) -> Result<Editing, WrongLength> {
        let bytes: &[u8; Editing::BYTES] = WrongLength::exact(bytes)?;
        let (stored, beside) = bytes.split_at(BLOCKS);
        let mut blocks = Box::new([0; BLOCKS]);
        blocks.copy_from_slice(stored);
        let mut beside = numbers(beside);
        let mut number = || beside.next().unwrap_or(0);
        let (rules, marks) = (number(), number());
        Ok(Editing {
            blocks,
            rules,
            marks,
        })
    }
}

impl fmt::Debug for Editing {
    fn fmt(&self, f: &mut fmt::Formatter<'_>) -> fmt::Result {
        let Editing { rules, .. } = self;
        write!(f, "Editing {{ rules: {rules}, idle: {} }}", self.marks())
    }
}
