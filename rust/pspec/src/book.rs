//! A book, and the calls that ask it something.

use crate::{raw, Accesses, Blocking, Broken, Causes, Idleness, Plan, Refusal, Tree, Verdict};
use crate::{Asked, Holds, Ledger, Tally};
use std::fmt;

/// The bytes of a block.
pub const BLOCK: usize = 512;

/// A book that the engine accepts.
///
/// ```
/// use pspec::{seal, Book, Refusal};
///
/// # let mut bytes = books::named::small_shop().bytes();
/// let book = Book::new(&bytes[..])?; // the small shop
/// assert_eq!(book.rule_count(), 3);
///
/// bytes[512 * 2 + 2] = 1; // column 0 gets another label: block 2 has a wrong check
/// assert_eq!(Book::new(&bytes[..]), Err(Refusal::BlockCheck { block: 2 }));
///
/// seal(&mut bytes[512 * 2..512 * 3])?; // the check is right, but category 1 is no leaf
/// assert_eq!(Book::new(bytes), Err(Refusal::LabelOrFunction { block: 2 }));
/// # Ok::<(), Refusal>(())
/// ```
///
/// A data category supports what its parent supports, less what it withdraws, and its own. Operations
/// are withdrawn in a block of kind 6, which has five bytes a category where kind 2 has three: parent,
/// own mask, withdrawn mask. Here an address may be put out under operation 1, truncation, and a street
/// withdraws it.
///
/// ```
/// use pspec::{seal, Book, Plan, Refusal, BLOCK};
///
/// let users = vec![1, 1, 0]; // kind 1: one user
/// let data = [
///     vec![6, 3], // kind 6: three categories
///     vec![0, 0, 2, 0, 0], // 0, an address: owns operation 1
///     vec![0, 0, 0, 0, 0], // 1, a city below it
///     vec![0, 0, 0, 0, 2], // 2, a street below it: withdraws operation 1
/// ];
/// let columns = vec![3, 2, 1, 2]; // kind 3: column 0 is a city, column 1 a street
/// let functions = vec![4, 1, 1]; // kind 4: function 0 stands for operation 1
/// let mut rule = vec![0; BLOCK];
/// rule[..9].copy_from_slice(&[5, 1, 0, 0, 0, 0, 0, 0, 1]); // kind 5: one reference, one restriction
/// rule[16..18].copy_from_slice(&[0, 1]); // category 0, projection
/// rule[64..66].copy_from_slice(&[0, 2]); // under operation 1
///
/// let mut bytes = Vec::new();
/// for mut block in [users, data.concat(), columns, functions, rule] {
///     block.resize(BLOCK, 0);
///     seal(&mut block)?;
///     bytes.extend(block);
/// }
/// let book = Book::new(bytes)?;
/// let truncated = |column| Plan::new([1, column, 0, 0, 2, 0, 0, 255, 4, 1, 0, 0]);
/// assert!(book.judge(0, &truncated(0)).opens()); // a city
/// assert!(!book.judge(0, &truncated(1)).opens()); // a street: it is put out raw
/// # Ok::<(), Refusal>(())
/// ```
#[derive(Clone, PartialEq, Eq, Hash)]
pub struct Book {
    bytes: Vec<u8>,
    rule_count: u32,
}

impl Book {
    /// The book with these bytes, if the engine accepts it.
    pub fn new(bytes: impl Into<Vec<u8>>) -> Result<Book, Refusal> {
        let bytes = bytes.into();
        let rule_count = raw::value(raw::check(&bytes))?;
        Ok(Book { bytes, rule_count })
    }

    /// The bytes that it was made from.
    pub fn bytes(&self) -> &[u8] {
        &self.bytes
    }

    /// The number of its rules, 0 to 32.
    pub fn rule_count(&self) -> u32 {
        self.rule_count
    }

    /// What a plan gives away. A leaf is had under the first operation applied to its column that it
    /// supports; a function of two rows does not count as an operation, nor does anything applied to
    /// its result.
    ///
    /// ```
    /// use pspec::{Access, Action, Book, Plan};
    ///
    /// # let bytes = books::named::small_shop().bytes();
    /// let book = Book::new(bytes)?; // the small shop
    /// let plan = Plan::new([1, 2, 0, 0, 2, 1, 0, 255, 4, 1, 0, 0]); // the average of column 2, put out
    /// let accesses: Vec<Access> = book.flows(&plan)?.iter().collect();
    /// let average = Access { action: Action::Projection, leaf: 4, operation: 1 };
    /// assert_eq!(accesses, [average]);
    ///
    /// let mixed = Plan::new([
    ///     1, 0, 0, 0, // row 0: column 0, a state
    ///     1, 2, 0, 0, // row 1: column 2, a price
    ///     2, 0, 0, 1, // row 2: function 0 of rows 0 and 1
    ///     2, 1, 2, 255, // row 3: the average of row 2
    ///     4, 3, 0, 0, // row 4: output of row 3
    /// ]);
    /// let raw = |leaf| Access { action: Action::Projection, leaf, operation: 0 };
    /// assert!(book.flows(&mixed)?.iter().eq([raw(2), raw(4)]));
    /// # Ok::<(), pspec::Refusal>(())
    /// ```
    pub fn flows(&self, plan: &Plan) -> Result<Accesses, Refusal> {
        let mut words = [0; raw::WORDS];
        raw::value(raw::flows(&self.bytes, plan.bytes(), &mut words))?;
        Ok(Accesses::new(words))
    }

    /// Which rules a user and a plan break.
    ///
    /// ```
    /// use pspec::{Book, Plan, Refusal, Verdict};
    ///
    /// # let bytes = books::named::small_shop().bytes();
    /// let book = Book::new(bytes)?; // the small shop
    /// assert!(book.judge(1, &Plan::new([])).opens());
    ///
    /// let price = Plan::new([1, 2, 0, 0, 4, 0, 0, 0]); // column 2, put out
    /// match book.judge(1, &price) {
    ///     Verdict::Judged(broken) => assert!(broken.rules().eq([1])),
    ///     Verdict::Refused(refusal) => return Err(refusal),
    /// }
    /// let no_user = Verdict::Refused(Refusal::NoUser);
    /// assert_eq!(book.judge(0, &price), no_user); // others are below user 0
    /// # Ok::<(), Refusal>(())
    /// ```
    pub fn judge(&self, user: u32, plan: &Plan) -> Verdict {
        match raw::value(raw::judge(&self.bytes, user, plan.bytes())) {
            Ok(mask) => Verdict::Judged(Broken::new(mask)),
            Err(refusal) => Verdict::Refused(refusal),
        }
    }

    /// Checks a user's plan before it is run, and holds it or declines it. It is declined exactly when it
    /// breaks a rule together with the user's accesses in the ledger and all his held plans, which count
    /// as already admitted; the words and the held plans of others do not count. A declined plan is
    /// counted in the tally for its user; a held one takes the lowest empty place of the hold record,
    /// with a number of its own, and is counted when it is [committed](Book::commit) or
    /// [dropped](Book::drop_hold). The ledger is not changed, and by a refusal nothing is. What `judge`
    /// refuses is refused, and so is every plan of a user whose counts are full
    /// ([`Refusal::CountsFull`]) and, while eight plans are held, every plan
    /// ([`Refusal::PlacesFull`]), also one that would be declined.
    ///
    /// From a fresh ledger, tally and hold record, and with one book throughout, this holds after every
    /// list of `ask`, `commit` and `drop_hold`. The ledger has for each user exactly the accesses of his
    /// committed plans, and together with his held plans they break no rule. His admitted, dropped, held
    /// and declined plans add up to his asks that were not refused. No number is given to him twice. At
    /// most eight plans are held. The replies to him depend on the book, his own calls and, as the eight
    /// places are for all users, on whether eight plans were held at each of his asks; on nothing else that
    /// others do. The engine does not ask which book filled a ledger: keep the three with their book.
    ///
    /// ```
    /// use pspec::{Asked, Book, Holds, Ledger, Plan, Refusal, Tally};
    ///
    /// # let bytes = books::named::small_shop().bytes();
    /// let book = Book::new(bytes)?; // the small shop
    /// let state = Plan::new([1, 0, 0, 0, 4, 0, 0, 0]);
    /// let price = Plan::new([1, 2, 0, 0, 4, 0, 0, 0]);
    /// let average = Plan::new([1, 2, 0, 0, 2, 1, 0, 255, 4, 1, 0, 0]); // of prices
    /// let (ledger, mut tally, mut holds) = (Ledger::new(), Tally::new(), Holds::new());
    /// let mut ask = |user, plan| book.ask(user, plan, &ledger, &mut tally, &mut holds);
    ///
    /// assert_eq!(ask(2, &state), Asked::Held { number: 1 }); // on Monday
    /// match ask(2, &price) { // on Tuesday
    ///     // By itself a price breaks rule 1; beside the held state rule 0 too.
    ///     Asked::Declined(broken) => assert!(broken.rules().eq([0, 1])),
    ///     other => panic!("{other:?}"),
    /// }
    /// assert_eq!(ask(1, &state), Asked::Held { number: 1 }); // on Wednesday, by another user
    /// assert_eq!(ask(2, &average), Asked::Held { number: 2 }); // on Thursday
    ///
    /// assert_eq!((tally.admitted(2), tally.declined(2), tally.dropped(2)), (0, 1, 0));
    /// let held: Vec<_> = holds.iter().map(|hold| (hold.user, hold.number)).collect();
    /// assert_eq!(held, [(2, 1), (1, 1), (2, 2)]);
    /// # Ok::<(), Refusal>(())
    /// ```
    pub fn ask(
        &self,
        user: u32,
        plan: &Plan,
        ledger: &Ledger,
        tally: &mut Tally,
        holds: &mut Holds,
    ) -> Asked {
        let (words, counts, record) = (ledger.words(), tally.counts_mut(), holds.record_mut());
        let answer = raw::ask(&self.bytes, user, plan.bytes(), words, counts, record);
        Asked::of(answer)
    }

    /// Admits the plan that a user holds under this number: its accesses are joined to the user's in the
    /// ledger, it is counted in the tally for him, and its place is empty again. No rule is tested, as
    /// the ask did. `Ok` has the number given, and nothing else opens the gate: store the ledger, the
    /// tally and the hold record, then run the plan that was asked about under this number, and no other.
    /// Where the user does not hold the number, also because it is committed already, it is refused
    /// ([`Refusal::NotHeld`]), and nothing is changed. On a hold record that no list from fresh leaves, the
    /// lowest place with that user and number is meant.
    ///
    /// ```
    /// use pspec::{Book, Holds, Ledger, Plan, Refusal, Tally};
    ///
    /// # let bytes = books::named::small_shop().bytes();
    /// let book = Book::new(bytes)?; // the small shop
    /// let state = Plan::new([1, 0, 0, 0, 4, 0, 0, 0]);
    /// let (mut ledger, mut tally, mut holds) = (Ledger::new(), Tally::new(), Holds::new());
    /// let number = book.ask(2, &state, &ledger, &mut tally, &mut holds).number();
    ///
    /// let mut commit = |user| book.commit(user, number, &mut ledger, &mut tally, &mut holds);
    /// assert_eq!(commit(1), Err(Refusal::NotHeld)); // another user
    /// assert_eq!(commit(2), Ok(number));
    /// assert_eq!(commit(2), Err(Refusal::NotHeld)); // twice
    ///
    /// assert_eq!((tally.admitted(2), tally.dropped(2)), (1, 0));
    /// assert_eq!(ledger.accesses(2), book.flows(&state)?);
    /// assert_eq!(holds, Holds::new());
    /// # Ok::<(), Refusal>(())
    /// ```
    pub fn commit(
        &self,
        user: u32,
        number: u32,
        ledger: &mut Ledger,
        tally: &mut Tally,
        holds: &mut Holds,
    ) -> Result<u32, Refusal> {
        let (words, counts, record) = (ledger.words_mut(), tally.counts_mut(), holds.record_mut());
        let answer = raw::commit(&self.bytes, user, number, words, counts, record);
        raw::value(answer)
    }

    /// Forgets the plan that a user holds under this number: it is counted in the tally for him as
    /// dropped, and its place is empty again. `Ok` has the number given, which is not used again. It
    /// refuses what [`commit`](Book::commit) refuses and means the same place. The ledger is not changed.
    ///
    /// ```
    /// use pspec::{Asked, Book, Holds, Ledger, Plan, Refusal, Tally};
    ///
    /// # let bytes = books::named::small_shop().bytes();
    /// let book = Book::new(bytes)?; // the small shop
    /// let state = Plan::new([1, 0, 0, 0, 4, 0, 0, 0]);
    /// let price = Plan::new([1, 2, 0, 0, 4, 0, 0, 0]);
    /// let (ledger, mut tally, mut holds) = (Ledger::new(), Tally::new(), Holds::new());
    ///
    /// assert_eq!(book.ask(2, &state, &ledger, &mut tally, &mut holds).number(), 1);
    /// assert_eq!(book.ask(2, &price, &ledger, &mut tally, &mut holds).mask(), 0b11);
    /// assert_eq!(book.drop_hold(2, 1, &ledger, &mut tally, &mut holds)?, 1);
    /// // Without the state the price breaks rule 1 alone; and the next hold has another number.
    /// assert_eq!(book.ask(2, &price, &ledger, &mut tally, &mut holds).mask(), 0b10);
    /// let held = Asked::Held { number: 2 };
    /// assert_eq!(book.ask(2, &state, &ledger, &mut tally, &mut holds), held);
    /// assert_eq!((tally.admitted(2), tally.declined(2), tally.dropped(2)), (0, 2, 1));
    /// # Ok::<(), Refusal>(())
    /// ```
    pub fn drop_hold(
        &self,
        user: u32,
        number: u32,
        ledger: &Ledger,
        tally: &mut Tally,
        holds: &mut Holds,
    ) -> Result<u32, Refusal> {
        let (words, counts, record) = (ledger.words(), tally.counts_mut(), holds.record_mut());
        let answer = raw::drop_hold(&self.bytes, user, number, words, counts, record);
        raw::value(answer)
    }

    /// Whether a rule could go without letting anything more through; if not, the first user who
    /// can break this rule and no other, and for that user the plan with the fewest functions that
    /// does. Of equal ones the first is shown, as [`Idleness::Needed`] says.
    ///
    /// ```
    /// use pspec::{Book, Idleness, Plan, Refusal};
    ///
    /// # let bytes = books::named::small_shop().bytes();
    /// let book = Book::new(bytes)?; // the small shop
    /// assert_eq!(book.idle(0)?, Idleness::Idle);
    /// let plan = Plan::new([1, 2, 0, 0, 4, 0, 0, 0]);
    /// assert_eq!(book.idle(1)?, Idleness::Needed { user: 1, plan });
    /// assert_eq!(book.idle(3), Err(Refusal::NoRule));
    /// # Ok::<(), Refusal>(())
    /// ```
    pub fn idle(&self, rule: u32) -> Result<Idleness, Refusal> {
        let mut buffer = [0; raw::BUFFER];
        let value = raw::value(raw::idle(&self.bytes, rule, &mut buffer))?;
        Ok(match raw::shown(value) {
            None => Idleness::Idle,
            Some((user, rows)) => Idleness::Needed {
                user,
                plan: Plan::new(&buffer[..4 * rows as usize]),
            },
        })
    }

    /// Whether a rule with restrictions permits data that no operation can open; if so, the first user
    /// to whom they stay closed, and the data. All rules of the book count, this one among them.
    ///
    /// ```
    /// use pspec::{Action, Blocking, Book, Datum, Refusal};
    ///
    /// # let bytes = books::named::small_shop().bytes();
    /// let book = Book::new(bytes)?; // the small shop
    /// assert_eq!(book.blocked(1)?, Blocking::Open); // a price may be had under operation 1
    ///
    /// # let bytes = books::named::opposed_shop().bytes();
    /// // The same with a rule 3, by which user 1 may have a price under operation 2 alone.
    /// let book = Book::new(bytes)?;
    /// let put_out = |leaf| Datum { action: Action::Projection, leaf };
    /// let closed = |data| Blocking::Closed { user: 1, data };
    /// assert_eq!(book.blocked(1)?, closed(vec![put_out(4)]));
    /// assert_eq!(book.blocked(2)?, closed(vec![put_out(2), put_out(4)])); // a state beside it
    /// assert_eq!(book.blocked(4), Err(Refusal::NoRule));
    /// # Ok::<(), Refusal>(())
    /// ```
    pub fn blocked(&self, rule: u32) -> Result<Blocking, Refusal> {
        raw::value(raw::blocked(&self.bytes, rule)).map(Blocking::of)
    }

    /// Which other rules, together with a blocked rule, close the user and data that
    /// [`blocked`](Book::blocked) names. The others are dropped by trial from the highest number down, as
    /// long as the data stay closed; [`Causes::Few`] has what is left. So where either of two would do the
    /// lower number stays. The rule itself always counts, and is not among them. What `blocked` refuses is
    /// refused.
    ///
    /// ```
    /// use pspec::{Book, Causes, Refusal};
    ///
    /// # let bytes = books::named::small_shop().bytes();
    /// let book = Book::new(bytes)?; // the small shop
    /// assert_eq!(book.culprits(0)?, Causes::Unblocked);
    ///
    /// # let bytes = books::named::opposed_shop().bytes();
    /// // The same with a rule 3, by which user 1 may have a price under operation 2 alone.
    /// let book = Book::new(bytes)?;
    /// let others = |rule| match book.culprits(rule) {
    ///     Ok(Causes::Few(others)) => others.to_string(),
    ///     other => format!("{other:?}"),
    /// };
    /// assert_eq!(others(0), "rules 1 and 3"); // rule 0 takes operations 1 and 2, they one each
    /// assert_eq!(others(1), "rule 3"); // rule 1 takes operation 1 alone
    /// assert_eq!(book.culprits(4), Err(Refusal::NoRule));
    /// # Ok::<(), Refusal>(())
    /// ```
    pub fn culprits(&self, rule: u32) -> Result<Causes, Refusal> {
        let value = raw::value(raw::culprits(&self.bytes, rule))?;
        Ok(Causes::of(value, rule))
    }

    /// The lineage tree of a row of a plan, as text: what the value of a Column, an Apply or a Choose is
    /// made of. The children of an Apply are its one or two rows; of a Choose first the row that decides,
    /// then the two that it chooses from. A row that is reached twice is written twice. Any other row is
    /// refused ([`Refusal::NoValueRow`]), and so is a tree of more than 4,096 nodes
    /// ([`Refusal::TreeSize`]); no shorter one lacks room here.
    ///
    /// ```
    /// use pspec::{Book, Plan, Refusal};
    ///
    /// # let bytes = books::named::small_shop().bytes();
    /// let book = Book::new(bytes)?; // the small shop
    /// let plan = Plan::new([
    ///     1, 0, 0, 0, // row 0: column 0, a state
    ///     1, 2, 0, 0, // row 1: column 2, a price
    ///     2, 1, 1, 255, // row 2: the average of row 1
    ///     3, 1, 2, 0, // row 3: row 1 decides between rows 2 and 0
    ///     4, 3, 0, 0, // row 4: output of row 3
    /// ]);
    /// let tree = book.tree(&plan, 3)?;
    /// assert_eq!(tree.text(), "3 choose\n  1 column\n  2 apply\n    1 column\n  0 column\n");
    /// assert_eq!(tree.node_count(), 5);
    /// assert_eq!(book.tree(&plan, 4), Err(Refusal::NoValueRow)); // an output
    /// # Ok::<(), Refusal>(())
    /// ```
    pub fn tree(&self, plan: &Plan, row: u32) -> Result<Tree, Refusal> {
        let mut buffer = vec![0; raw::TREE];
        let value = raw::value(raw::tree(&self.bytes, plan.bytes(), row, &mut buffer))?;
        let (nodes, length) = raw::drawn(value);
        Ok(Tree::new(&buffer[..length as usize], nodes))
    }
}

impl fmt::Debug for Book {
    fn fmt(&self, f: &mut fmt::Formatter<'_>) -> fmt::Result {
        write!(f, "Book {{ rules: {} }}", self.rule_count)
    }
}

/// Writes the check of a block of 512 bytes into its last two bytes.
///
/// ```
/// let mut block = [0; 512];
/// block[0] = 4;
/// assert_eq!(pspec::seal(&mut block), Ok(()));
/// assert_eq!(block[510..], [0, 4]);
/// assert_eq!(pspec::seal(&mut block[1..]), Err(pspec::Refusal::BlockLength));
/// ```
pub fn seal(block: &mut [u8]) -> Result<(), Refusal> {
    raw::value(raw::seal(block)).map(|_| ())
}
