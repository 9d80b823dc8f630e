//! Faults of lineage: the sentences on an Apply with two rows misread (document 02, N5). Idle and
//! Blocked have none: "Shown plans use single-row Apply only".

use crate::{Faulty, GOOD};
use against::engine::{held, Reply};
use against::mixing::{accesses, Misreading};
use against::records::{counts, places};
use against::Engine;
use books::records::Records;
use second::access::Access;
use second::book::Book;
use second::{breaking, ledger, plan, reading, Refusal};
use std::collections::BTreeSet;

/// In Flows alone.
#[derive(Clone, Copy, Debug)]
pub struct InFlows(pub Misreading);

/// In Judge alone.
#[derive(Clone, Copy, Debug)]
pub struct InJudge(pub Misreading);

/// In Ask alone.
#[derive(Clone, Copy, Debug)]
pub struct InAsk(pub Misreading);

/// The book, and the accesses of a plan as the fault has them.
fn read(book: &[u8], plan: &[u8], misread: Misreading) -> (Book, BTreeSet<Access>) {
    let book = reading::read(book).expect("it is accepted");
    let rows = plan::read(plan, &book).expect("it is accepted");
    let accesses = accesses(&book, &rows, Some(misread));
    (book, accesses)
}

fn mask(book: &Book, user: u32, accesses: &BTreeSet<Access>) -> u32 {
    let broken = breaking::broken(book, user as usize, accesses);
    broken.into_iter().map(|r| 1 << r).sum()
}

impl Faulty for InFlows {
    fn flows(&self, book: &[u8], plan: &[u8], words: &mut [u64]) -> Result<(), Refusal> {
        GOOD.flows(book, plan, words)?;
        let (_, accesses) = read(book, plan, self.0);
        ledger::write(&accesses, words);
        Ok(())
    }
}

impl Faulty for InJudge {
    fn judge(&self, book: &[u8], user: u32, plan: &[u8]) -> Result<u32, Refusal> {
        GOOD.judge(book, user, plan)?;
        let (book, accesses) = read(book, plan, self.0);
        Ok(mask(&book, user, &accesses))
    }
}

impl Faulty for InAsk {
    fn ask(
        &self,
        book: &[u8],
        user: u32,
        plan: &[u8],
        records: &mut Records,
    ) -> Result<Reply, Refusal> {
        GOOD.ask(book, user, plan, &mut records.clone())?;
        let (book, accesses) = read(book, plan, self.0);
        let own = user as usize;
        let holds = places(&records.holds);
        let mut union = &accesses | &ledger::accesses(ledger::words_of(&records.ledger, own));
        holds
            .of_user(own)
            .for_each(|hold| union.extend(hold.accesses()));
        let mask = mask(&book, user, &union);
        if mask != 0 {
            records.tally.declined[own] += 1;
            return Ok(mask.into());
        }
        let number = counts(&records.tally, own).next_number(holds.of_user(own).count()) as u32;
        let place = holds.lowest_empty().expect("it is not refused");
        (records.holds.users[place], records.holds.numbers[place]) = (user, number);
        ledger::write(&accesses, records.holds.words_of_mut(place));
        Ok(held(number))
    }
}
