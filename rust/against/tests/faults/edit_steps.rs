//! Arrivals and departures step by step (document 02, N11): a fault gets single steps wrong.

use crate::edits::Fault;
use crate::{Faulty, GOOD};
use against::engine::{Idleness, Marking};
use against::Engine;
use books::draft::{check_of, BLOCK};
use books::edits::{Record, BYTES, HEAD, RULES};
use second::Refusal;

impl Faulty for Fault {
    fn idle(&self, book: &[u8], rule: u32, buffer: &mut [u8]) -> Idleness {
        let shown = GOOD.idle(book, rule, buffer)?;
        let alone = book.len() == BLOCK * (HEAD + 1);
        Some(match self {
            Fault::IdleWhileAlone => shown.map(|_| (!alone).then_some((0, 2))),
            _ => shown,
        })
    }

    fn arrive(&self, record: &mut Record, block: &[u8]) -> Marking {
        let before = self.with_number(record);
        let block = match self {
            Fault::LongerBlocksCut => &block[..block.len().min(BLOCK)],
            _ => block,
        };
        if let Err(refusal) = self.test_arrival(&before, block) {
            self.refuse(record, Some(block));
            return Some(Err(refusal));
        }
        let rules = before.rules as usize;
        let mut blocks: Vec<&[u8]> = (0..rules).map(|rule| before.rule(rule)).collect();
        match self {
            Fault::ArrivesFirst => blocks.insert(0, block),
            _ => blocks.push(block),
        }
        let book = book_of(&before, &blocks);
        let mut marks = 0;
        for rule in 0..=rules {
            let marked = self.mark_at_arrival(&before, &book, rule)?;
            marks |= u32::from(marked) << rule;
        }
        Some(Ok(self.put(record, &before, &book, marks, true)))
    }

    fn depart(&self, record: &mut Record, rule: u32) -> Marking {
        let before = self.with_number(record);
        let rule = match self {
            Fault::RuleCutToAByte => rule % 256,
            _ => rule,
        };
        if let Err(refusal) = self.test_departure(&before, rule) {
            self.refuse(record, None);
            return Some(Err(refusal));
        }
        let stay = self.stay(&before, rule as usize);
        let mut blocks: Vec<&[u8]> = stay.iter().map(|&old| before.rule(old)).collect();
        if *self == Fault::LaterRulesNotMoved {
            blocks = (0..stay.len()).map(|rule| before.rule(rule)).collect();
        }
        let book = book_of(&before, &blocks);
        let mut marks = 0;
        for (new, old) in stay.into_iter().enumerate() {
            let marked = self.mark_at_departure(&before, &book, rule as usize, new, old)?;
            marks |= u32::from(marked) << new;
        }
        Some(Ok(self.put(record, &before, &book, marks, false)))
    }
}

/// The head of a record's book, and these rules.
fn book_of(record: &Record, rules: &[&[u8]]) -> Vec<u8> {
    [&record.blocks[..HEAD * BLOCK], &rules.concat()].concat()
}

fn has(marks: u32, rule: usize) -> bool {
    marks >> rule & 1 == 1
}

fn unless(refused: bool, number: u32) -> Result<(), Refusal> {
    match refused {
        true => Err(Refusal::of(number)),
        false => Ok(()),
    }
}

impl Fault {
    /// What its Idle says; a rule of a book that is refused is not idle.
    fn is_idle(&self, book: &[u8], rule: usize) -> Option<bool> {
        let shown = self.idle(book, rule as u32, &mut [0; 36])?;
        Some(shown == Ok(None))
    }

    /// The record with the number of rules that the fault takes.
    fn with_number(&self, record: &Record) -> Record {
        let mut taken = record.clone();
        if *self == Fault::NumberCutToAByte {
            taken.rules %= 256;
        }
        taken
    }

    fn test_arrival(&self, before: &Record, block: &[u8]) -> Result<(), Refusal> {
        let limit = match self {
            Fault::FullAbove32Alone => 33,
            Fault::FullAt31 => 31,
            _ => RULES as u32,
        };
        let full = unless(before.rules >= limit, 33);
        let length = unless(block.len() != BLOCK, 1);
        match self {
            Fault::LengthBeforeFull => {
                length?;
                full?;
            }
            Fault::FullAfterTheBook => {
                length?;
                let book = before.book().unwrap_or(&before.blocks[..]);
                GOOD.check(book)?;
                full?;
            }
            _ => {
                full?;
                length?;
            }
        }
        self.test_with_new(before, block)
    }

    /// The refusals of the book with the new block, which a fault finds in another order or not at all.
    fn test_with_new(&self, before: &Record, block: &[u8]) -> Result<(), Refusal> {
        let old = before.book().unwrap_or(&before.blocks[..]);
        let place = HEAD as u32 + before.rules;
        let all = GOOD.check(&[old, block].concat());
        let stored = u16::from_be_bytes([block[510], block[511]]);
        let wrong_check = Refusal { number: 2, place };
        match self {
            Fault::OldBookAlone => GOOD.check(old)?,
            Fault::OldBookFirst => GOOD.check(old).and(all)?,
            Fault::CheckOfTheNewBlockFirst if check_of(block) != stored => Err(wrong_check)?,
            Fault::PlaceOfTheNewBlockIsZero => all.map_err(|refusal| match refusal.place {
                new if new == place => Refusal::of(refusal.number),
                _ => refusal,
            })?,
            _ => all?,
        };
        self.test_behind(before)
    }

    fn test_behind(&self, before: &Record) -> Result<(), Refusal> {
        let book = before.book().unwrap_or_default().len();
        let dirty = before.blocks[book..].iter().any(|&byte| byte != 0);
        unless(*self == Fault::BytesBehindRefused && dirty, 4)
    }

    fn test_departure(&self, before: &Record, rule: u32) -> Result<(), Refusal> {
        let too_long = unless(before.rules > RULES as u32, 1);
        let rules = match self {
            Fault::LastRuleIsAbsent => before.rules.saturating_sub(1),
            _ => before.rules,
        };
        let absent = unless(rule >= rules, 24);
        let book = before.book().unwrap_or(&before.blocks[..]);
        let checked = GOOD.check(book);
        match self {
            Fault::AbsentBeforeTheBook => too_long.and(absent).and(checked)?,
            Fault::NumberAfterTheBook => checked.and_then(|rules| too_long.map(|()| rules))?,
            Fault::BookWithoutTheOneThatLeaves => {
                too_long?;
                absent.or(checked.map(|_| ()))?;
                absent?;
                let stay = self.stay(before, rule as usize);
                let stay: Vec<&[u8]> = stay.iter().map(|&old| before.rule(old)).collect();
                GOOD.check(&book_of(before, &stay))?
            }
            _ => too_long.and(checked)?,
        };
        absent?;
        self.test_behind(before)
    }

    /// The old numbers of the rules that stay, in their new order.
    fn stay(&self, before: &Record, rule: usize) -> Vec<usize> {
        let mut stay: Vec<usize> = (0..before.rules as usize).collect();
        match self {
            Fault::NextRuleLeaves => stay.remove((rule + 1).min(stay.len() - 1)),
            Fault::LastTakesThePlace => stay.swap_remove(rule),
            _ => stay.remove(rule),
        };
        stay
    }

    fn mark_at_arrival(&self, before: &Record, book: &[u8], rule: usize) -> Option<bool> {
        let rules = before.rules as usize;
        let handed_in = has(before.marks, rule);
        let fresh = match self {
            Fault::IdleInTheOldBook if rule < rules => self.is_idle(before.book()?, rule)?,
            Fault::NewMarkAsAlone if rule == rules => {
                let new = &book[BLOCK * (HEAD + rules)..];
                self.is_idle(&book_of(before, &[new]), 0)?
            }
            _ => self.is_idle(book, rule)?,
        };
        Some(match self {
            Fault::NewMarkAsHandedIn if rule == rules => handed_in,
            Fault::NewMarkClear if rule == rules => false,
            _ if rule == rules => fresh,
            Fault::SetMarksAfreshAtArrivals => fresh,
            Fault::ClearMarksKeptAtArrivals => handed_in,
            _ => handed_in || fresh,
        })
    }

    fn mark_at_departure(
        &self,
        before: &Record,
        book: &[u8],
        leaves: usize,
        new: usize,
        old: usize,
    ) -> Option<bool> {
        let of = match self {
            Fault::MarksNotMoved => new,
            Fault::MarkOfTheOneThatLeaves if new == leaves => leaves,
            Fault::LowerMarksMoved => new + 1,
            _ => old,
        };
        let handed_in = has(before.marks, of);
        let fresh = match self {
            Fault::IdleInTheOldBook => self.is_idle(before.book()?, old)?,
            _ => self.is_idle(book, new)?,
        };
        Some(match self {
            Fault::ClearMarksAfreshAtDepartures => fresh,
            Fault::SetMarksKeptAtDepartures => handed_in,
            _ => handed_in && fresh,
        })
    }

    /// Puts the new book and the marks, and gives the reply.
    fn put(
        &self,
        record: &mut Record,
        before: &Record,
        book: &[u8],
        marks: u32,
        arrives: bool,
    ) -> u32 {
        let last = book.len()..(book.len() + BLOCK).min(BYTES);
        record.blocks[..book.len()].copy_from_slice(book);
        match (self, arrives) {
            (Fault::BytesBehindLeftAtArrivals, true) => {}
            (Fault::BytesBehindLeftAtDepartures, false) => {}
            (Fault::LastBlockLeftAtDepartures, false) => record.blocks[last.end..].fill(0),
            _ => record.blocks[book.len()..].fill(0),
        }
        let rules = (book.len() / BLOCK - HEAD) as u32;
        let past = (u64::from(u32::MAX) << rules) as u32;
        let marks = match self {
            Fault::BitsPastKept => marks | before.marks & past,
            Fault::BitOfTheLastKept if !arrives => marks | before.marks & 1 << rules,
            _ => marks,
        };
        if *self != Fault::NumberLeft {
            record.rules = rules;
        }
        if *self != Fault::MarksNotWritten {
            record.marks = marks;
        }
        match self {
            Fault::MaskCutTo31Bits => marks & !(1 << 31),
            Fault::MaskCutTo16Bits => marks & 0xFFFF,
            Fault::RepliesWithTheOldMask => before.marks,
            Fault::RepliesWithTheNumber => rules,
            _ => marks,
        }
    }

    /// What a refused edit changes.
    fn refuse(&self, record: &mut Record, block: Option<&[u8]>) {
        let Some(book) = record.book().map(<[u8]>::len) else {
            return;
        };
        let past = (u64::from(u32::MAX) << record.rules) as u32;
        match (self, block) {
            (Fault::RefusalClearsBytesBehind, _) => record.blocks[book..].fill(0),
            (Fault::RefusalPutsTheBlock, Some(block)) if book < BYTES && block.len() == BLOCK => {
                record.blocks[book..book + BLOCK].copy_from_slice(block);
            }
            (Fault::RefusalRaisesTheNumber, _) => record.rules += 1,
            (Fault::RefusalClearsMarks, _) => record.marks = 0,
            (Fault::RefusalClearsBitsPast, _) => record.marks &= !past,
            _ => {}
        }
    }
}
