//! Cases as text, one word and its value a line, bytes in hexadecimal digits. The counts of a tally are
//! decimal numbers, one for each user, and so are the users and the numbers of a hold record, one for each
//! place. An edit's record has its 36 blocks, the number of rules and the mask.

use books::edits::{Arrive, Depart, Record};
use books::records::{Holds, Records, Tally};
use books::reserve::{Ask, Settle};
use books::trees::Tree;
use books::Case;
use std::collections::BTreeMap;

/// The case as text.
pub fn write(case: &Case) -> String {
    let (call, fields) = match case {
        Case::Check { book } => ("check", vec![("book", hex(book))]),
        Case::Seal { block } => ("seal", vec![("block", hex(block))]),
        Case::Flows { book, plan, words } => {
            let words = hex_words(words);
            let fields = vec![("book", hex(book)), ("plan", hex(plan)), ("words", words)];
            ("flows", fields)
        }
        Case::Judge { book, user, plan } => {
            let user = user.to_string();
            let fields = vec![("book", hex(book)), ("user", user), ("plan", hex(plan))];
            ("judge", fields)
        }
        Case::Idle { book, rule, buffer } => {
            let rule = rule.to_string();
            let fields = vec![("book", hex(book)), ("rule", rule), ("buffer", hex(buffer))];
            ("idle", fields)
        }
        Case::Blocked { book, rule } => ("blocked", rule_fields(book, *rule)),
        Case::Culprits { book, rule } => ("culprits", rule_fields(book, *rule)),
        Case::Ask(given) => ("ask", ask_fields(given)),
        Case::Commit(given) => ("commit", settle_fields(given)),
        Case::Drop(given) => ("drop", settle_fields(given)),
        Case::Tree(given) => ("tree", tree_fields(given)),
        Case::Arrive(given) => ("arrive", arrive_fields(given)),
        Case::Depart(given) => ("depart", depart_fields(given)),
    };
    let mut text = format!("call {call}\n");
    for (name, value) in fields {
        text.push_str(&format!("{name} {value}\n"));
    }
    text
}

fn rule_fields(book: &[u8], rule: u32) -> Vec<(&'static str, String)> {
    vec![("book", hex(book)), ("rule", rule.to_string())]
}

fn ask_fields(given: &Ask) -> Vec<(&'static str, String)> {
    let fields = vec![
        ("book", hex(&given.book)),
        ("user", given.user.to_string()),
        ("plan", hex(&given.plan)),
    ];
    [fields, record_fields(&given.records)].concat()
}

fn settle_fields(given: &Settle) -> Vec<(&'static str, String)> {
    let fields = vec![
        ("book", hex(&given.book)),
        ("user", given.user.to_string()),
        ("number", given.number.to_string()),
    ];
    [fields, record_fields(&given.records)].concat()
}

fn record_fields(records: &Records) -> Vec<(&'static str, String)> {
    let Records {
        ledger,
        tally,
        holds,
    } = records;
    vec![
        ("ledger", hex_words(ledger)),
        ("admitted", numbers(&tally.admitted)),
        ("declined", numbers(&tally.declined)),
        ("dropped", numbers(&tally.dropped)),
        ("users", numbers(&holds.users)),
        ("numbers", numbers(&holds.numbers)),
        ("held", hex_words(&holds.words)),
    ]
}

fn arrive_fields(given: &Arrive) -> Vec<(&'static str, String)> {
    let block = [("block", hex(&given.block))];
    [&edited_fields(&given.record)[..], &block].concat()
}

fn depart_fields(given: &Depart) -> Vec<(&'static str, String)> {
    let rule = [("rule", given.rule.to_string())];
    [&edited_fields(&given.record)[..], &rule].concat()
}

fn edited_fields(record: &Record) -> [(&'static str, String); 3] {
    [
        ("blocks", hex(&record.blocks[..])),
        ("rules", record.rules.to_string()),
        ("marks", record.marks.to_string()),
    ]
}

fn numbers(numbers: &[u32]) -> String {
    let each: Vec<String> = numbers.iter().map(u32::to_string).collect();
    each.join(" ")
}

fn tree_fields(given: &Tree) -> Vec<(&'static str, String)> {
    vec![
        ("book", hex(&given.book)),
        ("plan", hex(&given.plan)),
        ("row", given.row.to_string()),
        ("lent", given.lent.to_string()),
        ("memory", hex(&given.memory)),
    ]
}

/// Reads a case. Lines that start with '#' are remarks.
pub fn read(text: &str) -> Result<Case, String> {
    let lines = text.lines().map(str::trim);
    let fields = Fields(
        lines
            .filter(|line| !line.is_empty() && !line.starts_with('#'))
            .map(|line| line.split_once(' ').unwrap_or((line, "")))
            .collect(),
    );
    fields.case()
}

/// The fields of a case, by their names.
struct Fields<'a>(BTreeMap<&'a str, &'a str>);

impl Fields<'_> {
    fn case(&self) -> Result<Case, String> {
        match self.field("call")? {
            "check" => Ok(Case::Check {
                book: self.bytes("book")?,
            }),
            "seal" => Ok(Case::Seal {
                block: self.bytes("block")?,
            }),
            "flows" => Ok(Case::Flows {
                book: self.bytes("book")?,
                plan: self.bytes("plan")?,
                words: self.words("words")?,
            }),
            "judge" => Ok(Case::Judge {
                book: self.bytes("book")?,
                user: self.number("user")?,
                plan: self.bytes("plan")?,
            }),
            "idle" => Ok(Case::Idle {
                book: self.bytes("book")?,
                rule: self.number("rule")?,
                buffer: self.bytes("buffer")?,
            }),
            "blocked" => self.of_rule(|book, rule| Case::Blocked { book, rule }),
            "culprits" => self.of_rule(|book, rule| Case::Culprits { book, rule }),
            "ask" => Ok(self.ask()?.into()),
            "commit" => Ok(Case::Commit(Box::new(self.settle()?))),
            "drop" => Ok(Case::Drop(Box::new(self.settle()?))),
            "tree" => Ok(Case::Tree(self.tree()?)),
            "arrive" => Ok(Case::Arrive(Arrive {
                record: self.edited()?,
                block: self.bytes("block")?,
            })),
            "depart" => Ok(Case::Depart(Depart {
                record: self.edited()?,
                rule: self.number("rule")?,
            })),
            other => Err(format!("no call {other}")),
        }
    }

    fn of_rule(&self, case: fn(Vec<u8>, u32) -> Case) -> Result<Case, String> {
        Ok(case(self.bytes("book")?, self.number("rule")?))
    }

    fn ask(&self) -> Result<Ask, String> {
        Ok(Ask {
            book: self.bytes("book")?,
            user: self.number("user")?,
            plan: self.bytes("plan")?,
            records: self.records()?,
        })
    }

    /// A commit or a drop.
    fn settle(&self) -> Result<Settle, String> {
        Ok(Settle {
            book: self.bytes("book")?,
            user: self.number("user")?,
            number: self.number("number")?,
            records: self.records()?,
        })
    }

    fn records(&self) -> Result<Records, String> {
        let held = self.words("held")?;
        let cut = |held: Vec<u64>| format!("held: {} words", held.len());
        Ok(Records {
            ledger: self.words("ledger")?,
            tally: Tally {
                admitted: self.numbers("admitted")?,
                declined: self.numbers("declined")?,
                dropped: self.numbers("dropped")?,
            },
            holds: Holds {
                users: self.numbers("users")?,
                numbers: self.numbers("numbers")?,
                words: held.try_into().map_err(cut)?,
            },
        })
    }

    /// A call of Tree. No more is lent than there is.
    fn tree(&self) -> Result<Tree, String> {
        let memory = self.bytes("memory")?;
        let lent = self.number("lent")? as usize;
        if lent > memory.len() {
            return Err(format!("{lent} bytes are lent of {}", memory.len()));
        }
        Ok(Tree {
            book: self.bytes("book")?,
            plan: self.bytes("plan")?,
            row: self.number("row")?,
            lent,
            memory,
        })
    }

    /// The record of an edit.
    fn edited(&self) -> Result<Record, String> {
        let blocks = self.bytes("blocks")?;
        let cut = |blocks: Box<[u8]>| format!("blocks: {} bytes", blocks.len());
        Ok(Record {
            blocks: blocks.into_boxed_slice().try_into().map_err(cut)?,
            rules: self.number("rules")?,
            marks: self.number("marks")?,
        })
    }

    fn field(&self, name: &str) -> Result<&str, String> {
        self.0.get(name).copied().ok_or(format!("no {name}"))
    }

    fn bytes(&self, name: &str) -> Result<Vec<u8>, String> {
        unhex(self.field(name)?).ok_or(format!("{name} is not hexadecimal"))
    }

    fn words(&self, name: &str) -> Result<Vec<u64>, String> {
        words(&self.bytes(name)?)
    }

    fn number(&self, name: &str) -> Result<u32, String> {
        let number = self.field(name)?.parse();
        number.map_err(|e| format!("{name}: {e}"))
    }

    /// A number for each user, or for each place.
    fn numbers<const N: usize>(&self, name: &str) -> Result<[u32; N], String> {
        let each = self.field(name)?.split_whitespace().map(str::parse);
        let numbers: Result<Vec<u32>, _> = each.collect();
        let numbers = numbers.map_err(|e| format!("{name}: {e}"))?;
        let fixed = numbers.try_into();
        fixed.map_err(|found: Vec<u32>| format!("{name}: {} numbers for {N}", found.len()))
    }
}

fn words(bytes: &[u8]) -> Result<Vec<u64>, String> {
    let word = |bytes: &[u8]| Some(u64::from_be_bytes(bytes.try_into().ok()?));
    let words: Option<Vec<u64>> = bytes.chunks(8).map(word).collect();
    words.ok_or("a word is cut".to_string())
}

fn hex_words(words: &[u64]) -> String {
    words.iter().map(|word| format!("{word:016x}")).collect()
}

/// Two lower-case digits a byte.
pub fn hex(bytes: &[u8]) -> String {
    bytes.iter().map(|byte| format!("{byte:02x}")).collect()
}

fn unhex(text: &str) -> Option<Vec<u8>> {
    let digits: Option<Vec<u8>> = text.chars().map(digit).collect();
    let digits = digits.filter(|digits| digits.len() % 2 == 0)?;
    Some(
        digits
            .chunks(2)
            .map(|pair| 16 * pair[0] + pair[1])
            .collect(),
    )
}

fn digit(digit: char) -> Option<u8> {
    digit.to_digit(16).map(|value| value as u8)
}

#[cfg(test)]
mod tests {
    use super::*;
    use books::records::{PLACES, USERS};
    use books::{case, Random};

    #[test]
    fn what_is_written_is_read() {
        let mut random = Random::new(3);
        for _ in 0..20 {
            let size = case::next_size(&mut random);
            for case in case::round(&mut random, size) {
                assert_eq!(read(&write(&case)), Ok(case));
            }
        }
    }

    #[test]
    fn bad_text_is_said_to_be_bad() {
        assert!(read("").is_err());
        assert!(read("call idle\nbook 00\nrule x\nbuffer").is_err());
        assert!(read("call check\nbook 0").is_err());
        assert!(read("call check\nbook 0g").is_err());
        assert!(read("call flows\nbook\nplan\nwords 00").is_err());
        let tree = |lent| {
            read(&format!(
                "call tree\nbook\nplan\nrow 0\nlent {lent}\nmemory 0a0b"
            ))
        };
        assert!(tree("0").is_ok() && tree("2").is_ok());
        assert!(tree("3").is_err() && tree("-1").is_err());
    }

    /// A commit with these counts of dropped plans, numbers and words.
    fn commit(dropped: &str, numbers: &str, held: &str) -> Result<Case, String> {
        let all = ["4294967295"; USERS].join(" ");
        let users = ["0"; PLACES].join(" ");
        read(&format!(
            "call commit\nbook\nuser 1\nnumber 4\nledger\nadmitted {all}\ndeclined {all}\n\
             dropped {dropped}\nusers {users}\nnumbers {numbers}\nheld {held}"
        ))
    }

    #[test]
    fn bad_records_are_said_to_be_bad() {
        let last = |n: usize, last: &str| [&vec!["7"; n - 1][..], &[last]].concat().join(" ");
        let [dropped, numbers] = [last(USERS, "4294967295"), last(PLACES, "0")];
        let held = "0f".repeat(8 * PLACES * 32);
        assert!(commit(&dropped, &numbers, &held).is_ok());
        for bad in ["4294967296", "-1", "", "7 7"] {
            assert!(commit(&last(USERS, bad), &numbers, &held).is_err());
            assert!(commit(&dropped, &last(PLACES, bad), &held).is_err());
        }
        assert!(commit("", &numbers, &held).is_err() && commit(&dropped, "", &held).is_err());
        for bad in ["", &held[16..], &held[2..], &held.repeat(2)] {
            assert!(commit(&dropped, &numbers, bad).is_err());
        }
    }

    #[test]
    fn bad_edits_are_said_to_be_bad() {
        let depart = |blocks: &str, rules: &str, marks: &str| {
            read(&format!(
                "call depart\nblocks {blocks}\nrules {rules}\nmarks {marks}\nrule 7"
            ))
        };
        let blocks = "ee".repeat(36 * 512);
        assert!(depart(&blocks, "4294967295", "4294967295").is_ok());
        for bad in ["", &blocks[2..], &blocks[1..], &blocks.repeat(2)] {
            assert!(depart(bad, "1", "1").is_err());
        }
        assert!(depart(&blocks, "4294967296", "1").is_err());
        assert!(depart(&blocks, "1", "-1").is_err());
    }

    #[test]
    fn remarks_are_skipped() {
        let case = Case::Check { book: vec![] };
        assert_eq!(read("# engine: done\ncall check\nbook\n"), Ok(case));
    }
}
