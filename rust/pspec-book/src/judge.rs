//! Which rules a user and a plan break, and by what, in the policy's names.

use crate::breaking::breaking;
use crate::explain;
use crate::json::Json;
use crate::lineage::{self, Traced};
use crate::mistake::Mistakes;
use crate::named::NamedBook;
use crate::names::Names;
use crate::plan;
use crate::rule;
use crate::text::place;
use pspec::{Access, Refusal, Verdict};

/// Why no judgement is given.
#[derive(Clone, Debug, PartialEq, Eq)]
pub enum NotJudged {
    /// There is no such user.
    User(String),
    /// The plan is refused.
    Plan(Mistakes),
}

/// A rule that a user and a plan break.
#[derive(Clone, Debug, PartialEq, Eq)]
pub struct BrokenRule {
    /// Its number.
    pub number: u32,
    /// Its text.
    pub rule: String,
    /// What breaks it, reference by reference.
    pub parts: Vec<Part>,
}

/// The accesses that break a rule, for one of its references.
#[derive(Clone, Debug, PartialEq, Eq)]
pub struct Part {
    /// The reference's text.
    pub reference: String,
    /// The accesses.
    pub accesses: Vec<Traced>,
}

/// The broken rules.
pub fn broken(named: &NamedBook, user: &str, text: &str) -> Result<Vec<BrokenRule>, NotJudged> {
    let NamedBook {
        book,
        contents,
        names,
    } = named;
    let number = place(&names.users, user);
    let number = number.ok_or_else(|| NotJudged::User(explain::unknown_user(user, named)))?;
    let plan = plan::read(text, named).map_err(NotJudged::Plan)?;
    let refused = |refusal| match refusal {
        Refusal::NoUser => NotJudged::User(explain::no_user(number, &contents.users, names)),
        _ => NotJudged::Plan(explain::plan(refusal, &plan, contents).into()),
    };
    let broken = match book.judge(number.into(), &plan.plan) {
        Verdict::Judged(broken) => broken,
        Verdict::Refused(refusal) => return Err(refused(refusal)),
    };
    let traced = lineage::traced(&plan, named).map_err(refused)?;
    Ok(broken.rules().map(|r| one(r, named, &traced)).collect())
}

fn one(r: u32, named: &NamedBook, traced: &[Traced]) -> BrokenRule {
    let rule = &named.contents.rules[r as usize];
    let accesses: Vec<Access> = traced.iter().map(|of| of.access).collect();
    let breaking = breaking(rule, &named.contents, &accesses);
    let part = |(reference, accesses): (_, Vec<Access>)| Part {
        reference: rule::reference_text(reference, &named.names),
        accesses: {
            let taken = traced.iter().filter(|of| accesses.contains(&of.access));
            taken.cloned().collect()
        },
    };
    BrokenRule {
        number: r,
        rule: rule::text(rule, &named.names),
        parts: rule.references.iter().zip(breaking).map(part).collect(),
    }
}

impl BrokenRule {
    fn json(&self, names: &Names) -> Json {
        let part = |part: &Part| {
            let accesses = Json::list(&part.accesses, |access| access.json(names));
            let reference = Json::Text(part.reference.clone());
            Json::Object(vec![("reference", reference), ("accesses", accesses)])
        };
        Json::Object(vec![
            ("number", Json::Number(self.number as usize)),
            ("rule", Json::Text(self.rule.clone())),
            ("by", Json::list(&self.parts, part)),
        ])
    }
}

/// The broken rules for scripts.
pub fn json(user: &str, broken: &[BrokenRule], names: &Names) -> Json {
    Json::Object(vec![
        ("user", Json::Text(user.to_string())),
        ("opens", Json::Bool(broken.is_empty())),
        ("broken", Json::list(broken, |rule| rule.json(names))),
    ])
}

/// The broken rules in words, one after the other.
pub fn text(user: &str, broken: &[BrokenRule], names: &Names) -> String {
    if broken.is_empty() {
        return format!("{user} breaks no rule.\n");
    }
    let mut text = String::new();
    for BrokenRule {
        number,
        rule,
        parts,
    } in broken
    {
        text += &format!("{user} breaks rule {number} ({rule})\n");
        for part in parts.iter().filter(|part| !part.accesses.is_empty()) {
            let accesses = part.accesses.iter().map(|of| of.text(names));
            let accesses: Vec<String> = accesses.collect();
            text += &format!("  {}: {}\n", part.reference, accesses.join("; "));
        }
    }
    text
}
