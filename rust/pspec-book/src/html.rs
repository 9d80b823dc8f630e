//! A report as one page, for the data owner: the hierarchies drawn, and each rule with its mark and the
//! reason for it. Nothing is loaded from elsewhere, and no script runs.

use crate::blocked::{advice, Found as Blocking, RuleBlocking, ADVICE};
use crate::contents::UNLABELLED;
use crate::covering::WhyIdle;
use crate::drawing::{drawing, escaped, Label};
use crate::hierarchy::is_leaf;
use crate::named::NamedBook;
use crate::phrases::{counted, joined};
use crate::report::{Found, RuleReport};
use crate::rule::text;
use crate::show::operations;
use crate::words;
use pspec::Access;

const STYLE: &str = "\
body { font: 16px/1.5 sans-serif; color: #111; background: #fff; max-width: 60rem; margin: 2rem auto; padding: 0 1rem }
h1 { font-size: 1.6rem } h2 { font-size: 1.2rem; margin-top: 2rem }
.rule { border: 1px solid #bbb; border-left-width: 6px; padding: .5rem 1rem; margin: .8rem 0; break-inside: avoid }
.needed, .open { border-left-color: #1a6b2f } .idle, .blocked { border-left-color: #a15c00 }
.mark { float: right; font-weight: bold; padding: 0 .5rem; border: 2px solid }
.needed .mark, .open .mark { color: #1a6b2f } .idle .mark, .blocked .mark { color: #a15c00 }
.rule h3 { margin: 0; font-size: 1rem } .rule p { margin: .3rem 0 }
code { font-size: .85rem; color: #444; overflow-wrap: anywhere }
.trees { display: flex; flex-wrap: wrap; gap: 2rem } figure { margin: 0; break-inside: avoid; max-width: 100% }
svg { max-width: 100%; height: auto } svg text { font: 14px monospace } .note { fill: #666 }
footer { margin-top: 2rem; border-top: 1px solid #bbb; font-size: .85rem; color: #444 }
@media print { body { margin: 0; font-size: 11pt } }";

const LEGEND: &str = "\
<p>A query puts data out, or decides by it: by a condition or a choice. To use data is either. \
'Under' an operation means that only its result is used.</p>
";

/// What a page says of a book.
struct Page {
    /// One line above all.
    summary: String,
    /// What to do about it; empty where there is nothing to do.
    advice: &'static str,
    rules: Vec<Section>,
    /// What of it is the engine's answer.
    proved: &'static str,
}

/// A rule with its mark and the reason for it.
struct Section {
    number: usize,
    mark: &'static str,
    why: String,
}

/// The page on the idle rules of a book, under a title.
pub fn page(title: &str, named: &NamedBook, reports: &[RuleReport]) -> String {
    let idle = reports.iter().filter(|report| report.is_idle()).count();
    let (count, needed) = (counted(reports.len(), "rule"), reports.len() - idle);
    let rule = |report: &RuleReport| {
        let (mark, why) = match &report.found {
            Found::Idle(why) => ("idle", why_idle(why)),
            Found::Needed { user, accesses, .. } => ("needed", why_needed(named, user, accesses)),
        };
        let number = report.number;
        Section { number, mark, why }
    };
    let page = Page {
        summary: format!("{count}: {needed} needed, {idle} idle."),
        advice: match idle {
            0 => "",
            _ => {
                "An idle rule could go, and nothing more would pass. Delete one idle rule at a \
                 time, then ask again: of two equal rules each is idle beside the other."
            }
        },
        rules: reports.iter().map(rule).collect(),
        proved:
            "That a rule is idle or needed, which plan breaks it alone and which rules cover it \
                 are answers of the proved engine.",
    };
    page.text(title, named)
}

/// The page on the blocked rules of a book, under a title.
pub fn blocked(title: &str, named: &NamedBook, rules: &[RuleBlocking]) -> String {
    let blocked = rules.iter().filter(|rule| rule.is_blocked()).count();
    let rule = |rule: &RuleBlocking| Section {
        number: rule.number,
        mark: match rule.found {
            Blocking::Forbids => "forbids",
            Blocking::Open => "open",
            Blocking::Closed { .. } => "blocked",
        },
        why: why_blocked(named, &rule.found),
    };
    let page = Page {
        summary: format!("{}: {blocked} blocked.", counted(rules.len(), "rule")),
        advice: match blocked {
            0 => "",
            _ => ADVICE,
        },
        rules: rules.iter().map(rule).collect(),
        proved:
            "That a rule is blocked or not, which user and data come first, and which rules close \
                 them are answers of the proved engine.",
    };
    page.text(title, named)
}

impl Page {
    fn text(&self, title: &str, named: &NamedBook) -> String {
        let sections = self.rules.iter().map(|of| section(named, of));
        let rules: String = sections.collect();
        let advice = match self.advice {
            "" => String::new(),
            advice => format!("<p>{advice}</p>\n"),
        };
        let (title, summary, proved) = (escaped(title), &self.summary, self.proved);
        format!(
            "<!DOCTYPE html>\n<html lang=\"en\">\n<head>\n<meta charset=\"utf-8\">\n\
             <meta name=\"viewport\" content=\"width=device-width, initial-scale=1\">\n\
             <title>Policy report: {title}</title>\n<style>\n{STYLE}\n</style>\n</head>\n<body>\n\
             <h1>Policy report: {title}</h1>\n\
             <p>{summary}</p>\n{advice}{LEGEND}\
             <h2>Rules</h2>\n{rules}\
             <h2>Hierarchies</h2>\n{}\
             <footer><p>{proved} The names and the words around them are not proved.</p></footer>\n\
             </body>\n</html>\n",
            hierarchies(named)
        )
    }
}

fn section(named: &NamedBook, section: &Section) -> String {
    let Section { number, mark, why } = section;
    let rule = &named.contents.rules[*number];
    format!(
        "<section class=\"rule {mark}\">\n<span class=\"mark\">{mark}</span>\n\
         <h3>Rule {number}</h3>\n<p>{}</p>\n<p><code>{}</code></p>\n<p>{}</p>\n</section>\n",
        escaped(&words::rule(rule, named)),
        escaped(&text(rule, &named.names)),
        escaped(why)
    )
}

fn why_idle(why: &WhyIdle) -> String {
    match why {
        WhyIdle::Unbreakable => "Idle: no user and no query can break it.".to_string(),
        WhyIdle::Covered(rules) => {
            let numbers: Vec<String> = rules.iter().map(usize::to_string).collect();
            let one = match rules.len() {
                1 => "rule",
                _ => "one of the rules",
            };
            let rules = joined(&numbers, "and");
            format!("Idle: whoever breaks it breaks {one} {rules} too.")
        }
    }
}

fn why_needed(named: &NamedBook, user: &str, accesses: &[Access]) -> String {
    let does = words::accesses(accesses, &named.names);
    format!("Needed: without it a query of {user} would pass that {does}. No other rule stops it.")
}

fn why_blocked(named: &NamedBook, found: &Blocking) -> String {
    match found {
        Blocking::Forbids => "It forbids, and permits nothing.".to_string(),
        Blocking::Open => {
            "Open: each user that it covers may have all its data under some operations."
                .to_string()
        }
        Blocking::Closed {
            user,
            data,
            closed_by,
            reasons,
        } => {
            let does = words::data_together(data, &named.names);
            let advice = advice(closed_by, reasons);
            format!(
                "Blocked: {user} can't {does}. Whatever the operations, some rule is broken. {advice}"
            )
        }
    }
}

fn hierarchies(named: &NamedBook) -> String {
    let (contents, names) = (&named.contents, &named.names);
    let user = |i: usize| Label {
        name: names.users[i].clone(),
        note: String::new(),
    };
    let data = |i: usize| Label {
        name: names.data[i].clone() + &operations(contents.data[i], names),
        note: columns(named, i),
    };
    let users = drawing("Users", &contents.users, user);
    let data = drawing("Data", &contents.parents(), data);
    format!(
        "<p>A full dot has nothing below it: these are the users, and the data that a column may have. \
         Operations stand in brackets, columns in grey. A category supports its own operations and what the \
         one above it supports, but for what it withdraws.</p>\n\
         <div class=\"trees\">\n{users}{data}</div>\n"
    )
}

/// The columns of a leaf; nothing for what is no leaf.
fn columns(named: &NamedBook, category: usize) -> String {
    let contents = &named.contents;
    if !is_leaf(&contents.parents(), category as u8) {
        return String::new();
    }
    let labels = contents.columns.iter().enumerate();
    let of = labels.filter(|(_, &label)| label != UNLABELLED && usize::from(label) == category);
    let columns: Vec<String> = of.map(|(c, _)| named.names.columns[c].clone()).collect();
    match columns.as_slice() {
        [] => "no column".to_string(),
        [first, second, third, .., _] => {
            let more = columns.len() - 3;
            format!("{first}, {second}, {third} and {more} more")
        }
        columns => columns.join(", "),
    }
}
