//! A rule in the paper's notation.
//!
//! ```text
//! Analyst exclude Intern, Guest, [access Address exclude City, projection Price]
//!     => [{}, {avg}] or [{mask}, {}]
//! ```
//!
//! A rule is written on one line. Restrictions are joined by `or`; `=> forbid` has none.

use crate::action::RuleAction;
use crate::contents::{bits, Reference, Rule, OPERATIONS};
use crate::mistake::{mistake, Mistake};
use crate::names::Names;
use crate::text::{is_name, Cursor, Line};

/// What is expected where a category stands.
const USER: &str = "a user category that the policy names";
const DATA: &str = "a data category that the policy names";

/// The most that a rule block has room for.
const EXCLUDED_USERS: usize = 4;
const REFERENCES: usize = 3;
const EXCLUDED_DATA: usize = 8;
const RESTRICTIONS: usize = 8;

/// Reads a rule. An operation that was not named before gets the next number.
pub fn read(line: Line, names: &mut Names) -> Result<Rule, Mistake> {
    let mut cursor = Cursor::new(line);
    let user = cursor.known(&names.users, USER)?;
    let excluded = excluded_users(&mut cursor, names)?;
    let references = references(&mut cursor, names)?;
    cursor.expect("=>")?;
    let restrictions = restrictions(&mut cursor, names, references.len())?;
    cursor.end()?;
    Ok(Rule {
        user,
        excluded,
        references,
        restrictions,
    })
}

/// The number of an operation, the next free one if it is new.
pub fn operation(cursor: &mut Cursor, names: &mut Names) -> Result<u8, Mistake> {
    let name = cursor.name("an operation")?;
    let list = &mut names.operations;
    let known = list.iter().position(|known| known == name);
    let place = known.unwrap_or(list.len());
    if known.is_none() {
        list.push(name.to_string());
    }
    at_most(cursor, place + 1, OPERATIONS, "operations in a book")?;
    Ok(place as u8 + 1)
}

/// The mask of one or more operations.
pub fn operation_mask(cursor: &mut Cursor, names: &mut Names) -> Result<u16, Mistake> {
    let numbers = cursor.separated(",", |cursor| operation(cursor, names))?;
    Ok(numbers.iter().fold(0, |mask, number| mask | 1 << number))
}

/// Refuses more of something than there is room for.
fn at_most(cursor: &Cursor, count: usize, most: usize, what: &str) -> Result<(), Mistake> {
    if count <= most {
        return Ok(());
    }
    let what = format!("found {count} {what}; expected at most {most}");
    Err(mistake(cursor.line(), what))
}

/// The list ends at the comma before the references.
fn excluded_users(cursor: &mut Cursor, names: &Names) -> Result<Vec<u8>, Mistake> {
    let mut excluded = Vec::new();
    if cursor.take("exclude") {
        excluded.push(cursor.known(&names.users, USER)?);
    }
    loop {
        match cursor.ahead(0) {
            Some(",") => cursor.expect(",")?,
            _ if excluded.is_empty() => return Err(cursor.found("',' or 'exclude'")),
            _ => return Err(cursor.found("','")),
        }
        if excluded.is_empty() || cursor.ahead(0) == Some("[") {
            break;
        }
        excluded.push(cursor.known(
            &names.users,
            "a user category that the policy names, or '['",
        )?);
    }
    at_most(
        cursor,
        excluded.len(),
        EXCLUDED_USERS,
        "excluded users in a rule",
    )?;
    Ok(excluded)
}

fn references(cursor: &mut Cursor, names: &Names) -> Result<Vec<Reference>, Mistake> {
    cursor.expect("[")?;
    let references = cursor.separated(",", |cursor| reference(cursor, names))?;
    if !cursor.take("]") {
        return Err(cursor.found("',', 'exclude' or ']'"));
    }
    at_most(cursor, references.len(), REFERENCES, "references in a rule")?;
    Ok(references)
}

fn reference(cursor: &mut Cursor, names: &Names) -> Result<Reference, Mistake> {
    let wrong = cursor.found("projection, condition or access");
    let word = cursor.name("projection, condition or access")?;
    let action = RuleAction::of_word(word).ok_or(wrong)?;
    let lower = cursor.known(&names.data, DATA)?;
    let mut excluded = Vec::new();
    if cursor.take("exclude") {
        excluded.push(cursor.known(&names.data, DATA)?);
        while cursor.ahead(0) == Some(",") && !starts_reference(cursor) {
            cursor.expect(",")?;
            excluded.push(cursor.known(&names.data, DATA)?);
        }
    }
    at_most(
        cursor,
        excluded.len(),
        EXCLUDED_DATA,
        "excluded categories in a reference",
    )?;
    Ok(Reference {
        category: lower,
        action,
        excluded,
    })
}

/// After the comma: two words start a reference, one alone is a further excluded category.
fn starts_reference(cursor: &Cursor) -> bool {
    cursor.ahead(2).is_some_and(is_name)
}

fn restrictions(
    cursor: &mut Cursor,
    names: &mut Names,
    references: usize,
) -> Result<Vec<[u16; 3]>, Mistake> {
    if cursor.take("forbid") {
        return Ok(vec![]);
    }
    let restrictions = cursor.separated("or", |cursor| match cursor.ahead(0) {
        Some("[") => restriction(cursor, names, references),
        _ => Err(cursor.found("'[' or 'forbid'")),
    })?;
    at_most(
        cursor,
        restrictions.len(),
        RESTRICTIONS,
        "restrictions in a rule",
    )?;
    Ok(restrictions)
}

fn restriction(
    cursor: &mut Cursor,
    names: &mut Names,
    references: usize,
) -> Result<[u16; 3], Mistake> {
    cursor.expect("[")?;
    let mut masks = cursor.separated(",", |cursor| mask(cursor, names))?;
    cursor.expect("]")?;
    if masks.len() != references {
        let what = format!(
            "found {} sets of operations in a restriction; \
             expected {references}, one for each reference",
            masks.len()
        );
        return Err(mistake(cursor.line(), what));
    }
    masks.resize(3, 0);
    Ok([masks[0], masks[1], masks[2]])
}

fn mask(cursor: &mut Cursor, names: &mut Names) -> Result<u16, Mistake> {
    cursor.expect("{")?;
    if cursor.take("}") {
        return Ok(0);
    }
    let mask = operation_mask(cursor, names)?;
    cursor.expect("}")?;
    Ok(mask)
}

/// The text of a rule.
pub fn text(rule: &Rule, names: &Names) -> String {
    let user = with_excluded(rule.user, &rule.excluded, &names.users);
    let references: Vec<String> = rule
        .references
        .iter()
        .map(|reference| reference_text(reference, names))
        .collect();
    let end = match rule.restrictions.as_slice() {
        [] => "forbid".to_string(),
        restrictions => {
            let n = references.len();
            let each = restrictions
                .iter()
                .map(|masks| restriction_text(&masks[..n], names));
            each.collect::<Vec<_>>().join(" or ")
        }
    };
    format!("{user}, [{}] => {end}", references.join(", "))
}

fn with_excluded(category: u8, excluded: &[u8], list: &[String]) -> String {
    let name = |&i: &u8| list[usize::from(i)].as_str();
    match excluded {
        [] => name(&category).to_string(),
        _ => {
            let out: Vec<&str> = excluded.iter().map(name).collect();
            format!("{} exclude {}", name(&category), out.join(", "))
        }
    }
}

/// The text of a reference.
pub fn reference_text(reference: &Reference, names: &Names) -> String {
    let action = reference.action.word();
    let data = with_excluded(reference.category, &reference.excluded, &names.data);
    format!("{action} {data}")
}

fn restriction_text(masks: &[u16], names: &Names) -> String {
    let sets = masks
        .iter()
        .map(|&mask| format!("{{{}}}", operations(mask, names)));
    format!("[{}]", sets.collect::<Vec<_>>().join(", "))
}

/// The names of a mask's operations.
pub fn operations(mask: u16, names: &Names) -> String {
    let each: Vec<&str> = bits(mask).map(|k| names.operation(k)).collect();
    each.join(", ")
}
