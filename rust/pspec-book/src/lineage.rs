//! Which lines of a plan an access comes from.
//!
//! The accesses are the engine's. Their lines are found here by a second look, which decides nothing:
//! an access that it does not find has no lines.

use crate::contents::{Contents, UNLABELLED};
use crate::json::Json;
use crate::named::NamedBook;
use crate::names::Names;
use crate::phrases::counted_list;
use crate::plan::{PlanText, NONE};
use crate::withdrawn::Withdrawn;
use pspec::{Access, Action, Refusal};
use std::collections::{BTreeMap, BTreeSet};

/// An access of a plan, and where it comes from.
#[derive(Clone, Debug, PartialEq, Eq)]
pub struct Traced {
    /// The access.
    pub access: Access,
    /// The lines that put it out or decide by it, each with the lines of the columns.
    pub lines: BTreeMap<usize, BTreeSet<usize>>,
    /// Operations that were applied before its own, or to raw data, and are withdrawn from them.
    pub withdrawn: Withdrawn,
}

impl Traced {
    /// The access in words, with its lines, and with who withdraws an operation that did not count.
    pub fn text(&self, names: &Names) -> String {
        let each = self.lines.iter().map(|(sink, columns)| {
            let columns: Vec<String> = columns.iter().map(usize::to_string).collect();
            format!(", line {sink} from {}", counted_list("line", &columns))
        });
        let withdrawn = match self.withdrawn.words(names).as_slice() {
            [] => String::new(),
            words => format!(" ({})", words.join(", ")),
        };
        let (access, lines) = (text(self.access, names), each.collect::<String>());
        format!("{access}{lines}{withdrawn}")
    }

    /// The same for scripts.
    pub fn json(&self, names: &Names) -> Json {
        let action = match self.access.action {
            Action::Projection => "projection",
            Action::Condition => "condition",
        };
        let operation = match self.access.operation {
            0 => Json::Null,
            k => Json::Text(names.operation(k).to_string()),
        };
        let line = |(&line, columns): (&usize, &BTreeSet<usize>)| {
            let columns = Json::numbers(columns);
            Json::Object(vec![("line", Json::Number(line)), ("columns", columns)])
        };
        let leaf = names.data[usize::from(self.access.leaf)].clone();
        Json::Object(vec![
            ("action", Json::Text(action.to_string())),
            ("leaf", Json::Text(leaf)),
            ("operation", operation),
            ("lines", Json::list(&self.lines, line)),
        ])
    }
}

/// An access in words, as `output avg(Price)`.
pub fn text(access: Access, names: &Names) -> String {
    let action = match access.action {
        Action::Projection => "output",
        Action::Condition => "condition",
    };
    let leaf = &names.data[usize::from(access.leaf)];
    match access.operation {
        0 => format!("{action} {leaf}"),
        k => format!("{action} {}({leaf})", names.operation(k)),
    }
}

/// The accesses that the engine finds in a plan, with their lines.
pub fn traced(plan: &PlanText, named: &NamedBook) -> Result<Vec<Traced>, Refusal> {
    let accesses = named.book.flows(&plan.plan)?;
    let mut traced: Vec<Traced> = accesses
        .iter()
        .map(|access| Traced {
            access,
            lines: BTreeMap::new(),
            withdrawn: Withdrawn::default(),
        })
        .collect();
    for origin in origins(plan, &named.contents) {
        if let Some(of) = traced.iter_mut().find(|of| of.access == origin.access) {
            let columns = of.lines.entry(plan.lines[origin.sink]).or_default();
            columns.insert(plan.lines[origin.column]);
            let leaf = origin.access.leaf;
            of.withdrawn.add(&named.contents, leaf, origin.unsupported);
        }
    }
    Ok(traced)
}

/// What a plan gives away, for scripts.
pub fn json(accesses: &[Traced], names: &Names) -> Json {
    let accesses = Json::list(accesses, |access| access.json(names));
    Json::Object(vec![("accesses", accesses)])
}

/// One way from a column's row to a row that gives an access.
struct Origin {
    access: Access,
    sink: usize,
    column: usize,
    unsupported: u16,
}

/// A way up from a column: the column's row, and whether it has an operation so far.
type Way = (usize, SoFar);

/// Whether a way has an operation so far.
#[derive(Clone, Copy, PartialEq, Eq, PartialOrd, Ord)]
enum SoFar {
    /// None, but a function further up may count.
    NotYet,
    /// This one, which it keeps.
    Has(u8),
    /// None, and nothing further up counts.
    Ended,
}

/// Ways up to a row, each with the operations on it that came before any that counts and are not
/// supported.
type Ways = BTreeMap<Way, u16>;

/// The rows of a plan, and the ways up to those that are done.
struct Tracer<'a> {
    rows: Vec<[u8; 4]>,
    contents: &'a Contents,
    ways: Vec<Ways>,
}

/// All ways of a plan that the engine accepts.
fn origins(plan: &PlanText, contents: &Contents) -> Vec<Origin> {
    let mut tracer = Tracer {
        rows: plan.plan.rows().collect(),
        contents,
        ways: vec![],
    };
    let mut origins = Vec::new();
    for row in 0..tracer.rows.len() {
        origins.extend(tracer.given(row));
        tracer.ways.push(tracer.ways(row));
    }
    origins
}

impl Tracer<'_> {
    fn label(&self, column: usize) -> u8 {
        self.contents.columns[usize::from(self.rows[column][1])]
    }

    /// The ways up to a row above; none for 255.
    fn above(&self, row: u8) -> Ways {
        self.ways.get(usize::from(row)).cloned().unwrap_or_default()
    }

    /// What an Output, a Condition or the first row of a Choose gives.
    fn given(&self, sink: usize) -> Vec<Origin> {
        let [kind, a, ..] = self.rows[sink];
        let action = match kind {
            3 | 5 => Action::Condition,
            4 => Action::Projection,
            _ => return vec![],
        };
        let origin = |((column, so_far), unsupported): (Way, u16)| Origin {
            access: Access {
                action,
                leaf: self.label(column),
                operation: match so_far {
                    SoFar::Has(k) => k,
                    SoFar::NotYet | SoFar::Ended => 0,
                },
            },
            sink,
            column,
            unsupported,
        };
        self.above(a).into_iter().map(origin).collect()
    }

    /// The ways up to a row.
    fn ways(&self, row: usize) -> Ways {
        let [kind, a, b, c] = self.rows[row];
        let step = |way: Way| match kind {
            2 if c == NONE => self.applied(a, way),
            2 => (mixed(way), 0),
            _ => (way, 0),
        };
        let mut ways = Ways::new();
        match kind {
            1 if self.label(row) != UNLABELLED => {
                ways.insert((row, SoFar::NotYet), 0);
            }
            2 | 3 => {
                for (way, unsupported) in self.above(b).into_iter().chain(self.above(c)) {
                    let (way, more) = step(way);
                    *ways.entry(way).or_default() |= unsupported | more;
                }
            }
            _ => (),
        }
        ways
    }

    /// A way after a function of one row: its operation counts where it is the first that the label
    /// supports. One that comes before any such and is not supported is given as a mask.
    fn applied(&self, function: u8, (column, so_far): Way) -> (Way, u16) {
        let k = self.contents.functions[usize::from(function)];
        let supported = self.contents.supported(self.label(column)) >> k & 1 == 1;
        match so_far {
            SoFar::NotYet if supported => ((column, SoFar::Has(k)), 0),
            SoFar::NotYet => ((column, so_far), 1 << k),
            SoFar::Has(_) | SoFar::Ended => ((column, so_far), 0),
        }
    }
}

/// A way after a function of two rows: neither it nor anything further up counts.
fn mixed((column, so_far): Way) -> Way {
    match so_far {
        SoFar::NotYet => (column, SoFar::Ended),
        SoFar::Has(_) | SoFar::Ended => (column, so_far),
    }
}
