//! The lineage tree of a row: what its value is made of, as lines for a record.
//!
//! The lines are the engine's. On request they go on with names, by a second look at the plan's
//! rows, which changes nothing of what the engine wrote.

use crate::contents::UNLABELLED;
use crate::json::Json;
use crate::named::NamedBook;
use pspec::{Node, Plan, Tree};

/// A row that gives a value, in the policy's names.
#[derive(Clone, Copy, Debug, PartialEq, Eq)]
pub enum Value<'a> {
    /// A column.
    Column {
        /// Its name.
        name: &'a str,
        /// Its label, if it has one.
        label: Option<&'a str>,
    },
    /// A function of one row or two.
    Apply {
        /// Its name.
        function: &'a str,
        /// Its operation, if it has one.
        operation: Option<&'a str>,
    },
    /// A choice.
    Choose {
        /// The row that decides.
        decides: usize,
    },
}

/// The nodes of a tree, each with what its row is.
pub fn values<'a>(tree: &Tree, plan: &Plan, named: &'a NamedBook) -> Vec<(Node, Value<'a>)> {
    let rows: Vec<[u8; 4]> = plan.rows().collect();
    let value = |node: Node| (node, Value::of(rows[node.row], named));
    tree.nodes().map(value).collect()
}

/// The lines of a tree, each going on with names.
pub fn text(tree: &Tree, plan: &Plan, named: &NamedBook) -> String {
    let lines = tree.text().lines().zip(values(tree, plan, named));
    lines
        .map(|(line, (_, value))| format!("{line} {}\n", value.text()))
        .collect()
}

/// The tree of a row, for scripts.
pub fn json(row: u32, tree: &Tree, plan: &Plan, named: &NamedBook) -> Json {
    let node = |(node, value): (Node, Value)| {
        let mut fields = vec![
            ("level", Json::Number(node.level)),
            ("row", Json::Number(node.row)),
        ];
        fields.extend(value.fields());
        Json::Object(fields)
    };
    let nodes = Json::list(values(tree, plan, named), node);
    Json::Object(vec![
        ("row", Json::Number(row as usize)),
        ("node_count", Json::Number(tree.node_count() as usize)),
        ("text", Json::Text(tree.text().to_string())),
        ("nodes", nodes),
    ])
}

impl<'a> Value<'a> {
    /// What a row of kind 1 to 3 is, in a plan that the engine accepts.
    fn of([kind, a, ..]: [u8; 4], named: &'a NamedBook) -> Value<'a> {
        let NamedBook {
            contents, names, ..
        } = named;
        let number = usize::from(a);
        match kind {
            1 => Value::Column {
                name: &names.columns[number],
                label: match contents.columns[number] {
                    UNLABELLED => None,
                    leaf => Some(&names.data[usize::from(leaf)]),
                },
            },
            2 => Value::Apply {
                function: &names.functions[number],
                operation: match contents.functions[number] {
                    0 => None,
                    k => Some(names.operation(k)),
                },
            },
            _ => Value::Choose { decides: number },
        }
    }

    /// What a line goes on with. A name has no space, so 'no label' is none.
    fn text(self) -> String {
        match self {
            Value::Column { name, label } => format!("{name} ({})", label.unwrap_or("no label")),
            Value::Apply {
                function,
                operation,
            } => format!("{function} ({})", operation.unwrap_or("no operation")),
            Value::Choose { decides } => format!("(row {decides} decides)"),
        }
    }

    /// The same for scripts, after the kind.
    fn fields(self) -> Vec<(&'static str, Json)> {
        let text = |text: &str| Json::Text(text.to_string());
        let or_null = |name: Option<&str>| name.map_or(Json::Null, text);
        match self {
            Value::Column { name, label } => vec![
                ("kind", text("column")),
                ("column", text(name)),
                ("label", or_null(label)),
            ],
            Value::Apply {
                function,
                operation,
            } => vec![
                ("kind", text("apply")),
                ("function", text(function)),
                ("operation", or_null(operation)),
            ],
            Value::Choose { decides } => {
                vec![("kind", text("choose")), ("decides", Json::Number(decides))]
            }
        }
    }
}
