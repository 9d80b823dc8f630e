//! Values for scripts, as JSON.

use std::fmt;

/// A value.
#[derive(Clone, Debug, PartialEq, Eq)]
pub enum Json {
    /// Nothing.
    Null,
    /// True or false.
    Bool(bool),
    /// A number.
    Number(usize),
    /// A text.
    Text(String),
    /// A list.
    List(Vec<Json>),
    /// Values by name, in this order.
    Object(Vec<(&'static str, Json)>),
}

impl Json {
    /// A list of what each gives.
    pub fn list<T>(of: impl IntoIterator<Item = T>, value: impl Fn(T) -> Json) -> Json {
        Json::List(of.into_iter().map(value).collect())
    }

    /// A list of texts.
    pub fn texts<T: AsRef<str>>(of: impl IntoIterator<Item = T>) -> Json {
        Json::list(of, |text| Json::Text(text.as_ref().to_string()))
    }

    /// A list of numbers.
    pub fn numbers<'a>(of: impl IntoIterator<Item = &'a usize>) -> Json {
        Json::list(of, |&number| Json::Number(number))
    }
}

impl fmt::Display for Json {
    fn fmt(&self, f: &mut fmt::Formatter<'_>) -> fmt::Result {
        match self {
            Json::Null => write!(f, "null"),
            Json::Bool(value) => write!(f, "{value}"),
            Json::Number(value) => write!(f, "{value}"),
            Json::Text(text) => write!(f, "{}", quoted(text)),
            Json::List(values) => {
                let values: Vec<String> = values.iter().map(Json::to_string).collect();
                write!(f, "[{}]", values.join(","))
            }
            Json::Object(fields) => {
                let field = |(name, value): &(&str, Json)| format!("{}:{value}", quoted(name));
                let fields: Vec<String> = fields.iter().map(field).collect();
                write!(f, "{{{}}}", fields.join(","))
            }
        }
    }
}

/// A text between quotes, with codes for what may not stand there.
fn quoted(text: &str) -> String {
    let letter = |c: char| match c {
        '"' | '\\' => format!("\\{c}"),
        _ if c.is_control() => format!("\\u{:04x}", u32::from(c)),
        _ => c.to_string(),
    };
    let letters: String = text.chars().map(letter).collect();
    format!("\"{letters}\"")
}

#[cfg(test)]
mod tests {
    use super::*;

    #[test]
    fn values() {
        let value = Json::Object(vec![
            ("a", Json::numbers(&[1, 20])),
            ("b", Json::texts(["x\"y\\z\n", "é"])),
            (
                "c",
                Json::List(vec![Json::Bool(true), Json::Null, Json::Object(vec![])]),
            ),
        ]);
        let text = r#"{"a":[1,20],"b":["x\"y\\z\u000a","é"],"c":[true,null,{}]}"#;
        assert_eq!(value.to_string(), text);
    }
}
