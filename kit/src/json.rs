//! JSON as the kit writes it (RFC 8259). `{}` is one line; `{:#}` has a line for each item and two blanks for each level.
//!
//! Nothing in the kit reads JSON. Numbers are natural ones, as all that an operation answers; a reader whose numbers are
//! of floating point has them exactly up to 2^53 - 1.

use std::fmt::{self, Display, Formatter, Write};

#[derive(Clone, Debug, PartialEq, Eq)]
pub enum Value {
    Null,
    Bool(bool),
    Number(u64),
    Text(String),
    List(Vec<Value>),
    /// Names and values, in the order in which they are written.
    Object(Vec<(&'static str, Value)>),
}

impl From<bool> for Value {
    fn from(value: bool) -> Value {
        Value::Bool(value)
    }
}

impl From<u32> for Value {
    fn from(value: u32) -> Value {
        Value::Number(u64::from(value))
    }
}

impl From<u64> for Value {
    fn from(value: u64) -> Value {
        Value::Number(value)
    }
}

impl From<usize> for Value {
    fn from(value: usize) -> Value {
        Value::Number(value as u64)
    }
}

impl From<&str> for Value {
    fn from(value: &str) -> Value {
        Value::Text(value.to_string())
    }
}

impl From<String> for Value {
    fn from(value: String) -> Value {
        Value::Text(value)
    }
}

impl<V: Into<Value>> From<Option<V>> for Value {
    fn from(value: Option<V>) -> Value {
        value.map_or(Value::Null, V::into)
    }
}

impl<V: Into<Value>> From<Vec<V>> for Value {
    fn from(values: Vec<V>) -> Value {
        Value::List(values.into_iter().map(V::into).collect())
    }
}

impl<V: Into<Value>> FromIterator<V> for Value {
    fn from_iter<I: IntoIterator<Item = V>>(values: I) -> Value {
        Value::List(values.into_iter().map(V::into).collect())
    }
}

impl Display for Value {
    fn fmt(&self, f: &mut Formatter) -> fmt::Result {
        write(f, self, f.alternate().then_some(0))
    }
}

/// A value that stands at this level, if there is a line for each item.
fn write(f: &mut Formatter, value: &Value, level: Option<usize>) -> fmt::Result {
    match value {
        Value::Null => f.write_str("null"),
        Value::Bool(value) => write!(f, "{value}"),
        Value::Number(value) => write!(f, "{value}"),
        Value::Text(text) => write_text(f, text),
        Value::List(values) => write_items(f, ['[', ']'], level, values, write),
        Value::Object(members) => write_items(f, ['{', '}'], level, members, |f, (name, value), inner| {
            write_text(f, name)?;
            f.write_str(": ")?;
            write(f, value, inner)
        }),
    }
}

fn write_items<T>(
    f: &mut Formatter,
    [open, close]: [char; 2],
    level: Option<usize>,
    items: &[T],
    each: impl Fn(&mut Formatter, &T, Option<usize>) -> fmt::Result,
) -> fmt::Result {
    let inner = level.map(|level| level + 1);
    f.write_char(open)?;
    for (i, item) in items.iter().enumerate() {
        f.write_str(match (i, inner) {
            (0, _) => "",
            (_, None) => ", ",
            (_, Some(_)) => ",",
        })?;
        new_line(f, inner)?;
        each(f, item, inner)?;
    }
    if !items.is_empty() {
        new_line(f, level)?;
    }
    f.write_char(close)
}

fn new_line(f: &mut Formatter, level: Option<usize>) -> fmt::Result {
    level.map_or(Ok(()), |level| write!(f, "\n{:1$}", "", 2 * level))
}

/// What has to be escaped is: quotes, backslashes, controls. The delete character may stand as it is, but nobody sees it.
fn write_text(f: &mut Formatter, text: &str) -> fmt::Result {
    f.write_char('"')?;
    for c in text.chars() {
        match c {
            '"' => f.write_str("\\\""),
            '\\' => f.write_str("\\\\"),
            '\n' => f.write_str("\\n"),
            '\r' => f.write_str("\\r"),
            '\t' => f.write_str("\\t"),
            '\0'..=' ' | '\x7F' if c != ' ' => write!(f, "\\u{:04x}", c as u32),
            c => f.write_char(c),
        }?;
    }
    f.write_char('"')
}

#[cfg(test)]
mod tests {
    use super::*;

    #[test]
    fn each_kind_of_value() {
        let value = Value::Object(vec![
            ("none", Value::Null),
            ("yes", true.into()),
            ("largest", u64::MAX.into()),
            ("list", vec![1u32, 2].into()),
            ("empty", Value::List(vec![])),
            ("nothing", Value::Object(vec![])),
            ("perhaps", None::<&str>.into()),
        ]);
        let line = r#"{"none": null, "yes": true, "largest": 18446744073709551615, "list": [1, 2], "empty": [], "nothing": {}, "perhaps": null}"#;
        assert_eq!(value.to_string(), line);
    }

    #[test]
    fn texts_are_escaped() {
        let text = |text: &str| Value::from(text).to_string();
        assert_eq!(text("a \"b\" \\ c/d"), r#""a \"b\" \\ c/d""#);
        assert_eq!(text("\n\r\t\0\x1B\x1F\x7F"), r#""\n\r\t\u0000\u001b\u001f\u007f""#);
        assert_eq!(text("Küche 𝄞"), "\"Küche 𝄞\"");
        assert_eq!(Value::Object(vec![("a\"b", Value::Null)]).to_string(), r#"{"a\"b": null}"#);
    }

    #[test]
    fn a_line_for_each_item() {
        let inner =
            Value::Object(vec![("b", Value::List(vec![Value::from("x"), Value::Null])), ("c", Value::List(vec![]))]);
        let value = Value::Object(vec![("a", Value::List(vec![inner])), ("d", 1u64.into())]);
        let lines = [
            "{",
            "  \"a\": [",
            "    {",
            "      \"b\": [",
            "        \"x\",",
            "        null",
            "      ],",
            "      \"c\": []",
            "    }",
            "  ],",
            "  \"d\": 1",
            "}",
        ];
        assert_eq!(format!("{value:#}"), lines.join("\n"));
    }
}
