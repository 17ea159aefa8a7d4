//! Just enough JSON to write: values and one line of text for each.

use std::fmt::{self, Write};

#[derive(Clone, Debug, PartialEq)]
pub enum Json {
    Flag(bool),
    Number(u64),
    Signed(i64),
    Text(String),
    List(Vec<Json>),
    Object(Fields),
}

/// Members of an object, in the order in which they are written.
pub type Fields = Vec<(&'static str, Json)>;

impl From<u64> for Json {
    fn from(number: u64) -> Json {
        Json::Number(number)
    }
}

impl From<&str> for Json {
    fn from(text: &str) -> Json {
        Json::Text(text.to_string())
    }
}

impl fmt::Display for Json {
    fn fmt(&self, f: &mut fmt::Formatter<'_>) -> fmt::Result {
        match self {
            Json::Flag(flag) => write!(f, "{flag}"),
            Json::Number(number) => write!(f, "{number}"),
            Json::Signed(number) => write!(f, "{number}"),
            Json::Text(text) => quoted(f, text),
            Json::List(values) => listed(f, values),
            Json::Object(fields) => braced(f, fields),
        }
    }
}

fn quoted(f: &mut fmt::Formatter<'_>, text: &str) -> fmt::Result {
    f.write_char('"')?;
    for c in text.chars() {
        match c {
            '"' => f.write_str("\\\"")?,
            '\\' => f.write_str("\\\\")?,
            c if c < ' ' => write!(f, "\\u{:04x}", u32::from(c))?,
            c => f.write_char(c)?,
        }
    }
    f.write_char('"')
}

fn listed(f: &mut fmt::Formatter<'_>, values: &[Json]) -> fmt::Result {
    f.write_char('[')?;
    for (i, value) in values.iter().enumerate() {
        let comma = if i == 0 { "" } else { "," };
        write!(f, "{comma}{value}")?;
    }
    f.write_char(']')
}

fn braced(f: &mut fmt::Formatter<'_>, fields: &Fields) -> fmt::Result {
    f.write_char('{')?;
    for (i, (name, value)) in fields.iter().enumerate() {
        let comma = if i == 0 { "" } else { "," };
        write!(f, "{comma}\"{name}\":{value}")?;
    }
    f.write_char('}')
}

#[cfg(test)]
mod tests {
    use super::*;

    #[test]
    fn text_is_escaped() {
        let text = Json::from("a\"b\\c\n\u{1}é");
        assert_eq!(text.to_string(), "\"a\\\"b\\\\c\\u000a\\u0001é\"");
    }

    #[test]
    fn objects_and_lists_nest() {
        let list = Json::List(vec![Json::Signed(-2), Json::Flag(true), Json::from("x")]);
        let object = Json::Object(vec![("n", Json::from(7)), ("list", list)]);
        assert_eq!(object.to_string(), "{\"n\":7,\"list\":[-2,true,\"x\"]}");
    }
}
