//! Values as JSON, on one line.

use std::fmt;

pub enum Json {
    Null,
    Bool(bool),
    Count(usize),
    Float(f64),
    Text(String),
    List(Vec<Json>),
    Object(Vec<(&'static str, Json)>),
}

impl Json {
    pub fn text(text: &str) -> Json {
        Json::Text(text.to_string())
    }

    pub fn counts(counts: impl IntoIterator<Item = usize>) -> Json {
        Json::List(counts.into_iter().map(Json::Count).collect())
    }
}

/// Null where there is none.
impl<T: Into<Json>> From<Option<T>> for Json {
    fn from(value: Option<T>) -> Json {
        value.map_or(Json::Null, Into::into)
    }
}

impl From<usize> for Json {
    fn from(count: usize) -> Json {
        Json::Count(count)
    }
}

impl From<&str> for Json {
    fn from(text: &str) -> Json {
        Json::text(text)
    }
}

impl fmt::Display for Json {
    fn fmt(&self, out: &mut fmt::Formatter) -> fmt::Result {
        match self {
            Json::Null => out.write_str("null"),
            Json::Bool(value) => write!(out, "{value}"),
            Json::Count(count) => write!(out, "{count}"),
            // The shortest digits that are read back as the same number.
            Json::Float(value) => write!(out, "{value}"),
            Json::Text(text) => quoted(out, text),
            Json::List(items) => listed(out, items.iter(), ['[', ']'], |out, item| write!(out, "{item}")),
            Json::Object(members) => listed(out, members.iter(), ['{', '}'], |out, (name, value)| {
                quoted(out, name)?;
                write!(out, ":{value}")
            }),
        }
    }
}

/// Items between brackets, with commas.
fn listed<T>(
    out: &mut fmt::Formatter,
    items: impl Iterator<Item = T>,
    [open, close]: [char; 2],
    item: impl Fn(&mut fmt::Formatter, T) -> fmt::Result,
) -> fmt::Result {
    write!(out, "{open}")?;
    for (index, value) in items.enumerate() {
        if index > 0 {
            out.write_str(",")?;
        }
        item(out, value)?;
    }
    write!(out, "{close}")
}

fn quoted(out: &mut fmt::Formatter, text: &str) -> fmt::Result {
    out.write_str("\"")?;
    for symbol in text.chars() {
        match symbol {
            '"' | '\\' => write!(out, "\\{symbol}")?,
            '\n' => out.write_str("\\n")?,
            _ if symbol.is_control() => write!(out, "\\u{:04x}", symbol as u32)?,
            _ => write!(out, "{symbol}")?,
        }
    }
    out.write_str("\"")
}

#[cfg(test)]
mod tests {
    use super::*;

    #[test]
    fn values_are_written() {
        let value = Json::Object(vec![
            ("none", Json::from(None::<usize>)),
            ("yes", Json::Bool(true)),
            ("counts", Json::counts([0, 12])),
            ("empty", Json::List(vec![])),
            ("energy", Json::Float(-22920.5)),
            ("whole", Json::Float(196350.0)),
            ("text", Json::text("a\"b\\c\nd\u{1}é")),
        ]);
        let due = "{\"none\":null,\"yes\":true,\"counts\":[0,12],\"empty\":[],\"energy\":-22920.5,\"whole\":196350,\"text\":\"a\\\"b\\\\c\\nd\\u0001é\"}";
        assert_eq!(value.to_string(), due);
    }
}
