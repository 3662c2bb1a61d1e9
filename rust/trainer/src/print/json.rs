//! JSON, for other programs.

use std::fmt::Write;

/// A JSON value.
#[derive(Clone, Debug, PartialEq)]
pub enum Json {
    /// null.
    Null,
    /// true or false.
    Bool(bool),
    /// A whole number.
    Number(usize),
    /// A text.
    Text(String),
    /// A list.
    List(Vec<Json>),
    /// Names with values, in order.
    Object(Vec<(&'static str, Json)>),
}

impl Json {
    /// A text.
    pub fn text(text: impl Into<String>) -> Json {
        Json::Text(text.into())
    }

    /// A list of what the items make.
    pub fn list<T>(items: impl IntoIterator<Item = T>, make: impl FnMut(T) -> Json) -> Json {
        Json::List(items.into_iter().map(make).collect())
    }

    /// A value, or null.
    pub fn option(value: Option<Json>) -> Json {
        value.unwrap_or(Json::Null)
    }

    /// On one line.
    pub fn write(&self) -> String {
        let mut text = String::new();
        self.append(&mut text);
        text
    }

    fn append(&self, text: &mut String) {
        match self {
            Json::Null => text.push_str("null"),
            Json::Bool(value) => text.push_str(if *value { "true" } else { "false" }),
            Json::Number(number) => {
                let _ = write!(text, "{number}");
            }
            Json::Text(value) => append_text(value, text),
            Json::List(items) => {
                text.push('[');
                for (at, item) in items.iter().enumerate() {
                    text.push_str(if at == 0 { "" } else { "," });
                    item.append(text);
                }
                text.push(']');
            }
            Json::Object(fields) => {
                text.push('{');
                for (at, (name, value)) in fields.iter().enumerate() {
                    text.push_str(if at == 0 { "" } else { "," });
                    append_text(name, text);
                    text.push(':');
                    value.append(text);
                }
                text.push('}');
            }
        }
    }
}

fn append_text(value: &str, text: &mut String) {
    text.push('"');
    for sign in value.chars() {
        match sign {
            '"' => text.push_str("\\\""),
            '\\' => text.push_str("\\\\"),
            '\n' => text.push_str("\\n"),
            sign if sign.is_control() => {
                let _ = write!(text, "\\u{:04x}", u32::from(sign));
            }
            sign => text.push(sign),
        }
    }
    text.push('"');
}

#[cfg(test)]
mod tests {
    use super::Json;

    #[test]
    fn values_are_written() {
        let value = Json::Object(vec![
            ("a", Json::List(vec![Json::Number(1), Json::Null, Json::Bool(true)])),
            ("b", Json::text("x\"\\\n\u{1}é")),
        ]);
        assert_eq!(value.write(), "{\"a\":[1,null,true],\"b\":\"x\\\"\\\\\\n\\u0001é\"}");
    }
}
