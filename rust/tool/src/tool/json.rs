//! What a command says as JSON, for programs.

use super::refused::Told;
use flic::Format;
use std::fmt;
use std::path::Path;

pub enum Json {
    Null,
    Bool(bool),
    Number(u64),
    Text(String),
    List(Vec<Json>),
    Object(Vec<(&'static str, Json)>),
}

impl Json {
    pub fn number(number: impl TryInto<u64>) -> Json {
        number.try_into().map_or(Json::Null, Json::Number)
    }

    /// A number, or null where there is none.
    pub fn maybe(number: Option<impl TryInto<u64>>) -> Json {
        number.map_or(Json::Null, Json::number)
    }

    pub fn text(text: impl Into<String>) -> Json {
        Json::Text(text.into())
    }

    /// A file's name as it is; what isn't UTF-8 in it is replaced.
    pub fn name(file: &Path) -> Json {
        Json::text(file.to_string_lossy())
    }

    /// `FLC` or `FLI`, or null for what is neither.
    pub fn format(format: Option<Format>) -> Json {
        format.map_or(Json::Null, |format| Json::text(format.to_string()))
    }

    /// A refusal, or null where there is none.
    pub fn refusal(told: Option<&Told>) -> Json {
        let Some(told) = told else { return Json::Null };
        Json::Object(vec![
            ("number", Json::number(told.refused.refusal.number())),
            ("name", Json::text(format!("{:?}", told.refused.refusal))),
            ("offset", Json::number(told.refused.place)),
            ("part", Json::text(told.part.to_string())),
            ("found", Json::text(&told.found)),
            ("advice", Json::text(&told.advice)),
        ])
    }
}

impl fmt::Display for Json {
    fn fmt(&self, f: &mut fmt::Formatter<'_>) -> fmt::Result {
        match self {
            Json::Null => write!(f, "null"),
            Json::Bool(value) => write!(f, "{value}"),
            Json::Number(number) => write!(f, "{number}"),
            Json::Text(text) => quoted(f, text),
            Json::List(items) => {
                write!(f, "[")?;
                for (at, item) in items.iter().enumerate() {
                    write!(f, "{}{item}", if at == 0 { "" } else { "," })?;
                }
                write!(f, "]")
            }
            Json::Object(fields) => {
                write!(f, "{{")?;
                for (at, (name, value)) in fields.iter().enumerate() {
                    write!(f, "{}\"{name}\":{value}", if at == 0 { "" } else { "," })?;
                }
                write!(f, "}}")
            }
        }
    }
}

fn quoted(f: &mut fmt::Formatter<'_>, text: &str) -> fmt::Result {
    write!(f, "\"")?;
    for letter in text.chars() {
        match letter {
            '"' | '\\' => write!(f, "\\{letter}")?,
            letter if letter.is_control() => write!(f, "\\u{:04x}", u32::from(letter))?,
            letter => write!(f, "{letter}")?,
        }
    }
    write!(f, "\"")
}

#[cfg(test)]
mod tests {
    use super::*;

    #[test]
    fn every_form() {
        let list = Json::List(vec![Json::Null, Json::Bool(true), Json::number(7u32), Json::List(vec![])]);
        let object = Json::Object(vec![("a", list), ("b", Json::Object(vec![]))]);
        assert_eq!(object.to_string(), r#"{"a":[null,true,7,[]],"b":{}}"#);
    }

    #[test]
    fn text_is_escaped() {
        assert_eq!(Json::text("a\"b\\c\n\x1b\u{9b}ü").to_string(), r#""a\"b\\c\u000a\u001b\u009bü""#);
    }
}
