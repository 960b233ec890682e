//! What the command prints: lines for people, JSON for scripts.
use crate::stop::reason;
use crate::{eprint, TROUBLE};
use std::fmt;
use std::io::{ErrorKind, Write};
use tronalhet::places::is_plain;

/// A value of JSON.
pub enum Json {
    Bool(bool),
    Number(u64),
    Text(String),
    List(Vec<Json>),
    Object(Vec<(&'static str, Json)>),
}

impl fmt::Display for Json {
    fn fmt(&self, out: &mut fmt::Formatter) -> fmt::Result {
        match self {
            Json::Bool(value) => write!(out, "{value}"),
            Json::Number(number) => write!(out, "{number}"),
            Json::Text(text) => quoted(out, text),
            Json::List(list) => {
                out.write_str("[")?;
                for (place, value) in list.iter().enumerate() {
                    write!(out, "{}{value}", if place > 0 { ", " } else { "" })?;
                }
                out.write_str("]")
            }
            Json::Object(fields) => {
                out.write_str("{")?;
                for (place, (name, value)) in fields.iter().enumerate() {
                    write!(out, "{}\"{name}\": {value}", if place > 0 { ", " } else { "" })?;
                }
                out.write_str("}")
            }
        }
    }
}

fn quoted(out: &mut fmt::Formatter, text: &str) -> fmt::Result {
    out.write_str("\"")?;
    for letter in text.chars() {
        match letter {
            '"' | '\\' => write!(out, "\\{letter}")?,
            letter if !is_plain(letter) => write!(out, "\\u{:04x}", u32::from(letter))?,
            letter => write!(out, "{letter}")?,
        }
    }
    out.write_str("\"")
}

/// Prints to standard output, all at once. What is done is done: where it cannot be shown, standard error says it. Who
/// closes a pipe wants no more, so that is no error.
pub fn print(text: &str) -> u8 {
    let mut out = std::io::stdout().lock();
    match out.write_all(text.as_bytes()).and_then(|()| out.flush()) {
        Ok(()) => 0,
        Err(error) if error.kind() == ErrorKind::BrokenPipe => 0,
        Err(error) => {
            let (why, answer) = (reason(&error), text.lines().next().unwrap_or_default());
            eprint(&format!("cannot write to standard output: {why}; the answer was: {answer}"));
            TROUBLE
        }
    }
}

#[cfg(test)]
mod tests {
    use super::*;

    #[test]
    fn json_is_escaped_and_nested() {
        let text = Json::Text("a \"b\" \\ \n é".into());
        let object = Json::Object(vec![("list", Json::List(vec![Json::Number(1), text])), ("ok", Json::Bool(true))]);
        assert_eq!(object.to_string(), r#"{"list": [1, "a \"b\" \\ \u000a é"], "ok": true}"#);
    }
}
