//! Writes JSON.
//!
//! Every number that is written is at most 2^53, so that readers which hold numbers as floating-point
//! (JavaScript, jq) read it exactly: an accepted launch has no address above 2^52.

use std::fmt::Display;

/// An object in the making, closed by `finish`.
pub struct Object(String);

impl Object {
    pub fn new() -> Object {
        Object(String::from("{"))
    }

    /// A member whose value is JSON already: a number, a truth value, `null`, an array or an object.
    pub fn value(mut self, name: &str, value: impl Display) -> Object {
        let comma = if self.0.len() > 1 { "," } else { "" };
        self.0 += &format!("{comma}{}:{value}", quoted(name));
        self
    }

    pub fn text(self, name: &str, text: &str) -> Object {
        self.value(name, quoted(text))
    }

    pub fn finish(self) -> String {
        self.0 + "}"
    }
}

/// What is there, or `null`.
pub fn or_null(value: Option<impl Display>) -> String {
    value.map_or(String::from("null"), |value| value.to_string())
}

pub fn array(items: impl Iterator<Item = String>) -> String {
    format!("[{}]", items.collect::<Vec<_>>().join(","))
}

pub fn quoted(text: &str) -> String {
    let mut out = String::from("\"");
    for character in text.chars() {
        match character {
            '"' | '\\' => out.extend(['\\', character]),
            '\0'..='\x1f' => out += &format!("\\u{:04x}", character as u32),
            _ => out.push(character),
        }
    }
    out + "\""
}
