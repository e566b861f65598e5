//! The memory map in its two forms.
//!
//! A file with a zero byte is binary, and one without is text. Neither can pass for the other: a
//! binary map that breaks no rule has four zero bytes at the end of each record, and a text has none.

use std::path::Path;

use crate::outcome::{read_file, Failure};

/// The bytes of a record in the binary form.
pub const RECORD_SIZE: usize = 24;

/// The longest text that is read. A binary map may be longer and is cut here: it is refused all the
/// same, as every one above 64 records.
const LONGEST_TEXT: usize = 1 << 20;

/// How much of a field a message quotes.
const QUOTED: usize = 40;

#[derive(Clone, Copy, PartialEq)]
pub enum Form {
    Text,
    Binary,
}

impl Form {
    pub fn name(self) -> &'static str {
        match self {
            Form::Text => "text",
            Form::Binary => "binary",
        }
    }

    /// Which form the map was taken to have, and why.
    pub fn reason(self) -> &'static str {
        match self {
            Form::Text => "The map was read as text, since it has no zero byte.",
            Form::Binary => "The map was read as binary, since it has a zero byte.",
        }
    }
}

/// A map, and the form that its file has.
pub struct Map {
    pub form: Form,
    /// The binary form, whatever the file's form.
    pub bytes: Vec<u8>,
}

/// Reads a map in either form.
pub fn read(path: &Path) -> Result<Map, Failure> {
    let bytes = read_file(path, LONGEST_TEXT as u64 + 1)?;
    if bytes.contains(&0) {
        return Ok(Map { form: Form::Binary, bytes });
    }
    if bytes.len() > LONGEST_TEXT {
        let why = "is no map: it has no zero byte, and is too long for a text";
        return Err(Failure::new(format!("{path:?} {why}, which may have {LONGEST_TEXT} bytes")));
    }
    match from_text(&bytes) {
        Ok(bytes) => Ok(Map { form: Form::Text, bytes }),
        Err((line, reason)) => Err(Failure::new(format!("{path:?}, line {line}: {reason}"))),
    }
}

/// The binary form of a text, or the number of the first bad line, from 1, and what is wrong there.
fn from_text(text: &[u8]) -> Result<Vec<u8>, (usize, String)> {
    let mut bytes = Vec::new();
    for (number, line) in (1..).zip(text.split(|byte| *byte == b'\n')) {
        let line = std::str::from_utf8(line).map_err(|_| (number, "it is not UTF-8".into()))?;
        if let Some(record) = read_line(line).map_err(|reason| (number, reason))? {
            bytes.extend(record);
        }
    }
    Ok(bytes)
}

/// The record of a line, if it has one: `start length kind`, and a comment from `#` on. Whether the
/// record breaks a rule is for the library to say.
fn read_line(line: &str) -> Result<Option<[u8; RECORD_SIZE]>, String> {
    let without_comment = line.split('#').next().unwrap_or("");
    let fields: Vec<&str> = without_comment.split_ascii_whitespace().collect();
    let (start, length, kind) = match fields[..] {
        [] => return Ok(None),
        [start, length, kind] => (start, length, kind),
        _ => return Err(format!("a record is `start length kind`, and here are {} fields", fields.len())),
    };
    let mut record = [0; RECORD_SIZE];
    record[..8].copy_from_slice(&read_number("start", start, u64::MAX)?.to_le_bytes());
    record[8..16].copy_from_slice(&read_number("length", length, u64::MAX)?.to_le_bytes());
    record[16..20].copy_from_slice(&read_kind(kind)?.to_le_bytes());
    Ok(Some(record))
}

fn read_kind(field: &str) -> Result<u32, String> {
    let names = ["ram", "firmware", "mmio"];
    match (1..).zip(names).find(|(_, name)| field.eq_ignore_ascii_case(name)) {
        Some((number, _)) => Ok(number),
        None if field.starts_with(|first: char| first.is_ascii_digit()) => {
            Ok(read_number("kind", field, u32::MAX.into())? as u32)
        }
        None => Err(format!("the kind {} is neither ram, firmware or mmio nor a number", quoted(field))),
    }
}

/// A number in decimal, or in hexadecimal behind 0x, up to a limit.
fn read_number(what: &str, field: &str, limit: u64) -> Result<u64, String> {
    let hexadecimal = field.strip_prefix("0x").or_else(|| field.strip_prefix("0X"));
    let (digits, radix) = hexadecimal.map_or((field, 10), |digits| (digits, 16));
    // `from_str_radix` alone would take a sign too.
    if digits.is_empty() || !digits.chars().all(|digit| digit.is_digit(radix)) {
        return Err(format!("the {what} {} is neither decimal nor 0x and hexadecimal digits", quoted(field)));
    }
    match u64::from_str_radix(digits, radix) {
        Ok(number) if number <= limit => Ok(number),
        _ => Err(format!("the {what} {} is above {limit:#x}", quoted(field))),
    }
}

/// A field for a message, so that neither a long one nor a strange character disturbs it.
fn quoted(field: &str) -> String {
    let start: String = field.chars().take(QUOTED).collect();
    let more = if start.len() < field.len() { "..." } else { "" };
    format!("{start:?}{more}")
}
