//! The command line.

use std::ffi::{OsStr, OsString};
use std::path::PathBuf;

use crate::outcome::Failure;

#[derive(Clone, Copy, PartialEq)]
pub enum Command {
    Plan,
    Measure,
    Hob,
    Map,
}

impl Command {
    pub const ALL: [Command; 4] = [Command::Plan, Command::Measure, Command::Hob, Command::Map];

    pub fn name(self) -> &'static str {
        match self {
            Command::Plan => "plan",
            Command::Measure => "measure",
            Command::Hob => "hob",
            Command::Map => "map",
        }
    }

    /// What its two arguments are.
    pub fn operands(self) -> [&'static str; 2] {
        match self {
            Command::Map => ["TEXT", "OUT"],
            _ => ["IMAGE", "MAP"],
        }
    }
}

pub enum Request {
    Help(Option<Command>),
    Version,
    Launch(Launch),
    Convert(Conversion),
}

/// A launch to try, and what to show of it.
pub struct Launch {
    pub command: Command,
    pub image: PathBuf,
    pub map: PathBuf,
    pub width: u32,
    pub json: bool,
    /// Whether no progress bar is wanted.
    pub quiet: bool,
}

/// A map to write in its binary form.
pub struct Conversion {
    pub text: PathBuf,
    pub out: PathBuf,
    pub json: bool,
}

/// Takes the arguments behind the program's name.
pub fn parse(mut words: impl Iterator<Item = OsString>) -> Result<Request, Failure> {
    let first = words.next().ok_or_else(|| Failure::usage(None, "a command is missing: plan, measure, hob or map"))?;
    if let Some(command) = Command::ALL.into_iter().find(|command| first == command.name()) {
        return parse_command(command, words);
    }
    match first.to_str() {
        Some("--help" | "-h") => Ok(Request::Help(None)),
        Some("--version" | "-V") => Ok(Request::Version),
        _ => Err(Failure::usage(None, format!("{first:?} is no command: there are plan, measure, hob and map"))),
    }
}

/// What the words behind a command say, before it is known whether all is there.
#[derive(Default)]
struct Given {
    operands: Vec<OsString>,
    width: Option<u32>,
    json: bool,
    quiet: bool,
    help: bool,
}

fn parse_command(command: Command, words: impl Iterator<Item = OsString>) -> Result<Request, Failure> {
    let given = sort_words(command, words)?;
    if given.help {
        return Ok(Request::Help(Some(command)));
    }
    let names = command.operands();
    if let Some(missing) = names.get(given.operands.len()) {
        return Err(Failure::usage(Some(command), format!("{missing} is missing")));
    }
    if let Some(extra) = given.operands.get(names.len()) {
        return Err(Failure::usage(Some(command), format!("{extra:?} is one argument too many")));
    }
    let [one, two] = [0, 1].map(|at| PathBuf::from(&given.operands[at]));
    let (json, quiet) = (given.json, given.quiet);
    if command == Command::Map {
        return Ok(Request::Convert(Conversion { text: one, out: two, json }));
    }
    Ok(Request::Launch(Launch { command, image: one, map: two, width: given.width.unwrap_or(48), json, quiet }))
}

/// Tells options from operands. Options may stand anywhere up to `--`; a lone `-` is a file's name.
fn sort_words(command: Command, mut words: impl Iterator<Item = OsString>) -> Result<Given, Failure> {
    let mut given = Given::default();
    let wrong = |message: String| Err(Failure::usage(Some(command), message));
    while let Some(word) = words.next() {
        let takes_width = command != Command::Map;
        match word.to_str().unwrap_or("") {
            "--help" | "-h" => given.help = true,
            "--json" => given.json = true,
            "--quiet" if command == Command::Measure => given.quiet = true,
            "--width" if takes_width => match words.next() {
                Some(value) => set_width(command, &mut given, &value)?,
                None => return wrong("--width needs a value: 48 or 52".into()),
            },
            "--" => given.operands.extend(words.by_ref()),
            text if takes_width && text.starts_with("--width=") => {
                set_width(command, &mut given, OsStr::new(&text["--width=".len()..]))?;
            }
            text if text.starts_with('-') && text != "-" => return wrong(format!("{word:?} is no option")),
            _ => given.operands.push(word),
        }
    }
    Ok(given)
}

/// Every number of 32 bits is handed on: which widths are allowed is for the library to say.
fn set_width(command: Command, given: &mut Given, value: &OsStr) -> Result<(), Failure> {
    if given.width.is_some() {
        return Err(Failure::usage(Some(command), "--width is given twice"));
    }
    // `parse` alone would take a sign too.
    let digits = value.to_str().filter(|text| text.bytes().all(|byte| byte.is_ascii_digit()));
    given.width = digits.and_then(|text| text.parse().ok());
    if given.width.is_none() {
        let message = format!("the width {value:?} is not a number of bits: give 48 or 52");
        return Err(Failure::usage(Some(command), message));
    }
    Ok(())
}
