//! How a run ends: what is printed where, and the exit status.

use std::fmt::Display;
use std::fs::File;
use std::io::{self, Read, Write};
use std::path::Path;

use crate::arguments::Command;

const ACCEPTED: u8 = 0;
const REFUSED: u8 = 1;
const FAILED: u8 = 2;

/// An answer, of an accepted launch or a refused one.
pub struct Output {
    answer: String,
    remark: String,
    status: u8,
}

impl Output {
    pub fn accepted(answer: String) -> Output {
        Output { answer, remark: String::new(), status: ACCEPTED }
    }

    /// The remark is for people, on standard error.
    pub fn refused(answer: String, remark: String) -> Output {
        Output { answer, remark, status: REFUSED }
    }

    /// Prints the answer, and gives the exit status: an answer that nobody got is no success.
    pub fn deliver(self) -> u8 {
        let mut out = io::stdout().lock();
        match out.write_all(self.answer.as_bytes()).and_then(|()| out.flush()) {
            Ok(()) => {
                to_standard_error(&self.remark);
                self.status
            }
            // A reader that has seen enough, such as `head`, wants no message.
            Err(cause) if cause.kind() == io::ErrorKind::BrokenPipe => FAILED,
            Err(cause) => Failure::new(format!("cannot write to standard output: {cause}")).deliver(),
        }
    }
}

/// Why there is no answer: wrong usage, or a file that cannot be read or written.
pub struct Failure {
    message: String,
    hint: String,
}

impl Failure {
    pub fn new(message: String) -> Failure {
        Failure { message, hint: String::new() }
    }

    /// Wrong usage of a command, or of the whole program, with the way to its help.
    pub fn usage(command: Option<Command>, message: impl Display) -> Failure {
        match command.map(Command::name) {
            Some(name) => Failure {
                message: format!("{name}: {message}"),
                hint: format!("Try `tdload {name} --help`.\n"),
            },
            None => Failure { message: message.to_string(), hint: "Try `tdload --help`.\n".into() },
        }
    }

    pub fn deliver(self) -> u8 {
        to_standard_error(&format!("tdload: {}\n{}", self.message, self.hint));
        FAILED
    }
}

/// Where standard error is closed there is nobody to tell, so a failure to write is passed over;
/// `eprintln!` would panic.
pub fn to_standard_error(text: &str) {
    let _ = io::stderr().lock().write_all(text.as_bytes());
}

/// That a file cannot be read or written, by its name and the cause. The name is quoted, so that no
/// character in it disturbs the terminal.
pub fn cannot(what: &str, path: &Path, cause: &io::Error) -> Failure {
    Failure::new(format!("cannot {what} {path:?}: {cause}"))
}

/// Reads a file up to a limit of bytes; what follows is left unread.
pub fn read_file(path: &Path, limit: u64) -> Result<Vec<u8>, Failure> {
    let mut bytes = Vec::new();
    File::open(path)
        .and_then(|file| file.take(limit).read_to_end(&mut bytes))
        .map_err(|cause| cannot("read", path, &cause))?;
    Ok(bytes)
}
