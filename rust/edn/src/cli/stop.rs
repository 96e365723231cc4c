//! How the program ends without having done its work, and what it says then.
use super::c;
use std::io::{self, Write};
use std::process::ExitCode;

pub const REFUSED: u8 = 1;
pub const TROUBLE: u8 = 2;

/// Why the work is not done, and what there is to say.
pub enum Stop {
    /// The library refused the sheet, the path or the text.
    Refused(String),
    /// The words of the command line make no sense.
    Misused(String),
    /// Something is wrong with a file.
    Trouble(String),
    /// All was said; only the exit status is left.
    Said(u8),
    /// Whoever read our output has gone, which is no failure.
    Closed,
}

pub type Done = Result<(), Stop>;

impl Stop {
    /// Says it, and gives the exit status.
    pub fn end(self) -> ExitCode {
        let (message, status) = match self {
            Stop::Refused(message) => (message, REFUSED),
            Stop::Misused(message) => (format!("edn: {message}\n'edn --help' says how it is used"), TROUBLE),
            Stop::Trouble(message) => (format!("edn: {message}"), TROUBLE),
            Stop::Said(status) => return ExitCode::from(status),
            Stop::Closed => return ExitCode::SUCCESS,
        };
        say(&message);
        ExitCode::from(status)
    }
}

pub fn say(message: &str) {
    // nothing is left to do where even this cannot be written
    let _ = io::stderr().write_all(format!("{message}\n").as_bytes());
}

/// An error of the system in plain words.
pub fn why(e: &io::Error) -> String {
    match e.kind() {
        _ if e.raw_os_error() == Some(c::EBADF) => "it is not open for that".into(),
        io::ErrorKind::NotFound => "there is no such file or folder".into(),
        io::ErrorKind::PermissionDenied => "you do not have the rights for it".into(),
        io::ErrorKind::IsADirectory => "it is a folder, not a file".into(),
        _ => e.to_string(),
    }
}

/// The error with what it hindered before it.
pub fn because(what: &str, e: &io::Error) -> io::Error {
    io::Error::other(format!("{what}: {}", why(e)))
}
