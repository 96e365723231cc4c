//! `edn`: the command line over the library.
mod cli;

use cli::arguments::{self, Command, Correction, ItemPath};
use cli::destination::{Content, Destination};
use cli::held::Held;
use cli::look::looks_like_text;
use cli::shell::file_word;
use cli::source::{Opened, Source};
use cli::stop::{say, why, Done, Stop, REFUSED, TROUBLE};
use cli::{identity, show};
use edn::{Error, Kind, Place};
use std::ffi::OsString;
use std::fs::OpenOptions;
use std::io;
use std::os::unix::ffi::OsStrExt;
use std::path::Path;
use std::process::ExitCode;

const VERSION: &str = concat!("edn ", env!("CARGO_PKG_VERSION"), "\n");

fn main() -> ExitCode {
    let args: Vec<OsString> = std::env::args_os().skip(1).collect();
    match arguments::parse(&args).and_then(run) {
        Ok(()) => ExitCode::SUCCESS,
        Err(stop) => stop.end(),
    }
}

fn run(command: Command) -> Done {
    match command {
        Command::Help => output(arguments::HELP),
        Command::Version => output(VERSION),
        Command::Read { file, out } => read(&file, &out),
        Command::Print { file, out } => print(&file, &out),
        Command::Look { file, path } => look(&file, &path),
        Command::Correct(c) => correct(&c),
        Command::Check { files } => match &files[..] {
            [file] => check(file),
            _ => check_several(&files),
        },
    }
}

// ---------------------------------------------------------------------------------------------------------------------------- commands

fn read(file: &Source, out: &Destination) -> Done {
    let text = input(file, out)?;
    match edn::read(&text) {
        Ok(bytes) => out.write(&Content::Bytes(&bytes)),
        Err(e) => {
            let mut said = show::text_refusal(&file.name(), &text, &e);
            if !text.is_ascii() && edn::check(&text).is_ok() {
                said.push_str("\n  This file holds bytes already, not text: did you mean 'edn print'?");
            }
            Err(Stop::Refused(said))
        }
    }
}

fn print(file: &Source, out: &Destination) -> Done {
    let bytes = sheet(file, out)?;
    match edn::print(&bytes) {
        Ok(text) => out.write(&Content::Text(&text)),
        Err(e) => Err(bad_bytes(file, &bytes, &e)),
    }
}

fn look(file: &Source, path: &ItemPath) -> Done {
    let bytes = sheet(file, &Destination::Standard)?;
    let part = match edn::look_up(&bytes, &path.steps) {
        Ok(part) => part,
        Err(e) if e.counted() == Place::Step => return Err(bad_path(file, path, &e)),
        Err(e) => return Err(bad_bytes(file, &bytes, &e)),
    };
    match edn::print(part) {
        Ok(text) => output(&text),
        Err(e) => Err(bad_bytes(file, part, &e)),
    }
}

fn correct(c: &Correction) -> Done {
    match (&c.file, &c.out) {
        (Source::File(file), Destination::File(out)) if identity::same_file(file, out) => correct_in_place(c, file),
        _ => {
            let bytes = input(&c.file, &c.out)?;
            c.out.write(&Content::Bytes(&corrected(c, &bytes)?))
        }
    }
}

/// The lock is held from before the sheet is read until the new one stands in its place, so that no other correction is lost.
fn correct_in_place(c: &Correction, file: &Path) -> Done {
    let trouble = |e: io::Error| Stop::Trouble(format!("{} cannot be corrected: {}", c.file.name(), why(&e)));
    let held = Held::take(file, OpenOptions::new().read(true).write(true)).map_err(trouble)?;
    let bytes = held.read().map_err(trouble)?;
    let new = corrected(c, &bytes).inspect_err(|_| held.tidy())?;
    held.replace(&new).map_err(trouble)
}

/// The sheet with the item put in. A text is refused here even where it would pass for bytes.
fn corrected(c: &Correction, bytes: &[u8]) -> Result<Vec<u8>, Stop> {
    let name = c.file.name();
    if !c.bytes && looks_like_text(bytes) {
        return Err(taken_for_text(&c.file));
    }
    edn::correct(bytes, &c.path.steps, c.text.as_bytes()).map_err(|e| match e.counted() {
        Place::Step => bad_path(&c.file, &c.path, &e),
        Place::Bytes => bad_bytes(&c.file, bytes, &e),
        Place::Whole if bytes.len() > edn::MOST => bad_bytes(&c.file, bytes, &e),
        Place::Whole | Place::Text => {
            let mut said = show::text_refusal("TEXT", c.text.as_bytes(), &e);
            if e.kind() == Kind::NotAllowed {
                said.push_str("\n  TEXT is one item, with no blank or comment before or behind it.");
            }
            Stop::Refused(format!("{said}\n  {name} is unchanged."))
        }
    })
}

/// The line goes where those of several files go; what else there is to say of a refusal is for people.
fn check(file: &Source) -> Done {
    let bytes = sheet(file, &Destination::Standard)?;
    let Err(e) = edn::check(&bytes) else {
        return output(&format!("{}: {}\n", file.name(), show::accepted(&bytes)));
    };
    let said = said_of_bytes(file, &bytes, &e);
    let (line, rest) = said.split_once('\n').unwrap_or((&said, ""));
    match output(&format!("{line}\n")) {
        Ok(()) | Err(Stop::Closed) => Err(Stop::Refused(rest.into())),
        trouble => trouble,
    }
}

/// A line for each file. They are written when all files are read, since one of these may turn out to be where the lines go.
fn check_several(files: &[Source]) -> Done {
    let mut lines = String::new();
    let mut worst = 0;
    for file in files {
        let (line, status) = checked(file)?;
        lines.push_str(&format!("{}: {line}\n", file.name()));
        worst = worst.max(status);
    }
    match output(&lines) {
        Ok(()) | Err(Stop::Closed) if worst != 0 => Err(Stop::Said(worst)),
        done => done,
    }
}

/// What there is to say of a file in one line, and the exit status for it.
fn checked(file: &Source) -> Result<(String, u8), Stop> {
    let bytes = match file.open() {
        Ok(opened) => {
            not_the_output(&opened, &Destination::Standard)?;
            opened.read()
        }
        Err(fault) => Err(fault),
    };
    Ok(match bytes {
        Err(fault) => (fault, TROUBLE),
        Ok(bytes) => {
            warn_of_text(file, &bytes);
            match edn::check(&bytes) {
                Ok(()) => (show::accepted(&bytes), 0),
                Err(e) => (show::refused(&e), REFUSED),
            }
        }
    })
}

// ------------------------------------------------------------------------------------------------------------------- input and output

fn output(text: &str) -> Done {
    Destination::Standard.write(&Content::Text(text))
}

/// What a file holds, read only if the result does not go there.
fn input(file: &Source, out: &Destination) -> Result<Vec<u8>, Stop> {
    let trouble = |fault| Stop::Trouble(format!("{} {fault}", file.name()));
    let opened = file.open().map_err(trouble)?;
    not_the_output(&opened, out)?;
    opened.read().map_err(trouble)
}

fn not_the_output(input: &Opened, out: &Destination) -> Done {
    if out.is(&input.file) {
        let (out, input) = (out.name(), input.source.name());
        return Err(Stop::Trouble(format!("{out} is the input, {input}, itself; nothing was written (use -o for another file)")));
    }
    Ok(())
}

/// What a file of bytes holds.
fn sheet(file: &Source, out: &Destination) -> Result<Vec<u8>, Stop> {
    let bytes = input(file, out)?;
    warn_of_text(file, &bytes);
    Ok(bytes)
}

/// A text of digits and commas alone would pass for bytes.
fn warn_of_text(file: &Source, bytes: &[u8]) {
    if looks_like_text(bytes) && edn::check(bytes).is_ok() && edn::read(bytes).is_ok() {
        say(&format!("edn: {} could be text as well; it is taken for bytes ('edn read' makes bytes of text)", file.name()));
    }
}

// ---------------------------------------------------------------------------------------------------------------------------- refusals

/// A text that a correction would overwrite, and the command that makes bytes of it.
fn taken_for_text(file: &Source) -> Stop {
    let (from, to) = match file {
        Source::Standard => (Some("-".into()), None),
        Source::File(path) => {
            let mut bytes = path.as_os_str().to_owned();
            bytes.push(".cbor");
            (file_word(path.as_os_str()), file_word(&bytes))
        }
    };
    let (from, to) = (from.unwrap_or("FILE".into()), to.unwrap_or("FILE.cbor".into()));
    let name = file.name();
    Stop::Trouble(format!(
        "{name} looks like text, not bytes, and is unchanged\n  This makes bytes of it: edn read {from} -o {to}\n  If it is bytes, say so with --bytes."
    ))
}

fn said_of_bytes(file: &Source, bytes: &[u8], e: &Error) -> String {
    let mut said = show::bytes_refusal(&file.name(), bytes, e);
    if looks_like_text(bytes) {
        said.push_str("\n  This file holds text, not bytes: make bytes of it with 'edn read' first.");
    }
    said
}

fn bad_bytes(file: &Source, bytes: &[u8], e: &Error) -> Stop {
    Stop::Refused(said_of_bytes(file, bytes, e))
}

fn bad_path(file: &Source, path: &ItemPath, e: &Error) -> Stop {
    Stop::Refused(show::path_refusal(&file.name(), &path.written, e))
}
