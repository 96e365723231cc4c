//! Where a result goes.
use super::beside::path_beside;
use super::held::{create, Held};
use super::hidden::{clean, escaped};
use super::identity::{behind_links, Identity};
use super::standard;
use super::stop::{why, Done, Stop};
use std::fs::{self, File, OpenOptions};
use std::io::{self, IsTerminal, Write};
use std::path::{Path, PathBuf};

pub enum Destination {
    Standard,
    File(PathBuf),
}

pub enum Content<'a> {
    Bytes(&'a [u8]),
    Text(&'a str),
}

impl Content<'_> {
    fn bytes(&self) -> &[u8] {
        match self {
            Content::Bytes(bytes) => bytes,
            Content::Text(text) => text.as_bytes(),
        }
    }

    /// Bytes in hexadecimal, and a text without anything that the terminal would not show.
    fn for_terminal(&self) -> String {
        match self {
            Content::Bytes(bytes) => bytes.iter().map(|b| format!("{b:02x}")).chain(["\n".into()]).collect(),
            Content::Text(text) => escaped(text),
        }
    }

    fn pour(&self, mut into: File) -> io::Result<()> {
        if into.is_terminal() {
            into.write_all(self.for_terminal().as_bytes())
        } else {
            into.write_all(self.bytes())
        }
    }
}

impl Destination {
    pub fn name(&self) -> String {
        match self {
            Destination::Standard => "standard output".into(),
            Destination::File(path) => clean(&path.to_string_lossy()),
        }
    }

    /// Whether writing there would change the input, or remove it. A device or a pipe may well be both.
    pub fn is(&self, input: &File) -> bool {
        let Ok(m) = input.metadata() else { return false };
        if !m.is_file() {
            return false;
        }
        let input = Some(Identity::of(&m));
        match self {
            Destination::Standard => {
                standard::output().is_some_and(|out| out.and_then(|f| f.metadata()).is_ok_and(|m| Some(Identity::of(&m)) == input))
            }
            Destination::File(path) => {
                let beside = behind_links(path).and_then(|path| path_beside(&path));
                Identity::behind(path) == input || beside.is_ok_and(|beside| Identity::at(&beside) == input)
            }
        }
    }

    pub fn write(&self, content: &Content) -> Done {
        let written = match self {
            Destination::Standard => match standard::output() {
                None => return Err(Stop::Trouble("standard output is closed".into())),
                Some(out) => out.and_then(|out| content.pour(out)),
            },
            Destination::File(path) => put(path, content),
        };
        written.map_err(|e| match self {
            Destination::Standard if e.kind() == io::ErrorKind::BrokenPipe => Stop::Closed,
            _ => Stop::Trouble(format!("{} cannot be written: {}", self.name(), why(&e))),
        })
    }
}

/// A plain file is written whole or not at all; anything else (a device, a pipe) is written to as it is.
fn put(path: &Path, content: &Content) -> io::Result<()> {
    let mut rights = OpenOptions::new();
    rights.write(true);
    loop {
        match fs::metadata(path) {
            Ok(m) if m.is_file() => match Held::take(path, &rights) {
                Err(e) if e.kind() == io::ErrorKind::NotFound => {} // another program has removed it
                held => return held?.replace(content.bytes()),
            },
            Ok(_) => return content.pour(rights.open(path)?),
            Err(e) if e.kind() != io::ErrorKind::NotFound => return Err(e),
            Err(_) => match create(path, content.bytes()) {
                Err(e) if e.kind() == io::ErrorKind::AlreadyExists => {} // another run has made it
                done => return done,
            },
        }
    }
}
