//! Where a text or a sheet comes from.
use super::hidden::clean;
use super::identity::LEADS_NOWHERE;
use super::standard;
use super::stop::{say, why};
use std::fs::{self, File};
use std::io::{self, IsTerminal, Read};
use std::path::{Path, PathBuf};

pub enum Source {
    Standard,
    File(PathBuf),
}

/// What is wrong, said behind the name: "cannot be read: ..".
pub type Fault = String;

/// An input that is open and not yet read.
pub struct Opened<'a> {
    pub source: &'a Source,
    pub file: File,
}

impl Source {
    pub fn name(&self) -> String {
        match self {
            Source::Standard => "standard input".into(),
            Source::File(path) => clean(&path.to_string_lossy()),
        }
    }

    pub fn open(&self) -> Result<Opened<'_>, Fault> {
        let file = match self {
            Source::Standard => standard::input().ok_or("is closed")?.map_err(|e| why(&e)),
            Source::File(path) => File::open(path).map_err(|e| why_not_opened(path, &e)),
        };
        match file {
            Ok(file) => Ok(Opened { source: self, file }),
            Err(why) => Err(format!("cannot be read: {why}")),
        }
    }
}

impl Opened<'_> {
    pub fn read(&self) -> Result<Vec<u8>, Fault> {
        if matches!(self.source, Source::Standard) && self.file.is_terminal() {
            say("edn: reading from the terminal; end it with Ctrl-D on a line of its own");
        }
        read(&self.file).map_err(|e| format!("cannot be read: {}", why(&e)))
    }
}

/// What a file holds, or one byte more than a sheet may have: the library then refuses it.
pub fn read(file: &File) -> io::Result<Vec<u8>> {
    let mut bytes = Vec::new();
    file.take(edn::MOST as u64 + 1).read_to_end(&mut bytes)?;
    Ok(bytes)
}

fn why_not_opened(path: &Path, e: &io::Error) -> String {
    let link = || fs::symlink_metadata(path).is_ok_and(|m| m.is_symlink());
    if e.kind() == io::ErrorKind::NotFound && link() {
        return LEADS_NOWHERE.into();
    }
    why(e)
}
