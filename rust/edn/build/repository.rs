//! The repository that the package stands in: the crates that the library is made of.
use crate::progress::say;
use std::ffi::OsStr;
use std::fs::{self, File, TryLockError};
use std::io;
use std::path::{Path, PathBuf};

/// The crate that has the library's functions for C.
const LIBRARY: &str = "edn_c";
/// A line for each crate: its name, and all that it stands on.
const LIST: &str = "crates.txt";
/// The folder that `rt` makes in a crate's.
pub const MADE: &str = "out";

pub struct Repository {
    root: PathBuf,
    listed: String,
    needed: Vec<String>,
}

impl Repository {
    pub fn around(package: &Path) -> Result<Repository, String> {
        let root = package.join("../..");
        let listed = fs::read_to_string(root.join(LIST)).map_err(|e| {
            format!(
                "this package stands in no repository whose crates could be proved ({}: {e}); set EDN_LIB_DIR to a folder with libedn_c.a",
                root.join(LIST).display()
            )
        })?;
        let root = root.canonicalize().map_err(|e| format!("{}: {e}", root.display()))?;
        let needed = with_those_below(LIBRARY, &root, &listed);
        Ok(Repository { root, listed, needed })
    }

    /// The folder of a crate.
    fn folder(&self, name: &str) -> PathBuf {
        self.root.join("crates").join(name)
    }

    /// The folder of the library's crate.
    pub fn library(&self) -> PathBuf {
        self.folder(LIBRARY)
    }

    /// The library's crate and those that it stands on.
    pub fn needed(&self) -> &[String] {
        &self.needed
    }

    /// A crate and those that it stands on.
    pub fn with_those_below(&self, name: &str) -> Vec<String> {
        with_those_below(name, &self.root, &self.listed)
    }

    /// Has cargo run this again where something has changed. Cargo looks through all of a folder, so those are named that stand in a crate's,
    /// and not the crate's own, in which `rt` makes another.
    pub fn watch(&self) {
        println!("cargo:rerun-if-changed={}", self.root.join(LIST).display());
        for name in &self.needed {
            let folder = self.folder(name);
            for part in parts(&folder).unwrap_or_else(|_| vec![folder]) {
                println!("cargo:rerun-if-changed={}", part.display());
            }
        }
    }

    /// All that the archive is made of, byte for byte: the toolchain's version, the list, and every file of the crates, each with its name
    /// and the lengths before it. So no two such records are one the beginning of the other.
    pub fn sources(&self, toolchain: &str) -> Result<Vec<u8>, String> {
        let mut files = vec![self.root.join(LIST)];
        for name in &self.needed {
            let parts = parts(&self.folder(name));
            let added = parts.and_then(|parts| parts.into_iter().try_for_each(|part| add_files(part, &mut files)));
            added.map_err(|e| format!("the crate {name} cannot be read: {e}"))?;
        }
        files.sort();
        let mut record = (files.len() as u64).to_le_bytes().to_vec();
        put(&mut record, toolchain.as_bytes());
        for file in files {
            let content = fs::read(&file).map_err(|e| format!("{} cannot be read: {e}", file.display()))?;
            let name = file.strip_prefix(&self.root).unwrap_or(&file);
            put(&mut record, name.as_os_str().as_encoded_bytes());
            put(&mut record, &content);
        }
        Ok(record)
    }

    /// Keeps other builds from proving in this repository as long as the answer lives. Where the file cannot be locked there is none, and
    /// builds at the same time do the work twice.
    pub fn hold(&self) -> Option<File> {
        let file = File::open(self.root.join(LIST)).ok()?;
        if let Err(TryLockError::WouldBlock) = file.try_lock() {
            say("edn: another build is proving the library; waiting for it");
            file.lock().ok()?;
        }
        Some(file)
    }
}

fn put(record: &mut Vec<u8>, bytes: &[u8]) {
    record.extend_from_slice(&(bytes.len() as u64).to_le_bytes());
    record.extend_from_slice(bytes);
}

/// What stands in the folder of a crate, but what `rt` makes there.
fn parts(folder: &Path) -> io::Result<Vec<PathBuf>> {
    let mut parts = shown(folder)?;
    parts.retain(|part| part.file_name() != Some(OsStr::new(MADE)));
    Ok(parts)
}

/// A file, or all in a folder that are not hidden.
fn add_files(part: PathBuf, files: &mut Vec<PathBuf>) -> io::Result<()> {
    if !part.is_dir() {
        files.push(part);
        return Ok(());
    }
    shown(&part)?.into_iter().try_for_each(|part| add_files(part, files))
}

/// What stands in a folder and is not hidden: the locks and swap files that editors have beside a source are none.
fn shown(folder: &Path) -> io::Result<Vec<PathBuf>> {
    let mut shown = Vec::new();
    for entry in fs::read_dir(folder)? {
        let entry = entry?;
        if !is_hidden(&entry.file_name()) {
            shown.push(entry.path());
        }
    }
    Ok(shown)
}

fn is_hidden(name: &OsStr) -> bool {
    name.as_encoded_bytes().starts_with(b".")
}

/// A crate and all that it stands on, by the list, in which words about a crate may stand behind its name, as `edn_c staticlib: ..`; what has
/// no folder here comes with the toolchain.
fn with_those_below(name: &str, root: &Path, listed: &str) -> Vec<String> {
    let mut names = vec![name.to_string()];
    let mut i = 0;
    while i < names.len() {
        for line in listed.lines() {
            let Some((about, others)) = line.split('#').next().and_then(|line| line.split_once(':')) else { continue };
            if about.split_whitespace().next() != Some(&names[i]) {
                continue;
            }
            for other in others.split_whitespace() {
                if !names.iter().any(|n| n == other) && root.join("crates").join(other).is_dir() {
                    names.push(other.to_string());
                }
            }
        }
        i += 1;
    }
    names
}
