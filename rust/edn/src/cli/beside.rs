//! The new file, beside the one whose place it will take.
//!
//! Each target has one name for it, so that the next run finds what a killed one left. A run locks the file as soon as it is made, and then
//! looks whether the name still leads to it. What is there already and not locked was left behind; only a run that has locked it, and
//! has seen that the name leads to it, removes it.
use super::c;
use super::hidden::clean;
use super::identity::Identity;
use super::lock::{try_lock, Patience};
use super::stop::{because, why};
use std::ffi::{OsStr, OsString};
use std::fs::{self, File, OpenOptions};
use std::io::{self, Write};
use std::os::unix::ffi::OsStrExt;
use std::os::unix::fs::OpenOptionsExt;
use std::path::{Path, PathBuf};

const PREFIX: &str = ".";
const SUFFIX: &str = ".edn-new";

/// The name that the file beside a target of this name has.
fn name_beside(name: &OsStr) -> OsString {
    let mut beside = OsString::from(PREFIX);
    if PREFIX.len() + name.len() + SUFFIX.len() <= c::NAME_MAX {
        beside.push(name);
    } else {
        beside.push(format!("{:016x}", hash(name.as_bytes())));
    }
    beside.push(SUFFIX);
    beside
}

/// FNV-1a of 64 bits, the same in every run.
fn hash(bytes: &[u8]) -> u64 {
    const START: u64 = 0xcbf2_9ce4_8422_2325;
    const FACTOR: u64 = 0x0100_0000_01b3;
    bytes.iter().fold(START, |h, &b| (h ^ u64::from(b)).wrapping_mul(FACTOR))
}

/// The path beside a target. The target's own name is kept from being such a one: a sheet there would be taken for a leftover.
pub fn path_beside(target: &Path) -> io::Result<PathBuf> {
    let bytes = target.as_os_str().as_bytes();
    let (folder, name) = bytes.split_at(bytes.iter().rposition(|&b| b == b'/').map_or(0, |i| i + 1));
    if matches!(name, b"" | b"." | b"..") {
        return Err(io::ErrorKind::IsADirectory.into());
    }
    if name.starts_with(PREFIX.as_bytes()) && name.ends_with(SUFFIX.as_bytes()) {
        return Err(io::Error::other(format!("names like {PREFIX}NAME{SUFFIX} are for files that are not finished")));
    }
    Ok(Path::new(OsStr::from_bytes(folder)).join(name_beside(OsStr::from_bytes(name))))
}

/// A new file, locked; it is removed again unless it is put in its target's place.
pub struct Beside {
    path: PathBuf,
    pub file: File,
}

impl Beside {
    pub fn make(target: &Path, mode: u32, name: &str) -> io::Result<Self> {
        let path = path_beside(target)?;
        let patience = Patience::new(name);
        loop {
            match OpenOptions::new().write(true).create_new(true).mode(mode).custom_flags(c::O_NOFOLLOW).open(&path) {
                Ok(file) => {
                    if let Some(made) = Self::claim(&path, file)? {
                        return Ok(made);
                    }
                }
                Err(e) if e.kind() == io::ErrorKind::AlreadyExists => remove_leftover(&path, &patience)?,
                Err(e) => return Err(because("no file can be made beside it", &e)),
            }
            patience.once_more()?;
        }
    }

    /// Locks a file just made; none where another run took it for a leftover before that.
    fn claim(path: &Path, file: File) -> io::Result<Option<Self>> {
        match try_lock(&file) {
            Ok(true) => {
                let made = Beside { path: path.to_path_buf(), file };
                Ok(leads_to(path, &made.file)?.then_some(made))
            }
            Ok(false) => Ok(None),
            Err(e) => {
                // no run can lock anything here, so none is at work on it
                let _ = fs::remove_file(path);
                Err(e)
            }
        }
    }

    pub fn write(&mut self, bytes: &[u8]) -> io::Result<()> {
        self.file.write_all(bytes)
    }

    /// Puts the file in its target's place, so that it stays there after a power cut too.
    pub fn put_at(self, target: &Path) -> io::Result<()> {
        if !leads_to(&self.path, &self.file)? {
            return Err(io::Error::other("another program removed the new file beside it"));
        }
        fs::rename(&self.path, target)?;
        sync_folder(target).map_err(|e| because("the new one stands there, but may be lost in a power cut", &e))
    }
}

impl Drop for Beside {
    fn drop(&mut self) {
        // after `put_at` the name leads nowhere, or to the file of another run
        if leads_to(&self.path, &self.file).unwrap_or(false) {
            let _ = fs::remove_file(&self.path);
        }
    }
}

fn leads_to(path: &Path, file: &File) -> io::Result<bool> {
    Ok(Identity::at(path) == Some(Identity::of(&file.metadata()?)))
}

/// Removes what a killed run left beside a target.
pub fn clear_beside(target: &Path, patience: &Patience) -> io::Result<()> {
    remove_leftover(&path_beside(target)?, patience)
}

/// Where a live run is at work on it, it is done with it once the lock is to be had.
fn remove_leftover(path: &Path, patience: &Patience) -> io::Result<()> {
    let in_the_way = |why: &str| io::Error::other(format!("{} stands in the way: {why}", clean(&path.to_string_lossy())));
    let left = match OpenOptions::new().write(true).custom_flags(c::O_NOFOLLOW | c::O_NONBLOCK).open(path) {
        Ok(left) => left,
        Err(e) if e.kind() == io::ErrorKind::NotFound => return Ok(()),
        Err(e) => return Err(in_the_way(&format!("it cannot be opened: {}", why(&e)))),
    };
    if !left.metadata()?.is_file() {
        return Err(in_the_way("it is no plain file"));
    }
    patience.lock(&left)?;
    if leads_to(path, &left)? {
        fs::remove_file(path).map_err(|e| in_the_way(&format!("it cannot be removed: {}", why(&e))))?;
    }
    Ok(())
}

/// A folder that may not be read cannot be synced, and some file systems know no such thing; the rename stands all the same.
fn sync_folder(target: &Path) -> io::Result<()> {
    let folder = match target.parent() {
        Some(folder) if folder != Path::new("") => folder,
        _ => Path::new("."),
    };
    match File::open(folder).and_then(|f| f.sync_all()) {
        Err(e) if e.kind() == io::ErrorKind::PermissionDenied || e.raw_os_error() == Some(c::EINVAL) => Ok(()),
        done => done,
    }
}
