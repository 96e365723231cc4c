//! Files written whole or not at all.
use super::attributes;
use super::beside::{clear_beside, Beside};
use super::c;
use super::hidden::clean;
use super::identity::{behind_links, same_file, Identity};
use super::lock::Patience;
use super::source;
use std::fs::{self, File, Metadata, OpenOptions};
use std::io;
use std::os::unix::fs::{MetadataExt, OpenOptionsExt};
use std::path::{Path, PathBuf};

/// The mode of a file that takes another's place, until it has that one's.
const OWNER_ALONE: u32 = 0o600;
/// The mode of a file that was not there, less what the umask takes away.
const EVERYONE: u32 = 0o666;

/// A plain file that is there, locked: no other run replaces it meanwhile.
pub struct Held {
    name: String,
    path: PathBuf,
    file: File,
    seen: Metadata,
}

impl Held {
    /// Opens a file, which asks whether the user has the rights (replacing it alone would not), and locks it. Whoever held the lock before
    /// may have put another file in its place: then that one is wanted.
    pub fn take(named: &Path, rights: &OpenOptions) -> io::Result<Self> {
        let name = clean(&named.to_string_lossy());
        let patience = Patience::new(&name);
        loop {
            let path = behind_links(named)?;
            if !same_file(named, &path) {
                return Err(io::Error::other("it leads to a file that has no name"));
                // /dev/fd/N of one that was removed, or of a pipe
            }
            // before it is opened, since that may block on what is no plain file
            plain(&fs::metadata(&path)?)?;
            let file = rights.clone().custom_flags(c::O_NOFOLLOW).open(&path)?;
            patience.lock(&file)?;
            let seen = file.metadata()?;
            if Identity::at(&path) == Some(Identity::of(&seen)) {
                one_name(&seen)?;
                return Ok(Held { path, file, seen, name });
            }
            patience.once_more()?;
        }
    }

    pub fn read(&self) -> io::Result<Vec<u8>> {
        source::read(&self.file)
    }

    /// Removes what a killed run left beside it, as replacing it does. That it cannot be removed is said when it is in the way.
    pub fn tidy(&self) {
        let _ = clear_beside(&self.path, &Patience::new(&self.name));
    }

    /// Puts a new file in its place that has these bytes, and its owner, group, attributes and mode.
    pub fn replace(&self, bytes: &[u8]) -> io::Result<()> {
        let mut new = Beside::make(&self.path, OWNER_ALONE, &self.name)?;
        attributes::owner(&self.seen, &new.file)?;
        new.write(bytes)?;
        attributes::keep(&self.file, &self.seen, &new.file)?;
        new.file.sync_all()?;
        if !fs::symlink_metadata(&self.path).is_ok_and(|now| state(&now) == state(&self.seen)) {
            return Err(io::Error::other("another program changed it meanwhile"));
        }
        new.put_at(&self.path)
    }
}

/// Makes a file that is not there; `AlreadyExists` where it is by now.
pub fn create(named: &Path, bytes: &[u8]) -> io::Result<()> {
    let path = behind_links(named)?;
    let mut new = Beside::make(&path, EVERYONE, &clean(&named.to_string_lossy()))?;
    new.write(bytes)?;
    new.file.sync_all()?;
    if Identity::at(&path).is_some() {
        return Err(io::ErrorKind::AlreadyExists.into());
    }
    new.put_at(&path)
}

fn plain(m: &Metadata) -> io::Result<()> {
    match m.is_dir() {
        true => Err(io::ErrorKind::IsADirectory.into()),
        false if m.is_file() => Ok(()),
        false => Err(io::Error::other("it is no plain file; use -o for one")),
    }
}

fn one_name(m: &Metadata) -> io::Result<()> {
    match m.nlink() {
        0 | 1 => Ok(()),
        n => Err(io::Error::other(format!("it has {n} names (hard links), and replacing it would part them; use -o for another file"))),
    }
}

/// What differs once someone has written to the file, given it other rights, or put another in its place.
fn state(m: &Metadata) -> (Identity, u64, [i64; 4]) {
    (Identity::of(m), m.size(), [m.mtime(), m.mtime_nsec(), m.ctime(), m.ctime_nsec()])
}
