//! Which file it is, whatever it is called.
use super::c;
use std::fs::{self, Metadata};
use std::io;
use std::os::unix::fs::MetadataExt;
use std::path::{Path, PathBuf};

/// As many links as Linux itself follows.
const MOST_LINKS: usize = 40;
pub const LEADS_NOWHERE: &str = "it is a symbolic link that leads nowhere";

/// Device and inode: equal for every name of a file, and for nothing else that is there.
#[derive(Clone, Copy, PartialEq, Eq)]
pub struct Identity {
    device: u64,
    inode: u64,
}

impl Identity {
    pub fn of(m: &Metadata) -> Self {
        Identity { device: m.dev(), inode: m.ino() }
    }

    /// Of what stands at a path, be it a link.
    pub fn at(path: &Path) -> Option<Self> {
        fs::symlink_metadata(path).ok().map(|m| Self::of(&m))
    }

    /// Of the file that a path leads to.
    pub fn behind(path: &Path) -> Option<Self> {
        fs::metadata(path).ok().map(|m| Self::of(&m))
    }
}

/// Whether two paths lead to the same file. One that is being replaced has two identities, one after the other: so the first path is asked
/// again until it stayed the same.
pub fn same_file(a: &Path, b: &Path) -> bool {
    loop {
        let first = Identity::behind(a);
        let second = Identity::behind(b);
        if first.is_some() && first == second {
            return true;
        }
        if Identity::behind(a) == first {
            return a == b;
        }
    }
}

/// The path of the file itself that a path leads to, which need not be there where no link leads to it.
pub fn behind_links(path: &Path) -> io::Result<PathBuf> {
    let mut path = path.to_path_buf();
    for links in 0..=MOST_LINKS {
        match fs::symlink_metadata(&path) {
            Ok(m) if m.is_symlink() => {
                let to = fs::read_link(&path)?;
                path = path.parent().unwrap_or(Path::new("")).join(to);
            }
            Err(e) if e.kind() == io::ErrorKind::NotFound && links > 0 => return Err(io::Error::other(LEADS_NOWHERE)),
            Err(e) if e.kind() != io::ErrorKind::NotFound => return Err(e),
            _ => return Ok(path),
        }
    }
    Err(io::Error::from_raw_os_error(c::ELOOP))
}
