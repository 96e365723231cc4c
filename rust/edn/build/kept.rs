//! The archive that was proved last, kept with all that it was made of.
use std::fs::{self, File};
use std::io::{self, Write};
use std::path::{Path, PathBuf};

/// What is being written, until it is whole. One name for all builds, so that what a killed one left is overwritten by the next.
const UNFINISHED: &str = "proved.new";

/// One file: the record of the sources, and behind it the archive. Being one, it is replaced whole.
pub struct Kept {
    folder: PathBuf,
    file: PathBuf,
}

impl Kept {
    /// In cargo's target folder, which all profiles share: `target/edn_c` beside `target/debug/build/edn-.../out`, where a folder named by the
    /// target may stand between. `rt ci`, which removes what `rt lib` made, leaves it alone.
    pub fn beside(out_dir: &Path, target: &str) -> Kept {
        let profile = out_dir.ancestors().find(|folder| folder.ends_with("build")).and_then(Path::parent);
        let shared = profile.and_then(Path::parent).unwrap_or(out_dir);
        let shared = if shared.ends_with(target) { shared.parent().unwrap_or(shared) } else { shared };
        let folder = shared.join("edn_c");
        Kept { file: folder.join("proved"), folder }
    }

    pub fn file(&self) -> &Path {
        &self.file
    }

    /// The archive, where it was made of these very bytes.
    pub fn archive_of(&self, sources: &[u8]) -> Option<Vec<u8>> {
        let kept = fs::read(&self.file).ok()?;
        kept.strip_prefix(sources).map(<[u8]>::to_vec)
    }

    /// Written beside and renamed: another build sees the old file or the new one, and nothing between.
    pub fn keep(&self, sources: &[u8], archive: &[u8]) -> io::Result<()> {
        fs::create_dir_all(&self.folder)?;
        let held = hold(&self.folder);
        let beside = self.folder.join(UNFINISHED);
        let Some(mut new) = begin(&beside, held.is_some())? else { return Ok(()) };
        new.write_all(sources)?;
        new.write_all(archive)?;
        new.sync_all()?;
        fs::rename(&beside, &self.file)
    }
}

/// Keeps other builds from writing in the folder as long as the answer lives; there is none where folders cannot be locked. The lock on the
/// repository will not do: builds of two repositories may share one target folder.
fn hold(folder: &Path) -> Option<File> {
    let folder = File::open(folder).ok()?;
    folder.lock().ok()?;
    Some(folder)
}

/// Who holds the folder overwrites what is there. Who does not may not, since another build may be writing it now: then there is no file,
/// and nothing is kept.
fn begin(unfinished: &Path, held: bool) -> io::Result<Option<File>> {
    if held {
        return File::create(unfinished).map(Some);
    }
    match File::create_new(unfinished) {
        Err(e) if e.kind() == io::ErrorKind::AlreadyExists => Ok(None),
        new => new.map(Some),
    }
}
