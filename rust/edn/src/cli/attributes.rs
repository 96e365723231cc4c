//! What a file keeps when it is replaced: owner, group, extended attributes (access control lists are among them) and mode.
use super::c;
use super::stop::because;
use std::fs::{File, Metadata};
use std::io;
use std::os::unix::fs::{fchown, MetadataExt};

/// Gives the new file, whose owner is the old one's already, what the old one has. The mode comes last: until then nobody but the owner may read
/// the new file.
pub fn keep(old: &File, had: &Metadata, new: &File) -> io::Result<()> {
    extended(old, new).map_err(|e| because("its extended attributes cannot be kept", &e))?;
    new.set_permissions(had.permissions()).map_err(|e| because("its mode cannot be kept", &e))?;
    // the system leaves out, without a word, a mode's bit that the user may not set
    let has = new.metadata()?;
    if (has.uid(), has.gid(), has.mode()) != (had.uid(), had.gid(), had.mode()) {
        return Err(io::Error::other("its owner, group and mode cannot be kept"));
    }
    Ok(())
}

/// Gives the new file the old one's owner and group, before anything stands in it: so one that a kill leaves is the owner's to remove. It asks
/// only for what differs, since most users may change nothing.
pub fn owner(had: &Metadata, new: &File) -> io::Result<()> {
    let has = new.metadata()?;
    let user = (has.uid() != had.uid()).then_some(had.uid());
    let group = (has.gid() != had.gid()).then_some(had.gid());
    if user.is_none() && group.is_none() {
        return Ok(());
    }
    fchown(new, user, group).map_err(|e| because("its owner and group cannot be kept", &e))
}

/// A new file may have attributes of its own, handed down by its folder: an access control list, which would let others in.
fn extended(old: &File, new: &File) -> io::Result<()> {
    let wanted = c::attribute_names(old)?;
    for name in c::attribute_names(new)?.iter().filter(|name| !wanted.contains(name)) {
        c::remove_attribute(new, name)?;
    }
    for name in &wanted {
        let value = c::attribute(old, name)?;
        if !c::attribute(new, name).is_ok_and(|there| there == value) {
            c::set_attribute(new, name, &value)?;
        }
    }
    Ok(())
}
