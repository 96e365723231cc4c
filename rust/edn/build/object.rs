//! What machine an archive's code is for.

/// The first bytes of an archive, and of an object in it.
const ARCHIVE_MAGIC: &[u8] = b"!<arch>\n";
const ELF_MAGIC: &[u8] = b"\x7fELF";

/// A member of an archive begins with a head of so many bytes, in which its size stands in decimal.
const MEMBER_HEAD: usize = 60;
const MEMBER_SIZE: std::ops::Range<usize> = 48..58;

/// Where an ELF object says its byte order and its machine, and the byte order that has the low byte first.
const ELF_ORDER: usize = 5;
const ELF_LOW_FIRST: u8 = 1;
const ELF_MACHINE: std::ops::Range<usize> = 18..20;

/// Rust's name of a machine, and ELF's number of it.
const MACHINES: [(&str, u16); 6] = [("x86", 3), ("arm", 40), ("x86_64", 62), ("aarch64", 183), ("riscv64", 243), ("loongarch64", 258)];

/// Whether the archive's code can be linked into a program for `arch`. Of what is no ELF, and of a machine that is not listed here, the linker is
/// left to judge.
pub fn check(archive: &[u8], arch: &str) -> Result<(), String> {
    let Some(members) = archive.strip_prefix(ARCHIVE_MAGIC) else {
        return Err("is not an archive of objects".to_string());
    };
    let Some(found) = machine(members) else { return Ok(()) };
    match MACHINES.iter().find(|(name, _)| *name == arch) {
        Some((_, wanted)) if *wanted != found => {
            let found = MACHINES.iter().find(|(_, number)| *number == found).map_or("another machine", |(name, _)| name);
            Err(format!("holds code for {found}, and this build is for {arch}; an archive built for {arch} is wanted"))
        }
        _ => Ok(()),
    }
}

/// The machine of the first ELF object among the members.
fn machine(mut members: &[u8]) -> Option<u16> {
    while members.len() > MEMBER_HEAD {
        let (head, rest) = members.split_at(MEMBER_HEAD);
        if rest.starts_with(ELF_MAGIC) {
            let number = rest.get(ELF_MACHINE)?.try_into().ok()?;
            return Some(if rest[ELF_ORDER] == ELF_LOW_FIRST { u16::from_le_bytes(number) } else { u16::from_be_bytes(number) });
        }
        let size: usize = std::str::from_utf8(&head[MEMBER_SIZE]).ok()?.trim().parse().ok()?;
        // members begin at even places
        members = rest.get(size.checked_next_multiple_of(2)?..)?;
    }
    None
}
