//! Links the proved library, libedn_c.a: one that EDN_LIB_DIR names a folder of, or one that `rt lib` proves and builds in the repository, in
//! the folder of the crate edn_c. What is proved once is kept, and not proved again.
#[path = "build/kept.rs"]
mod kept;
#[path = "build/object.rs"]
mod object;
#[path = "build/progress.rs"]
mod progress;
#[path = "build/repository.rs"]
mod repository;
#[path = "build/toolchain.rs"]
mod toolchain;

use kept::Kept;
use repository::Repository;
use std::env;
use std::ffi::OsStr;
use std::fs;
use std::path::{Path, PathBuf};
use std::process::exit;

const ARCHIVE: &str = "libedn_c.a";

fn main() {
    let linked = archive().and_then(|archive| {
        object::check(&archive.bytes, &setting("CARGO_CFG_TARGET_ARCH")).map_err(|e| format!("{} {e}", archive.from.display()))?;
        link(&archive.bytes)
    });
    if let Err(e) = linked {
        // cargo shows this, and everything said before it
        eprintln!("edn: {e}");
        exit(1);
    }
}

/// The bytes of the library, and where they come from.
struct Archive {
    bytes: Vec<u8>,
    from: PathBuf,
}

fn archive() -> Result<Archive, String> {
    println!("cargo:rerun-if-env-changed=EDN_LIB_DIR");
    println!("cargo:rustc-check-cfg=cfg(prebuilt)");
    match env::var_os("EDN_LIB_DIR") {
        Some(folder) if !folder.is_empty() => given(&folder),
        _ => proved(),
    }
}

fn given(folder: &OsStr) -> Result<Archive, String> {
    let from = package().join(folder).join(ARCHIVE);
    println!("cargo:rerun-if-changed={}", from.display());
    // for the tests that need the toolchain
    println!("cargo:rustc-cfg=prebuilt");
    let bytes = fs::read(&from).map_err(|e| format!("EDN_LIB_DIR is set, and {} cannot be read: {e}", from.display()))?;
    Ok(Archive { bytes, from })
}

/// The library of the repository's sources: kept from an earlier build, or proved and built now.
fn proved() -> Result<Archive, String> {
    for_this_target()?;
    let repository = Repository::around(&package())?;
    repository.watch();
    let toolchain = toolchain::version()?;
    let sources = repository.sources(&toolchain)?;
    let kept = Kept::beside(&out_dir(), &setting("TARGET"));
    let again = || kept.archive_of(&sources).map(|bytes| Archive { bytes, from: kept.file().to_path_buf() });
    if let Some(archive) = again() {
        eprintln!("edn: the library of these sources is proved already: {}", kept.file().display());
        return Ok(archive);
    }
    let _held = repository.hold();
    // whoever held it may have proved the same sources
    if let Some(archive) = again() {
        return Ok(archive);
    }
    toolchain::prove(&repository)?;
    let from = repository.library().join(repository::MADE).join(ARCHIVE);
    let bytes = fs::read(&from).map_err(|e| format!("{} cannot be read: {e}", from.display()))?;
    // what was changed meanwhile may or may not be in the archive
    if repository.sources(&toolchain)? == sources {
        kept.keep(&sources, &bytes).map_err(|e| format!("{} cannot be written: {e}", kept.file().display()))?;
    }
    Ok(Archive { bytes, from })
}

/// It is proved and built for one kind of machine only; an archive for another can be given.
fn for_this_target() -> Result<(), String> {
    let wanted = [("CARGO_CFG_TARGET_ARCH", "x86_64"), ("CARGO_CFG_TARGET_OS", "linux"), ("CARGO_CFG_TARGET_POINTER_WIDTH", "64")];
    if wanted.iter().all(|(name, value)| setting(name) == *value) {
        return Ok(());
    }
    Err(format!(
        "the library is proved and built here for x86-64 Linux, and this build is for {target}; \
         set EDN_LIB_DIR to a folder with a {ARCHIVE} that was built for {target}",
        target = setting("TARGET")
    ))
}

/// Links the archive, and tells those who depend on this package where it and the header stand (DEP_EDN_C_ARCHIVE and so on).
fn link(archive: &[u8]) -> Result<(), String> {
    let folder = out_dir();
    // a copy, since `rt ci` removes what `rt` made
    let copy = folder.join(ARCHIVE);
    fs::write(&copy, archive).map_err(|e| format!("{} cannot be written: {e}", copy.display()))?;
    println!("cargo:rustc-link-search=native={}", folder.display());
    println!("cargo:rustc-link-lib=static=edn_c");
    // for the tests
    println!("cargo:rustc-env=EDN_C_ARCHIVE={}", copy.display());
    println!("cargo:lib_dir={}", folder.display());
    println!("cargo:archive={}", copy.display());
    if let Ok(include) = package().join("../../include").canonicalize() {
        println!("cargo:include={}", include.display());
    }
    Ok(())
}

/// What cargo tells a build script. It always does.
fn setting(name: &str) -> String {
    env::var(name).unwrap_or_else(|e| panic!("cargo sets {name}: {e}"))
}

fn package() -> PathBuf {
    Path::new(&setting("CARGO_MANIFEST_DIR")).to_path_buf()
}

fn out_dir() -> PathBuf {
    PathBuf::from(setting("OUT_DIR"))
}
