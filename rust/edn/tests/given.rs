//! An archive that EDN_LIB_DIR gives: it needs no toolchain, and one that will not do is refused in clear words.
mod support;

use std::fs;
use std::path::Path;
use support::{cargo, package, path_without_rt, run, run_to_fail, Folder, ARCHIVE};

/// Where an ELF object says what machine it is for, and one that this is not.
const ELF_MACHINE: std::ops::Range<usize> = 18..20;
const ELF_AARCH64: u16 = 183;

#[test]
fn a_given_archive_needs_no_toolchain() {
    let folder = Folder::new("given");
    let tools = path_without_rt(&folder);
    run(cargo(&folder, package(), &["build"]).env("PATH", &tools));
    // and without a given one it says what is missing
    let said = run_to_fail(cargo(&folder, package(), &["build"]).env("PATH", &tools).env_remove("EDN_LIB_DIR"));
    assert!(said.contains("edn: `rt`, the Rattle toolchain, cannot be run"), "{said}");
    assert!(said.contains("put it on the path, or set EDN_LIB_DIR to a folder with libedn_c.a"), "{said}");
}

#[test]
fn a_given_archive_that_will_not_do_is_refused() {
    let folder = Folder::new("refused");
    let build = |lib: &Path| run_to_fail(cargo(&folder, package(), &["build", "--lib"]).env("EDN_LIB_DIR", lib));

    fs::create_dir(folder.path("none")).unwrap();
    let said = build(&folder.path("none"));
    assert!(said.contains("edn: EDN_LIB_DIR is set, and ") && said.contains("none/libedn_c.a cannot be read"), "{said}");

    let mut other = fs::read(ARCHIVE).unwrap();
    let object = other.windows(4).position(|w| w == b"\x7fELF").unwrap();
    other[object..][ELF_MACHINE].copy_from_slice(&ELF_AARCH64.to_le_bytes());
    folder.write("other/libedn_c.a", other);
    let said = build(&folder.path("other"));
    assert!(said.contains("libedn_c.a holds code for aarch64, and this build is for x86_64"), "{said}");

    folder.write("text/libedn_c.a", "not an archive");
    let said = build(&folder.path("text"));
    assert!(said.contains("libedn_c.a is not an archive of objects"), "{said}");
}

/// For another target nothing can be built here; the build says so before it looks for anything else.
#[test]
fn another_target_needs_an_archive_of_its_own() {
    let folder = Folder::new("target");
    let words = ["build", "--lib", "--target", "aarch64-unknown-linux-gnu"];
    let said = run_to_fail(cargo(&folder, package(), &words).env("PATH", path_without_rt(&folder)).env_remove("EDN_LIB_DIR"));
    assert!(said.contains("this build is for aarch64-unknown-linux-gnu"), "{said}");
    assert!(said.contains("libedn_c.a that was built for aarch64-unknown-linux-gnu"), "{said}");
}
