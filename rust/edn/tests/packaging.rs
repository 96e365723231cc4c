//! The package as others build it: without std, as a dependency whose build script is told where things stand, packed, documented.
mod support;

use std::fs;
use std::path::PathBuf;
use std::process::Command;
use support::{cargo, package, root, run, Folder, ARCHIVE};

/// A package that depends on this one.
fn dependent(folder: &Folder, features: &str, rest: &str) -> PathBuf {
    let manifest = format!(
        "[package]\nname = \"dependent\"\nversion = \"0.0.0\"\nedition = \"2021\"\n[workspace]\n\
         [dependencies]\nedn = {{ path = {:?}, {features} }}\n{rest}",
        package()
    );
    folder.write("dependent/Cargo.toml", manifest).parent().unwrap().to_path_buf()
}

/// The library alone, in a program that has no std: it is linked by a C compiler, and works.
#[test]
fn without_std() {
    let folder = Folder::new("no-std");
    let rest = "[lib]\ncrate-type = [\"staticlib\"]\n[profile.dev]\npanic = \"abort\"\nopt-level = 1\n";
    let dependent = dependent(&folder, "default-features = false", rest);
    folder.write("dependent/src/lib.rs", NO_STD);
    folder.write("main.c", "int edn_number(void);\nint main(void) { return edn_number() == 17 ? 0 : 1; }\n");
    run(&mut cargo(&folder, &dependent, &["build"]));

    let library = folder.path("built/debug/libdependent.a");
    let members = run(Command::new("ar").arg("t").arg(&library));
    assert!(members.contains("core-"), "{members}");
    for other in ["std-", "alloc-"] {
        assert!(!members.lines().any(|m| m.starts_with(other)), "{members}");
    }
    let program = folder.path("main");
    run(Command::new("cc").arg(folder.path("main.c")).arg(&library).arg("-Wl,--gc-sections").arg("-o").arg(&program));
    run(&mut Command::new(program));
}

/// Uses every function that needs no heap.
const NO_STD: &str = r#"#![no_std]

#[panic_handler]
fn panic(_: &core::panic::PanicInfo) -> ! {
    loop {}
}

fn all() -> Result<(), edn::Error> {
    let mut sheet = [0u8; 8];
    let mut text = [0u8; 16];
    let used = edn::read_into(b"[1, 2]", &mut sheet)?;
    let used = edn::correct_in(&mut sheet, used, &[0, 1], b"null")?;
    edn::check(&sheet[..used])?;
    let part = edn::locate(&sheet[..used], &[0, 1])?;
    edn::check(&sheet[part])?;
    let length = edn::print_into(&sheet[..used], &mut text)?;
    if &text[..length] != b"[1, null]\n" {
        return Ok(());
    }
    edn::look_up(&sheet[..used], &[9]).map(|_| ())
}

#[no_mangle]
pub extern "C" fn edn_number() -> i32 {
    fn is_an_error<T: core::error::Error>(e: T) -> T {
        e
    }
    match all() {
        Err(e) if is_an_error(e).kind() == edn::Kind::NoSuchPath => e.number().into(),
        _ => 0,
    }
}
"#;

/// With alloc and without std there are the functions that return memory of their own.
#[test]
fn with_alloc_alone() {
    let folder = Folder::new("alloc");
    let dependent = dependent(&folder, "default-features = false, features = [\"alloc\"]", "");
    folder
        .write("dependent/src/main.rs", "fn main() {\n    assert_eq!(edn::print(edn::read(\"[1]\").unwrap()).unwrap(), \"[1]\\n\");\n}\n");
    run(&mut cargo(&folder, &dependent, &["run"]));
}

/// A dependent's build script is told where the archive and the header stand, and can compile C with them.
#[test]
fn tells_dependents_where_things_stand() {
    let folder = Folder::new("dependent");
    let dependent = dependent(&folder, "default-features = false", "");
    folder.write(
        "dependent/build.rs",
        r#"fn main() {
    let told = |name: &str| std::path::PathBuf::from(std::env::var_os(name).expect(name));
    assert!(told("DEP_EDN_C_INCLUDE").join("edn.h").is_file());
    assert_eq!(told("DEP_EDN_C_LIB_DIR").join("libedn_c.a"), told("DEP_EDN_C_ARCHIVE"));
    println!("cargo:rustc-env=ARCHIVE={}", told("DEP_EDN_C_ARCHIVE").display());
}
"#,
    );
    folder.write("dependent/src/main.rs", "fn main() {\n    edn::check(&[0x01]).unwrap();\n    print!(\"{}\", env!(\"ARCHIVE\"));\n}\n");
    let told = run(&mut cargo(&folder, &dependent, &["run"]));
    assert_eq!(fs::read(told).unwrap(), fs::read(ARCHIVE).unwrap());
}

/// What a registry, or whoever looks at the package, is told of it.
#[test]
fn says_what_it_is() {
    let said = [env!("CARGO_PKG_DESCRIPTION"), env!("CARGO_PKG_LICENSE"), env!("CARGO_PKG_README"), env!("CARGO_PKG_RUST_VERSION")];
    assert!(said.iter().all(|s| !s.is_empty()));
    assert_eq!(env!("CARGO_PKG_LICENSE"), "Apache-2.0");
    assert!(package().join(env!("CARGO_PKG_README")).is_file());
}

/// Packed it has all that it is built of.
#[test]
fn packs_what_it_is_built_of() {
    let folder = Folder::new("packs");
    let listed = run(&mut cargo(&folder, package(), &["package", "--list", "--allow-dirty"]));
    let files = run(Command::new("find").args(["build.rs", "build", "src", "-type", "f"]).current_dir(package()));
    assert!(files.lines().count() > 10, "{files}");
    for name in files.lines() {
        assert!(listed.lines().any(|l| l == name), "{name} is not packed:\n{listed}");
    }
}

/// Packed it has the licence that it names, and not only a link to it.
#[test]
fn packs_its_licence() {
    let folder = Folder::new("licence");
    let listed = run(&mut cargo(&folder, package(), &["package", "--list", "--allow-dirty"]));
    assert!(listed.lines().any(|l| l == "LICENSE"), "{listed}");

    run(&mut cargo(&folder, package(), &["package", "--no-verify", "--allow-dirty"]));
    let name = concat!("edn-", env!("CARGO_PKG_VERSION"));
    let packed = folder.path(&format!("built/package/{name}.crate"));
    let licence = run(Command::new("tar").arg("-xzOf").arg(packed).arg(format!("{name}/LICENSE")));
    assert_eq!(licence, fs::read_to_string(root().join("LICENSE")).unwrap());
}

/// The documentation is made without a warning, with all features and with none.
#[test]
fn is_documented_without_warnings() {
    let folder = Folder::new("documented");
    for features in ["--all-features", "--no-default-features"] {
        run(cargo(&folder, package(), &["doc", "--no-deps", "--lib", features]).env("RUSTDOCFLAGS", "-D warnings"));
    }
}
