//! The header `include/edn.h`: what it says is so, it looks at what is lent, it compiles wherever it is included, and it is installed.
mod support;

use edn::Kind;
use std::path::{Path, PathBuf};
use std::process::Command;
use support::{archive_folder, copy_crates, is_there, package, root, run, run_to_fail, Folder, ARCHIVE};

const WARNINGS: [&str; 6] = ["-Wall", "-Wextra", "-Wpedantic", "-Wconversion", "-Wshadow", "-Werror"];
/// The compilers, and the languages that each is asked for.
const COMPILERS: [(&str, &str, &[&str]); 4] = [
    ("gcc", "c", &["c99", "c11", "c17"]),
    ("clang", "c", &["c99", "c11", "c17"]),
    ("g++", "c++", &["c++11", "c++17"]),
    ("clang++", "c++", &["c++11", "c++17"]),
];

/// How many functions the library has.
const FUNCTIONS: usize = 5;

fn test_source(name: &str) -> PathBuf {
    package().join("tests/c").join(name)
}

/// A compiler with every warning an error, and the header's folder.
fn compile(compiler: &str, language: &str, standard: &str, sources: &[PathBuf], program: &Path) -> Command {
    let mut c = Command::new(compiler);
    c.args(["-x", language, &format!("-std={standard}")]).args(WARNINGS).arg("-I").arg(root().join("include"));
    c.args(sources).args(["-x", "none", ARCHIVE, "-o"]).arg(program);
    c
}

/// What codes.c writes, as lines of words.
fn said_by_header(name: &str) -> Vec<String> {
    let folder = Folder::new(name);
    let program = folder.path("codes");
    run(&mut compile("cc", "c", "c99", &[test_source("codes.c")], &program));
    run(&mut Command::new(program)).lines().map(str::to_string).collect()
}

fn those_that_begin<'a>(lines: &'a [String], with: &str) -> Vec<&'a str> {
    lines.iter().filter_map(|l| l.strip_prefix(with)).collect()
}

/// `TooLong` as C has it: `EDN_TOO_LONG`.
fn in_c(kind: &str) -> String {
    let mut name = String::from("EDN");
    for c in kind.chars() {
        if c.is_uppercase() {
            name.push('_');
        }
        name.push(c.to_ascii_uppercase());
    }
    name
}

#[test]
fn codes_and_names_are_those_of_rust() {
    let lines = said_by_header("codes");
    let mut codes = vec!["EDN_OK 0".to_string()];
    codes.extend(Kind::ALL.iter().map(|k| format!("{} {}", in_c(&format!("{k:?}")), k.number())));
    codes.push("EDN_MISUSE 255".to_string());
    assert_eq!(those_that_begin(&lines, "code "), codes);

    let names = those_that_begin(&lines, "name ");
    assert!(names.len() > usize::from(u8::MAX), "every number that a code can have");
    for (number, said) in names.iter().enumerate() {
        let words = match (number, u8::try_from(number).ok().and_then(Kind::from_number)) {
            (_, Some(kind)) => kind.name(),
            (0, _) => "done",
            (255, _) => "misuse",
            _ => "unknown code",
        };
        assert_eq!(*said, format!("{number} {words}"));
    }
}

#[test]
fn the_version_is_the_packages() {
    let version = env!("CARGO_PKG_VERSION");
    assert_eq!(those_that_begin(&said_by_header("version"), "version "), [format!("{version} {version}")]);
}

/// In every language and by every compiler that is here, as a program of two files: what is lent is looked at, byte for byte.
#[test]
fn what_is_lent_is_looked_at() {
    let folder = Folder::new("lent");
    let sources = [test_source("lent.c"), test_source("other.c")];
    for (compiler, language, standards) in COMPILERS {
        if compiler.starts_with("clang") && !is_there(compiler) {
            eprintln!("{compiler} is not here; not tried");
            continue;
        }
        for standard in standards {
            for optimised in ["-O0", "-O2"] {
                let program = folder.path(&format!("lent-{compiler}-{standard}{optimised}"));
                run(compile(compiler, language, standard, &sources, &program).arg(optimised));
                run(&mut Command::new(program));
            }
        }
    }
}

/// `make`, with the archive that these tests have, into a folder of its own; nothing is left in the repository.
fn make(made: &Path) -> Command {
    let mut c = Command::new("make");
    c.arg("-C").arg(root()).arg("--no-print-directory").arg(format!("made={}", made.display()));
    c.env("EDN_LIB_DIR", archive_folder()).env_remove("MAKEFLAGS").env_remove("DESTDIR");
    c
}

/// What the header states of the stack holds and is tight, whatever the compiler makes of the header's own functions. The program judges too.
#[test]
fn the_stack_is_as_stated() {
    let folder = Folder::new("stack");
    for optimised in ["-O0", "-O2"] {
        let shown = run(make(&folder.path(optimised)).arg("stack").arg(format!("CFLAGS={optimised}")));
        let table: Vec<&str> = shown.lines().filter(|l| l.starts_with("edn_")).collect();
        assert_eq!(table.len(), FUNCTIONS, "{shown}");
        for line in table {
            let numbers: Vec<u64> = line.split_whitespace().skip(1).map(|w| w.parse().unwrap()).collect();
            let [measured, stated, calls, accepted] = numbers[..] else { panic!("{line}") };
            assert!(measured <= stated && 2 * measured >= stated, "{line}");
            assert!(0 < accepted && accepted < calls, "it was given good inputs and bad ones: {line}");
        }
    }
}

#[test]
fn installed_it_is_found_by_pkg_config() {
    let folder = Folder::new("install");
    let (made, there) = (folder.path("made"), folder.path("there"));
    run(make(&made).arg("install").arg(format!("DESTDIR={}", there.display())).arg("PREFIX=/opt/edn"));
    // what is installed may be moved: it is found where it stands
    let moved = folder.path("moved");
    std::fs::rename(there.join("opt/edn"), &moved).unwrap();
    let asked =
        |option: &[&str]| run(Command::new("pkg-config").args(option).arg("edn").env("PKG_CONFIG_PATH", moved.join("lib/pkgconfig")));
    assert_eq!(asked(&["--modversion"]).trim(), env!("CARGO_PKG_VERSION"));
    let flags = asked(&["--cflags", "--libs"]);
    let program = folder.path("sheet");
    run(Command::new("cc").arg(root().join("examples/sheet.c")).args(flags.split_whitespace()).arg("-o").arg(&program));
    assert!(run(&mut Command::new(&program)).starts_with("read: 19 bytes\n"));

    std::fs::create_dir_all(there.join("opt")).unwrap();
    std::fs::rename(&moved, there.join("opt/edn")).unwrap();
    run(make(&made).arg("uninstall").arg(format!("DESTDIR={}", there.display())).arg("PREFIX=/opt/edn"));
    let left = run(Command::new("find").arg(&there).args(["-type", "f"]));
    assert_eq!(left, "");
}

#[test]
fn make_runs_the_example_and_cleans_up() {
    let folder = Folder::new("make");
    let made = folder.path("made");
    assert!(run(make(&made).arg("example")).contains("read: refused 5 at 6: dots"));
    assert!(made.join("sheet").is_file());
    run(make(&made).arg("clean"));
    assert!(!made.exists());
    let said = run_to_fail(make(&made).env("EDN_LIB_DIR", folder.path("nowhere")));
    assert!(said.contains("nowhere/libedn_c.a"), "{said}");
}

/// make takes a blank for the end of a name, and would speak of files that nobody named.
#[test]
fn make_refuses_a_folder_with_a_blank() {
    let folder = Folder::new("blank");
    let archive = std::fs::read(ARCHIVE).unwrap();
    for name in ["a folder", " begins", "ends "] {
        folder.write(&format!("{name}/libedn_c.a"), &archive);
        let said = run_to_fail(make(&folder.path("made")).env("EDN_LIB_DIR", folder.path(name)));
        assert!(said.contains(&format!("{name}\": that has a blank in it")), "{said}");
        assert!(said.contains("name it by a symbolic link without one"), "{said}");
    }
}

/// The repository may stand in a folder with a blank, and be installed to one.
#[test]
fn make_works_in_a_folder_with_a_blank() {
    let folder = Folder::of_a_repository("blank-above");
    let there = folder.path("a folder");
    std::fs::create_dir(&there).unwrap();
    let parts = ["Makefile", "edn.pc.in", "include", "examples", "crates.txt"];
    run(Command::new("cp").arg("-r").args(parts.map(|f| root().join(f))).arg(&there));
    let crates: Vec<String> =
        std::fs::read_dir(root().join("crates")).unwrap().map(|e| e.unwrap().file_name().into_string().unwrap()).collect();
    copy_crates(crates.iter().map(String::as_str), &there);
    let mut make = Command::new("make");
    make.arg("-C").arg(&there).args(["example", "install", "DESTDIR=to here"]);
    run(make.env("EDN_LIB_DIR", archive_folder()).env_remove("MAKEFLAGS"));
    assert!(there.join("to here/usr/local/lib/libedn_c.a").is_file());
}
