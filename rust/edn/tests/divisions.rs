//! No division: the test of the limit of a number, and all that it calls, as proved and as compiled; and no divide instruction in the library.
mod support;

use std::collections::BTreeSet;
use std::fs;
use std::path::Path;
use std::process::Command;
use support::{copy_crates, root, run, Folder, ARCHIVE};

/// The crate of the test, the test, and its first line.
const CRATE: &str = "amounts";
const TEST: &str = "fits";
const TEST_BEGINS: &str = "\nfn fits(";

/// The crates below a crate: what stands behind its colon in crates.txt.
fn below<'a>(listed: &'a str, name: &str) -> Vec<&'a str> {
    let lines = listed.lines().filter_map(|l| l.split('#').next()?.split_once(':'));
    let line = lines.into_iter().find(|(about, _)| about.split_whitespace().next() == Some(name));
    line.unwrap_or_else(|| panic!("crates.txt has no {name}")).1.split_whitespace().collect()
}

/// `rt lib` in the folder of a crate: proves it and those below it, where they have changed, and makes a library of it.
fn make_library(repository: &Path, name: &str, flags: &[&str]) {
    run(Command::new("rt").arg("lib").args(flags).current_dir(repository.join("crates").join(name)));
}

/// The test exported: so its code stands by itself, and the compiler does not know the radix. Its crate and those below it are copied to a
/// repository of their own, in which it is a static library.
fn exported(there: &Path) {
    let listed = fs::read_to_string(root().join("crates.txt")).unwrap();
    let names = below(&listed, CRATE);
    copy_crates(names.iter().copied().chain([CRATE]), there);
    let mut list = format!("{CRATE} staticlib: {}\n", names.join(" "));
    for name in names {
        list += &format!("{name}: {}\n", below(&listed, name).join(" "));
    }
    fs::write(there.join("crates.txt"), list).unwrap();
    let source = there.join("crates").join(CRATE).join("src/lib.rt");
    let text = fs::read_to_string(&source).unwrap();
    assert_eq!(text.matches(TEST_BEGINS).count(), 1, "{TEST} of {CRATE}");
    fs::write(&source, text.replace(TEST_BEGINS, &format!("\n#[unsafe(no_mangle)]\npub extern \"C\" fn {TEST}("))).unwrap();
    // for the processors that the library is for
    make_library(there, CRATE, &["--cpu=x86-64"]);
}

/// The instructions of an object file or an archive, one to a line: the mnemonic, then its operands.
fn instructions(file: &Path) -> Vec<String> {
    let shown = run(Command::new("objdump").args(["-d", "--no-show-raw-insn"]).arg(file));
    shown.lines().filter_map(|l| l.split_once(":\t")).map(|(_, i)| i.trim().to_string()).collect()
}

/// Those that divide, of whole numbers and of others.
fn divisions(instructions: &[String]) -> Vec<&String> {
    instructions.iter().filter(|i| i.split_whitespace().next().is_some_and(|mnemonic| mnemonic.contains("div"))).collect()
}

/// The code of a function by its name.
type Functions = Vec<(String, String)>;

/// The functions of a crate and of those below it in the form that is proved, and that is compiled into whatever links them: a library that
/// `rt lib` made has it of its own, as JSON.
fn proved(name: &str) -> Functions {
    let listed = fs::read_to_string(root().join("crates.txt")).unwrap();
    make_library(&root(), name, &[]);
    let mut functions = Vec::new();
    for name in below(&listed, name).into_iter().chain([name]) {
        let file = root().join(format!("crates/{name}/out/rlib/{name}.rlib/toolchain/mir.json"));
        let text = fs::read_to_string(&file).unwrap_or_else(|e| panic!("{}: {e}", file.display()));
        functions.extend(functions_of(&text));
    }
    functions
}

/// Each function of such a file, `["crate::name",{"lifetimes":0, ..}]`.
fn functions_of(mir: &str) -> Functions {
    const HEAD: &str = "\",{\"lifetimes\":";
    let parts: Vec<&str> = mir.split(HEAD).collect();
    let name = |before: &str| before.rsplit('"').next().unwrap().to_string();
    parts.windows(2).map(|pair| (name(pair[0]), pair[1].to_string())).collect()
}

/// A function, and those that it calls, without the rest.
fn reached<'a>(functions: &'a Functions, from: &str) -> Vec<&'a str> {
    let (mut names, mut wanted, mut found) = (BTreeSet::new(), vec![from.to_string()], Vec::new());
    while let Some(name) = wanted.pop() {
        if !names.insert(name.clone()) {
            continue;
        }
        let (_, body) = functions.iter().find(|(n, _)| *n == name).unwrap_or_else(|| panic!("{name} is not there"));
        let called: Vec<&str> = body.split("{\"Fn\":[\"").skip(1).map(|f| f.split('"').next().unwrap()).collect();
        assert!(called.len() >= body.matches("Call\":[").count(), "{name} calls what has no name: {body}");
        wanted.extend(called.into_iter().map(str::to_string));
        found.push(body.as_str());
    }
    found
}

/// A quotient or a remainder, of whole numbers (`{"Div":"Unsigned"}`) or of others (`"FloatDiv"`).
fn divides(body: &str) -> bool {
    body.contains("Div\"") || body.contains("Rem\"")
}

#[test]
#[cfg_attr(prebuilt, ignore = "needs rt")]
fn the_test_of_the_limit_as_proved() {
    let functions = proved(CRATE);
    for body in reached(&functions, &format!("{CRATE}::{TEST}")) {
        assert!(!divides(body), "{body}");
    }
    // the look finds what there is to find: the value of a digit is worked out with both
    let digit = reached(&functions, &format!("{CRATE}::digit_value"));
    assert!(digit.iter().any(|body| divides(body)));
    for word in ["Div", "Rem"] {
        assert!(digit.iter().any(|body| body.contains(&format!("{{\"{word}\":\"Unsigned\"}}"))), "{word}");
    }
}

#[test]
#[cfg_attr(prebuilt, ignore = "needs rt")]
fn the_test_of_the_limit_as_compiled() {
    let folder = Folder::of_a_repository("divisions");
    exported(&folder.path(""));
    let archive = folder.path(&format!("crates/{CRATE}/out/lib{CRATE}.a"));
    let names = run(Command::new("nm").arg(&archive));
    assert!(names.lines().any(|l| l.ends_with(&format!(" T {TEST}"))), "{names}");
    assert!(!names.contains(" U "), "nothing that is elsewhere is called: {names}");
    let instructions = instructions(&archive);
    assert!(instructions.iter().any(|i| i.starts_with("ret")), "{instructions:?}");
    assert_eq!(divisions(&instructions), Vec::<&String>::new());
}

#[test]
fn the_library_has_no_divide_instruction() {
    let instructions = instructions(Path::new(ARCHIVE));
    assert!(instructions.len() > 5_000, "{} instructions", instructions.len());
    assert_eq!(divisions(&instructions), Vec::<&String>::new());
}

/// What these tests look for is what a compiler makes of a division.
#[test]
fn a_divide_instruction_is_found() {
    let folder = Folder::new("divides");
    for (kind, operation) in [("unsigned long", "/"), ("unsigned char", "%"), ("long", "/"), ("int", "%"), ("double", "/")] {
        let source = folder.write("divides.c", format!("{kind} divides({kind} a, {kind} b) {{ return ({kind})(a {operation} b); }}\n"));
        let object = folder.path("divides.o");
        run(Command::new("cc").args(["-O2", "-c"]).arg(source).arg("-o").arg(&object));
        assert_eq!(divisions(&instructions(&object)).len(), 1, "{kind} {operation}");
    }
}
