//! The commands of README.md for the command line, word for word, each block where the one before it left off; and what README says that
//! they write.
mod support;

use std::fs;
use std::path::Path;
use std::process::{Command, Output};
use support::{root, Folder};

const INDENT: &str = "    ";

/// The indented blocks of README.md, without their indent.
fn blocks() -> Vec<String> {
    let text = fs::read_to_string(root().join("README.md")).unwrap();
    let mut blocks = vec![String::new()];
    let mut fenced = false;
    for line in text.lines() {
        fenced ^= line.starts_with("```");
        match line.strip_prefix(INDENT) {
            Some(code) if !fenced => *blocks.last_mut().unwrap() += &format!("{code}\n"),
            _ => blocks.push(String::new()),
        }
    }
    blocks.retain(|b| !b.is_empty());
    blocks
}

/// Runs a block in a folder, with this build's `edn` on the path.
fn run(block: &str, folder: &Folder) -> Output {
    let binaries = Path::new(env!("CARGO_BIN_EXE_edn")).parent().unwrap().to_str().unwrap();
    let path = format!("{binaries}:{}", std::env::var("PATH").unwrap());
    Command::new("sh").args(["-e", "-c", block]).current_dir(folder.path("")).env("PATH", path).output().unwrap()
}

/// Every file and folder that a document names is there.
#[test]
fn what_the_documents_name_is_there() {
    let mut documents: Vec<_> = ["README.md", "CONTRIBUTING.md", "CHANGELOG.md", "rust/edn/README.md"].map(|f| root().join(f)).to_vec();
    for folder in ["docs", "docs/changes"] {
        documents.extend(fs::read_dir(root().join(folder)).unwrap().map(|e| e.unwrap().path()).filter(|f| f.extension().is_some()));
    }
    let mut named = 0;
    for document in documents {
        let text = fs::read_to_string(&document).unwrap();
        for word in text.split(|c: char| c.is_whitespace() || "`()|,;:*{}\"".contains(c)) {
            let word = word.trim_end_matches('.');
            let is_path = ["docs/", "crates/", "rust/", "include/", "examples/", "samples/"].iter().any(|f| word.starts_with(f));
            // NAME, LABEL and NN stand for something else; what stands in target and out is made
            if is_path && !["NAME", "LABEL", "NN", "target", "/out/"].iter().any(|part| word.contains(part)) {
                assert!(root().join(word).exists(), "{} names {word}", document.display());
                named += 1;
            }
        }
    }
    assert!(named > 40, "{named}");
}

#[test]
fn the_commands_of_the_readme() {
    let folder = Folder::new("readme");
    folder.write("samples/vehicle.edn", fs::read(root().join("samples/vehicle.edn")).unwrap());

    let blocks = blocks();
    let of_edn: Vec<usize> = (0..blocks.len()).filter(|&i| blocks[i].lines().any(|l| l.starts_with("edn "))).collect();
    let [first, second] = of_edn[..] else { panic!("README has {} blocks with edn", of_edn.len()) };

    let o = run(&blocks[first], &folder);
    let written = String::from_utf8(o.stdout).unwrap();
    assert_eq!((o.status.code(), String::from_utf8_lossy(&o.stderr)), (Some(0), "".into()));
    assert!(written.starts_with("target/vehicle.cbor: a sheet, 230 bytes\n\"catalyst\"\n{1: 64(h'6f05'), "), "{written}");
    assert!(written.contains("\"catalyst\", \"heated catalyst\", "), "{written}");

    let o = run(&blocks[second], &folder);
    assert_eq!(String::from_utf8_lossy(&o.stdout), "\"catalyst\"\ntarget/vehicle.cbor: a sheet, 230 bytes\n");
    assert_eq!(String::from_utf8_lossy(&o.stderr), blocks[second + 1], "the refusal that README quotes");
    assert_eq!(o.status.code(), Some(0));
}
