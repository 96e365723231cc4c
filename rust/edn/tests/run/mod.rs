//! Runs of `edn` as its users make them, and a folder for each test.
#![allow(dead_code)]

pub mod system;

use std::ffi::OsStr;
use std::fs;
use std::io::Write;
use std::path::{Path, PathBuf};
use std::process::{Command, Output, Stdio};

pub const EDN: &str = env!("CARGO_BIN_EXE_edn");

/// A folder of the test's own, removed at its end.
pub struct Folder(pub PathBuf);

impl Folder {
    pub fn new(name: &str) -> Self {
        Self::within(Path::new(env!("CARGO_TARGET_TMPDIR")), name)
    }

    pub fn within(parent: &Path, name: &str) -> Self {
        let path = parent.join(format!("edn-{name}-{}", std::process::id()));
        let _ = fs::remove_dir_all(&path);
        fs::create_dir_all(&path).unwrap();
        Folder(path)
    }

    pub fn file(&self, name: &str, content: impl AsRef<[u8]>) -> String {
        fs::write(self.0.join(name), content).unwrap();
        self.path(name)
    }

    pub fn path(&self, name: &str) -> String {
        self.0.join(name).to_str().unwrap().to_string()
    }

    pub fn names(&self) -> Vec<String> {
        let mut names: Vec<_> = fs::read_dir(&self.0).unwrap().map(|e| e.unwrap().file_name().into_string().unwrap()).collect();
        names.sort();
        names
    }
}

impl Drop for Folder {
    fn drop(&mut self) {
        let _ = fs::remove_dir_all(&self.0);
    }
}

pub fn edn<S: AsRef<OsStr>>(args: &[S], input: &[u8]) -> Output {
    let mut command = Command::new(EDN);
    command.args(args);
    fed(&mut command, input)
}

/// Runs a command to its end, with this on its standard input.
pub fn fed(command: &mut Command, input: &[u8]) -> Output {
    let mut child = command.stdin(Stdio::piped()).stdout(Stdio::piped()).stderr(Stdio::piped()).spawn().unwrap();
    // a program that does not read its input may be gone already
    let _ = child.stdin.take().unwrap().write_all(input);
    child.wait_with_output().unwrap()
}

/// A script of the shell that has `edn` and its arguments as "$@".
pub fn shell(script: &str, args: &[&str]) -> Output {
    fed(Command::new("/bin/sh").args(["-c", script, "sh", EDN]).args(args), b"")
}

#[track_caller]
pub fn ok(args: &[&str], input: &[u8]) -> Vec<u8> {
    let o = edn(args, input);
    assert_eq!(o.status.code(), Some(0), "{}", String::from_utf8_lossy(&o.stderr));
    assert_eq!(o.stderr, b"", "{}", String::from_utf8_lossy(&o.stderr));
    o.stdout
}

#[track_caller]
pub fn fails(args: &[&str], input: &[u8], status: i32) -> String {
    failed(edn(args, input), status)
}

/// What a run said that ended with this status and wrote nothing.
#[track_caller]
pub fn failed(o: Output, status: i32) -> String {
    let said = String::from_utf8(o.stderr).unwrap();
    assert_eq!(o.status.code(), Some(status), "{said}");
    assert_eq!(o.stdout, b"", "{said}");
    assert!(!said.is_empty());
    said
}

/// Characters that a terminal obeys, turns the line around by, or shows nothing for; of the longest range the ends.
pub fn hidden() -> impl Iterator<Item = char> {
    let ranges = [
        0x1..=0x1f,
        0x7f..=0x9f,
        0xad..=0xad,
        0x34f..=0x34f,
        0x61c..=0x61c,
        0x115f..=0x1160,
        0x17b4..=0x17b5,
        0x180b..=0x180f,
        0x200b..=0x200f,
        0x2028..=0x202e,
        0x2060..=0x206f,
        0x3164..=0x3164,
        0xfe00..=0xfe0f,
        0xfeff..=0xfeff,
        0xffa0..=0xffa0,
        0xfff0..=0xfffb,
        0x1bca0..=0x1bca3,
        0x1d173..=0x1d17a,
        0xe0000..=0xe01ef,
        0xe0fff..=0xe0fff,
    ];
    ranges.into_iter().flatten().filter_map(char::from_u32)
}
