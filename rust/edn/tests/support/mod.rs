//! What the tests of the header and of the package share: folders of their own, and programs that are run.
#![allow(dead_code)] // each test uses some of it

use std::fs;
use std::os::unix::fs::symlink;
use std::path::{Path, PathBuf};
use std::process::{Command, Output};

/// The archive that these tests are linked with.
pub const ARCHIVE: &str = env!("EDN_C_ARCHIVE");

/// Its folder, as EDN_LIB_DIR wants it.
pub fn archive_folder() -> &'static Path {
    Path::new(ARCHIVE).parent().unwrap()
}

/// The package.
pub fn package() -> &'static Path {
    Path::new(env!("CARGO_MANIFEST_DIR"))
}

/// The repository.
pub fn root() -> PathBuf {
    package().join("../..").canonicalize().unwrap()
}

/// A folder of a test's own, removed at its end.
pub struct Folder(PathBuf);

impl Folder {
    pub fn new(name: &str) -> Folder {
        Folder::at(Path::new(env!("CARGO_TARGET_TMPDIR")).join(format!("{name}-{}", std::process::id())))
    }

    /// A folder for crates and their list. It stands outside of this repository, where `rt ci` takes no other list than the one at the top.
    pub fn of_a_repository(name: &str) -> Folder {
        Folder::at(std::env::temp_dir().join(format!("edn-{name}-{}", std::process::id())))
    }

    fn at(path: PathBuf) -> Folder {
        let _ = fs::remove_dir_all(&path);
        fs::create_dir_all(&path).unwrap();
        Folder(path)
    }

    pub fn path(&self, name: &str) -> PathBuf {
        self.0.join(name)
    }

    /// Writes a file, and the folders that it stands in.
    pub fn write(&self, name: &str, content: impl AsRef<[u8]>) -> PathBuf {
        let path = self.path(name);
        fs::create_dir_all(path.parent().unwrap()).unwrap();
        fs::write(&path, content).unwrap();
        path
    }
}

impl Drop for Folder {
    fn drop(&mut self) {
        let _ = fs::remove_dir_all(&self.0);
    }
}

/// Both outputs of a program, for messages and for looking into them.
pub fn written(o: &Output) -> String {
    format!("{}{}", String::from_utf8_lossy(&o.stdout), String::from_utf8_lossy(&o.stderr))
}

/// Runs a program that must succeed, and answers its standard output.
#[track_caller]
pub fn run(command: &mut Command) -> String {
    let o = command.output().unwrap_or_else(|e| panic!("{command:?}: {e}"));
    assert!(o.status.success(), "{command:?}\n{}", written(&o));
    String::from_utf8(o.stdout).unwrap()
}

/// Runs a program that must succeed, and answers what it wrote on standard error.
#[track_caller]
pub fn run_for_messages(command: &mut Command) -> String {
    let o = command.output().unwrap_or_else(|e| panic!("{command:?}: {e}"));
    assert!(o.status.success(), "{command:?}\n{}", written(&o));
    String::from_utf8(o.stderr).unwrap()
}

/// Runs a program that must fail, and answers what it wrote.
#[track_caller]
pub fn run_to_fail(command: &mut Command) -> String {
    let o = command.output().unwrap_or_else(|e| panic!("{command:?}: {e}"));
    assert!(!o.status.success(), "{command:?} succeeded\n{}", written(&o));
    written(&o)
}

/// Copies crates of the repository, without what `rt` made of them. It may make more meanwhile, so that is not even looked at.
pub fn copy_crates<'a>(names: impl IntoIterator<Item = &'a str>, to: &Path) {
    for name in names {
        let there = to.join("crates").join(name);
        fs::create_dir_all(&there).unwrap();
        let parts = fs::read_dir(root().join("crates").join(name)).unwrap().map(|e| e.unwrap());
        let parts = parts.filter(|e| e.file_name() != "out").map(|e| e.path());
        run(Command::new("cp").arg("-r").args(parts).arg(there));
    }
}

/// Whether a program is there to be run.
pub fn is_there(program: &str) -> bool {
    Command::new(program).arg("--version").output().is_ok_and(|o| o.status.success())
}

/// Cargo over a package, with the archive that these tests have, and without a terminal wherever the tests are run.
pub fn cargo(folder: &Folder, package: &Path, words: &[&str]) -> Command {
    let mut c = Command::new("setsid");
    c.arg("--wait").arg(env!("CARGO")).args(words).args(["--offline", "--manifest-path"]).arg(package.join("Cargo.toml"));
    c.env("CARGO_TARGET_DIR", folder.path("built")).env("EDN_LIB_DIR", archive_folder());
    c
}

/// Where a program stands on the path.
pub fn on_the_path(program: &str) -> PathBuf {
    let folders = std::env::var_os("PATH").unwrap();
    let found = std::env::split_paths(&folders).map(|folder| folder.join(program)).find(|file| file.is_file());
    found.unwrap_or_else(|| panic!("{program} is not on the path"))
}

/// A path that has cargo, rustc and a C compiler, and no `rt`.
pub fn path_without_rt(folder: &Folder) -> PathBuf {
    let tools = folder.path("tools");
    fs::create_dir(&tools).unwrap();
    symlink(env!("CARGO"), tools.join("cargo")).unwrap();
    symlink(Path::new(env!("CARGO")).with_file_name("rustc"), tools.join("rustc")).unwrap();
    for tool in ["setsid", "cc", "ld", "as"] {
        symlink(on_the_path(tool), tools.join(tool)).unwrap();
    }
    tools
}
