//! The build script where it proves the library: once, and saying how far it is. The toolchain only pretends here.
mod support;

use std::ffi::OsString;
use std::fs;
use std::os::unix::fs::{symlink, PermissionsExt};
use std::path::PathBuf;
use std::process::{Command, Stdio};
use std::thread::sleep;
use std::time::Duration;
use support::{cargo, package, root, run, run_for_messages, run_to_fail, written, Folder, ARCHIVE};

/// A small repository with this package in it, and a toolchain that counts its runs and hands out the archive that these tests have.
struct Pretended {
    folder: Folder,
}

/// Files that stand beside it say how it runs.
const PRETENDED_RT: &str = r#"#!/bin/sh
here='HERE'
case "$* in $(basename "$PWD")" in
version\ *) cat "$here/version" ;;
lib\ --cpu=x86-64\ in\ edn_c)
    echo run >> "$here/runs"
    mkdir -p ../tiny/out/rlib out/incremental
    date > ../tiny/out/rlib/stamp
    date > out/incremental/made.antt
    echo 'only=0 proved=0'
    echo 'rt: chose --jobs 2 for tiny'
    echo 'fn tiny::first: proved'
    echo 'statements std: modules loaded=21 checked=0'
    echo 'crate tiny: modules loaded=0 checked=20'
    echo 'logic=proved functions=1 sum=0123456789abcdef native=nat,char,string'
    if [ -f "$here/slow" ]; then sleep 2; fi
    if [ -f "$here/fails" ]; then
        echo 'note: src/lib.rt:6:1: it is not proved that what the function ensures holds when it returns (`returns`)'
        echo 'fn edn_c::edn_read: not proved'
        echo 'crate edn_c: modules loaded=0 checked=34'
        echo 'logic=not-proved'
        echo 'the reason why' >&2
        exit 1
    fi
    echo 'library tiny: modules loaded=20 checked=0'
    echo 'crate small: modules loaded=20 checked=0'
    echo 'logic=proved functions=3 sum=0123456789abcdef native=nat,char,string'
    echo 'library tiny: modules loaded=20 checked=0'
    echo 'library small: modules loaded=20 checked=0'
    echo 'crate edn_c: modules loaded=0 checked=34'
    echo 'axioms std: none reached of the 2 declared'
    echo 'logic=proved functions=5 target=x86_64-unknown-linux-gnu sum=0123456789abcdef native=nat,char,string'
    cp 'ARCHIVE' out/libedn_c.a ;;
*) exit 2 ;;
esac
"#;

impl Pretended {
    fn new(name: &str) -> Pretended {
        let folder = Folder::of_a_repository(name);
        folder.write("repository/crates.txt", "# a comment\ntiny:\nsmall: tiny # another\nedn_c staticlib: tiny small io\nother: tiny\n");
        for name in ["tiny", "small", "edn_c", "other"] {
            folder.write(&format!("repository/crates/{name}/src/lib.rt"), name);
            folder.write(&format!("repository/crates/{name}/specs/Lib.antt"), "");
        }
        let there = folder.path("repository/rust/edn");
        fs::create_dir_all(&there).unwrap();
        run(Command::new("cp")
            .arg("-r")
            .args(["Cargo.toml", "README.md", "build.rs", "build", "src"].map(|f| package().join(f)))
            .arg(there));
        folder.write("rt/version", "pretended 1\n");
        let rt = PRETENDED_RT.replace("HERE", folder.path("rt").to_str().unwrap()).replace("ARCHIVE", ARCHIVE);
        let rt = folder.write("rt/rt", rt);
        fs::set_permissions(rt, fs::Permissions::from_mode(0o755)).unwrap();
        Pretended { folder }
    }

    /// A path on which the pretended toolchain comes first.
    fn programs(&self) -> OsString {
        let mut path = OsString::from(self.folder.path("rt"));
        path.push(":");
        path.push(std::env::var_os("PATH").unwrap());
        path
    }

    fn cargo(&self, words: &[&str]) -> Command {
        let mut c = cargo(&self.folder, &self.folder.path("repository/rust/edn"), words);
        c.args(["--lib", "--no-default-features"]).env_remove("EDN_LIB_DIR").env("PATH", self.programs());
        c
    }

    /// `make` in a repository that has what it needs beside the crates.
    fn make(&self) -> Command {
        let there = self.folder.path("repository");
        run(Command::new("cp").arg("-r").args(["Makefile", "edn.pc.in", "include"].map(|f| root().join(f))).arg(&there));
        let mut c = Command::new("make");
        c.arg("-C").arg(there).env_remove("EDN_LIB_DIR").env_remove("MAKEFLAGS").env("PATH", self.programs());
        c
    }

    /// How often the library was proved up to now.
    fn runs(&self) -> usize {
        fs::read_to_string(self.folder.path("rt/runs")).unwrap_or_default().lines().count()
    }

    /// Changes a source. Cargo sees that by the time of the change alone, and may have built in the same instant.
    fn change(&self, name: &str, content: &str) {
        sleep(Duration::from_millis(20));
        self.folder.write(&format!("repository/{name}"), content);
    }

    /// What an editor has beside a source that is being written: a lock, which is a link to no file, a swap file, and a folder of its own.
    fn open_in_an_editor(&self) {
        symlink("nowhere", self.folder.path("repository/crates/edn_c/src/.#lib.rt")).unwrap();
        self.change("crates/edn_c/src/.lib.rt.swp", "half a source");
        self.change("crates/edn_c/.editor/lib.rt", "half a source");
    }

    /// Where the build keeps what was proved.
    fn kept(&self) -> PathBuf {
        self.folder.path("built/edn_c")
    }

    /// The names of the files there.
    fn names_kept(&self) -> Vec<OsString> {
        fs::read_dir(self.kept()).unwrap().map(|e| e.unwrap().file_name()).collect()
    }

    /// A library of C that stands in for functions of the system where a program is run with it (LD_PRELOAD).
    fn stand_in(&self, name: &str, source: &str) -> PathBuf {
        let source = self.folder.write(&format!("{name}.c"), source);
        let library = source.with_extension("so");
        run(Command::new("cc").args(["-shared", "-fPIC"]).arg(source).arg("-o").arg(&library));
        library
    }
}

#[test]
fn proves_once_what_does_not_change() {
    let p = Pretended::new("once");
    run(&mut p.cargo(&["build"]));
    assert_eq!(p.runs(), 1);
    run(&mut p.cargo(&["build", "--release"]));
    assert_eq!(p.runs(), 1, "the other profile has what the first one proved");

    for name in ["tiny", "edn_c"] {
        fs::remove_dir_all(p.folder.path(&format!("repository/crates/{name}/out"))).unwrap();
    }
    p.change("crates/tiny/src/lib.rt", "tiny");
    run(&mut p.cargo(&["build"]));
    assert_eq!(p.runs(), 1, "nor is it proved again after what `rt` made is gone, or where a file is written as it was");

    p.change("crates/other/src/lib.rt", "a crate that the library does not need");
    run(&mut p.cargo(&["build"]));
    assert_eq!(p.runs(), 1);
}

#[test]
fn proves_again_what_changes() {
    let p = Pretended::new("again");
    run(&mut p.cargo(&["build"]));
    p.change("crates/tiny/src/lib.rt", "tinY");
    run(&mut p.cargo(&["build"]));
    assert_eq!(p.runs(), 2, "a byte of a source");
    p.change("crates/small/specs/more.antt", "");
    run(&mut p.cargo(&["build"]));
    assert_eq!(p.runs(), 3, "a file more");
    p.folder.write("rt/version", "pretended 2\n");
    p.folder.write("rt/rt", fs::read_to_string(p.folder.path("rt/rt")).unwrap() + "# newer\n");
    run(&mut p.cargo(&["build"]));
    assert_eq!(p.runs(), 4, "another toolchain");
}

/// `rt` makes a folder in each crate's; what it leaves there is not even looked at.
#[test]
fn what_the_toolchain_makes_is_no_source() {
    let p = Pretended::new("makes");
    run(&mut p.cargo(&["build"]));
    assert_eq!(p.names_kept(), ["proved"], "no source was changed meanwhile");
    let said = run_for_messages(&mut p.cargo(&["build"]));
    assert!(!said.contains("Compiling"), "{said}");
    p.change("crates/tiny/out/incremental/made.antt", "made by another run");
    p.change("crates/small/out/rlib/stamp", "made by another run");
    let said = run_for_messages(&mut p.cargo(&["build"]));
    assert!(!said.contains("Compiling"), "{said}");
    assert_eq!(p.runs(), 1);

    // what is named as that folder, and stands deeper, is a source
    p.change("crates/tiny/specs/out/More.antt", "");
    run(&mut p.cargo(&["build"]));
    assert_eq!(p.runs(), 2);
}

#[test]
fn what_the_toolchain_makes_is_no_source_for_make() {
    let p = Pretended::new("make-makes");
    let mut make = p.make();
    run(&mut make);
    p.change("crates/tiny/out/incremental/made.antt", "made by another run");
    run(&mut make);
    assert_eq!(p.runs(), 1);
    p.change("crates/tiny/specs/out/More.antt", "");
    run(&mut make);
    assert_eq!(p.runs(), 2);
}

#[test]
fn an_editors_files_are_no_sources() {
    let p = Pretended::new("editor");
    run(&mut p.cargo(&["build"]));
    p.open_in_an_editor();
    run(&mut p.cargo(&["build"]));
    assert_eq!(p.runs(), 1);
    p.change("crates/edn_c/src/lib.rt", "written");
    run(&mut p.cargo(&["build"]));
    assert_eq!(p.runs(), 2);
}

#[test]
fn an_editors_files_are_no_sources_for_make() {
    let p = Pretended::new("make-editor");
    let mut make = p.make();
    run(&mut make);
    p.open_in_an_editor();
    run(&mut make);
    assert_eq!(p.runs(), 1);
    p.change("crates/edn_c/src/lib.rt", "written");
    run(&mut make);
    assert_eq!(p.runs(), 2);
}

/// `make` too builds the archive by the toolchain, and only where a source is newer.
#[test]
fn make_proves_what_changes() {
    let p = Pretended::new("make-proves");
    let mut make = p.make();
    run(&mut make);
    run(&mut make);
    assert_eq!(p.runs(), 1);
    assert_eq!(fs::read(p.folder.path("repository/crates/edn_c/out/libedn_c.a")).unwrap(), fs::read(ARCHIVE).unwrap());
    p.change("crates/tiny/src/lib.rt", "tinY");
    run(&mut make);
    assert_eq!(p.runs(), 2);
}

/// Two profiles at the same time: one proves, the other waits for it.
#[test]
fn two_builds_at_once_prove_once() {
    let p = Pretended::new("two");
    p.folder.write("rt/slow", "");
    let builds = [&["build"][..], &["build", "--release"]].map(|words| p.cargo(words).stderr(Stdio::piped()).spawn().unwrap());
    for build in builds {
        let o = build.wait_with_output().unwrap();
        assert!(o.status.success(), "{}", written(&o));
    }
    assert_eq!(p.runs(), 1);
    assert_eq!(p.names_kept(), ["proved"], "nothing unfinished is left beside it");
    assert!(fs::read(p.kept().join("proved")).unwrap().ends_with(&fs::read(ARCHIVE).unwrap()));
}

/// Kills a build script where it has written what is to be kept, and not yet put it in its place.
const KILLED_AS_IT_KEEPS: &str = r#"#define _GNU_SOURCE
#include <errno.h>
#include <signal.h>
#include <string.h>
int fsync(int file) {
    (void)file;
    return strncmp(program_invocation_short_name, "build-script", 12) == 0 ? raise(SIGKILL) : 0;
}
"#;

#[test]
fn what_a_killed_build_left_is_gone_after_the_next() {
    let p = Pretended::new("killed");
    let killing = p.stand_in("killing", KILLED_AS_IT_KEEPS);
    for _ in 0..2 {
        run_to_fail(p.cargo(&["build"]).env("LD_PRELOAD", &killing));
        assert_eq!(p.names_kept().len(), 1, "one file unfinished, however often it is killed");
    }
    run(&mut p.cargo(&["build"]));
    assert_eq!(p.names_kept(), ["proved"]);
    assert!(fs::read(p.kept().join("proved")).unwrap().ends_with(&fs::read(ARCHIVE).unwrap()));
}

/// As on a file system that has no locks.
const NO_LOCKS: &str = r#"#include <errno.h>
int flock(int file, int how) {
    (void)file, (void)how;
    errno = ENOTSUP;
    return -1;
}
"#;

/// Without a lock an unfinished file may be one that another build is writing: it is left alone, and the build goes on.
#[test]
fn without_locks_an_unfinished_file_is_left_alone() {
    let p = Pretended::new("no-locks");
    let no_locks = p.stand_in("no_locks", NO_LOCKS);
    // compiling by parts needs locks
    let build = || run(p.cargo(&["build"]).env("LD_PRELOAD", &no_locks).env("CARGO_INCREMENTAL", "0"));
    let unfinished = p.folder.write("built/edn_c/proved.new", "half");
    build();
    assert_eq!(p.names_kept(), ["proved.new"]);
    assert_eq!(fs::read(&unfinished).unwrap(), b"half");

    fs::remove_file(unfinished).unwrap();
    p.change("crates/tiny/src/lib.rt", "tinY");
    build();
    assert_eq!(p.names_kept(), ["proved"]);
}

/// Builds of two repositories may share the folder: one that keeps there waits for another that does.
#[test]
fn one_build_at_a_time_keeps() {
    let p = Pretended::new("one-keeps");
    fs::create_dir_all(p.kept()).unwrap();
    let other = fs::File::open(p.kept()).unwrap();
    other.lock().unwrap();
    let mut build = p.cargo(&["build"]).stderr(Stdio::null()).spawn().unwrap();
    while p.runs() == 0 && build.try_wait().unwrap().is_none() {
        sleep(Duration::from_millis(20));
    }
    sleep(Duration::from_millis(500));
    assert_eq!(build.try_wait().unwrap(), None, "it waits");
    assert!(p.names_kept().is_empty());
    drop(other);
    assert!(build.wait().unwrap().success());
    assert_eq!(p.names_kept(), ["proved"]);
}

#[test]
fn a_failing_proof_shows_all_that_was_written() {
    let p = Pretended::new("fails");
    p.folder.write("rt/fails", "");
    let said = run_to_fail(&mut p.cargo(&["build"]));
    for line in [
        "`rt lib --cpu=x86-64` failed in ",
        "crates/edn_c (",
        "note: src/lib.rt:6:1: it is not",
        "fn edn_c::edn_read: not proved",
        "the reason why",
    ] {
        assert!(said.contains(line), "{said}");
    }
    // and nothing is kept of it
    fs::remove_file(p.folder.path("rt/fails")).unwrap();
    run(&mut p.cargo(&["build"]));
    assert_eq!(p.runs(), 2);
}

const SHOWN: [&str; 5] = [
    "edn: proving the library, 3 crates, before it is built: many minutes",
    "edn: proving the library, 1 of 3 crates (tiny), ",
    "edn: proving the library, 2 of 3 crates (small), ",
    "edn: proving the library, 3 of 3 crates (edn_c), ",
    "edn: the library is proved and built, ",
];

/// Cargo hides what a build script writes; -vv shows it.
#[test]
fn the_build_says_how_far_it_is() {
    let p = Pretended::new("says");
    let o = p.cargo(&["build", "-vv"]).output().unwrap();
    for line in SHOWN {
        assert!(written(&o).contains(line), "{}", written(&o));
    }
}

/// A build at a terminal, with its standard error where `redirected` says, and what the terminal shows. `script` runs a command at one.
fn shown_at_a_terminal(p: &Pretended, redirected: &str) -> String {
    let inner = p.cargo(&["build"]);
    // without setsid: as somebody who sits there runs it
    let words: Vec<String> = inner.get_args().skip(1).map(|w| format!("'{}'", w.to_str().unwrap())).collect();
    let mut c = Command::new("script");
    c.args(["--quiet", "--return", "--command", &format!("{} {redirected}", words.join(" ")), "/dev/null"]).stdin(Stdio::null());
    for (name, value) in inner.get_envs() {
        match value {
            Some(value) => c.env(name, value),
            None => c.env_remove(name),
        };
    }
    run(&mut c)
}

/// At a terminal it is shown in any case.
#[test]
fn the_build_shows_at_a_terminal_how_far_it_is() {
    let p = Pretended::new("shows");
    let shown = shown_at_a_terminal(&p, "");
    for line in SHOWN {
        assert!(shown.contains(line), "{shown}");
    }
}

/// Who sends cargo's words elsewhere may have something else at the terminal: an editor that builds, say.
#[test]
fn a_build_whose_words_go_elsewhere_shows_nothing_at_the_terminal() {
    let p = Pretended::new("elsewhere");
    let file = p.folder.path("words");
    assert_eq!(shown_at_a_terminal(&p, &format!("2> '{}'", file.display())), "");
    assert_eq!(p.runs(), 1);
    assert!(fs::read_to_string(file).unwrap().contains("Finished"));
}

/// Nor does it wait for somebody to read them, which a named pipe would have it do.
#[test]
fn a_build_to_whose_words_nobody_listens_ends() {
    let p = Pretended::new("nobody");
    let pipe = p.folder.path("pipe");
    run(Command::new("mkfifo").arg(&pipe));
    let read = || fs::File::options().read(true).write(true).open(&pipe).unwrap();
    let reader = read();
    let writer = fs::File::options().write(true).open(&pipe).unwrap();
    drop(reader);
    let mut build = p.cargo(&["build", "--quiet"]).stderr(writer).spawn().unwrap();
    let ended = (0..600).find_map(|_| {
        sleep(Duration::from_millis(100));
        build.try_wait().unwrap()
    });
    // one that does wait goes on, and is not left behind
    let _reader = read();
    assert!(ended.expect("within a minute").success());
    assert_eq!(p.runs(), 1);
}
