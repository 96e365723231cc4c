//! The two programs, `edn_read` and `edn_print`, where reading or writing is interrupted, comes in parts, or fails: a sheet that could not
//! be read whole is never accepted. `rt` proves and links them; where the library was given prebuilt there may be none.
mod support;

use std::fs::{self, File, OpenOptions};
use std::path::{Path, PathBuf};
use std::process::{Command, Output, Stdio};
use std::sync::OnceLock;
use support::{package, root};

/// A program, proved and linked where that is not done yet. `rt run` does so, and runs it too: here on an empty input.
fn program(name: &str) -> PathBuf {
    static BUILT: OnceLock<()> = OnceLock::new();
    let folder = |name: &str| root().join("crates").join(name);
    BUILT.get_or_init(|| {
        for name in ["edn_read", "edn_print"] {
            support::run(Command::new("rt").arg("run").current_dir(folder(name)).stdin(Stdio::null()));
        }
    });
    folder(name).join("out").join(name)
}

/// What makes read and write fail: tests/faults/faults.c.
fn faults() -> &'static Path {
    static BUILT: OnceLock<PathBuf> = OnceLock::new();
    BUILT.get_or_init(|| {
        let library = Path::new(env!("CARGO_TARGET_TMPDIR")).join("faults.so");
        support::run(
            Command::new("cc")
                .args(["-std=c99", "-Wall", "-Wextra", "-Werror", "-O1", "-fPIC", "-shared"])
                .arg(package().join("tests/faults/faults.c"))
                .arg("-o")
                .arg(&library),
        );
        library
    })
}

/// An input that takes many calls, and what the program writes of it.
struct Job {
    program: &'static str,
    input: Vec<u8>,
    output: Vec<u8>,
}

fn jobs() -> [Job; 2] {
    let text = format!("[{}1]\n", "true, ".repeat(300));
    let bytes = edn::read(&text).unwrap();
    let hex: String = bytes.iter().map(|b| format!("{b:02x}")).collect();
    let read =
        Job { program: "edn_read", input: text.clone().into_bytes(), output: format!("accepted {}\n{hex}\n", bytes.len()).into_bytes() };
    let print = Job { program: "edn_print", input: bytes, output: text.into_bytes() };
    [read, print]
}

/// Runs a program on a job's input, with standard output where it is told to go.
fn run(job: &Job, faults_of: &[(&str, &str)], stdout: Stdio) -> Output {
    let file = Path::new(env!("CARGO_TARGET_TMPDIR")).join(format!("{}-{:?}.input", job.program, std::thread::current().id()));
    fs::write(&file, &job.input).unwrap();
    let output = Command::new(program(job.program))
        .env("LD_PRELOAD", faults())
        .envs(faults_of.iter().copied())
        .stdin(File::open(&file).unwrap())
        .stdout(stdout)
        .output()
        .unwrap();
    fs::remove_file(&file).unwrap();
    output
}

#[track_caller]
fn told(output: &Output, said: &str) {
    let errors = String::from_utf8_lossy(&output.stderr);
    assert_eq!(String::from_utf8_lossy(&output.stdout), "", "{errors}");
    assert_eq!(errors, format!("{said}\n"));
}

#[test]
#[cfg_attr(prebuilt, ignore = "needs rt")]
fn interrupted_and_short_calls_are_made_again() {
    for job in jobs() {
        for faults_of in
            [&[][..], &[("READ_FAULTS", "short")], &[("WRITE_FAULTS", "short")], &[("READ_FAULTS", "short"), ("WRITE_FAULTS", "short")]]
        {
            let output = run(&job, faults_of, Stdio::piped());
            assert_eq!(String::from_utf8_lossy(&output.stderr), "");
            assert!(output.stdout == job.output, "{} with {faults_of:?}", job.program);
        }
    }
}

/// The front of a sheet is often a sheet too: `[1], [2` is cut off, `[1], ` is not.
#[test]
#[cfg_attr(prebuilt, ignore = "needs rt")]
fn a_read_that_fails_is_not_the_end() {
    for job in jobs() {
        for moved in ["0", "1", "100"] {
            let output = run(&job, &[("READ_FAULTS", moved)], Stdio::piped());
            told(&output, &format!("{}: standard input cannot be read: Input/output error", job.program));
        }
    }
}

#[test]
#[cfg_attr(prebuilt, ignore = "needs rt")]
fn standard_input_that_cannot_be_read() {
    for job in jobs() {
        let name = job.program;
        let with = |stdin: Stdio| Command::new(program(name)).stdin(stdin).output().unwrap();
        let closed = Command::new("sh").args(["-c", "exec \"$0\" <&-"]).arg(program(name)).output().unwrap();
        told(&closed, &format!("{name}: standard input cannot be read: Bad file descriptor"));
        let write_only = OpenOptions::new().write(true).open("/dev/null").unwrap();
        told(&with(write_only.into()), &format!("{name}: standard input cannot be read: Bad file descriptor"));
        told(&with(File::open("/").unwrap().into()), &format!("{name}: standard input cannot be read: Is a directory"));
        // an empty input is a sheet of no items
        let empty = with(Stdio::null());
        assert_eq!((empty.stdout, empty.stderr), (if name == "edn_read" { b"accepted 0\n\n".to_vec() } else { vec![] }, vec![]));
    }
}

#[test]
#[cfg_attr(prebuilt, ignore = "needs rt")]
fn standard_output_that_cannot_be_written() {
    for job in jobs() {
        let name = job.program;
        let full = OpenOptions::new().write(true).open("/dev/full").unwrap();
        told(&run(&job, &[], full.into()), &format!("{name}: standard output cannot be written: No space left on device"));
        let read_only = File::open("/dev/null").unwrap();
        told(&run(&job, &[], read_only.into()), &format!("{name}: standard output cannot be written: Bad file descriptor"));
        let failing = run(&job, &[("WRITE_FAULTS", "0")], Stdio::piped());
        told(&failing, &format!("{name}: standard output cannot be written: Input/output error"));
    }
}

/// What is refused goes to standard output, as document 01 has it, and nothing to standard error.
#[test]
#[cfg_attr(prebuilt, ignore = "needs rt")]
fn a_refusal_is_no_failure() {
    let refused = |program, input: &[u8]| Job { program, input: input.to_vec(), output: vec![] };
    for (job, line) in [
        (refused("edn_read", b"[1, ...]"), "refused 5 at 4\n"),
        (refused("edn_read", &[b' '; 70_000]), "refused 1 at 0\n"),
        (refused("edn_print", &[0x82, 1]), "refused 15 at 2\n"),
    ] {
        let output = run(&job, &[("READ_FAULTS", "short"), ("WRITE_FAULTS", "short")], Stdio::piped());
        assert_eq!((String::from_utf8_lossy(&output.stdout), output.stderr), (line.into(), vec![]));
    }
}
