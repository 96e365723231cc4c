//! How far the proof is, said where somebody can see it: cargo shows what a build script writes only where it fails or with -vv, so the terminal
//! that cargo itself writes to is told directly.
use crate::repository::Repository;
use std::collections::BTreeSet;
use std::fs::File;
use std::io::Write;
use std::sync::LazyLock;
use std::time::{Duration, Instant};

/// Looked for once: later cargo may be gone, and another process its script's parent.
static TERMINAL: LazyLock<Option<File>> = LazyLock::new(terminal_of_cargo);
/// Cargo's own line of progress may stand there: it is wiped, and cargo writes it anew.
const WIPE_LINE: &str = "\r\x1b[K";
const SECONDS_IN_A_MINUTE: u64 = 60;

/// To cargo's terminal, where it has one, and to the build script's own output. That nobody listens is no reason to stop.
pub fn say(line: &str) {
    if let Some(mut terminal) = TERMINAL.as_ref() {
        let _ = terminal.write_all(format!("{WIPE_LINE}{line}\n").as_bytes());
    }
    eprintln!("{line}");
}

/// Cargo's standard error, where that is a terminal. Where it is sent elsewhere, something else may stand at the terminal.
#[cfg(target_os = "linux")]
fn terminal_of_cargo() -> Option<File> {
    use std::io::IsTerminal;
    use std::os::unix::fs::FileTypeExt;
    let error = format!("/proc/{}/fd/2", std::os::unix::process::parent_id());
    // looked at before it is opened: a named pipe opens only when somebody reads it
    if !std::fs::metadata(&error).ok()?.file_type().is_char_device() {
        return None;
    }
    File::options().write(true).open(error).ok().filter(File::is_terminal)
}

/// `rt` runs on Linux only; elsewhere nothing is proved.
#[cfg(not(target_os = "linux"))]
fn terminal_of_cargo() -> Option<File> {
    None
}

pub struct Progress<'a> {
    started: Instant,
    repository: &'a Repository,
    /// The crate that `rt` has looked at last, whose verdict comes next.
    looked_at: Option<String>,
    proved: BTreeSet<String>,
}

impl Progress<'_> {
    pub fn begin(repository: &Repository) -> Progress<'_> {
        let crates = repository.needed().len();
        say(&format!("edn: proving the library, {crates} crates, before it is built: many minutes, and once"));
        Progress { started: Instant::now(), repository, looked_at: None, proved: BTreeSet::new() }
    }

    /// Looks at a line of `rt`: of each crate that it has to prove it writes some. Of those that are proved already it writes nothing; but
    /// what a proved crate stands on is proved.
    pub fn see(&mut self, line: &str) {
        if let Some(name) = looked_at(line) {
            self.looked_at = Some(name.to_string());
        } else if line.starts_with(PROVED) {
            if let Some(name) = self.looked_at.take() {
                self.proved.extend(self.repository.with_those_below(&name));
                let (proved, crates) = (self.proved.len(), self.repository.needed().len());
                say(&format!("edn: proving the library, {proved} of {crates} crates ({name}), {}", clock(self.started.elapsed())));
            }
        }
    }

    pub fn end(self) {
        say(&format!("edn: the library is proved and built, {}", clock(self.started.elapsed())));
    }
}

/// How the verdict on a crate that is proved begins.
const PROVED: &str = "logic=proved ";

/// The crate that a line before a verdict names: `crate tokens: modules loaded=0 checked=71`.
fn looked_at(line: &str) -> Option<&str> {
    line.strip_prefix("crate ")?.split_once(": modules ").map(|(name, _)| name)
}

fn clock(passed: Duration) -> String {
    let seconds = passed.as_secs();
    match seconds / SECONDS_IN_A_MINUTE {
        0 => format!("{seconds} s"),
        minutes => format!("{minutes} min {} s", seconds % SECONDS_IN_A_MINUTE),
    }
}
