//! `rt`, the Rattle toolchain: what it is, and the run that proves and builds the library.
use crate::progress::Progress;
use crate::repository::Repository;
use std::env;
use std::io::{self, BufRead, BufReader, Read};
use std::process::{Command, Stdio};
use std::sync::mpsc::{channel, Sender};
use std::thread;

const TOOLCHAIN: &str = "rt";
/// In the folder of a static library: proves and builds it, for every x86-64 processor. Without the flag it would be for newer ones only.
const BUILD: [&str; 2] = ["lib", "--cpu=x86-64"];

/// What the toolchain says of itself. Cargo is told to ask again where the file is another.
pub fn version() -> Result<String, String> {
    let said = Command::new(TOOLCHAIN).arg("version").output().map_err(|e| cannot_run(&e))?;
    if !said.status.success() {
        return Err(format!("`rt version` failed:\n{}", String::from_utf8_lossy(&said.stderr)));
    }
    let folders = env::var_os("PATH").unwrap_or_default();
    if let Some(file) = env::split_paths(&folders).map(|folder| folder.join(TOOLCHAIN)).find(|file| file.is_file()) {
        println!("cargo:rerun-if-changed={}", file.display());
    }
    Ok(String::from_utf8_lossy(&said.stdout).into_owned())
}

fn cannot_run(e: &io::Error) -> String {
    format!("`rt`, the Rattle toolchain, cannot be run ({e}); put it on the path, or set EDN_LIB_DIR to a folder with libedn_c.a")
}

/// Proves and builds the library, and what it stands on before it, and says how far it is. Where that fails, the answer has all that `rt` wrote.
pub fn prove(repository: &Repository) -> Result<(), String> {
    let folder = repository.library();
    let mut child = Command::new(TOOLCHAIN)
        .args(BUILD)
        .current_dir(&folder)
        .stdin(Stdio::null())
        .stdout(Stdio::piped())
        .stderr(Stdio::piped())
        .spawn()
        .map_err(|e| cannot_run(&e))?;
    let mut progress = Progress::begin(repository);
    let (sender, lines) = channel();
    // both are read as they come: neither may fill up while the other is waited for
    let readers = [forward(child.stdout.take(), sender.clone()), forward(child.stderr.take(), sender)];
    let mut written = String::new();
    for line in lines {
        progress.see(&line);
        written.push_str(&line);
    }
    for reader in readers {
        reader.join().expect("a reader does not panic");
    }
    let status = child.wait().map_err(|e| cannot_run(&e))?;
    if !status.success() {
        return Err(format!("`{TOOLCHAIN} {}` failed in {} ({status}):\n{written}", BUILD.join(" "), folder.display()));
    }
    progress.end();
    Ok(())
}

/// Sends on what is written, line by line, to its end.
fn forward(from: Option<impl Read + Send + 'static>, to: Sender<String>) -> thread::JoinHandle<()> {
    thread::spawn(move || {
        let Some(from) = from else { return };
        let mut from = BufReader::new(from);
        let mut line = Vec::new();
        while from.read_until(b'\n', &mut line).is_ok_and(|n| n > 0) {
            if to.send(String::from_utf8_lossy(&line).into_owned()).is_err() {
                return;
            }
            line.clear();
        }
    })
}
