//! Waiting for another run that is at work on the same file.
use super::stop::because;
use std::fs::{File, TryLockError};
use std::io;
use std::thread::sleep;
use std::time::{Duration, Instant};

const PAUSE: Duration = Duration::from_millis(20);
const PATIENCE: Duration = Duration::from_secs(10);

/// How long this run waits, and for which file.
pub struct Patience<'a> {
    name: &'a str,
    until: Instant,
}

impl<'a> Patience<'a> {
    pub fn new(name: &'a str) -> Self {
        Patience { name, until: Instant::now() + PATIENCE }
    }

    /// Asks whether to try once more.
    pub fn once_more(&self) -> io::Result<()> {
        if Instant::now() < self.until {
            return Ok(());
        }
        Err(io::Error::other(format!("another correction of {} is under way", self.name)))
    }

    /// Locks a file once whoever holds it has ended.
    pub fn lock(&self, file: &File) -> io::Result<()> {
        while !try_lock(file)? {
            self.once_more()?;
            sleep(PAUSE);
        }
        Ok(())
    }
}

/// Takes the exclusive lock of an open file, without waiting: whether it was to be had. It ends when the file is closed.
pub fn try_lock(file: &File) -> io::Result<bool> {
    match file.try_lock() {
        Ok(()) => Ok(true),
        Err(TryLockError::WouldBlock) => Ok(false),
        Err(TryLockError::Error(e)) => Err(because("it cannot be locked", &e)),
    }
}
