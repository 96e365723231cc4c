//! Standard input and output as they were when the program was started.
use super::c;
use std::fs::File;
use std::io;
use std::os::fd::{AsFd, BorrowedFd};
use std::sync::atomic::{AtomicBool, Ordering};

const INPUT: usize = 0;
const OUTPUT: usize = 1;

/// Whether descriptors 0 and 1 were closed. Rust's runtime opens closed ones on /dev/null before `main`, where a closed input would pass
/// for an empty one and a lost output for a written one.
static CLOSED: [AtomicBool; 2] = [AtomicBool::new(false), AtomicBool::new(false)];

extern "C" fn notice_closed() {
    for (fd, closed) in (0..).zip(&CLOSED) {
        closed.store(!c::is_open(fd), Ordering::Relaxed);
    }
}

/// The C library calls what stands in this section before `main`, on the one thread that there is.
#[used]
#[link_section = ".init_array"]
static BEFORE_MAIN: extern "C" fn() = notice_closed;

/// Standard input; none where it is closed.
pub fn input() -> Option<io::Result<File>> {
    unbuffered(INPUT, io::stdin().as_fd())
}

/// Standard output; none where it is closed.
pub fn output() -> Option<io::Result<File>> {
    unbuffered(OUTPUT, io::stdout().as_fd())
}

/// As a file, since std's own streams say nothing of a descriptor that is open in the other direction alone.
fn unbuffered(number: usize, fd: BorrowedFd) -> Option<io::Result<File>> {
    if CLOSED[number].load(Ordering::Relaxed) {
        return None;
    }
    Some(fd.try_clone_to_owned().map(File::from))
}
