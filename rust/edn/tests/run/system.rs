//! What the tests ask of the system that std does not hand on, with the numbers that Linux has on x86-64.
use std::ffi::{c_char, c_int, c_void, CStr, CString};
use std::fs::{File, OpenOptions};
use std::io::{self, Read};
use std::os::fd::FromRawFd;
use std::os::unix::fs::OpenOptionsExt;

const O_RDWR: c_int = 2;
const O_NOCTTY: c_int = 0o400;
const ENODATA: i32 = 61;
const ENOTSUP: i32 = 95;

extern "C" {
    fn geteuid() -> u32;
    fn posix_openpt(flags: c_int) -> c_int;
    fn grantpt(fd: c_int) -> c_int;
    fn unlockpt(fd: c_int) -> c_int;
    fn ptsname_r(fd: c_int, name: *mut c_char, size: usize) -> c_int;
    fn setxattr(path: *const c_char, name: *const c_char, value: *const c_void, size: usize, flags: c_int) -> c_int;
    fn getxattr(path: *const c_char, name: *const c_char, value: *mut c_void, size: usize) -> isize;
}

pub fn is_root() -> bool {
    // it takes nothing and cannot fail
    unsafe { geteuid() == 0 }
}

/// Gives a file an extended attribute; false where its file system has no such thing.
pub fn set_attribute(path: &str, name: &str, value: &[u8]) -> bool {
    let (path, name) = (CString::new(path).unwrap(), CString::new(name).unwrap());
    // both names end with a zero byte, the value is a live slice with its length, and all are only read
    let set = unsafe { setxattr(path.as_ptr(), name.as_ptr(), value.as_ptr().cast(), value.len(), 0) };
    if set == 0 {
        return true;
    }
    let e = io::Error::last_os_error();
    assert_eq!(e.raw_os_error(), Some(ENOTSUP), "{e}");
    false
}

/// An extended attribute of a file, where it has it.
pub fn attribute(path: &str, name: &str) -> Option<Vec<u8>> {
    let (path, name) = (CString::new(path).unwrap(), CString::new(name).unwrap());
    let mut value = vec![0u8; 1000];
    // both names end with a zero byte; at most `value.len()` bytes are written
    let length = unsafe { getxattr(path.as_ptr(), name.as_ptr(), value.as_mut_ptr().cast(), value.len()) };
    if length < 0 {
        let e = io::Error::last_os_error();
        assert!(matches!(e.raw_os_error(), Some(ENODATA | ENOTSUP)), "{e}");
        return None;
    }
    value.truncate(length as usize);
    Some(value)
}

/// A pseudo-terminal: what a program writes to the terminal is read from `keeper`.
pub struct Terminal {
    pub keeper: File,
    pub name: String,
}

impl Terminal {
    pub fn new() -> Self {
        let mut name = [0u8; 100];
        // the descriptor is new, so nothing else owns it; at most `name.len()` bytes are written, the last of them zero
        let keeper = unsafe {
            let fd = posix_openpt(O_RDWR | O_NOCTTY);
            assert!(fd >= 0, "{}", io::Error::last_os_error());
            assert_eq!((grantpt(fd), unlockpt(fd), ptsname_r(fd, name.as_mut_ptr().cast(), name.len())), (0, 0, 0));
            File::from_raw_fd(fd)
        };
        Terminal { keeper, name: CStr::from_bytes_until_nul(&name).unwrap().to_str().unwrap().into() }
    }

    /// The terminal itself, as programs have it.
    pub fn open(&self) -> File {
        OpenOptions::new().read(true).write(true).custom_flags(O_NOCTTY).open(&self.name).unwrap()
    }

    /// All that was written until the last program closed the terminal, which ends it by an error.
    pub fn written(mut self) -> String {
        let mut bytes = Vec::new();
        let _ = self.keeper.read_to_end(&mut bytes);
        String::from_utf8(bytes).unwrap().replace("\r\n", "\n")
    }
}
