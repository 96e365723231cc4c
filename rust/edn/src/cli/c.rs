//! The functions of the C library that std does not hand on, and numbers of the system as Linux has them.
use std::ffi::{c_char, c_int, c_void, CStr, CString};
use std::fs::File;
use std::io;
use std::os::fd::{AsRawFd, RawFd};

const F_GETFD: c_int = 1;
pub const O_NONBLOCK: c_int = 0o4_000;
/// The machines differ in this one.
#[cfg(target_arch = "x86_64")]
pub const O_NOFOLLOW: c_int = 0o400_000;
#[cfg(any(target_arch = "arm", target_arch = "aarch64"))]
pub const O_NOFOLLOW: c_int = 0o100_000;
#[cfg(not(any(target_arch = "x86_64", target_arch = "arm", target_arch = "aarch64")))]
compile_error!("the number of O_NOFOLLOW on this machine is wanted here");
pub const EBADF: i32 = 9;
pub const EINVAL: i32 = 22;
pub const ELOOP: i32 = 40;
const ENOTSUP: i32 = 95;
/// The most bytes that a file name may have.
pub const NAME_MAX: usize = 255;
/// The most bytes that the list of a file's extended attributes may have.
const XATTR_LIST_MAX: usize = 65_536;
/// The most bytes that the value of an extended attribute may have.
const XATTR_SIZE_MAX: usize = 65_536;

extern "C" {
    fn fcntl(fd: c_int, command: c_int, ...) -> c_int;
    fn flistxattr(fd: c_int, list: *mut c_char, size: usize) -> isize;
    fn fgetxattr(fd: c_int, name: *const c_char, value: *mut c_void, size: usize) -> isize;
    fn fsetxattr(fd: c_int, name: *const c_char, value: *const c_void, size: usize, flags: c_int) -> c_int;
    fn fremovexattr(fd: c_int, name: *const c_char) -> c_int;
}

/// What the C library answered: a count, or -1 and the reason in errno.
fn counted(answer: isize) -> io::Result<usize> {
    usize::try_from(answer).map_err(|_| io::Error::last_os_error())
}

/// Whether a descriptor is open. It may be asked before `main`.
pub fn is_open(fd: RawFd) -> bool {
    // F_GETFD takes no further argument and touches no memory; any number may be asked.
    unsafe { fcntl(fd, F_GETFD) != -1 }
}

/// The names of a file's extended attributes; none where the file system has no such thing.
pub fn attribute_names(file: &File) -> io::Result<Vec<CString>> {
    let mut list = vec![0u8; XATTR_LIST_MAX];
    // At most `list.len()` bytes are written, into memory borrowed exclusively.
    let length = match counted(unsafe { flistxattr(file.as_raw_fd(), list.as_mut_ptr().cast(), list.len()) }) {
        Err(e) if e.raw_os_error() == Some(ENOTSUP) => return Ok(Vec::new()),
        length => length?,
    };
    Ok(list[..length].split_inclusive(|&b| b == 0).filter_map(|name| CStr::from_bytes_with_nul(name).ok()).map(CString::from).collect())
}

/// The value of an extended attribute.
pub fn attribute(file: &File, name: &CStr) -> io::Result<Vec<u8>> {
    let mut value = vec![0u8; XATTR_SIZE_MAX];
    // `name` ends with a zero byte; at most `value.len()` bytes are written, into memory borrowed exclusively.
    let length = counted(unsafe { fgetxattr(file.as_raw_fd(), name.as_ptr(), value.as_mut_ptr().cast(), value.len()) })?;
    value.truncate(length);
    Ok(value)
}

pub fn set_attribute(file: &File, name: &CStr, value: &[u8]) -> io::Result<()> {
    // `name` ends with a zero byte; `value` is a live slice with its length, and is only read.
    counted(unsafe { fsetxattr(file.as_raw_fd(), name.as_ptr(), value.as_ptr().cast(), value.len(), 0) } as isize).map(|_| ())
}

pub fn remove_attribute(file: &File, name: &CStr) -> io::Result<()> {
    // `name` ends with a zero byte, and is only read.
    counted(unsafe { fremovexattr(file.as_raw_fd(), name.as_ptr()) } as isize).map(|_| ())
}
