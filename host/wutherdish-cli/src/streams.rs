//! Standard input and output as they were handed over. Where one is closed, Rust's runtime opens /dev/null in its
//! place, and its own handles take one that can't be read or written for one that is empty or takes all: either would
//! lose bytes and say nothing.

use std::ffi::c_int;
use std::fs::File;
use std::io;
use std::os::fd::{AsFd, AsRawFd};
use std::sync::atomic::{AtomicBool, Ordering};

/// Whether standard input and standard output were closed when the command began.
static CLOSED: [AtomicBool; 2] = [const { AtomicBool::new(false) }; 2];

/// What the operating system says of a descriptor that is closed: EBADF.
const BAD_DESCRIPTOR: c_int = 9;
/// The command of `fcntl` that changes nothing: F_GETFD.
const GET_FLAGS: c_int = 1;

unsafe extern "C" {
    fn fcntl(descriptor: c_int, command: c_int, ...) -> c_int;
}

/// The functions of this section run before the runtime begins.
#[used]
#[unsafe(link_section = ".init_array")]
static LOOK: extern "C" fn() = look;

extern "C" fn look() {
    for (descriptor, closed) in CLOSED.iter().enumerate() {
        // SAFETY: the call takes any number for a descriptor, and touches no memory of this program
        let flags = unsafe { fcntl(descriptor as c_int, GET_FLAGS) };
        closed.store(flags == -1, Ordering::Relaxed);
    }
}

/// Standard input, read without a buffer.
pub fn input() -> io::Result<File> {
    stream(io::stdin())
}

/// Standard output, written without a buffer.
pub fn output() -> io::Result<File> {
    stream(io::stdout())
}

fn stream(handle: impl AsFd) -> io::Result<File> {
    let descriptor = handle.as_fd();
    let closed = CLOSED.get(descriptor.as_raw_fd() as usize).is_some_and(|closed| closed.load(Ordering::Relaxed));
    if closed {
        return Err(io::Error::from_raw_os_error(BAD_DESCRIPTOR));
    }
    descriptor.try_clone_to_owned().map(File::from)
}
