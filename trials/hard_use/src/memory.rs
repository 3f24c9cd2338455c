//! Bytes between two pages that nobody may touch.
//!
//! What is lent is seen twice: here through a view that can be written, and by the library through another view of the
//! same memory, which stands between the two pages and, where the library may only read, can't be written. So every call
//! has the protection, and none pays for changing it.

use std::ffi::{c_char, c_int, c_uint, c_void};
use std::fs::File;
use std::io;
use std::os::fd::{AsRawFd, FromRawFd};
use std::{ptr, slice};

const PAGE: usize = 4_096;
/// Bytes on the side away from the guard page that are looked at after a call.
const NEIGHBOURS: usize = 64;

const NO_ACCESS: c_int = 0;
const READ: c_int = 1;
const WRITE: c_int = 2;
const SHARED: c_int = 1;
const PRIVATE: c_int = 2;
const FIXED: c_int = 0x10;
const ANONYMOUS: c_int = 0x20;

unsafe extern "C" {
    fn mmap(start: *mut c_void, length: usize, access: c_int, flags: c_int, file: c_int, offset: i64) -> *mut c_void;
    fn memfd_create(name: *const c_char, flags: c_uint) -> c_int;
}

/// What the library may do with the bytes.
#[derive(Clone, Copy, PartialEq, Eq)]
pub enum Access {
    Read,
    ReadAndWrite,
}

/// Which guard page the bytes touch.
#[derive(Clone, Copy, PartialEq, Eq)]
pub enum Side {
    Lower,
    Upper,
}

/// Memory to lend from. It is kept until the process ends.
pub struct Buffer {
    /// The view that is written here.
    own: *mut u8,
    /// The view that is lent.
    lent: *mut u8,
    size: usize,
    start: usize,
    length: usize,
    side: Side,
    fill: u8,
}

// SAFETY: nothing else has the two views.
unsafe impl Send for Buffer {}

impl Buffer {
    /// Room for at least this many bytes.
    pub fn new(room: usize, access: Access) -> io::Result<Self> {
        let size = room.next_multiple_of(PAGE);
        // SAFETY: the name ends with a zero; the file is owned by nobody else.
        let file = unsafe { File::from_raw_fd(memfd_create(c"lent".as_ptr(), 0)) };
        file.set_len(size as u64)?;
        let own = map(ptr::null_mut(), size, READ | WRITE, SHARED, file.as_raw_fd())?;
        let around = map(ptr::null_mut(), size + 2 * PAGE, NO_ACCESS, PRIVATE | ANONYMOUS, -1)?;
        let allowed = if access == Access::Read { READ } else { READ | WRITE };
        let lent = map(around.wrapping_add(PAGE), size, allowed, SHARED | FIXED, file.as_raw_fd())?;
        Ok(Self { own, lent, size, start: 0, length: 0, side: Side::Lower, fill: 0 })
    }

    /// Lends a copy of the bytes; their neighbours on the side away from the guard page hold `fill`.
    pub fn lend(&mut self, bytes: &[u8], side: Side, fill: u8) {
        self.settle(bytes.len(), side, fill);
        self.own_bytes(self.start, self.length).copy_from_slice(bytes);
    }

    /// Lends n bytes that all hold `fill`, likewise.
    pub fn lend_filled(&mut self, length: usize, side: Side, fill: u8) {
        self.settle(length, side, fill);
        self.own_bytes(self.start, self.length).fill(fill);
    }

    fn settle(&mut self, length: usize, side: Side, fill: u8) {
        assert!(length <= self.size, "{length} bytes are more than the {} that can be lent", self.size);
        let start = if side == Side::Upper { self.size - length } else { 0 };
        (self.start, self.length, self.side, self.fill) = (start, length, side, fill);
        let (start, length) = self.neighbours();
        self.own_bytes(start, length).fill(fill);
    }

    /// Start and length of the neighbours on the side away from the guard page.
    fn neighbours(&self) -> (usize, usize) {
        match self.side {
            Side::Upper => (self.start.saturating_sub(NEIGHBOURS), self.start.min(NEIGHBOURS)),
            Side::Lower => (self.length, (self.size - self.length).min(NEIGHBOURS)),
        }
    }

    #[expect(clippy::mut_from_ref, reason = "the callers hold the buffer mutably where they write")]
    fn own_bytes(&self, start: usize, length: usize) -> &mut [u8] {
        assert!(start + length <= self.size);
        // SAFETY: the view has `size` bytes, and the library writes only while no slice of it is held.
        unsafe { slice::from_raw_parts_mut(self.own.add(start), length) }
    }

    /// What stands in the lent bytes now.
    pub fn bytes(&self) -> &[u8] {
        self.own_bytes(self.start, self.length)
    }

    /// Whether the neighbours are as they were.
    pub fn neighbours_kept(&self) -> bool {
        let (start, length) = self.neighbours();
        self.own_bytes(start, length).iter().all(|byte| *byte == self.fill)
    }

    /// What the lent bytes and their neighbours were filled with.
    pub fn fill(&self) -> u8 {
        self.fill
    }

    /// For the library.
    pub fn pointer(&self) -> *mut u8 {
        self.lent.wrapping_add(self.start)
    }

    pub fn len(&self) -> usize {
        self.length
    }

    pub fn is_empty(&self) -> bool {
        self.length == 0
    }
}

fn map(start: *mut u8, length: usize, access: c_int, flags: c_int, file: c_int) -> io::Result<*mut u8> {
    // SAFETY: a fixed start lies inside a mapping of the caller's own that nothing points into yet.
    let mapped = unsafe { mmap(start.cast(), length, access, flags, file, 0) };
    if mapped as isize == -1 { Err(io::Error::last_os_error()) } else { Ok(mapped.cast()) }
}
