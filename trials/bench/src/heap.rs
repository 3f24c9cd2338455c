//! The heap's limits.

use std::ffi::c_int;

const TRIM_THRESHOLD: c_int = -1;
const TOP_PAD: c_int = -2;
const MMAP_THRESHOLD: c_int = -3;

unsafe extern "C" {
    fn mallopt(name: c_int, value: c_int) -> c_int;
}

/// Has freed memory stay with the process. Without it the Rust would be given new pages in each call with a long list, which
/// takes half of its time there.
pub fn keep() {
    let limits = [(TRIM_THRESHOLD, c_int::MAX), (TOP_PAD, 64 << 20), (MMAP_THRESHOLD, 32 << 20)];
    for (name, value) in limits {
        // SAFETY: both are numbers that the C library knows.
        let done = unsafe { mallopt(name, value) };
        assert_eq!(done, 1, "the heap's limit {name} can't be set");
    }
}
