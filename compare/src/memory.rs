//! What the operating system tells of this thread: its processor time and page faults; and fresh memory from it.

use std::ffi::{c_int, c_long, c_void};
use std::time::Duration;

extern "C" {
    fn mmap(
        at: *mut c_void,
        length: usize,
        protection: c_int,
        flags: c_int,
        file: c_int,
        offset: c_long,
    ) -> *mut c_void;
    fn munmap(at: *mut c_void, length: usize) -> c_int;
    fn madvise(at: *mut c_void, length: usize, advice: c_int) -> c_int;
    fn clock_gettime(clock: c_int, time: *mut [c_long; 2]) -> c_int;
    fn getrusage(who: c_int, usage: *mut [c_long; 18]) -> c_int;
}

const READ_WRITE: c_int = 1 | 2;
/// Private, anonymous, without a reservation.
const FRESH: c_int = 0x02 | 0x20 | 0x4000;
const NO_HUGE_PAGES: c_int = 15;
const THREAD_TIME: c_int = 3;
const THIS_THREAD: c_int = 1;
const MINOR_FAULTS: usize = 8;

/// Words of zero, none of whose pages has been touched.
pub struct Fresh {
    at: *mut u32,
    words: usize,
}

impl Fresh {
    pub fn new(words: usize) -> Fresh {
        let bytes = (words * 4).max(4096);
        // Safety: a new mapping that nothing else names.
        let at = unsafe { mmap(std::ptr::null_mut(), bytes, READ_WRITE, FRESH, -1, 0) };
        assert!(at as isize != -1, "no memory for {bytes} bytes");
        // Safety: the mapping just made. Pages of 4 KiB only, so that each counts.
        unsafe { madvise(at, bytes, NO_HUGE_PAGES) };
        Fresh { at: at.cast(), words }
    }

    pub fn slice(&mut self) -> &mut [u32] {
        // Safety: the mapping has this many words and lives as long as `self`.
        unsafe { std::slice::from_raw_parts_mut(self.at, self.words) }
    }
}

impl Drop for Fresh {
    fn drop(&mut self) {
        // Safety: the mapping made by `new`, whose slices ended with their loan.
        unsafe { munmap(self.at.cast(), (self.words * 4).max(4096)) };
    }
}

/// Page faults of this thread so far that needed no reading.
pub fn faults() -> u64 {
    let mut usage = [0; 18];
    // Safety: two times and fourteen numbers, as Linux on x86-64 writes them.
    let failed = unsafe { getrusage(THIS_THREAD, &mut usage) };
    assert!(failed == 0);
    usage[MINOR_FAULTS] as u64
}

/// Processor time of this thread so far: what other programs take meanwhile does not count.
pub fn now() -> Duration {
    let mut time = [0; 2];
    // Safety: seconds and nanoseconds, as Linux on x86-64 writes them.
    let failed = unsafe { clock_gettime(THREAD_TIME, &mut time) };
    assert!(failed == 0);
    Duration::new(time[0] as u64, time[1] as u32)
}
