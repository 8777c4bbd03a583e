//! Memory that ends at a page which may not be touched: whoever reads or writes past the end of a slice is stopped at once.

use std::ffi::{c_int, c_void};
use std::ptr;

extern "C" {
    fn mmap(at: *mut c_void, size: usize, protection: c_int, flags: c_int, file: c_int, offset: i64) -> *mut c_void;
    fn mprotect(at: *mut c_void, size: usize, protection: c_int) -> c_int;
}

// as in sys/mman.h, on Linux
const NONE: c_int = 0;
const READ_WRITE: c_int = 1 | 2;
const PRIVATE_ANONYMOUS: c_int = 0x02 | 0x20;

const PAGE: usize = 4096;
const ROOM: usize = 128 * PAGE;
/// The bytes before a slice that are watched.
const MARGIN: usize = 64;
const PATTERN: u8 = 0x5a;

/// Room for one slice, which always ends where the guard page begins.
pub struct Guarded {
    end: *mut u8,
    size: usize,
    null: bool,
}

impl Guarded {
    pub fn new() -> Guarded {
        unsafe {
            let at = mmap(ptr::null_mut(), ROOM + PAGE, READ_WRITE, PRIVATE_ANONYMOUS, -1, 0);
            assert!(at as isize != -1, "memory");
            let end = at.add(ROOM);
            assert!(mprotect(end, PAGE, NONE) == 0, "a guard page");
            Guarded { end: end.cast(), size: 0, null: false }
        }
    }

    /// Puts the bytes at the end. Where there are none, `null` says whether the pointer is null.
    pub fn hold(&mut self, bytes: &[u8], null: bool) {
        assert!(bytes.len() + MARGIN <= ROOM);
        self.size = bytes.len();
        self.null = null && bytes.is_empty();
        unsafe {
            ptr::write_bytes(self.start().sub(MARGIN), PATTERN, MARGIN);
            ptr::copy_nonoverlapping(bytes.as_ptr(), self.start(), self.size);
        }
    }

    fn start(&self) -> *mut u8 {
        unsafe { self.end.sub(self.size) }
    }

    /// The pointer to pass on.
    pub fn pointer(&self) -> *mut u8 {
        if self.null { ptr::null_mut() } else { self.start() }
    }

    pub fn size(&self) -> usize {
        self.size
    }

    /// What the slice holds now.
    pub fn bytes(&self) -> Vec<u8> {
        unsafe { std::slice::from_raw_parts(self.start(), self.size) }.to_vec()
    }

    /// Whether the bytes before the slice are as they were.
    pub fn margin_kept(&self) -> bool {
        unsafe { std::slice::from_raw_parts(self.start().sub(MARGIN), MARGIN) }.iter().all(|byte| *byte == PATTERN)
    }
}

#[cfg(test)]
mod tests {
    use super::*;
    use std::os::unix::process::ExitStatusExt;
    use std::process::Command;

    #[test]
    #[ignore = "run by the test below: it ends by a signal"]
    fn reads_past_the_end() {
        let mut slice = Guarded::new();
        slice.hold(&[1, 2, 3], false);
        unsafe { slice.pointer().add(slice.size()).read_volatile() };
    }

    #[test]
    fn the_guard_page_stops_a_reader() {
        let mut run = Command::new(std::env::current_exe().unwrap());
        let ended = run.args(["--ignored", "--exact", "guarded::tests::reads_past_the_end"]).output().unwrap();
        assert_eq!(ended.status.signal(), Some(11));
    }
}
