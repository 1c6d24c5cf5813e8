//! Memory that ends at a page that may not be touched: an access past its end stops the program.

use std::ffi::{c_int, c_long, c_void};
use std::ptr::null_mut;
use std::slice;

/// No access.
const PROT_NONE: c_int = 0;
/// Reading and writing.
const PROT_READ_WRITE: c_int = 3;
/// Memory of this process alone, and of no file.
const MAP_PRIVATE_ANONYMOUS: c_int = 0x22;
/// A page at least, on every machine that the library is built for.
const PAGE: usize = 65536;

extern "C" {
    /// Maps so many bytes.
    fn mmap(addr: *mut c_void, length: usize, prot: c_int, flags: c_int, fd: c_int, offset: c_long) -> *mut c_void;
    /// Changes the access to mapped bytes.
    fn mprotect(addr: *mut c_void, length: usize, prot: c_int) -> c_int;
    /// Gives mapped bytes back.
    fn munmap(addr: *mut c_void, length: usize) -> c_int;
}

/// So many bytes before a page that may not be touched.
pub struct Guarded {
    start: *mut u8,
    length: usize,
}

impl Guarded {
    /// At least so many bytes, all of them `fill`.
    pub fn filled(least: usize, fill: u8) -> Result<Guarded, String> {
        let length = least.next_multiple_of(PAGE);
        // SAFETY: a new mapping, of which nothing is known yet.
        let start = unsafe { mmap(null_mut(), length + PAGE, PROT_READ_WRITE, MAP_PRIVATE_ANONYMOUS, -1, 0) };
        if start as isize == -1 {
            return Err("no memory".to_string());
        }
        let start = start.cast::<u8>();
        let mut guarded = Guarded { start, length };
        // SAFETY: the page stands within the mapping, behind all bytes that are lent.
        if unsafe { mprotect(start.add(length).cast(), PAGE, PROT_NONE) } != 0 {
            return Err("a page cannot be guarded".to_string());
        }
        guarded.last(length).fill(fill);
        Ok(guarded)
    }

    /// The last bytes before the guarded page.
    pub fn last(&mut self, count: usize) -> &mut [u8] {
        assert!(count <= self.length, "more memory than there is");
        // SAFETY: these bytes are mapped as long as `self` lives, and `self` lends them once at a time.
        unsafe { slice::from_raw_parts_mut(self.start.add(self.length - count), count) }
    }
}

impl Drop for Guarded {
    fn drop(&mut self) {
        // SAFETY: the mapping is this one's, and nothing of it is lent any more.
        unsafe { munmap(self.start.cast(), self.length + PAGE) };
    }
}
