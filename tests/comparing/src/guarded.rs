//! Memory between two stretches that may not be touched.

use std::ffi::c_void;
use std::ptr;
use std::slice;

/// A multiple of the size of a page.
const UNIT: usize = 65_536;

const PROT_NONE: i32 = 0;
const PROT_READ_AND_WRITE: i32 = 3;
const MAP_PRIVATE_AND_ANONYMOUS: i32 = 0x22;

extern "C" {
    fn mmap(
        address: *mut c_void,
        length: usize,
        protection: i32,
        flags: i32,
        file: i32,
        offset: i64,
    ) -> *mut c_void;
    fn mprotect(address: *mut c_void, length: usize, protection: i32) -> i32;
    fn munmap(address: *mut c_void, length: usize) -> i32;
}

/// A region of whole pages; a touch of the byte before it or behind it ends
/// the program.
pub struct Region {
    start: *mut u8,
    length: usize,
}

impl Region {
    /// A region of at least so many bytes.
    pub fn new(least: usize) -> Region {
        let length = least.div_ceil(UNIT) * UNIT;
        // New memory of its own, of which the middle is made accessible.
        let start = unsafe {
            let all = mmap(
                ptr::null_mut(),
                length + 2 * UNIT,
                PROT_NONE,
                MAP_PRIVATE_AND_ANONYMOUS,
                -1,
                0,
            );
            assert_ne!(all as isize, -1, "no memory");
            let start = all.cast::<u8>().add(UNIT);
            let opened = mprotect(start.cast(), length, PROT_READ_AND_WRITE);
            assert_eq!(opened, 0, "no access to memory");
            start
        };
        Region { start, length }
    }

    pub fn length(&self) -> usize {
        self.length
    }

    pub fn bytes(&self) -> &[u8] {
        // The region is accessible, and lent by this one owner alone.
        unsafe { slice::from_raw_parts(self.start, self.length) }
    }

    pub fn bytes_mut(&mut self) -> &mut [u8] {
        // As above.
        unsafe { slice::from_raw_parts_mut(self.start, self.length) }
    }
}

impl Drop for Region {
    fn drop(&mut self) {
        // The whole of what was mapped.
        let unmapped = unsafe { munmap(self.start.sub(UNIT).cast(), self.length + 2 * UNIT) };
        assert_eq!(unmapped, 0, "memory given back");
    }
}
