//! Memory whose last byte is right before a page that can't be read: reading past the end of a
//! slice stops the process.
use std::ffi::c_void;

const ROOM: usize = 1 << 20;
const PAGE: usize = 1 << 16;

unsafe extern "C" {
    fn mmap(
        at: *mut c_void,
        length: usize,
        protection: i32,
        flags: i32,
        file: i32,
        offset: i64,
    ) -> *mut c_void;
    fn mprotect(at: *mut c_void, length: usize, protection: i32) -> i32;
}

pub struct Guarded {
    end: *mut u8,
}

impl Guarded {
    pub fn new() -> Guarded {
        // PROT_READ | PROT_WRITE, MAP_PRIVATE | MAP_ANONYMOUS of Linux.
        // SAFETY: the kernel chooses a place that isn't used.
        let at = unsafe { mmap(std::ptr::null_mut(), ROOM + PAGE, 3, 0x22, -1, 0) };
        assert!(at.addr() != usize::MAX, "mmap");
        let end = at.cast::<u8>().wrapping_add(ROOM);
        // SAFETY: the pages after ROOM are ours, and nothing is kept there.
        assert_eq!(unsafe { mprotect(end.cast(), PAGE, 0) }, 0, "mprotect");
        Guarded { end }
    }

    /// Copies the bytes to the end of the memory, and returns them there.
    pub fn hold(&mut self, bytes: &[u8]) -> &[u8] {
        assert!(bytes.len() <= ROOM);
        let at = self.end.wrapping_sub(bytes.len());
        // SAFETY: as many bytes before the end are ours, and borrowed as long as the result is.
        unsafe {
            std::ptr::copy_nonoverlapping(bytes.as_ptr(), at, bytes.len());
            std::slice::from_raw_parts(at, bytes.len())
        }
    }
}
