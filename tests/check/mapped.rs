//! A large image that takes no disk and hardly any memory: zero pages mapped by the system, of
//! which only the written ones are there.

use std::ffi::c_void;
use std::io;
use std::ops::{Deref, DerefMut};
use std::slice;

extern "C" {
    fn mmap(
        at: *mut c_void,
        length: usize,
        access: i32,
        flags: i32,
        file: i32,
        from: i64,
    ) -> *mut c_void;
    fn munmap(at: *mut c_void, length: usize) -> i32;
}

const READ_AND_WRITE: i32 = 1 | 2;
/// Private, anonymous, no memory reserved: Linux's numbers.
const FLAGS: i32 = 0x02 | 0x20 | 0x4000;

pub struct Mapped {
    at: *mut c_void,
    length: usize,
}

impl Mapped {
    pub fn new(length: u64) -> io::Result<Mapped> {
        let length = length as usize;
        // SAFETY: a fresh mapping at a place of the system's choice touches nothing of ours.
        let at = unsafe { mmap(std::ptr::null_mut(), length, READ_AND_WRITE, FLAGS, -1, 0) };
        if at as isize == -1 {
            return Err(io::Error::last_os_error());
        }
        Ok(Mapped { at, length })
    }
}

impl Deref for Mapped {
    type Target = [u8];

    fn deref(&self) -> &[u8] {
        // SAFETY: the mapping is readable, so long, and lives as long as `self`.
        unsafe { slice::from_raw_parts(self.at.cast(), self.length) }
    }
}

impl DerefMut for Mapped {
    fn deref_mut(&mut self) -> &mut [u8] {
        // SAFETY: as above, writable, and borrowed mutably with `self`.
        unsafe { slice::from_raw_parts_mut(self.at.cast(), self.length) }
    }
}

impl Drop for Mapped {
    fn drop(&mut self) {
        // SAFETY: the mapping is ours and nothing borrows from it any more.
        unsafe { munmap(self.at, self.length) };
    }
}
