//! Pages from the system: a stretch between two pages that may not be touched, and a file mapped into memory.

use std::fs::File;
use std::io::{Error, Result};
use std::os::fd::AsRawFd;

/// A page's size, or a multiple of it: Linux has pages of 4, 16 and 64 KiB.
pub const PAGE: usize = 65_536;

const PROT_NONE: i32 = 0;
const PROT_READ_WRITE: i32 = 1 | 2;
const MAP_SHARED: i32 = 1;
const MAP_PRIVATE_ANONYMOUS: i32 = 2 | 0x20;

extern "C" {
    fn mmap(address: *mut u8, length: usize, protection: i32, flags: i32, file: i32, offset: i64) -> *mut u8;
    fn mprotect(address: *mut u8, length: usize, protection: i32) -> i32;
    fn munmap(address: *mut u8, length: usize) -> i32;
}

/// Bytes that are mapped until they are dropped.
struct Mapping {
    start: *mut u8,
    length: usize,
}

impl Mapping {
    fn new(length: usize, protection: i32, flags: i32, file: i32) -> Result<Mapping> {
        // SAFETY: the system chooses the address, so that nothing which is in use is mapped over.
        let start = unsafe { mmap(std::ptr::null_mut(), length, protection, flags, file, 0) };
        if start as isize == -1 {
            return Err(Error::last_os_error());
        }
        Ok(Mapping { start, length })
    }
}

impl Drop for Mapping {
    fn drop(&mut self) {
        // SAFETY: this is what was mapped, and nothing points into it any more.
        unsafe { munmap(self.start, self.length) };
    }
}

/// A stretch of bytes between two guard pages: what touches one of those ends the process.
pub struct Stretch {
    mapping: Mapping,
}

impl Stretch {
    /// A stretch of at least so many bytes.
    pub fn of(length: usize) -> Result<Stretch> {
        let inside = length.next_multiple_of(PAGE).max(PAGE);
        let mapping = Mapping::new(inside + 2 * PAGE, PROT_NONE, MAP_PRIVATE_ANONYMOUS, -1)?;
        // SAFETY: the stretch lies within the mapping, one page from either end.
        let opened = unsafe { mprotect(mapping.start.add(PAGE), inside, PROT_READ_WRITE) };
        if opened != 0 {
            return Err(Error::last_os_error());
        }
        Ok(Stretch { mapping })
    }

    pub fn length(&self) -> usize {
        self.mapping.length - 2 * PAGE
    }

    /// The first byte after the guard page in front.
    pub fn start(&self) -> *mut u8 {
        // SAFETY: the mapping is longer than its guard pages.
        unsafe { self.mapping.start.add(PAGE) }
    }

    pub fn bytes(&self) -> &[u8] {
        // SAFETY: the stretch is readable, and this borrow keeps it as it is.
        unsafe { std::slice::from_raw_parts(self.start(), self.length()) }
    }

    pub fn bytes_mut(&mut self) -> &mut [u8] {
        // SAFETY: the stretch is readable and writable, and this borrow is the only one.
        unsafe { std::slice::from_raw_parts_mut(self.start(), self.length()) }
    }
}

/// A file whose bytes stay written when the process is ended at any point.
pub struct MappedFile {
    mapping: Mapping,
}

impl MappedFile {
    /// Maps the first `length` bytes of a file that has as many.
    pub fn of(file: &File, length: usize) -> Result<MappedFile> {
        let mapping = Mapping::new(length, PROT_READ_WRITE, MAP_SHARED, file.as_raw_fd())?;
        Ok(MappedFile { mapping })
    }

    pub fn bytes_mut(&mut self) -> &mut [u8] {
        // SAFETY: the mapping is readable and writable, and this borrow is the only one in this process.
        unsafe { std::slice::from_raw_parts_mut(self.mapping.start, self.mapping.length) }
    }
}
