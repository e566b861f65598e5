//! Memory to lend to the library: it stands between pages that can be neither read nor written, so
//! that one byte out of bounds ends the process instead of going unseen.

use std::ffi::c_void;
use std::ptr;

pub const PAGE: usize = 4096;

/// The unreadable stretch on each side. It is wide, so that a far miss is caught as well.
const GUARD: usize = 1 << 20;

const PROT_NONE: i32 = 0;
const PROT_READ: i32 = 1;
const PROT_WRITE: i32 = 2;
const MAP_PRIVATE: i32 = 0x02;
const MAP_ANONYMOUS: i32 = 0x20;
const MAP_NORESERVE: i32 = 0x4000;

extern "C" {
    fn mmap(at: *mut c_void, size: usize, rights: i32, flags: i32, file: i32, from: i64) -> *mut c_void;
    fn mprotect(at: *mut c_void, size: usize, rights: i32) -> i32;
}

/// Addresses that no byte can be read from or written to.
pub fn unreadable(size: usize) -> *mut u8 {
    let flags = MAP_PRIVATE | MAP_ANONYMOUS | MAP_NORESERVE;
    let at = unsafe { mmap(ptr::null_mut(), size, PROT_NONE, flags, -1, 0) };
    assert!(at as isize != -1, "mmap of {size} bytes failed");
    at as *mut u8
}

fn protect(at: *mut u8, size: usize, rights: i32) {
    let status = unsafe { mprotect(at as *mut c_void, size, rights) };
    assert!(status == 0, "mprotect of {size} bytes failed");
}

/// Which of the two unreadable neighbours the lent bytes touch.
#[derive(Clone, Copy, Debug, PartialEq, Eq)]
pub enum Side {
    /// The bytes end right before an unreadable page.
    Before,
    /// The bytes start right behind an unreadable page.
    Behind,
}

/// Readable and writable memory with an unreadable stretch on each side. It is never given back:
/// a few are made, and each is used for all launches.
pub struct Arena {
    start: *mut u8,
    room: usize,
}

impl Arena {
    pub fn new(size: usize) -> Arena {
        let room = (size + PAGE - 1) / PAGE * PAGE;
        let start = unsafe { unreadable(GUARD + room + GUARD).add(GUARD) };
        protect(start, room, PROT_READ | PROT_WRITE);
        Arena { start, room }
    }

    /// The place of so many bytes at one of the two ends. For 0 bytes `Before` is the address of
    /// the first unreadable byte.
    pub fn place(&self, length: usize, side: Side) -> *mut u8 {
        assert!(length <= self.room, "{length} bytes do not fit");
        match side {
            Side::Before => unsafe { self.start.add(self.room - length) },
            Side::Behind => self.start,
        }
    }

    pub fn write(&mut self, bytes: &[u8], side: Side) -> *mut u8 {
        let at = self.place(bytes.len(), side);
        unsafe { ptr::copy_nonoverlapping(bytes.as_ptr(), at, bytes.len()) };
        at
    }

    pub fn read(&self, length: usize, side: Side) -> &[u8] {
        unsafe { std::slice::from_raw_parts(self.place(length, side), length) }
    }

    /// Makes the bytes read-only, or writable again. Their pages are changed as a whole.
    pub fn set_read_only(&mut self, length: usize, side: Side, read_only: bool) {
        if length == 0 {
            return;
        }
        let pages = (length + PAGE - 1) / PAGE * PAGE;
        let rights = if read_only {
            PROT_READ
        } else {
            PROT_READ | PROT_WRITE
        };
        protect(self.place(pages, side), pages, rights);
    }

    /// Up to `most` bytes of this arena beside the lent ones, on the side that is not guarded.
    pub fn beside(&mut self, length: usize, side: Side, most: usize) -> &mut [u8] {
        let size = most.min(self.room - length);
        let at = match side {
            Side::Before => unsafe { self.place(length, side).sub(size) },
            Side::Behind => unsafe { self.start.add(length) },
        };
        unsafe { std::slice::from_raw_parts_mut(at, size) }
    }
}
