//! Memory between two inaccessible pages. What is lent from it lies against one
//! of them, so that a byte read or written beyond it kills the program.

#![allow(unsafe_code)]

use std::ffi::{c_int, c_void};

use crate::layout::{ChipInC, CHIP_SIZE};

/// The page size of x86-64 Linux, the library's only home.
const PAGE: usize = 4_096;

const PROT_NONE: c_int = 0;
const PROT_READ_AND_WRITE: c_int = 1 | 2;
const MAP_PRIVATE_ANONYMOUS: c_int = 0x02 | 0x20;

extern "C" {
    fn mmap(
        at: *mut c_void,
        length: usize,
        access: c_int,
        kind: c_int,
        file: c_int,
        offset: i64,
    ) -> *mut c_void;
    fn mprotect(at: *mut c_void, length: usize, access: c_int) -> c_int;
    fn munmap(at: *mut c_void, length: usize) -> c_int;
}

/// The inaccessible page that the lent bytes lie against.
#[derive(Clone, Copy, Debug, PartialEq, Eq)]
pub enum Against {
    /// They end where it starts.
    PageAfter,
    /// They start where it ends.
    PageBefore,
}

impl Against {
    /// The page for the case of a seed: mostly the one after.
    pub fn of_seed(seed: u64) -> Self {
        if seed.is_multiple_of(4) {
            Against::PageBefore
        } else {
            Against::PageAfter
        }
    }
}

pub struct Guarded {
    /// The first byte after the page before.
    start: *mut u8,
    /// A whole number of pages.
    capacity: usize,
}

impl Guarded {
    /// Room for so many bytes at least.
    pub fn new(least: usize) -> Self {
        let capacity = least.max(1).next_multiple_of(PAGE);
        // SAFETY: new memory, at an address of the system's choice.
        let all = unsafe {
            mmap(std::ptr::null_mut(), capacity + 2 * PAGE, PROT_NONE, MAP_PRIVATE_ANONYMOUS, -1, 0)
        };
        assert!(all as isize != -1, "no memory for {capacity} bytes");
        // SAFETY: the first byte after the first page of that memory.
        let start = unsafe { all.cast::<u8>().add(PAGE) };
        // SAFETY: all of that memory but its first and its last page.
        let opened = unsafe { mprotect(start.cast(), capacity, PROT_READ_AND_WRITE) };
        assert_eq!(opened, 0, "memory that can't be made accessible");
        Guarded { start, capacity }
    }

    /// These bytes, against a page.
    pub fn hold(&mut self, bytes: &[u8], against: Against) -> &mut [u8] {
        let length = bytes.len();
        assert!(length <= self.capacity, "{length} bytes, and room for {}", self.capacity);
        let offset = match against {
            Against::PageAfter => self.capacity - length,
            Against::PageBefore => 0,
        };
        // SAFETY: within the accessible pages, which are borrowed as long as the slice.
        let held = unsafe { std::slice::from_raw_parts_mut(self.start.add(offset), length) };
        held.copy_from_slice(bytes);
        held
    }

    /// This number, against a page.
    pub fn hold_number(&mut self, number: u64, against: Against) -> &mut u64 {
        let bytes = self.hold(&number.to_ne_bytes(), against);
        // SAFETY: eight bytes at the edge of a page, and so aligned.
        unsafe { &mut *bytes.as_mut_ptr().cast::<u64>() }
    }

    /// These words, against a page.
    pub fn hold_words(&mut self, words: &[u64], against: Against) -> &mut [u64] {
        let in_memory: Vec<u8> = words.iter().flat_map(|word| word.to_ne_bytes()).collect();
        let start = self.hold(&in_memory, against).as_mut_ptr().cast::<u64>();
        // SAFETY: eight bytes each, the first or the last of them at the edge of a page,
        // and so aligned.
        unsafe { std::slice::from_raw_parts_mut(start, words.len()) }
    }

    /// These chips of a list, against a page.
    pub fn hold_chips(&mut self, chips: &[ChipInC], against: Against) -> &mut [ChipInC] {
        let space = self.hold(&vec![0xEE; CHIP_SIZE * chips.len()], against);
        // SAFETY: as many bytes as the chips are, which may be any, the first or the last
        // of them at the edge of a page, and so aligned.
        let held = unsafe {
            std::slice::from_raw_parts_mut(space.as_mut_ptr().cast::<ChipInC>(), chips.len())
        };
        held.copy_from_slice(chips);
        held
    }
}

impl Drop for Guarded {
    fn drop(&mut self) {
        // SAFETY: what `new` has got, once.
        unsafe { munmap(self.start.sub(PAGE).cast(), self.capacity + 2 * PAGE) };
    }
}
