//! That guarded memory kills: a test on memory that forgives would show nothing.

#![allow(unsafe_code)]

use std::ffi::c_int;
use std::os::unix::process::ExitStatusExt;
use std::process::ExitStatus;

use couplingnut_tests::guarded::{Against, Guarded};
use couplingnut_tests::layout::ChipInC;
use second::several::BankRange;

const SIGSEGV: i32 = 11;

extern "C" {
    fn fork() -> c_int;
    fn waitpid(process: c_int, status: *mut c_int, options: c_int) -> c_int;
    fn _exit(status: c_int) -> !;
}

#[derive(Clone, Copy, Debug, PartialEq)]
enum Touch {
    Read,
    Write,
}

/// Whether a process dies of touching this byte, counted from the first lent.
fn kills(against: Against, length: usize, touch: Touch, at: isize) -> bool {
    let mut memory = Guarded::new(5_000);
    let byte = memory.hold(&vec![0xEE; length], against).as_mut_ptr().wrapping_offset(at);
    let mut status = 0;
    // SAFETY: the new process touches one byte and ends, dead or alive; nothing
    // else of this one's is used in it.
    unsafe {
        let process = fork();
        assert!(process >= 0, "no new process");
        if process == 0 {
            match touch {
                Touch::Read => _exit(c_int::from(byte.read_volatile() != 0xEE)),
                Touch::Write => byte.write_volatile(0x11),
            }
            _exit(0);
        }
        assert_eq!(waitpid(process, &mut status, 0), process);
    }
    let status = ExitStatus::from_raw(status);
    assert!(status.success() || status.signal() == Some(SIGSEGV), "{status}");
    !status.success()
}

#[test]
fn words_lie_against_either_page() {
    let mut memory = Guarded::new(5_000);
    for length in [0, 1, 2, 128, 129, 600] {
        let words: Vec<u64> =
            (1..=length).map(|i: u64| i.wrapping_mul(0x0102_0304_0506_0708)).collect();
        let held = memory.hold_words(&words, Against::PageAfter);
        assert_eq!((&*held, held.as_ptr_range().end as usize % 4_096), (&words[..], 0));
        let held = memory.hold_words(&words, Against::PageBefore);
        assert_eq!((&*held, held.as_ptr_range().start as usize % 4_096), (&words[..], 0));
    }
}

#[test]
fn chips_lie_against_either_page() {
    let mut memory = Guarded::new(5_000);
    let range = |start| BankRange { start, length: 16 };
    let chip = |i| ChipInC { session: [7; 21], contended: 1, active: range(i), buffer: range(!i) };
    for length in [0, 1, 8, 9, 80] {
        let chips: Vec<ChipInC> = (0..length).map(chip).collect();
        let held = memory.hold_chips(&chips, Against::PageAfter);
        assert_eq!((&*held, held.as_ptr_range().end as usize % 4_096), (&chips[..], 0));
        let held = memory.hold_chips(&chips, Against::PageBefore);
        assert_eq!((&*held, held.as_ptr_range().start as usize % 4_096), (&chips[..], 0));
    }
}

#[test]
fn a_byte_beyond_the_lent_ones_kills() {
    use Against::{PageAfter, PageBefore};
    for touch in [Touch::Read, Touch::Write] {
        for length in [0, 1, 8, 20, 4_096, 5_000] {
            let end = length as isize;
            assert!(kills(PageAfter, length, touch, end), "{touch:?} after {length} bytes");
            assert!(kills(PageBefore, length, touch, -1), "{touch:?} before {length} bytes");
        }
        for at in [0, 19] {
            assert!(!kills(PageAfter, 20, touch, at) && !kills(PageBefore, 20, touch, at));
        }
    }
}
