//! The calls of `libcouplingnut.a`, as C makes them. Those that document 02 asks
//! for have a module for each request: a library without them is linked all the
//! same, and they then answer `None`.

#![allow(unsafe_code)]

/// A call of the library (`call_c!`), or `None` where it is missing.
#[cfg(host_library)]
macro_rules! call_library {
    ($($call:tt)*) => {
        Some($crate::call_c!($($call)*))
    };
}

#[cfg(not(host_library))]
macro_rules! call_library {
    ($call:ident($($lent:ident: $type:ty),*)) => {{
        $(let _: $type = $lent;)*
        None
    }};
}

/// The reader's calls for one kind of chip, by their names in C. Those for older chips take
/// the top before all else.
macro_rules! reader_calls {
    ($map_test:ident, $open:ident, $read:ident, $next_record:ident $(, $top:ident)?) => {
        use crate::layout::SessionBytes;
        use crate::library::Lent;

        pub fn map_test($($top: u64,)? map: &[u8]) -> Option<u32> {
            call_library!($map_test($($top: u64,)? map: &[u8]))
        }

        pub fn open($($top: u64,)? lent: &mut Lent) -> Option<u32> {
            let Lent { map, session, active, buffer, .. } = lent;
            call_library!($open(
                $($top: u64,)? map: &[u8], session: &mut SessionBytes,
                active: &mut [u8], buffer: &mut [u8]
            ))
        }

        pub fn read($($top: u64,)? lent: &mut Lent) -> Option<u32> {
            let Lent { map, session, active, buffer, words, samples, records, count, .. } = lent;
            call_library!($read(
                $($top: u64,)? map: &[u8], session: &mut SessionBytes,
                active: &mut [u8], buffer: &mut [u8], words: &mut [u64],
                samples: &[u8], records: &mut [u8], count: &mut u64
            ))
        }

        pub fn next_record($($top: u64,)? lent: &mut Lent) -> Option<u32> {
            let Lent { map, session, active, buffer, words, samples, records, count, taken } = lent;
            call_library!($next_record(
                $($top: u64,)? map: &[u8], session: &mut SessionBytes,
                active: &mut [u8], buffer: &mut [u8], words: &mut [u64],
                samples: &[u8], records: &mut [u8], count: &mut u64, taken: &mut u64
            ))
        }
    };
}

pub mod converter;
pub mod frames;
pub mod mend;
pub mod older;
pub mod setup;
pub mod several;
pub mod touched;

use crate::layout::SessionBytes;
use second::sender::Order;

#[cfg(host_library)]
#[link(name = "couplingnut", kind = "static")]
extern "C" {}

/// Whether the library was there when this was built.
pub const PRESENT: bool = cfg!(host_library);

/// For tests that are nothing without the library.
pub fn assert_present() {
    if !PRESENT {
        panic!("{MISSING}");
    }
}

const MISSING: &str = "libcouplingnut.a is missing; build it first: make build \
                       (HOST_LIB_DIR says where)";

/// What is lent to a call of the reader. Opening takes no words, samples, records or
/// counts, and `read` no count of taken samples.
pub struct Lent<'a> {
    pub map: &'a [u8],
    pub session: &'a mut SessionBytes,
    pub active: &'a mut [u8],
    pub buffer: &'a mut [u8],
    pub words: &'a mut [u64],
    pub samples: &'a [u8],
    pub records: &'a mut [u8],
    /// How many records, afterwards.
    pub count: &'a mut u64,
    /// How many samples were taken, afterwards.
    pub taken: &'a mut u64,
}

mod newer {
    reader_calls!(
        couplingnut_map_test,
        couplingnut_open,
        couplingnut_read,
        couplingnut_next_record
    );
}

pub fn map_test(map: &[u8]) -> u32 {
    present(newer::map_test(map))
}

pub fn open(lent: &mut Lent) -> u32 {
    present(newer::open(lent))
}

pub fn read(lent: &mut Lent) -> u32 {
    present(newer::read(lent))
}

pub fn next_record(lent: &mut Lent) -> u32 {
    present(newer::next_record(lent))
}

/// The number of a sending, and what it left for the count of samples.
pub fn send(order: &Order, out: &mut [u8]) -> (u32, u64) {
    let mut samples = 0xDEAD_BEEF;
    let number = send_into(order, out, &mut samples);
    (number, samples)
}

/// The number; the count of samples is left in its place.
pub fn send_into(order: &Order, out: &mut [u8], samples: &mut u64) -> u32 {
    let Order { direction, settings, start, count, data } = *order;
    present(call_library!(couplingnut_send(
        direction: u64, settings: u64, start: u64, count: u64, data: &[u8],
        out: &mut [u8], samples: &mut u64
    )))
}

/// The number of a call that fails where the library is missing, and says so.
fn present(number: Option<u32>) -> u32 {
    number.unwrap_or_else(|| panic!("{MISSING}"))
}
