//! The calls of Ask 1: a set for each part, and one sender.

use super::Lent;
use second::older::{Older, Part};
use second::sender::Order;

mod ad9557 {
    reader_calls!(
        couplingnut_map_test_ad9557,
        couplingnut_open_ad9557,
        couplingnut_read_ad9557,
        couplingnut_next_record_ad9557,
        top
    );
}

mod ad9508 {
    reader_calls!(
        couplingnut_map_test_ad9508,
        couplingnut_open_ad9508,
        couplingnut_read_ad9508,
        couplingnut_next_record_ad9508,
        top
    );
}

pub fn map_test(older: Older, map: &[u8]) -> Option<u32> {
    match older.part {
        Part::Ad9557 => ad9557::map_test(older.top, map),
        Part::Ad9508 => ad9508::map_test(older.top, map),
    }
}

pub fn open(older: Older, lent: &mut Lent) -> Option<u32> {
    match older.part {
        Part::Ad9557 => ad9557::open(older.top, lent),
        Part::Ad9508 => ad9508::open(older.top, lent),
    }
}

pub fn read(older: Older, lent: &mut Lent) -> Option<u32> {
    match older.part {
        Part::Ad9557 => ad9557::read(older.top, lent),
        Part::Ad9508 => ad9508::read(older.top, lent),
    }
}

pub fn next_record(older: Older, lent: &mut Lent) -> Option<u32> {
    match older.part {
        Part::Ad9557 => ad9557::next_record(older.top, lent),
        Part::Ad9508 => ad9508::next_record(older.top, lent),
    }
}

/// The number; the count of samples is left in its place.
pub fn send(top: u64, order: &Order, out: &mut [u8], samples: &mut u64) -> Option<u32> {
    let Order { direction, settings, start, count, data } = *order;
    call_library!(couplingnut_send_older(
        top: u64, direction: u64, settings: u64, start: u64, count: u64, data: &[u8],
        out: &mut [u8], samples: &mut u64
    ))
}
