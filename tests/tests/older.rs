//! The older clock chips AD9557 and AD9508, by both sides: Ask 1 of document 02.

mod handed_on;
mod known_results;
mod lists;
mod map_test;
mod refusals;
mod registers;
mod runs;
mod sender;
mod sessions;
mod stalls;
mod stopped_run;

use couplingnut_tests::by_hand::clocked_number;
use couplingnut_tests::chip::Chip;
use couplingnut_tests::generate::older::maps::simple_older_map;
use second::older::{Older, Part};
use second::settings::Settings;

/// The tops that documents 001 and 002 name.
const AD9557: Older = Older { part: Part::Ad9557, top: 0x1FFF };
const AD9508: Older = Older { part: Part::Ad9508, top: 0x002C };

/// The length field of a run that streams.
const STREAMING: u16 = 3;

/// A chip after opening, beside its control registers all plain, with its bit order
/// set.
fn simple_chip(older: Older, lsb_first: bool) -> Chip {
    let mut chip = Chip::opened_by(Some(older), &simple_older_map(older));
    if lsb_first {
        chip.session.settings = Settings::LSB_FIRST;
    }
    chip
}

/// Read or write, the length field and the address, as they are clocked.
fn instruction(read: bool, length: u16, start: u16, lsb_first: bool) -> Vec<u8> {
    clocked_number(u16::from(read) << 15 | length << 13 | start, 16, lsb_first)
}

/// Bytes, as they are clocked.
fn bytes(data: &[u8], lsb_first: bool) -> Vec<u8> {
    data.iter().flat_map(|&v| clocked_number(u16::from(v), 8, lsb_first)).collect()
}

/// The addresses that so many bytes go to, by the rules: from the start down, or up
/// lowest bit first, as many as the length field counts, none beyond 0 or the top.
fn addresses(older: Older, length: u16, start: u16, lsb_first: bool, sent: usize) -> Vec<u16> {
    let counted = if length == STREAMING { sent } else { sent.min(usize::from(length) + 1) };
    let step: i32 = if lsb_first { 1 } else { -1 };
    (0..counted as i32)
        .map(|i| i32::from(start) + i * step)
        .take_while(|&address| (0..=older.top as i32).contains(&address))
        .map(|address| address as u16)
        .collect()
}
