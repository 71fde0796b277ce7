//! The two sides: the proved libraries, called as C would, and the second
//! implementation. Each call of either has a symbol that an instruction count
//! can be switched on by.

#![allow(unsafe_code)]

use couplingnut_tests::layout::ChipInC;
use couplingnut_tests::library;
use second::map::map_test;
use second::older::{Older, Part};
use second::reader::{self, open, read, Banks};
use second::sender::{self, send, Order};
use second::touched::words_for;

#[derive(Clone, Copy, Debug, PartialEq, Eq)]
pub enum Side {
    Proved,
    Second,
}

/// What outgoing buffers hold before a call.
pub const FILLED: u8 = 0xEE;

/// What a call is lent, and what it answers.
#[derive(Clone, Debug, PartialEq, Eq)]
pub struct Space {
    pub active: Vec<u8>,
    pub buffer: Vec<u8>,
    /// Of touched registers.
    pub words: Vec<u64>,
    /// Of several chips on one wire, and the memory that holds their banks.
    pub chips: Vec<ChipInC>,
    pub memory: Vec<u8>,
    /// Records, or outgoing samples.
    pub out: Vec<u8>,
    pub number: u32,
    pub count: u64,
    /// How many calls it was lent to before.
    pub calls: usize,
}

impl Space {
    pub fn new(registers: usize, room: usize) -> Self {
        Space {
            active: vec![0xA5; registers],
            buffer: vec![0x5A; registers],
            words: vec![0; words_for(registers)],
            chips: Vec::new(),
            memory: Vec::new(),
            out: vec![FILLED; room],
            number: 99,
            count: 99,
            calls: 0,
        }
    }
}

#[cfg(benchmark_library)]
#[link(name = "host_benchmark", kind = "static")]
extern "C" {}

/// Opens and reads from the opened session.
pub fn read_by(side: Side, map: &[u8], samples: &[u8], space: &mut Space) {
    match side {
        Side::Proved => proved_read(map, samples, space),
        Side::Second => second_read(map, samples, space),
    }
}

#[cfg(benchmark_library)]
fn proved_read(map: &[u8], samples: &[u8], space: &mut Space) {
    let Space { active, buffer, words, out, count, .. } = space;
    space.number = couplingnut_tests::call_c!(benchmark_read(
        map: &[u8], active: &mut [u8], buffer: &mut [u8], words: &mut [u64],
        samples: &[u8], out: &mut [u8], count: &mut u64
    ));
}

/// Stands in where the library is missing.
#[cfg(not(benchmark_library))]
fn proved_read(_: &[u8], _: &[u8], _: &mut Space) {
    panic!("libhost_benchmark.a is missing; build it first: make bench")
}

#[no_mangle]
#[inline(never)]
fn second_read(map: &[u8], samples: &[u8], space: &mut Space) {
    let Space { active, buffer, words, out, .. } = space;
    let (number, mut session) = open(map, active, buffer);
    if number != 0 {
        (space.number, space.count) = (number.into(), 0);
        return;
    }
    let banks = Banks { active, buffer, words };
    let answer = read(map, &mut session, banks, samples, out);
    (space.number, space.count) = (answer.number.into(), answer.count as u64);
}

/// The same of an AD9557.
pub fn read_older_by(side: Side, top: u64, map: &[u8], samples: &[u8], space: &mut Space) {
    match side {
        Side::Proved => proved_read_older(top, map, samples, space),
        Side::Second => second_read_older(top, map, samples, space),
    }
}

#[cfg(benchmark_library)]
fn proved_read_older(top: u64, map: &[u8], samples: &[u8], space: &mut Space) {
    let Space { active, buffer, words, out, count, .. } = space;
    space.number = couplingnut_tests::call_c!(benchmark_read_older(
        top: u64, map: &[u8], active: &mut [u8], buffer: &mut [u8], words: &mut [u64],
        samples: &[u8], out: &mut [u8], count: &mut u64
    ));
}

/// Stands in where the library is missing.
#[cfg(not(benchmark_library))]
fn proved_read_older(_: u64, _: &[u8], _: &[u8], _: &mut Space) {
    panic!("libhost_benchmark.a is missing; build it first: make bench")
}

#[no_mangle]
#[inline(never)]
fn second_read_older(top: u64, map: &[u8], samples: &[u8], space: &mut Space) {
    let older = Older { part: Part::Ad9557, top };
    let Space { active, buffer, words, out, .. } = space;
    let (number, mut session) = reader::open_by(older, map, active, buffer);
    if number != 0 {
        (space.number, space.count) = (number.into(), 0);
        return;
    }
    let banks = Banks { active, buffer, words };
    let answer = reader::read_by(older, map, &mut session, banks, samples, out);
    (space.number, space.count) = (answer.number.into(), answer.count as u64);
}

/// The same to an older chip.
pub fn send_older_by(side: Side, top: u64, order: &Order, space: &mut Space) {
    match side {
        Side::Proved => {
            let sent = library::older::send(top, order, &mut space.out, &mut space.count);
            space.number = sent.expect("the library is there");
        }
        Side::Second => second_send_older(top, order, space),
    }
}

#[no_mangle]
#[inline(never)]
fn second_send_older(top: u64, order: &Order, space: &mut Space) {
    let answer = sender::send_older(top, order, &mut space.out);
    (space.number, space.count) = (answer.number.into(), answer.count as u64);
}

pub fn send_by(side: Side, order: &Order, space: &mut Space) {
    match side {
        Side::Proved => (space.number, space.count) = library::send(order, &mut space.out),
        Side::Second => second_send(order, space),
    }
}

#[no_mangle]
#[inline(never)]
fn second_send(order: &Order, space: &mut Space) {
    let answer = send(order, &mut space.out);
    (space.number, space.count) = (answer.number.into(), answer.count as u64);
}

pub fn test_by(side: Side, map: &[u8], space: &mut Space) {
    space.number = match side {
        Side::Proved => library::map_test(map),
        Side::Second => second_map_test(map),
    };
}

#[no_mangle]
#[inline(never)]
fn second_map_test(map: &[u8]) -> u32 {
    map_test(std::hint::black_box(map)).into()
}
