//! Several chips on one wire, by both sides: Ask 10 of document 02.

mod alone;
mod contention;
mod lists;
mod numbers;
mod refusals;
mod repeats;

use couplingnut_tests::calls::{self, Call};
use couplingnut_tests::chip::{line, sent};
use couplingnut_tests::generate::maps::simple_map;
use couplingnut_tests::layout::from_bytes;
use couplingnut_tests::several::{of_chip, read_by_both, Given, Left, Sample};
use second::reader::{READ, RECORD as ALONE};
use second::sender::Order;
use second::session::{CSB, SCLK};
use second::several::CONTENDED;

fn read(given: &Given) -> Left {
    read_by_both(given)
}

/// So many chips of a simple map after opening, with these samples and ample room.
fn opened(chips: usize, wire: &[Sample]) -> Given {
    with_wire(&Given::opened(&simple_map(16), chips), wire)
}

/// The same chips and memory with other samples and ample room.
fn with_wire(given: &Given, wire: &[Sample]) -> Given {
    let mut given = Given { samples: wire.as_flattened().to_vec(), ..given.clone() };
    given.records = vec![0xEE; given.ample_room()];
    given
}

/// The chips and the memory that a call left, with other samples.
fn gone_on(given: &Given, left: &Left, wire: &[Sample]) -> Given {
    let mut next = given.clone();
    next.go_on(left);
    with_wire(&next, wire)
}

/// What a call left that is done, and its records, each as the number of its chip and
/// what busread prints of it.
fn done(given: &Given) -> (Left, Vec<String>) {
    let left = read(given);
    assert_eq!(left.number, 0, "{given:02X?}");
    let told = |[number, alone @ ..]: &[u8; ALONE + 1]| format!("{number}: {}", line(alone));
    let lines = left.made().iter().map(told).collect();
    (left, lines)
}

fn lines(given: &Given) -> Vec<String> {
    done(given).1
}

/// The samples of a read of so many bytes from 0x000A down, as one chip has them.
fn read_of(count: u64) -> Vec<u8> {
    sent(&Order { direction: 1, settings: 0, start: 0x000A, count, data: &[] })
}

/// The same of a write of one byte.
fn write_of(start: u64, v: u8) -> Vec<u8> {
    sent(&Order { direction: 0, settings: 0, start, count: 1, data: &[v] })
}

/// Where such a read has the eight edges of its byte i: byte 0 begins after 33 samples.
fn edges(i: usize) -> impl Iterator<Item = usize> + Clone {
    (0..8).map(move |bit| 34 + 16 * i + 2 * bit)
}

/// The samples of one chip for all chips whose bits are set; the others are quiet.
fn spoken_to(chips: u8, samples: &[u8]) -> Vec<Sample> {
    let selects = |alone: u8| if alone & CSB == 0 { !chips } else { 0xFF };
    samples.iter().map(|&alone| [selects(alone), alone & !CSB]).collect()
}

/// The select of a chip low at these places too.
fn with_low(wire: &[Sample], chip: usize, places: impl IntoIterator<Item = usize>) -> Vec<Sample> {
    let mut wire = wire.to_vec();
    places.into_iter().for_each(|at| wire[at][0] &= !(1 << chip));
    wire
}

/// That each chip's end and own records are what the reader of one chip leaves of it,
/// and that the records of read bytes have a 2 just where the samples ask for it.
fn assert_as_alone(
    given: &Given,
    left: &Left,
    mut alone: impl FnMut(&calls::Given) -> calls::Left,
) {
    for number in 0..given.chips.len() {
        let mut due = alone(&given.alone(number));
        assert_eq!(due.number, 0, "chip {number} alone is read");
        let records = &mut due.records.as_chunks_mut::<ALONE>().0[..due.count as usize];
        let reads = records.iter_mut().filter(|record| record[0] == READ);
        for (record, contended) in reads.zip(contended_reads(given, number)) {
            record[5] = if contended { CONTENDED } else { record[5] };
        }
        assert_eq!(left.own_records(number), records, "chip {number} of {given:02X?}");
        assert_eq!(left.chips[number].session, due.session, "chip {number} of {given:02X?}");
        assert!(left.banks(number) == [due.active, due.buffer], "chip {number} of {given:02X?}");
    }
}

/// For each whole read byte of this chip, by time, whether another select was low at one
/// of its edges.
fn contended_reads(given: &Given, number: usize) -> Vec<bool> {
    let mut rest = given.alone(number);
    let (mut at, mut contended) = (0, Vec::new());
    while !rest.samples.is_empty() {
        let left = rest.expected(Call::NextRecord);
        at += left.taken as usize;
        if left.count == 1 && left.records[0] == READ {
            contended.push(is_contended(given, number, at));
        }
        rest.samples.drain(..left.taken as usize);
        rest.go_on(&left);
    }
    contended
}

/// The same of the byte that is whole after so many samples. They may have only the last
/// of its edges: then it began in an earlier call, and the given mark tells of the others.
fn is_contended(given: &Given, number: usize, samples: usize) -> bool {
    let (wire, chip) = (given.wire(), &given.chips[number]);
    let first = from_bytes(&chip.session).expect("the bytes of a session").levels;
    let levels = |at: usize| of_chip(wire[at], number) & (CSB | SCLK);
    let before = |at: usize| if at == 0 { first } else { levels(at - 1) };
    let is_edge = |&at: &usize| before(at) == 0 && levels(at) == SCLK;
    let edges: Vec<usize> = (0..samples).rev().filter(is_edge).take(8).collect();
    let another_is_low = |&at: &usize| wire[at][0] | 1 << number != 0xFF;
    edges.iter().any(another_is_low) || edges.len() < 8 && chip.contended == 1
}

/// That what lies in no chip's ranges is as it was.
fn assert_outside_stays(given: &Given, left: &Left) {
    let mut is_outside = vec![true; given.memory.len()];
    for range in given.chips.iter().flat_map(|chip| [chip.active, chip.buffer]) {
        is_outside[range.start as usize..][..range.length as usize].fill(false);
    }
    let places = is_outside.into_iter().zip(given.memory.iter().zip(&left.memory));
    let mut altered = places.filter(|(is_outside, (was, is))| *is_outside && was != is);
    assert!(altered.next().is_none(), "{given:02X?}");
}
