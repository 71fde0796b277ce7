//! Which registers were touched, by both sides: Ask 7 of document 02.

mod bits;
mod book;
mod lists;
mod refusals;
mod words;

use couplingnut_tests::both::touched_next;
use couplingnut_tests::chip::Chip;
use couplingnut_tests::generate::maps::simple_map;
use couplingnut_tests::generate::older::maps::simple_older_map;
use couplingnut_tests::generate::older::PARTS;
use second::older::Older;

/// n, how many words it needs, and the bit of the last register in the last word.
const SIZES: [(usize, usize, u32); 9] = [
    (17, 1, 16),
    (63, 1, 62),
    (64, 1, 63),
    (65, 2, 0),
    (127, 2, 62),
    (128, 2, 63),
    (129, 3, 0),
    (8_191, 128, 62),
    (8_192, 128, 63),
];

/// A chip of so many registers that can nearly all be written: a newer one, and one of
/// each older part.
fn chips_of(count: usize) -> [Chip; 3] {
    let [first, second] = PARTS.map(|part| {
        let older = Older { part, top: count as u64 - 1 };
        Chip::opened_by(Some(older), &simple_older_map(older))
    });
    [Chip::opened(&simple_map(count)), first, second]
}

/// The addresses whose bits are set, one after the other.
fn set_in(words: &[u64]) -> Vec<u64> {
    let is_set = |&a: &u64| words[(a / 64) as usize] >> (a % 64) & 1 == 1;
    (0..64 * words.len() as u64).filter(is_set).collect()
}

/// The registers that are found from 0 on, one by one.
fn walk(words: &[u64]) -> Vec<u64> {
    let end = 64 * words.len() as u64;
    let from = |from| match touched_next(words, from) {
        (0, address) => Some(address).filter(|&address| address < end),
        (number, _) => panic!("refused {number}"),
    };
    std::iter::successors(from(0), |&address| from(address + 1)).collect()
}
