//! The mark, the count and the search, against the bits one by one.

use couplingnut_tests::both::{touched_count, touched_mark, touched_next};
use couplingnut_tests::generate::random::Random;
use couplingnut_tests::generate::words::some_words;

use super::{set_in, walk};

/// What the search is asked from: around every word's borders, at the end and beyond it,
/// and numbers of which a narrow type would keep little.
fn starts_for(random: &mut Random, length: usize) -> Vec<u64> {
    let end = 64 * length as u64;
    let inside = if end == 0 { 0 } else { random.number() % end };
    let mut starts = vec![0, 1, 63, 64, 65, inside, end, end + 1, end + 64, u64::MAX, 1 << 63];
    starts.extend([8, 16, 32, 63].map(|high| (1 << high) + inside));
    starts.extend((0..6).map(|_| random.number() % (end + 2)));
    starts.extend(end.checked_sub(1));
    starts
}

#[test]
fn count_and_next_are_by_the_bits() {
    let mut random = Random::new(6);
    for round in 0..4_000 {
        let length = match round % 8 {
            0 => random.between(0, 128),
            1 => random.between(126, 128),
            _ => random.between(0, 4),
        };
        let words = some_words(&mut random, length);
        let set = set_in(&words);
        assert_eq!(touched_count(&words), (0, set.len() as u64));
        for from in starts_for(&mut random, length) {
            let found = set.iter().copied().find(|&address| address >= from);
            let expected = found.unwrap_or(64 * length as u64);
            assert_eq!(touched_next(&words, from), (0, expected), "from {from}: {words:016X?}");
        }
    }
}

/// Each bit alone, in as many words as there can be: found from itself and from 0, and
/// not from the address after it.
#[test]
fn every_bit_is_counted_and_found() {
    for address in 0..8_192 {
        let mut words = [0; 128];
        words[address / 64] = 1 << (address % 64);
        let address = address as u64;
        assert_eq!(touched_count(&words), (0, 1));
        assert_eq!(touched_next(&words, 0), (0, address));
        assert_eq!(touched_next(&words, address), (0, address));
        assert_eq!(touched_next(&words, address + 1), (0, 8_192));
    }
}

#[test]
fn a_walk_finds_every_bit_once() {
    let mut random = Random::new(7);
    for _ in 0..400 {
        let length = random.pick(&[0, 1, 2, 3, 5, 20, 128]);
        let words = some_words(&mut random, length);
        assert_eq!(walk(&words), set_in(&words));
    }
}

#[test]
fn a_mark_clears_every_word() {
    let mut random = Random::new(8);
    for length in 0..=128 {
        let mut words = some_words(&mut random, length);
        assert_eq!(touched_mark(&mut words), 0);
        assert_eq!(words, vec![0; length]);
        assert_eq!(touched_count(&words), (0, 0));
        assert_eq!(touched_next(&words, 0), (0, 64 * length as u64));
    }
}

#[test]
fn no_words_are_none_touched() {
    assert_eq!(touched_mark(&mut []), 0);
    assert_eq!(touched_count(&[]), (0, 0));
    for from in [0, 1, 63, 64, 8_192, 1 << 32, u64::MAX] {
        assert_eq!(touched_next(&[], from), (0, 0));
    }
}

#[test]
fn more_than_128_words_are_refused() {
    let mut random = Random::new(9);
    for length in [129, 130, 192, 255, 256, 257, 384, 1_000, 8_192] {
        for mut words in [some_words(&mut random, length), vec![u64::MAX; length]] {
            let before = words.clone();
            assert_eq!(touched_mark(&mut words), 16);
            assert_eq!(words, before, "a refused mark clears nothing");
            assert_eq!(touched_count(&words), (16, 0));
            for from in starts_for(&mut random, length) {
                assert_eq!(touched_next(&words, from), (16, 0), "from {from}");
            }
        }
    }
}
