//! Runs across words, stopped anywhere, against the book.

use couplingnut_tests::book::{book, kept};
use couplingnut_tests::chip::{sent, sent_older, settings_of, Chip};
use couplingnut_tests::generate::maps::good_map;
use couplingnut_tests::generate::older::maps::good_older_map;
use couplingnut_tests::generate::random::Random;
use couplingnut_tests::generate::words::any_banks;
use second::older::{Older, Part};
use second::sender::Order;
use second::session::{Session, CSB};

/// A chip at rest of two words or more, any words, and settings as an order has them.
fn chip_of_words(random: &mut Random, older: Option<Part>, settings: u64) -> Chip {
    let count = random.between(65, 200);
    let older = older.map(|part| Older { part, top: count as u64 - 1 });
    let map = match older {
        None => good_map(random, count),
        Some(older) => good_older_map(random, older),
    };
    let mut chip = Chip::opened_by(older, &map);
    chip.session = Session { settings: settings_of(settings), ..Session::opened() };
    (chip.active, chip.buffer, chip.words) = any_banks(random, count);
    chip
}

/// A run across the border between two words, or at the end of the map, stopped after
/// each of its samples: banks and words are the book's.
fn assert_stops_are_the_books(random: &mut Random, older: Option<Part>) {
    let settings = random.below(if older.is_some() { 2 } else { 8 }) as u64;
    let chip = chip_of_words(random, older, settings);
    let data = random.bytes(8);
    // Up or down, all of the run is on an older chip.
    let last = chip.active.len() - 8;
    let start = if random.coin() { random.between(57, 70).min(last) } else { last } as u64;
    let order = Order { direction: 0, settings, start, count: 8, data: &data };
    let all = match chip.older {
        None => sent(&order),
        Some(older) => sent_older(older.top, &order),
    };
    for s in 0..=all.len() {
        let mut stopped = chip.clone();
        stopped.read(&[&all[..s], &[CSB]].concat());
        assert_eq!(kept(&stopped), book(&chip, &order, s), "{order:?} at {s}");
    }
}

#[test]
fn a_run_across_words_stopped_anywhere_is_in_the_book() {
    let mut random = Random::new(5);
    for _ in 0..100 {
        for older in [None, Some(Part::Ad9557), Some(Part::Ad9508)] {
            assert_stops_are_the_books(&mut random, older);
        }
    }
}
