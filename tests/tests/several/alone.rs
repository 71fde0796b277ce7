//! Each chip of the library's call for several against the library's reader of one: its
//! end and its own records are those of the chip alone, whatever the other selects do.

use couplingnut_tests::calls::{self, Call};
use couplingnut_tests::generate::maps::{entries_of, good_map, with_flags};
use couplingnut_tests::generate::random::Random;
use couplingnut_tests::generate::several::{any_call, any_list, any_wire, present, spoil, Wrong};
use couplingnut_tests::guarded::Against;
use couplingnut_tests::library;
use couplingnut_tests::several::{Comparison, Given, Left, Sample};
use second::reader::{READ, RECORD as ALONE};

use super::{assert_as_alone, assert_outside_stays, gone_on, with_wire};

/// Reads all samples by calls cut anywhere, refused ones among them. Gives what the last
/// of them left, with the records of all.
fn read_by_calls(random: &mut Random, comparison: &mut Comparison, given: &Given) -> Left {
    let longest = random.pick(&[1, 20, 300, 5_000]).max(given.wire().len() / 60);
    let (mut left, mut records) = (given.untouched(0), Vec::new());
    let mut rest = given.wire();
    while !rest.is_empty() {
        let (piece, after) = rest.split_at(random.between(0, longest).min(rest.len()));
        let next = gone_on(given, &left, piece);
        if random.one_in(4) {
            let mut refused = next.clone();
            let wrong = random.pick(&Wrong::ALL[..6]);
            spoil(random, &mut refused, &[wrong]);
            assert_eq!(comparison.call(&refused).number, wrong.number());
        }
        left = comparison.call(&next);
        assert_eq!(left.number, 0, "a piece with ample room is read");
        records.extend_from_slice(left.made());
        rest = after;
    }
    let count = records.len() as u64;
    Left { count, records: records.into_flattened(), ..left }
}

#[test]
fn each_chip_ends_as_if_it_had_been_read_alone() {
    library::assert_present();
    let subject = "several::alone::each_chip_ends_as_if_it_had_been_read_alone";
    let mut comparison = Comparison::new(subject);
    let mut one_chip = calls::Comparison::new(subject);
    for seed in 0..1_500 {
        comparison.begin(seed);
        one_chip.begin(seed, Against::PageAfter);
        let mut random = Random::new(seed);
        let given = any_call(&mut random, 1_200);
        let at_once = comparison.call(&given);
        assert_as_alone(&given, &at_once, |alone| one_chip.call(Call::Read, alone));
        assert_outside_stays(&given, &at_once);
        let in_pieces = read_by_calls(&mut random, &mut comparison, &given);
        assert_eq!(in_pieces.made(), at_once.made(), "seed {seed}");
        assert!(in_pieces.chips == at_once.chips && in_pieces.memory == at_once.memory);
    }
    comparison.tally.assert_records(200);
}

/// One chip is quiet while the others talk, and stays as it is.
#[test]
fn a_chip_that_is_not_selected_stays() {
    library::assert_present();
    let mut comparison = Comparison::new("several::alone::a_chip_that_is_not_selected_stays");
    for seed in 0..1_000 {
        comparison.begin(seed);
        let mut random = Random::new(seed);
        let map = good_map(&mut random, 24);
        let quiet = random.below(8);
        let mut wire = any_wire(&mut random, &map, 8, 300);
        wire.iter_mut().for_each(|[selects, _]| *selects |= 1 << quiet);
        let given = with_wire(&Given::opened(&map, 8), &wire);
        let left = comparison.call(&given);
        assert!(left.own_records(quiet).is_empty());
        assert_eq!(left.banks(quiet), given.untouched(0).banks(quiet));
    }
}

/// What a chip ends with, and its own records but for what a 2 can stand for.
type End = (calls::Given, Vec<[u8; ALONE]>);

fn end_of(given: &Given, left: &Left, number: usize) -> End {
    let mut records = left.own_records(number);
    records.iter_mut().filter(|record| record[0] == READ).for_each(|record| record[5] = 0);
    (gone_on(given, left, &[]).alone(number), records)
}

/// The other selects at will: as they were now and then, all low, all high, or at random.
fn with_other_selects(random: &mut Random, given: &Given, number: usize) -> Vec<Sample> {
    let own = 1 << number;
    let others = present(given.chips.len()) & !own;
    let (kind, seldom) = (random.below(4), random.pick(&[2, 20, 200]));
    let altered = |&[selects, lines]: &Sample| {
        let flipped = match kind {
            0 => selects & others,
            1 => !selects & others,
            2 => random.byte() & others,
            _ if random.one_in(seldom) => random.byte() & others,
            _ => 0,
        };
        [selects ^ flipped, lines]
    };
    given.wire().iter().map(altered).collect()
}

#[test]
fn no_select_alters_another_chip() {
    library::assert_present();
    let mut comparison = Comparison::new("several::alone::no_select_alters_another_chip");
    let mut agreements_altered = 0;
    for seed in 0..2_000 {
        comparison.begin(seed);
        let mut random = Random::new(seed);
        let given = any_call(&mut random, 700);
        let left = comparison.call(&given);
        for number in 0..given.chips.len() {
            let wire = with_other_selects(&mut random, &given, number);
            let altered = with_wire(&given, &wire);
            let found = comparison.call(&altered);
            assert_eq!(found.number, 0, "seed {seed}");
            let ends = [end_of(&given, &left, number), end_of(&altered, &found, number)];
            assert!(ends[0] == ends[1], "seed {seed}, chip {number}");
            agreements_altered += u64::from(found.own_records(number) != left.own_records(number));
        }
    }
    assert!(agreements_altered > 500, "only {agreements_altered} lists of records got another 2");
}

/// Ask 4: with the flag and without it, and what the flag moves.
#[test]
fn each_chip_moves_its_own_registers_at_its_own_rise() {
    library::assert_present();
    let subject = "several::alone::each_chip_moves_its_own_registers_at_its_own_rise";
    let mut comparison = Comparison::new(subject);
    let mut one_chip = calls::Comparison::new(subject);
    let mut moved = 0;
    for seed in 0..800 {
        comparison.begin(seed);
        one_chip.begin(seed, Against::PageAfter);
        let mut random = Random::new(seed);
        let map = good_map(&mut random, 32);
        let (flagged, unflagged) = (with_flags(&map, 1), with_flags(&map, 0));
        let chips = random.between(2, 8);
        let wire = any_wire(&mut random, &map, chips, 600);
        let given = with_wire(&any_list(&mut random, &flagged, chips), &wire);
        let left = comparison.call(&given);
        assert_as_alone(&given, &left, |alone| one_chip.call(Call::Read, alone));
        let without = comparison.call(&Given { map: unflagged, ..given });
        let is_buffered = |at: usize| entries_of(&map)[at][0] == 3;
        for number in 0..chips {
            let [active, buffer] = left.banks(number);
            let [other, other_buffer] = without.banks(number);
            let differing: Vec<usize> = (0..32).filter(|&at| active[at] != other[at]).collect();
            assert!(differing.iter().all(|&at| is_buffered(at)), "seed {seed}");
            assert_eq!(buffer, other_buffer, "seed {seed}");
            moved += usize::from(!differing.is_empty());
        }
    }
    assert!(moved > 500, "only {moved} chips moved a register");
}
