//! Number 16 of the reader's calls.

use couplingnut_tests::calls::{Call, Comparison, Given};
use couplingnut_tests::chip::{sent, sent_older, Chip};
use couplingnut_tests::generate::calls::{spoil, Wrong};
use couplingnut_tests::generate::maps::good_map;
use couplingnut_tests::generate::older::maps::good_older_map;
use couplingnut_tests::generate::older::PARTS;
use couplingnut_tests::generate::random::Random;
use couplingnut_tests::generate::words::{any_words, some_words};
use couplingnut_tests::guarded::Against;
use second::older::Older;
use second::reader::{most_records, RECORD};
use second::sender::Order;

use super::{chips_of, SIZES};

/// A call that is done and has a record.
fn good_call(random: &mut Random, is_older: bool) -> Given {
    let count = random.between(16, 200);
    let mut given = if is_older {
        let older = Older { part: random.pick(&PARTS), top: count as u64 - 1 };
        Given::opened_by(Some(older), &good_older_map(random, older))
    } else {
        Given::opened(&good_map(random, count))
    };
    given.words = any_words(random, count);
    // A bit of an instruction, and the cut.
    given.samples = vec![0x00, 0x02, 0x01];
    given.records = random.bytes(RECORD * most_records(3));
    given
}

/// 16 beside each other reason, for both calls and both families.
#[test]
fn sixteen_comes_after_4_and_12_and_before_5() {
    let mut comparison =
        Comparison::new("touched::refusals::sixteen_comes_after_4_and_12_and_before_5");
    let after = [Wrong::Words, Wrong::Samples, Wrong::Room];
    let cases = Wrong::OLDER.into_iter().flat_map(|w| [false, true].map(|older| (w, older)));
    for (wrong, is_older) in cases.filter(|&case| case != (Wrong::Top, false)) {
        for seed in 0..300 {
            comparison.begin(seed, Against::PageAfter);
            let mut random = Random::new(seed);
            let mut given = good_call(&mut random, is_older);
            let call = random.pick(&Call::READING);
            spoil(&mut random, call, &mut given, &[wrong, Wrong::Words]);
            let expected = if after.contains(&wrong) { 16 } else { wrong.number() };
            let left = comparison.call(call, &given);
            assert!(left.number == expected, "{wrong:?}: {} for {expected}", left.number);
        }
    }
}

/// Numbers of words from none to more than the most, and ones of which a narrow type
/// would keep the right one. The samples touch a register.
#[test]
fn every_other_number_of_words_is_16() {
    let mut comparison = Comparison::new("touched::refusals::every_other_number_of_words_is_16");
    let mut random = Random::new(3);
    for (count, right, _) in SIZES {
        for chip in chips_of(count) {
            let samples = writing_0x000a(&chip);
            for length in (0..=130).chain([right + 256, 1_000]) {
                comparison.begin(length as u64, Against::PageAfter);
                let mut given = chip.given(&samples, &[0xEE; RECORD]);
                given.words = some_words(&mut random, length);
                let expected = if length == right { 0 } else { 16 };
                for call in Call::READING {
                    let left = comparison.call(call, &given);
                    assert_eq!(left.number, expected, "{length} words for {count} registers");
                    assert!(left.number == 0 || left == given.untouched(16));
                }
            }
        }
    }
}

/// The samples of one byte to 0x000A, highest bit first.
fn writing_0x000a(chip: &Chip) -> Vec<u8> {
    let order = Order { direction: 0, settings: 0, start: 0x000A, count: 1, data: &[0x3C] };
    match chip.older {
        None => sent(&order),
        Some(older) => sent_older(older.top, &order),
    }
}

/// Opening takes no words: nothing of them is looked at.
#[test]
fn opening_leaves_the_words_alone() {
    let mut comparison = Comparison::new("touched::refusals::opening_leaves_the_words_alone");
    let mut random = Random::new(4);
    for length in [0, 1, 2, 128, 129] {
        comparison.begin(length as u64, Against::PageAfter);
        for chip in chips_of(17) {
            let words = some_words(&mut random, length);
            let given = Given { words: words.clone(), ..chip.given(&[], &[]) };
            let left = comparison.call(Call::Open, &given);
            assert_eq!((left.number, left.words), (0, words));
        }
    }
}
