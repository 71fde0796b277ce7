//! Slow recordings of several chips: Ask 11 of document 02 for all selects. A sample with no
//! spare bit set and the selects and SCLK of the one before it can be put in or left out
//! anywhere.

use couplingnut_tests::generate::calls::MOST_SAMPLES;
use couplingnut_tests::generate::random::Random;
use couplingnut_tests::generate::repeats::{filled, with_repeats, without_repeats, Sample as _};
use couplingnut_tests::generate::sessions::{every_piece, with_every_setting};
use couplingnut_tests::generate::several::{any_call, may_be_contended, noise};
use couplingnut_tests::layout::{from_bytes, to_bytes};
use couplingnut_tests::library;
use couplingnut_tests::several::{Comparison, Given, Left, Sample};
use second::session::{CSB, SCLK};
use second::several::RECORD;

use super::{gone_on, opened, with_wire};

/// The sample that all sessions last saw, if there can be one: where they disagree on
/// SCLK, the first sample of a call repeats none.
fn last_seen(given: &Given) -> Option<Sample> {
    let levels = |i: usize| from_bytes(&given.chips[i].session).expect("a session").levels;
    let clock = levels(0) & SCLK;
    let agree = (0..given.chips.len()).all(|i| levels(i) & SCLK == clock);
    let low = (0..given.chips.len()).filter(|&i| levels(i) & CSB == 0);
    agree.then(|| [low.fold(0xFF, |selects, i| selects & !(1 << i)), clock])
}

/// A call that nothing refuses, all of whose chips last saw the same sample.
fn any_settled(random: &mut Random, comparison: &mut Comparison, most: usize) -> (Given, Sample) {
    let given = any_call(random, most);
    let first = noise(random, given.chips.len(), 1);
    let left = comparison.call(&with_wire(&given, &first));
    let settled = gone_on(&given, &left, given.wire());
    let last = last_seen(&settled).expect("all chips have seen the first sample");
    assert_eq!(last, [first[0][0], first[0][1] & SCLK]);
    (settled, last)
}

/// That the same chips leave the same, also to the byte of the room, with these samples.
fn assert_alike(comparison: &mut Comparison, given: &Given, left: &Left, wire: &[Sample]) {
    let other = Given { samples: wire.as_flattened().to_vec(), ..given.clone() };
    assert!(comparison.call(&other) == *left, "{given:02X?}, and with {wire:02X?}");
}

/// Put in, left out again, and some of the recording's own repeats left out too.
#[test]
fn repeats_alter_nothing() {
    library::assert_present();
    let mut comparison = Comparison::new("several::repeats::repeats_alter_nothing");
    let mut put_in = 0;
    for seed in 0..2_000 {
        comparison.begin(seed);
        let mut random = Random::new(seed);
        let (mut given, last) = any_settled(&mut random, &mut comparison, 700);
        let extra = random.pick(&[0, 0, 1, 8]);
        given.records = random.bytes(RECORD * given.records_due() + extra);
        let left = comparison.call(&given);
        let most = random.pick(&[1, 3, 12]);
        let more = with_repeats(&mut random, last, given.wire(), most);
        let fewer = without_repeats(&mut random, last, &more, 1 << 30);
        let some = without_repeats(&mut random, last, &more, 2);
        for wire in [&more, &fewer, &some] {
            assert_alike(&mut comparison, &given, &left, wire);
        }
        put_in += more.len() - given.wire().len();
    }
    comparison.tally.assert_records(200);
    assert!(put_in > 300_000, "only {put_in} samples were put in");
}

/// Cut anywhere, also between a sample and its repeats.
#[test]
fn repeats_alter_nothing_across_lists_of_calls() {
    library::assert_present();
    let subject = "several::repeats::repeats_alter_nothing_across_lists_of_calls";
    let mut comparison = Comparison::new(subject);
    for seed in 0..600 {
        comparison.begin(seed);
        let mut random = Random::new(seed);
        let (given, last) = any_settled(&mut random, &mut comparison, 500);
        let once = comparison.call(&with_wire(&given, given.wire()));
        let more = with_repeats(&mut random, last, given.wire(), 5);
        let longest = random.pick(&[2, 30, 400]).max(more.len() / 50);
        let (mut left, mut records, mut rest) = (given.untouched(0), Vec::new(), &more[..]);
        while !rest.is_empty() {
            let (piece, after) = rest.split_at(random.between(0, longest).min(rest.len()));
            left = comparison.call(&gone_on(&given, &left, piece));
            records.extend_from_slice(left.made());
            rest = after;
        }
        assert_eq!(records, once.made(), "seed {seed}");
        assert!(left.chips == once.chips && left.memory == once.memory, "seed {seed}");
    }
}

/// With repeats up to the limit a recording is read; with one more it is refused.
#[test]
fn repeats_are_read_up_to_the_limit() {
    library::assert_present();
    let mut comparison = Comparison::new("several::repeats::repeats_are_read_up_to_the_limit");
    for seed in 0..12 {
        comparison.begin(seed);
        let mut random = Random::new(seed);
        let (settled, last) = any_settled(&mut random, &mut comparison, 2_000);
        let given = with_wire(&settled, settled.wire());
        let left = comparison.call(&given);
        let full = filled(&mut random, last, given.wire(), MOST_SAMPLES);
        assert_alike(&mut comparison, &given, &left, &full);
        let at = random.below(full.len());
        let mut beyond = full.clone();
        beyond.insert(at + 1, full[at].repeat(&mut random));
        let beyond = with_wire(&settled, &beyond);
        assert_eq!(comparison.call(&beyond), beyond.untouched(5), "seed {seed}");
    }
}

/// Mid-frame in every piece, armed, marked and at rest, beside a chip in the same.
#[test]
fn repeats_alone_leave_every_session() {
    library::assert_present();
    let mut comparison = Comparison::new("several::repeats::repeats_alone_leave_every_session");
    for (seed, session) in (0..).zip(every_piece().into_iter().flat_map(with_every_setting)) {
        comparison.begin(seed);
        let mut random = Random::new(seed);
        let mut given = opened(2, &[]);
        for chip in &mut given.chips {
            chip.session = to_bytes(&session);
            chip.contended = u8::from(may_be_contended(&session) && random.coin());
        }
        let last = last_seen(&given).expect("both chips have the same session");
        let repeats: Vec<Sample> =
            (0..random.between(1, 4)).map(|_| last.repeat(&mut random)).collect();
        let given = with_wire(&given, &repeats);
        assert_eq!(comparison.call(&given), given.untouched(0), "{session:?}");
    }
}
