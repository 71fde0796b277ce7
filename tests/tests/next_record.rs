//! The library's call for the next record, against its own `read`: the same
//! samples at once, and one by one.

use couplingnut_tests::calls::{Call, Comparison, Given, Left};
use couplingnut_tests::generate::calls::put_any_state;
use couplingnut_tests::generate::maps::{count, good_map};
use couplingnut_tests::generate::random::Random;
use couplingnut_tests::generate::traces::{clocks, trace};
use couplingnut_tests::guarded::Against;
use second::reader::{most_records, RECORD};

/// A chip in any sound session, with samples and room for their records.
fn any_reading(random: &mut Random, length: usize) -> Given {
    let count = count(random).min(600);
    let map = good_map(random, count);
    let mut given = Given::opened(&map);
    put_any_state(random, &mut given);
    given.samples =
        if random.coin() { clocks(random, length) } else { trace(random, &map, length, true) };
    given.records = random.bytes(RECORD * most_records(length));
    given
}

/// Calls for the next record until no sample is left: what the last one left,
/// and all records.
pub fn one_after_another(comparison: &mut Comparison, given: &Given) -> (Given, Vec<u8>) {
    let mut now = Given { records: vec![0xEE; RECORD], ..given.clone() };
    let mut records = Vec::new();
    loop {
        let left = comparison.call(Call::NextRecord, &now);
        assert_eq!(left.number, 0);
        now.go_on(&left);
        now.samples.drain(..left.taken as usize);
        if left.count == 0 {
            // Without a record all samples were taken.
            assert!(now.samples.is_empty());
            return (now, records);
        }
        assert_eq!(left.count, 1);
        records.extend(left.records);
    }
}

/// That session, banks and words are now what a call left of the same samples.
pub fn assert_state(now: &Given, left: &Left, seed: u64) {
    assert_eq!(now.session, left.session, "seed {seed}");
    assert!(now.active == left.active && now.buffer == left.buffer, "seed {seed}");
    assert_eq!(now.words, left.words, "seed {seed}");
}

#[test]
fn next_records_one_after_another_are_the_samples_read_at_once() {
    let mut comparison =
        Comparison::new("next_record::next_records_one_after_another_are_the_samples_read_at_once");
    for seed in 0..2_000 {
        comparison.begin(seed, Against::PageAfter);
        let mut random = Random::new(seed);
        let length = random.between(0, 1_500);
        let given = any_reading(&mut random, length);
        let read = comparison.call(Call::Read, &given);
        let (after, records) = one_after_another(&mut comparison, &given);
        assert_eq!(read.number, 0);
        assert_eq!(records, read.records[..RECORD * read.count as usize], "seed {seed}");
        assert_state(&after, &read, seed);
    }
    assert!(comparison.tally.calls > 20_000, "{} calls", comparison.tally.calls);
}

/// Reads samples one by one up to the first with a record: how many it took,
/// and what was left.
fn sample_by_sample(comparison: &mut Comparison, given: &Given) -> (usize, Given) {
    let mut now = given.clone();
    for (taken, &sample) in (1..).zip(&given.samples) {
        now.samples = vec![sample];
        let left = comparison.call(Call::Read, &now);
        assert_eq!(left.number, 0);
        now.go_on(&left);
        now.records.clone_from(&left.records);
        if left.count == 1 {
            return (taken, now);
        }
    }
    (given.samples.len(), now)
}

#[test]
fn the_next_record_stands_at_the_first_sample_that_gives_one() {
    let mut comparison =
        Comparison::new("next_record::the_next_record_stands_at_the_first_sample_that_gives_one");
    let (mut with, mut without) = (0, 0);
    for seed in 0..1_500 {
        comparison.begin(seed, Against::PageAfter);
        let mut random = Random::new(seed);
        let length = random.between(0, 120);
        let given = any_reading(&mut random, length);
        let next = comparison.call(Call::NextRecord, &given);
        let (taken, after) = sample_by_sample(&mut comparison, &given);
        assert_eq!((next.number, next.taken), (0, taken as u64), "seed {seed}");
        assert_eq!(next.records, after.records, "seed {seed}");
        assert_state(&after, &next, seed);
        *(if next.count == 1 { &mut with } else { &mut without }) += 1;
    }
    assert!(with > 500 && without > 100, "{with} with a record, {without} without");
}

/// Number 5 looks at all samples handed in, number 6 at the one record.
#[test]
fn the_next_record_is_refused_for_any_sample_and_for_its_own_room_alone() {
    let mut comparison = Comparison::new(
        "next_record::the_next_record_is_refused_for_any_sample_and_for_its_own_room_alone",
    );
    let mut tried = 0;
    for seed in 0..1_000 {
        comparison.begin(seed, Against::PageAfter);
        let mut random = Random::new(seed);
        let mut given = any_reading(&mut random, 600);
        if given.records_due(Call::Read) < 2 {
            continue;
        }
        tried += 1;
        for room in 0..RECORD {
            given.records = random.bytes(room);
            assert_eq!(comparison.call(Call::NextRecord, &given).number, 6);
        }
        given.records = random.bytes(RECORD);
        assert_eq!(comparison.call(Call::Read, &given).number, 6);
        let left = comparison.call(Call::NextRecord, &given);
        assert_eq!((left.number, left.count), (0, 1));
        // A bad sample after the record, and samples too many.
        let at = random.between(left.taken as usize, given.samples.len() - 1);
        given.samples[at] |= 0x10;
        assert_eq!(comparison.call(Call::NextRecord, &given).number, 5);
        given.samples[at] &= 0x0F;
        given.samples.resize(65_537, 0x01);
        assert_eq!(comparison.call(Call::NextRecord, &given).number, 5);
        given.samples.truncate(65_536);
        assert_eq!(comparison.call(Call::NextRecord, &given), left);
    }
    assert!(tried > 800, "only {tried} readings have two records");
}
