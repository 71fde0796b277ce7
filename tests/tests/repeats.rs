//! Slow recordings, by both sides: Ask 11 of document 02. A sample with no spare bit set
//! and the same CSB and SCLK as the one before it, which for the first of a call is what
//! the session last saw, can be put in or left out anywhere. Number, records, both banks,
//! words and session stay what they were.

use couplingnut_tests::calls::{Call, Comparison, Given, Left};
use couplingnut_tests::chip::{sent, Chip};
use couplingnut_tests::generate::calls::{spoil, Wrong, MOST_SAMPLES};
use couplingnut_tests::generate::maps::{good_map, simple_map, with_flags};
use couplingnut_tests::generate::older::maps::good_older_map;
use couplingnut_tests::generate::older::sessions::every_older_piece;
use couplingnut_tests::generate::older::PARTS;
use couplingnut_tests::generate::random::Random;
use couplingnut_tests::generate::repeats::{
    any_reading, filled, last_levels, sampled, with_repeats, without_repeats, Sample,
};
use couplingnut_tests::generate::sessions::{every_piece, with_every_setting};
use couplingnut_tests::guarded::Against;
use couplingnut_tests::layout::to_bytes;
use couplingnut_tests::library;
use second::older::Older;
use second::reader::{most_records, RECORD};
use second::sender::Order;
use second::session::{Phase, Session, CSB};
use second::Answer;

/// The record of the run below.
const WRITTEN: &str = "W 000A 3C 3C 1 3C";

/// The 51 samples of a streaming write of 0x3C to 0x000A.
fn run() -> Vec<u8> {
    sent(&Order { direction: 0, settings: 0, start: 0x000A, count: 1, data: &[0x3C] })
}

/// The run with a sample put in there.
fn run_with(at: usize, sample: u8) -> Vec<u8> {
    let mut samples = run();
    samples.insert(at, sample);
    samples
}

fn opened() -> Chip {
    Chip::opened(&simple_map(16))
}

/// A call with a recording of up to so many samples, and with room for its records;
/// sometimes with more, or less.
fn any_call(random: &mut Random, most: usize) -> Given {
    let length = random.between(0, most);
    let mut given = any_reading(random, length);
    let needed = RECORD * given.records_due(Call::Read);
    let room = match random.below(8) {
        0 => needed + random.below(30),
        1 => needed.saturating_sub(1),
        _ => needed,
    };
    given.records = random.bytes(room);
    given
}

/// That both sides leave the same of the same call with these samples. The next record
/// has other samples to take.
fn assert_alike(comparison: &mut Comparison, call: Call, given: &Given, samples: &[u8]) -> Left {
    let left = comparison.call(call, given);
    let other = Given { samples: samples.to_vec(), ..given.clone() };
    let found = comparison.call(call, &other);
    let found = Left { taken: left.taken, ..found };
    assert!(found == left, "{call:?} of {given:02X?}, and with {samples:02X?}");
    left
}

/// Put in, left out again, and some of the recording's own repeats left out too.
#[test]
fn repeats_alter_nothing() {
    library::assert_present();
    let mut comparison = Comparison::new("repeats::repeats_alter_nothing");
    let (mut put_in, mut left_out) = (0, 0);
    for seed in 0..4_000 {
        comparison.begin(seed, Against::of_seed(seed));
        let mut random = Random::new(seed);
        let given = any_call(&mut random, 900);
        let last = last_levels(&given);
        let most = random.pick(&[1, 3, 12]);
        let more = with_repeats(&mut random, last, &given.samples, most);
        let fewer = without_repeats(&mut random, last, &more, 1 << 30);
        let some = without_repeats(&mut random, last, &more, 2);
        for samples in [&more, &fewer, &some] {
            assert_alike(&mut comparison, Call::Read, &given, samples);
        }
        assert_alike(&mut comparison, Call::NextRecord, &given, &more);
        put_in += more.len() - given.samples.len();
        left_out += given.samples.len() - fewer.len();
    }
    comparison.tally.assert_numbers(Call::Read, &[0, 6], 1_000);
    comparison.tally.assert_records(6, 100);
    assert!(put_in > 1_000_000, "only {put_in} samples were put in");
    assert!(left_out > 200_000, "only {left_out} samples of recordings were left out");
}

/// Calls that are refused for anything but too many samples are so with repeats too.
#[test]
fn refused_calls_are_refused_with_repeats_too() {
    library::assert_present();
    let mut comparison = Comparison::new("repeats::refused_calls_are_refused_with_repeats_too");
    for seed in 0..4_000 {
        comparison.begin(seed, Against::of_seed(seed));
        let mut random = Random::new(seed);
        let mut given = any_call(&mut random, 300);
        let last = last_levels(&given);
        let wrongs = match given.older {
            Some(_) => &Wrong::OLDER[..7],
            None => &Wrong::ALL[..6],
        };
        let wrong = random.pick(wrongs);
        spoil(&mut random, Call::Read, &mut given, &[wrong]);
        given.samples.truncate(MOST_SAMPLES);
        let more = with_repeats(&mut random, last, &given.samples, 3);
        let more = if more.len() > MOST_SAMPLES { &given.samples } else { &more };
        assert_alike(&mut comparison, Call::Read, &given, more);
    }
    comparison.tally.assert_numbers(Call::Read, &[0, 1, 2, 3, 4, 5, 6, 12, 16], 4);
}

/// Reads the samples by a list of calls, refused ones among them. Gives what it ends
/// with, and all records.
fn read_by_calls(
    random: &mut Random,
    comparison: &mut Comparison,
    given: &Given,
    samples: &[u8],
) -> (Given, Vec<u8>) {
    let longest = random.pick(&[3, 70, 900, MOST_SAMPLES]).max(samples.len() / 60);
    let (mut now, mut records, mut rest) = (given.clone(), Vec::new(), samples);
    while !rest.is_empty() {
        let (piece, after) = rest.split_at(random.between(0, longest).min(rest.len()));
        now.samples = piece.to_vec();
        now.records = vec![0xEE; RECORD * most_records(piece.len())];
        if random.one_in(4) {
            let mut refused = now.clone();
            let wrong = random.pick(&[Wrong::Session, Wrong::Banks, Wrong::Samples]);
            spoil(random, Call::Read, &mut refused, &[wrong]);
            assert_eq!(comparison.call(Call::Read, &refused).number, wrong.number());
        }
        let left = comparison.call(Call::Read, &now);
        assert_eq!(left.number, 0, "a piece with ample room is read");
        records.extend_from_slice(&left.records[..RECORD * left.count as usize]);
        now.go_on(&left);
        rest = after;
    }
    now.samples.clear();
    now.records.clear();
    (now, records)
}

/// Cut anywhere, also between a sample and its repeats.
#[test]
fn repeats_alter_nothing_across_lists_of_calls() {
    library::assert_present();
    let mut comparison = Comparison::new("repeats::repeats_alter_nothing_across_lists_of_calls");
    for seed in 0..1_500 {
        comparison.begin(seed, Against::of_seed(seed));
        let mut random = Random::new(seed);
        let length = random.between(1, 700);
        let given = any_reading(&mut random, length);
        let last = last_levels(&given);
        let more = with_repeats(&mut random, last, &given.samples, 5);
        let fewer = without_repeats(&mut random, last, &more, 1 << 30);
        let once = read_by_calls(&mut random, &mut comparison, &given, &given.samples);
        for samples in [&more, &fewer] {
            let again = read_by_calls(&mut random, &mut comparison, &given, samples);
            assert!(again == once, "{given:02X?}, and with {samples:02X?}");
        }
    }
    comparison.tally.assert_records(6, 40);
}

#[test]
fn a_recording_sampled_ten_times_as_often_reads_the_same() {
    library::assert_present();
    let mut comparison =
        Comparison::new("repeats::a_recording_sampled_ten_times_as_often_reads_the_same");
    for seed in 0..1_500 {
        comparison.begin(seed, Against::of_seed(seed));
        let mut random = Random::new(seed);
        let given = any_call(&mut random, 900);
        let often = sampled(&mut random, &given.samples, 10);
        assert_eq!(often.len(), 10 * given.samples.len());
        assert_alike(&mut comparison, Call::Read, &given, &often);
    }
    comparison.tally.assert_records(6, 20);
    let mut chip = opened();
    assert_eq!(chip.read(&sampled(&mut Random::new(0), &run(), 10)), [WRITTEN]);
}

/// More samples than one call takes.
#[test]
fn a_long_recording_sampled_ten_times_as_often_reads_the_same() {
    library::assert_present();
    let mut comparison =
        Comparison::new("repeats::a_long_recording_sampled_ten_times_as_often_reads_the_same");
    for seed in 0..8 {
        comparison.begin(seed, Against::of_seed(seed));
        let mut random = Random::new(seed);
        let given = any_reading(&mut random, 20_000);
        let often = sampled(&mut random, &given.samples, 10);
        let once = read_by_calls(&mut random, &mut comparison, &given, &given.samples);
        let again = read_by_calls(&mut random, &mut comparison, &given, &often);
        assert!(again == once, "the recording of seed {seed}");
    }
}

/// That repeats alone leave everything, whatever the session.
fn assert_repeats_leave(comparison: &mut Comparison, older: Option<Older>, map: &[u8]) {
    let pieces = match older {
        Some(_) => every_older_piece(),
        None => every_piece(),
    };
    let opened = Given::opened_by(older, map);
    for (seed, session) in (0..).zip(pieces.into_iter().flat_map(with_every_setting)) {
        comparison.begin(seed, Against::of_seed(seed));
        let mut random = Random::new(seed);
        let mut given = Given { session: to_bytes(&session), ..opened.clone() };
        given.samples =
            (0..random.between(1, 4)).map(|_| session.levels.repeat(&mut random)).collect();
        given.records = random.bytes(8);
        assert!(comparison.call(Call::Read, &given) == given.untouched(0), "{given:02X?}");
    }
}

/// Mid-frame in every piece, armed, stalled, passing over and at rest.
#[test]
fn repeats_alone_leave_every_session() {
    library::assert_present();
    let mut comparison = Comparison::new("repeats::repeats_alone_leave_every_session");
    let mut random = Random::new(7);
    let map = with_flags(&good_map(&mut random, 18), 1);
    assert_repeats_leave(&mut comparison, None, &map);
    let top = 0x0010;
    for older in PARTS.map(|part| Older { part, top }) {
        let map = good_older_map(&mut random, older);
        assert_repeats_leave(&mut comparison, Some(older), &map);
    }
    assert!(comparison.tally.calls > 100_000, "only {} sessions", comparison.tally.calls);
}

/// With repeats up to the limit a recording is read; with one more it is refused,
/// and without that one it is read again.
#[test]
fn repeats_are_read_up_to_the_limit() {
    library::assert_present();
    let mut comparison = Comparison::new("repeats::repeats_are_read_up_to_the_limit");
    let mut read = 0;
    for seed in 0..40 {
        comparison.begin(seed, Against::of_seed(seed));
        let mut random = Random::new(seed);
        let given = any_call(&mut random, 3_000);
        let last = last_levels(&given);
        let full = filled(&mut random, last, &given.samples, MOST_SAMPLES);
        assert_eq!(full.len(), MOST_SAMPLES);
        read += usize::from(assert_alike(&mut comparison, Call::Read, &given, &full).number == 0);

        let at = random.below(full.len());
        let mut beyond = full.clone();
        beyond.insert(at + 1, full[at].repeat(&mut random));
        let beyond = Given { samples: beyond, ..given };
        assert!(comparison.call(Call::Read, &beyond) == beyond.untouched(5), "seed {seed}");
    }
    assert!(read > 20, "only {read} recordings were read");
}

/// The repeats are repeats of the sample before: SCLK may not differ.
#[test]
fn a_sample_with_another_clock_level_alters_the_outcome() {
    assert_eq!(opened().read(&run()), [WRITTEN]);
    // After the fall of the select a clock that rises: one bit more, so that 0x3C is
    // for 0x0005 and late by a bit.
    let late = ["W 0005 1E 00 0 00", "C 0004 01 01 0 00"];
    let mut chip = opened();
    assert_eq!(chip.read(&run_with(1, 0x02)), late);
    assert_eq!(chip.active, opened().active);

    // A clock that falls between two samples with a high one.
    let mut twice: Vec<u8> = run().into_iter().flat_map(|sample| [sample, sample]).collect();
    assert_eq!(opened().read(&twice), [WRITTEN]);
    assert_eq!(twice[3..7], [0x00, 0x02, 0x02, 0x00]);
    twice.insert(5, 0x00);
    assert_eq!(opened().read(&twice), late);

    // At the end it stays in the session.
    let (mut low, mut high) = (opened(), opened());
    low.read(&[run(), vec![0x0D]].concat());
    high.read(&[run(), vec![0x03]].concat());
    assert_eq!((low.session.levels, high.session.levels), (0x01, 0x03));
}

/// CSB may not differ either.
#[test]
fn a_sample_with_another_select_level_alters_the_outcome() {
    // A rise after four bits of the byte: it is cut, and the others begin an instruction.
    let mut chip = opened();
    assert_eq!(chip.read(&run_with(41, 0x01)), ["C 000A 04 01 0 00", "C 0000 04 00 0 00"]);
    assert_eq!(chip.active, opened().active);

    // A fall after the frame begins another one.
    let mut chip = opened();
    assert_eq!(chip.read(&run_with(51, 0x00)), [WRITTEN]);
    let begun = Session { levels: 0, phase: Phase::Instruction, ..Session::opened() };
    assert_eq!(chip.session, begun);
}

/// No spare bit may be set: the recording is refused, and all stays as it was.
#[test]
fn a_sample_with_a_spare_bit_alters_the_outcome() {
    let samples = run();
    for (at, spare) in (0..=51).flat_map(|at| [0x10, 0x20, 0x40, 0x80].map(|spare| (at, spare))) {
        let before = if at == 0 { CSB } else { samples[at - 1] };
        let mut chip = opened();
        let mut records = [0xEE; RECORD];
        assert_eq!(chip.clone().read(&run_with(at, before)), [WRITTEN]);
        let answer = chip.call(&run_with(at, before | spare), &mut records);
        assert_eq!(answer, Answer { number: 5, count: 0 });
        assert_eq!((chip, records), (opened(), [0xEE; RECORD]));
    }
}

/// It is the sample before that counts, and not the one after: where the clock rises,
/// the first sample with it high has the bit.
#[test]
fn a_repeat_of_the_sample_after_it_alters_the_outcome() {
    assert_eq!(run()[37..39], [0x04, 0x06]);
    assert_eq!(opened().read(&run_with(39, 0x02)), [WRITTEN]);
    assert_eq!(opened().read(&run_with(38, 0x02)), ["W 000A 1C 1C 1 1C"]);
}

/// The first sample of a call goes by what the session last saw.
#[test]
fn the_first_sample_of_a_call_repeats_what_the_session_last_saw() {
    let (first, second) = (&run()[..36], &run()[36..]);
    assert_eq!((first[35], second[0]), (0x00, 0x02));
    for (put_in, lines) in [
        (0x00, vec![WRITTEN]),
        (0x04, vec![WRITTEN]),
        (0x08, vec![WRITTEN]),
        (0x0C, vec![WRITTEN]),
        (0x06, vec!["W 000A 7C 7C 1 7C"]),
        (0x01, vec!["C 000A 01 01 0 00", "C 0000 06 00 0 00"]),
    ] {
        let mut chip = opened();
        assert!(chip.read(first).is_empty());
        assert_eq!(chip.read(&[&[put_in], second].concat()), lines, "{put_in:#04X}");
    }
}
