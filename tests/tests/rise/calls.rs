//! A frame across calls, refused ones among them, and lists of calls on two maps.

use couplingnut_tests::calls::{Call, Comparison, Given};
use couplingnut_tests::chip::{line, Chip};
use couplingnut_tests::generate::calls::Chain;
use couplingnut_tests::guarded::Against;
use couplingnut_tests::layout::{from_bytes, to_bytes, ARMED_AT};
use second::reader::RECORD;
use second::session::Session;

use super::{begun, byte, flagged_chip, frame, moved, number, read_from, single_chip, write_to};
use crate::calls::compare_chain;

/// A frame of several instructions: a plain write, a buffered one, reads that find
/// the active byte as it was, and a buffered byte broken off.
fn long_frame() -> Vec<u8> {
    let reads = [read_from(0x0010), byte(0x90), read_from(0x0011), byte(0x00)];
    let writes = [write_to(0x0013), byte(0x12), write_to(0x0010), byte(0x5A)];
    let last = [write_to(0x0007), byte(0x00), write_to(0x0011), number(0x0F, 4)];
    frame(&[&writes[..], &reads, &last].concat())
}

const LONG_LINES: [&str; 6] = [
    "W 0013 12 12 1 81",
    "W 0010 5A 5A 2 0A",
    "R 0010 90 90 0 00",
    "R 0011 91 00 1 00",
    "W 0007 00 00 0 00",
    "C 0011 04 01 0 00",
];

/// The chip after it.
fn after_long_frame() -> Chip {
    let mut chip = single_chip();
    chip.touch(0x0013);
    chip.touch(0x0010);
    chip.active[0x0013] = 0x12;
    chip.buffer[0x0010] = 0x5A;
    chip.active = moved(&chip);
    chip
}

#[test]
fn a_frame_of_several_instructions_moves_at_its_end() {
    let samples = long_frame();
    let mut chip = single_chip();
    assert_eq!(chip.read(&samples), LONG_LINES);
    assert_eq!(chip, after_long_frame());
    // Armed in instructions and reads too, with the second byte whole and to the end.
    let mut chip = single_chip();
    for (sent, &sample) in (1..).zip(&samples) {
        chip.read(&[sample]);
        let armed = (1 + 48 * 2..samples.len()).contains(&sent);
        assert_eq!(chip.session.armed, armed, "after {sent} samples");
        if armed {
            assert_eq!(chip.active[0x0010], 0x90);
        }
    }
}

/// Two calls with every cut between them, the next record and reading.
#[test]
fn a_frame_may_be_spread_over_calls() {
    let mut comparison = Comparison::new("rise::calls::a_frame_may_be_spread_over_calls");
    let (samples, after) = (long_frame(), after_long_frame());
    for cut in 0..=samples.len() {
        let (first, second) = samples.split_at(cut);
        comparison.begin(cut as u64, Against::PageAfter);
        let mut chip = single_chip();
        let lines = [chip.read(first), chip.read(second)].concat();
        assert_eq!(lines, LONG_LINES, "cut after {cut} samples");
        assert_eq!(chip, after, "cut after {cut} samples");

        let mut given = single_chip().given(&[], &[0xEE; RECORD]);
        let lines = [first, second].map(|piece| by_next_record(&mut comparison, &mut given, piece));
        assert_eq!(lines.concat(), LONG_LINES, "cut after {cut} samples");
        assert_eq!((&given.active, &given.buffer), (&after.active, &after.buffer));
        assert_eq!(given.words, after.words);
        assert_eq!(from_bytes(&given.session), Some(after.session));
    }
}

/// Reads the samples one record after the other, and gives the lines.
fn by_next_record(comparison: &mut Comparison, given: &mut Given, samples: &[u8]) -> Vec<String> {
    let mut lines = Vec::new();
    given.samples = samples.to_vec();
    while !given.samples.is_empty() {
        let left = comparison.call(Call::NextRecord, given);
        assert_eq!(left.number, 0);
        given.go_on(&left);
        given.samples.drain(..left.taken as usize);
        lines.extend(left.records.chunks(RECORD).take(left.count as usize).map(line));
    }
    lines
}

/// The record may be frames away from the rise: what is due there has moved.
#[test]
fn the_next_record_moves_before_a_record_of_a_later_frame() {
    let mut comparison =
        Comparison::new("rise::calls::the_next_record_moves_before_a_later_record");
    comparison.begin(0, Against::PageAfter);
    let mut chip = flagged_chip();
    chip.read(&begun(&[write_to(0x0010), byte(0x5A)]));
    let rest = [&[0x01][..], &frame(&[]), &frame(&[read_from(0x0010), byte(0x5A)])].concat();
    let given = chip.given(&rest, &[0xEE; RECORD]);
    let left = comparison.call(Call::NextRecord, &given);
    assert_eq!((left.number, left.count, left.taken), (0, 1, 1 + 3 + 49));
    assert_eq!(line(&left.records), "R 0010 5A 5A 0 00");
    assert_eq!(left.active, moved(&chip));
    // No record at all, and the rise as the only sample.
    for rest in [&[0x01][..], &frame(&[])[1..]] {
        let left = comparison.call(Call::NextRecord, &chip.given(rest, &[]));
        assert_eq!((left.number, left.count, left.taken), (0, 0, rest.len() as u64));
        assert_eq!(left.active, moved(&chip));
        assert_eq!(left.session, to_bytes(&Session::opened()));
    }
}

/// A refused call leaves session and banks, with the rise among its samples.
#[test]
fn a_refused_call_moves_nothing() {
    let mut comparison = Comparison::new("rise::calls::a_refused_call_moves_nothing");
    comparison.begin(0, Against::PageAfter);
    let mut chip = flagged_chip();
    chip.read(&begun(&[write_to(0x0010), byte(0x5A), number(0, 3)]));
    assert!(chip.session.armed);
    for call in Call::READING {
        let short = chip.given(&[0x01], &[0xEE; RECORD - 1]);
        assert_eq!(comparison.call(call, &short), short.untouched(6));
        let spare_bit = chip.given(&[0x01, 0x10], &[0xEE; RECORD]);
        assert_eq!(comparison.call(call, &spare_bit), spare_bit.untouched(5));
        let exact = chip.given(&[0x01], &[0xEE; RECORD]);
        let left = comparison.call(call, &exact);
        assert_eq!((left.number, left.count, &left.active), (0, 1, &moved(&chip)));
    }
}

/// Lists of calls, refused ones among them, for which the flag comes and goes.
#[test]
fn lists_of_calls_on_two_maps_agree() {
    let mut comparison = Comparison::new("rise::calls::lists_of_calls_on_two_maps_agree");
    let mut ends = [[0; 2]; 2];
    for seed in 0..6_000 {
        comparison.begin(seed, Against::PageAfter);
        let chain = Chain::of_two_flags(seed);
        compare_chain(&mut comparison, chain, 20, |call, given, left| {
            if call != Call::Open && given.session[ARMED_AT] == 1 && left.session[ARMED_AT] == 0 {
                let is_moved = left.active != given.active;
                ends[usize::from(given.map[5])][usize::from(is_moved)] += 1;
            }
        });
    }
    comparison.tally.assert_numbers(Call::Read, &[0, 1, 2, 3, 4, 5, 6, 16], 200);
    // Without the flag what changes is a plain register, and with it none may wait.
    let [[kept, _], [_, moved]] = ends;
    assert!(kept > 200 && moved > 200, "{ends:?}");
}
