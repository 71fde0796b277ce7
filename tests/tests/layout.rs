//! The bytes of a session: the header's table, by hand and by the library.

use couplingnut_tests::by_hand::{clocked, clocked_on};
use couplingnut_tests::calls::{Call, Comparison, Given};
use couplingnut_tests::generate::maps::{set_entry, simple_map, with_flags};
use couplingnut_tests::generate::older::maps::simple_older_map;
use couplingnut_tests::generate::random::Random;
use couplingnut_tests::generate::sessions::{every_piece, sound_session, with_every_setting};
use couplingnut_tests::guarded::Against;
use couplingnut_tests::layout::{
    from_bytes, to_bytes, SessionBytes, FLAGS, LEFT_AT, PHASE_AT, VERSION,
};
use second::older::{Older, Part};
use second::session::{Phase, Session, SCLK};
use second::settings::Settings;

#[test]
fn every_session_goes_to_bytes_and_back() {
    for session in every_piece().into_iter().flat_map(with_every_setting) {
        assert_eq!(from_bytes(&to_bytes(&session)), Some(session));
    }
    let mut random = Random::new(20);
    for _ in 0..20_000 {
        let session = sound_session(&mut random);
        assert_eq!(from_bytes(&to_bytes(&session)), Some(session));
    }
}

/// A session in which no field is like its neighbour, by hand; then what makes
/// its bytes those of no session.
#[test]
fn the_bytes_of_a_session_are_by_the_table() {
    let session = Session {
        levels: SCLK,
        phase: Phase::Data,
        bits: 5,
        value: 0x0013,
        address: 0x4A53,
        read: true,
        settings: Settings::ASCENDING.with(Settings::BUFFER_READBACK),
        in_use: Settings::LSB_FIRST.with(Settings::SINGLE_INSTRUCTION),
        left: 3,
        armed: true,
    };
    let bytes: SessionBytes =
        [4, 0, 1, 2, 5, 0x00, 0x13, 0x4A, 0x53, 1, 0, 1, 0, 0, 1, 1, 0, 0, 1, 3, 1];
    assert_eq!(to_bytes(&session), bytes);
    assert_eq!(from_bytes(&bytes), Some(session));
    let with = |at: usize, value| {
        let mut other = bytes;
        other[at] = value;
        from_bytes(&other)
    };
    for value in (0..=255).filter(|&value| value != VERSION) {
        assert_eq!(with(0, value), None, "version {value}");
    }
    for left in 0..=255 {
        assert_eq!(with(LEFT_AT, left), Some(Session { left, ..session }));
    }
    for value in 2..=255 {
        assert_eq!(with(PHASE_AT, value).is_some(), value == 2, "phase {value}");
        assert!(FLAGS.iter().all(|&at| with(at, value).is_none()), "a flag of {value}");
    }
}

/// Reads on from a call: samples, and the bytes of the session that they have to leave.
fn reading_on(test: &'static str, mut given: Given) -> impl FnMut(&[u8], SessionBytes) {
    let mut comparison = Comparison::new(test);
    move |samples, expected| {
        given.samples = samples.to_vec();
        given.records = vec![0xEE; 60];
        comparison.begin(0, Against::PageAfter);
        let left = comparison.call(Call::Read, &given);
        assert_eq!((left.number, left.session), (0, expected));
        given.go_on(&left);
    }
}

/// Byte 19, which an older chip's runs have: bytes left, the present one
/// included, or 4 for a stream; and the sessions that only an older chip has.
#[test]
fn the_bytes_left_have_their_place() {
    let older = Older { part: Part::Ad9508, top: 0x002C };
    let given = Given::opened_by(Some(older), &simple_older_map(older));
    let mut leaves = reading_on("layout::the_bytes_left_have_their_place", given);
    let counted = [&[0][..], &clocked("1 10 0000000100110")].concat();
    leaves(&counted, [4, 0, 1, 2, 0, 0, 0, 0, 0x26, 1, 0, 0, 0, 0, 0, 0, 0, 0, 0, 3, 0]);
    let byte = clocked("0000 0000");
    leaves(&byte, [4, 0, 1, 2, 0, 0, 0, 0, 0x25, 1, 0, 0, 0, 0, 0, 0, 0, 0, 0, 2, 0]);
    // Waiting, and going on.
    leaves(&[0x01], [4, 1, 0, 2, 0, 0, 0, 0, 0x25, 1, 0, 0, 0, 0, 0, 0, 0, 0, 0, 2, 0]);
    leaves(&[0x00], [4, 0, 0, 2, 0, 0, 0, 0, 0x25, 1, 0, 0, 0, 0, 0, 0, 0, 0, 0, 2, 0]);
    leaves(&byte, [4, 0, 1, 2, 0, 0, 0, 0, 0x24, 1, 0, 0, 0, 0, 0, 0, 0, 0, 0, 1, 0]);
    // Passing over, and at rest.
    leaves(&byte, [4, 0, 1, 0, 0, 0, 0, 0, 0, 0, 0, 0, 0, 0, 0, 0, 0, 0, 0, 0, 0]);
    leaves(&[0x01], [4, 1, 0, 0, 0, 0, 0, 0, 0, 0, 0, 0, 0, 0, 0, 0, 0, 0, 0, 0, 0]);
    let streaming = [&[0][..], &clocked("0 11 0000000100110")].concat();
    leaves(&streaming, [4, 0, 1, 2, 0, 0, 0, 0, 0x26, 0, 0, 0, 0, 0, 0, 0, 0, 0, 0, 4, 0]);
    leaves(&byte, [4, 0, 1, 2, 0, 0, 0, 0, 0x25, 0, 0, 0, 0, 0, 0, 0, 0, 0, 0, 4, 0]);
}

/// Byte 20: set with the whole byte of a buffered register, in a map with the flag,
/// and clear again at the end of the frame.
#[test]
fn the_mark_of_an_armed_session_has_its_place() {
    let mut map = with_flags(&simple_map(17), 1);
    set_entry(&mut map, 0x0010, [3, 0xFF, 0x11]);
    let test = "layout::the_mark_of_an_armed_session_has_its_place";
    let mut leaves = reading_on(test, Given::opened(&map));
    let instruction = [&[0][..], &clocked("0000 0000 0001 0000")].concat();
    leaves(&instruction, [4, 0, 1, 2, 0, 0, 0, 0, 0x10, 0, 0, 0, 0, 0, 0, 0, 0, 0, 0, 0, 0]);
    let bits = clocked("0010 001");
    leaves(&bits, [4, 0, 1, 2, 7, 0, 0x11, 0, 0x10, 0, 0, 0, 0, 0, 0, 0, 0, 0, 0, 0, 0]);
    let bits = clocked("0");
    leaves(&bits, [4, 0, 1, 2, 0, 0, 0, 0, 0x0F, 0, 0, 0, 0, 0, 0, 0, 0, 0, 0, 0, 1]);
    let bits = clocked("11");
    leaves(&bits, [4, 0, 1, 2, 2, 0, 3, 0, 0x0F, 0, 0, 0, 0, 0, 0, 0, 0, 0, 0, 0, 1]);
    leaves(&[0x00, 0x01], [4, 1, 0, 0, 0, 0, 0, 0, 0, 0, 0, 0, 0, 0, 0, 0, 0, 0, 0, 0, 0]);
}

/// Every field by its place: the library reads on and the bytes are those that
/// the table asks for, written out.
#[test]
fn every_field_has_its_place() {
    let given = Given::opened(&simple_map(16));
    let mut leaves = reading_on("layout::every_field_has_its_place", given);
    leaves(&[], [4, 1, 0, 0, 0, 0, 0, 0, 0, 0, 0, 0, 0, 0, 0, 0, 0, 0, 0, 0, 0]);
    leaves(&[0x03], [4, 1, 1, 0, 0, 0, 0, 0, 0, 0, 0, 0, 0, 0, 0, 0, 0, 0, 0, 0, 0]);
    // 0x42 to 0x0000: LSB first, in use from the next instruction on.
    let frame = [&[0][..], &clocked("0000 0000 0000 0000 0100 0010"), &[1]].concat();
    leaves(&frame, [4, 1, 0, 0, 0, 0, 0, 0, 0, 0, 1, 0, 0, 0, 0, 0, 0, 0, 0, 0, 0]);
    leaves(&[0x00], [4, 0, 0, 1, 0, 0, 0, 0, 0, 0, 1, 0, 0, 0, 0, 1, 0, 0, 0, 0, 0]);
    // 0x24 and then 0x18, lowest bit first, each alone.
    let frame = [&clocked("0000 0000 0000 0000 0010 0100")[..], &[1, 0]].concat();
    leaves(&frame, [4, 0, 0, 1, 0, 0, 0, 0, 0, 0, 0, 1, 0, 0, 0, 0, 1, 0, 0, 0, 0]);
    let frame = [&clocked("0000 0000 0000 0000 0001 1000")[..], &[1, 0]].concat();
    leaves(&frame, [4, 0, 0, 1, 0, 0, 0, 0, 0, 0, 0, 0, 1, 0, 0, 0, 0, 1, 0, 0, 0]);
    // 0xB0 to 0x0001: the other two. Bit 4 is none of them.
    let frame = [&clocked("0000 0000 0000 0001 1011 0000")[..], &[1]].concat();
    leaves(&frame, [4, 1, 0, 0, 0, 0, 0, 0, 0, 0, 0, 0, 1, 1, 1, 0, 0, 0, 0, 0, 0]);
    leaves(&[0x00], [4, 0, 0, 1, 0, 0, 0, 0, 0, 0, 0, 0, 1, 1, 1, 0, 0, 1, 1, 0, 0]);
    // A read of 0x4A53, bit by bit; then two bits on SDO.
    let bits = clocked("1100 1010 0101 00");
    leaves(&bits, [4, 0, 1, 1, 14, 0x32, 0x94, 0, 0, 0, 0, 0, 1, 1, 1, 0, 0, 1, 1, 0, 0]);
    let bits = clocked("11");
    leaves(&bits, [4, 0, 1, 2, 0, 0, 0, 0x4A, 0x53, 1, 0, 0, 1, 1, 1, 0, 0, 1, 1, 0, 0]);
    let bits = [&clocked_on(8, "10")[..], &[0]].concat();
    leaves(&bits, [4, 0, 0, 2, 2, 0, 2, 0x4A, 0x53, 1, 0, 0, 1, 1, 1, 0, 0, 1, 1, 0, 0]);
}
