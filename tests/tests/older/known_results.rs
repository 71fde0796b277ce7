//! Known results of older chips: Figure 48 of document 002, and one each for count,
//! stream, stall, top and address 0.

use couplingnut_tests::by_hand::{clocked, frame};
use couplingnut_tests::chip::sent_older;
use second::sender::Order;

use super::{simple_chip, AD9508, AD9557};

fn write_of(settings: u64, start: u64, data: &[u8]) -> Order<'_> {
    Order { direction: 0, settings, start, count: data.len() as u64, data }
}

/// "Serial Control Port Write - MSB First, 16-Bit Instruction, Two Bytes of Data":
/// register N, then register N - 1.
#[test]
fn figure_48_of_document_002() {
    let samples = frame("0 01 0000000010110 10100101 00111100");
    assert_eq!(samples.len(), 67);
    let mut chip = simple_chip(AD9508, false);
    let opened = chip.session;
    assert_eq!(chip.read(&samples), ["W 0016 A5 A5 1 A5", "W 0015 3C 3C 1 3C"]);
    assert_eq!(chip.session, opened);
    assert_eq!(sent_older(0x002C, &write_of(0, 0x0016, &[0xA5, 0x3C])), samples);
    // The other part with its own top does the same.
    assert_eq!(simple_chip(AD9557, false).read(&samples).len(), 2);
    assert_eq!(sent_older(0x1FFF, &write_of(0, 0x0016, &[0xA5, 0x3C])), samples);
}

/// Lowest bit first all sixteen bits are turned, and the run goes up.
#[test]
fn the_same_lowest_bit_first() {
    let samples = frame("0110100000000 10 0 10100101 00111100");
    let mut chip = simple_chip(AD9508, true);
    assert_eq!(chip.read(&samples), ["W 0016 A5 A5 1 A5", "W 0017 3C 3C 1 3C"]);
    assert_eq!(sent_older(0x002C, &write_of(1, 0x0016, &[0xA5, 0x3C])), samples);
}

/// Three bytes are counted; a fourth and three bits more are passed over.
#[test]
fn a_count() {
    let samples = frame("0 10 0000000100000 00000001 00000010 00000011 11111111 101");
    let mut chip = simple_chip(AD9508, false);
    let opened = chip.session;
    let lines = chip.read(&samples);
    assert_eq!(lines, ["W 0020 01 01 1 01", "W 001F 02 02 1 02", "W 001E 03 03 1 03"]);
    assert_eq!((chip.session, chip.active[0x001D]), (opened, 0x00));
}

/// A stream has no count; a rise ends it, with a cut where bits were taken.
#[test]
fn a_stream() {
    let bits = "0 11 0000000100000 00000001 00000010 00000011 00000100 00000101";
    let lines = [
        "W 0020 01 01 1 01",
        "W 001F 02 02 1 02",
        "W 001E 03 03 1 03",
        "W 001D 04 04 1 04",
        "W 001C 05 05 1 05",
    ];
    let mut chip = simple_chip(AD9508, false);
    let opened = chip.session;
    assert_eq!(chip.read(&frame(bits)), lines);
    assert_eq!(chip.session, opened);
    let cut = simple_chip(AD9508, false).read(&frame(&format!("{bits} 1101")));
    assert_eq!(cut[..5], lines);
    assert_eq!(cut[5..], ["C 001B 04 01 0 00"]);
    let data = [1, 2, 3, 4, 5];
    assert_eq!(sent_older(0x002C, &write_of(0, 0x0020, &data)), frame(bits));
}

/// The select rises before each of two bytes, before the second twice.
#[test]
fn a_stall() {
    let samples = [
        &[0x00][..],
        &clocked("0 01 0000000100000"),
        &[0x00, 0x01, 0x00],
        &clocked("00000111"),
        &[0x01, 0x03, 0x00, 0x01, 0x02],
        &clocked("00001000"),
        &[0x00, 0x01],
    ];
    let mut chip = simple_chip(AD9508, false);
    let opened = chip.session;
    assert_eq!(chip.read(&samples.concat()), ["W 0020 07 07 1 07", "W 001F 08 08 1 08"]);
    assert_eq!(chip.session, opened);
    // The same rise ends a stream: its byte is the start of an instruction.
    let streaming = [
        &[0x00][..],
        &clocked("0 11 0000000100000"),
        &[0x00, 0x01, 0x00],
        &clocked("00000111"),
        &[0x01],
    ];
    assert_eq!(simple_chip(AD9508, false).read(&streaming.concat()), ["C 0000 08 00 0 00"]);
}

/// Up to the top and no further, counted or streaming; a start above it gives
/// nothing at all.
#[test]
fn the_top() {
    let lines = ["W 002B 01 01 1 01", "W 002C 02 02 1 02"];
    // Lowest bit first: thirteen bits of address, two of length, the direction.
    for length in ["01", "11"] {
        let bits = format!("1101010000000 {length} 0 10000000 01000000 11000000 00100000 1");
        assert_eq!(simple_chip(AD9508, true).read(&frame(&bits)), lines);
    }
    for start in ["1011010000000", "0111010000000", "1111111111111"] {
        let bits = format!("{start} 01 0 10000000 01000000 110");
        let mut chip = simple_chip(AD9508, true);
        let before = chip.clone();
        assert_eq!(chip.read(&frame(&bits)), [""; 0], "from {start}");
        assert_eq!(chip, before);
    }
    // Highest bit first from above the top: not even as it comes down to it.
    let bits = "0 11 0000000101101 00000001 00000010";
    assert_eq!(simple_chip(AD9508, false).read(&frame(bits)), [""; 0]);
}

/// Down to 0 and no further: of three counted bytes one is forgotten.
#[test]
fn address_0() {
    let lines = ["W 0001 01 01 1 01", "W 0000 02 00 3 00"];
    for length in ["10", "11"] {
        let bits = format!("0 {length} 0000000000001 00000001 00000010 00000011 1");
        let mut chip = simple_chip(AD9557, false);
        let opened = chip.session;
        assert_eq!(chip.read(&frame(&bits)), lines);
        assert_eq!((chip.session, chip.active[0x1FFF]), (opened, 0x00));
    }
}

/// 0x40 to 0x0000 is no mirror, and needs to be none: lowest bit first from the next
/// instruction on. Bits 7 and 0 start no reset.
#[test]
fn writes_to_0x0000() {
    for older in [AD9557, AD9508] {
        let mut chip = simple_chip(older, false);
        chip.write(0x0020, &[0x55]);
        assert_eq!(chip.write(0x0000, &[0x40]), ["W 0000 40 40 3 00"]);
        assert_eq!(chip.write(0x0020, &[0x66]), ["W 0020 66 66 1 33"]);
        assert_eq!(chip.write(0x0000, &[0x81]), ["W 0000 81 00 3 00"]);
        assert_eq!(chip.active[0x0020], 0x66);
    }
}
