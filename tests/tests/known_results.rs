//! The known results of document 01, by the second implementation and the
//! library and, where the program can show them, by busread.

use couplingnut_tests::both::{map_test, send};
use couplingnut_tests::by_hand::frame;
use couplingnut_tests::chip::{sent, Chip};
use couplingnut_tests::generate::maps::{
    flagged_map_of, map_of, set_entry, simple_map, with_flags,
};
use couplingnut_tests::program::{busread, output_of, Feed};
use second::report::report;
use second::sender::Order;
use second::session::{next_address, Session};
use second::Answer;

/// A streaming write in the settings after opening.
fn write_of(start: u64, data: &[u8]) -> Vec<u8> {
    sent(&Order { direction: 0, settings: 0, start, count: data.len() as u64, data })
}

/// A read of one byte in the settings after opening.
fn read_of(start: u64) -> Vec<u8> {
    sent(&Order { direction: 1, settings: 0, start, count: 1, data: &[] })
}

/// Both programs print this text for this map and these samples.
fn assert_text(map: &[u8], samples: &[u8], expected: &str) {
    let input = [map, samples].concat();
    let text = |bytes: Vec<u8>| String::from_utf8(bytes).expect("the text is ASCII");
    assert_eq!(text(report(&input)), expected, "by the second implementation");
    let ended = output_of(&mut busread(), &input, Feed::Pipe);
    assert_eq!(text(ended.output), expected, "by busread");
}

#[test]
fn the_printed_case() {
    let samples = write_of(0x000A, &[0x3C]);
    assert_eq!(samples.len(), 51);
    assert_text(
        &simple_map(16),
        &samples,
        "map 16\nW 000A 3C 3C 1 3C\nrecords 1 samples 51 slow 0\n",
    );
}

#[test]
fn smallest_and_largest_map() {
    let smallest = simple_map(16);
    assert_eq!((&smallest[..2], smallest.len()), (&[0x00, 0x33][..], 53));
    assert_eq!(map_test(&smallest), 0);
    assert_text(&smallest, &[], "map 16\nrecords 0 samples 0 slow 0\n");

    let largest = simple_map(8_192);
    assert_eq!((&largest[..2], largest.len()), (&[0x60, 0x03][..], 24_581));
    assert_eq!(map_test(&largest), 0);
    assert_text(&largest, &[], "map 8192\nrecords 0 samples 0 slow 0\n");
}

/// The same in version 2 (Ask 3 of document 02), a byte longer.
#[test]
fn smallest_and_largest_map_with_a_flag_byte() {
    for flags in [0, 1] {
        let smallest = with_flags(&simple_map(16), flags);
        assert_eq!(smallest[..6], [0x00, 0x34, 0x02, 0x00, 0x10, flags]);
        assert_eq!((smallest.len(), map_test(&smallest)), (54, 0));
        assert_text(&smallest, &[], "map 16\nrecords 0 samples 0 slow 0\n");

        let largest = with_flags(&simple_map(8_192), flags);
        assert_eq!(largest[..6], [0x60, 0x04, 0x02, 0x20, 0x00, flags]);
        assert_eq!((largest.len(), map_test(&largest)), (24_582, 0));
        assert_text(&largest, &[], "map 8192\nrecords 0 samples 0 slow 0\n");
    }
}

/// The printed case with a map of version 2: it has nothing buffered that the flag
/// could move, and a reserved flag is refused.
#[test]
fn the_printed_case_with_a_flag_byte() {
    let samples = write_of(0x000A, &[0x3C]);
    let printed = "map 16\nW 000A 3C 3C 1 3C\nrecords 1 samples 51 slow 0\n";
    for (flags, text) in [(0, printed), (1, printed), (2, "refused 2\n"), (0x81, "refused 2\n")] {
        assert_text(&with_flags(&simple_map(16), flags), &samples, text);
    }
}

#[test]
fn fifteen_registers_and_8_193_are_refused() {
    let entries = simple_map(16)[5..50].as_chunks().0.to_vec();
    assert_eq!(entries.len(), 15);
    let too_many = simple_map(8_193);
    let flagged = [flagged_map_of(0, &entries), with_flags(&too_many, 0)];
    for map in flagged.into_iter().chain([map_of(&entries), too_many]) {
        assert_eq!(map_test(&map), 2);
        assert_text(&map, &[], "refused 2\n");
    }
}

#[test]
fn bits_outside_the_mask_keep_their_value() {
    let mut map = simple_map(17);
    set_entry(&mut map, 0x0010, [2, 0x0F, 0xA5]);
    let mut chip = Chip::opened(&map);
    assert_eq!(chip.write(0x0010, &[0x3C]), ["W 0010 3C AC 1 09"]);
    assert_eq!(chip.active[0x0010], 0xAC);
    let samples = write_of(0x0010, &[0x3C]);
    assert_text(&map, &samples, "map 17\nW 0010 3C AC 1 09\nrecords 1 samples 51 slow 0\n");
}

#[test]
fn scratch_write_bit_by_bit() {
    let highest_first = frame("0000000000001010 00110101");
    assert_eq!(write_of(0x000A, &[0x35]), highest_first);
    let map = simple_map(16);
    assert_text(&map, &highest_first, "map 16\nW 000A 35 35 1 35\nrecords 1 samples 51 slow 0\n");

    let lowest_first = frame("0101000000000000 10101100");
    let order = Order { direction: 0, settings: 1, start: 0x000A, count: 1, data: &[0x35] };
    assert_eq!(sent(&order), lowest_first);
    let samples = [write_of(0x0000, &[0x42]), lowest_first].concat();
    let expected = "map 16\nW 0000 42 42 3 00\nW 000A 35 35 1 35\nrecords 2 samples 102 slow 0\n";
    assert_text(&map, &samples, expected);
}

#[test]
fn a_write_cut_off() {
    let map = simple_map(16);
    let whole = write_of(0x000A, &[0x3C]);
    for (kept, line) in [
        (47, "C 000A 07 01 0 00\n"),
        (31, "C 0000 0F 00 0 00\n"),
        (33, ""),
        (49, "W 000A 3C 3C 1 3C\n"),
    ] {
        let samples = [&whole[..kept], &[0x01]].concat();
        let (records, length) = (line.lines().count(), samples.len());
        let expected = format!("map 16\n{line}records {records} samples {length} slow 0\n");
        assert_text(&map, &samples, &expected);
    }
}

/// The case of 0x40 as Ask 2 of document 02 has it.
#[test]
fn writes_to_0x0000() {
    for (v, line) in [(0x40, "W 0000 40 00 0 00"), (0x81, "W 0000 81 00 5 00")] {
        let samples = write_of(0x0000, &[v]);
        assert_text(
            &simple_map(16),
            &samples,
            &format!("map 16\n{line}\nrecords 1 samples 51 slow 0\n"),
        );
    }
}

/// Ask 9 of document 02: whole writes to 0x0001 with bit 4 are counted, and the
/// bit is nowhere else.
#[test]
fn slow_writes_are_counted() {
    let mut read = read_of(0x0001);
    // Bit 4 of the byte on the line.
    read[39..41].iter_mut().for_each(|sample| *sample |= 4);
    let broken = [&write_of(0x0001, &[0x10])[..47], &[0x01]].concat();
    let steps = [
        write_of(0x0001, &[0x10]),
        write_of(0x0001, &[0x10]),
        write_of(0x0001, &[0xB0]),
        write_of(0x0001, &[0x20]),
        read,
        broken,
        write_of(0x000A, &[0x10]),
    ];
    let lines = [
        "map 16",
        "W 0001 10 00 3 00",
        "W 0001 10 00 3 00",
        "W 0001 B0 A0 3 00",
        "W 0001 20 20 3 00",
        "R 0001 20 10 1 00",
        "C 0001 07 01 0 00",
        "W 000A 10 10 1 10",
        "records 7 samples 354 slow 3\n",
    ];
    assert_text(&simple_map(16), &steps.concat(), &lines.join("\n"));
    // Over all pieces; a refusal has no last line.
    let many = write_of(0x0001, &[0x10]).repeat(300);
    let lines = "W 0001 10 00 3 00\n".repeat(300);
    let expected = format!("map 16\n{lines}records 300 samples 15300 slow 300\n");
    assert_text(&simple_map(16), &many, &expected);
    let refused = [write_of(0x0001, &[0x10]), vec![0x10]].concat();
    assert_text(&simple_map(16), &refused, "map 16\nrefused 5\n");
}

#[test]
fn addresses_wrap() {
    assert_eq!(next_address(0x0000, false), 0x7FFF);
    assert_eq!(next_address(0x7FFF, true), 0x0000);

    let map = simple_map(16);
    let down = write_of(0x0000, &[0x00, 0x11]);
    let expected = "map 16\nW 0000 00 00 3 00\nW 7FFF 11 00 0 00\nrecords 2 samples 67 slow 0\n";
    assert_text(&map, &down, expected);

    let order = Order { direction: 0, settings: 2, start: 0x7FFF, count: 2, data: &[0x22, 0x24] };
    let up = [write_of(0x0000, &[0x24]), sent(&order)].concat();
    let expected =
        "map 16\nW 0000 24 24 3 00\nW 7FFF 22 00 0 00\nW 0000 24 24 3 00\nrecords 3 samples 118 slow 0\n";
    assert_text(&map, &up, expected);
}

#[test]
fn a_buffered_register_waits_for_the_transfer() {
    let mut map = simple_map(17);
    set_entry(&mut map, 0x0010, [3, 0xFF, 0x11]);

    let mut chip = Chip::opened(&map);
    chip.write(0x0010, &[0x22]);
    assert_eq!(chip.due(0x0010), 0x11);
    chip.write(0x0001, &[0x20]);
    assert_eq!(chip.due(0x0010), 0x22);
    assert_eq!(chip.active[0x0010], 0x11);
    chip.write(0x000F, &[0x01]);
    assert_eq!(chip.active[0x0010], 0x22);

    let steps = [
        write_of(0x0010, &[0x22]),
        read_of(0x0010),
        write_of(0x0001, &[0x20]),
        read_of(0x0010),
        write_of(0x000F, &[0x01]),
        write_of(0x0001, &[0x00]),
        read_of(0x0010),
    ];
    let lines = [
        "map 17",
        "W 0010 22 22 2 33",
        "R 0010 11 00 1 00",
        "W 0001 20 20 3 00",
        "R 0010 22 00 1 00",
        "W 000F 01 00 4 00",
        "W 0001 00 00 3 00",
        "R 0010 22 00 1 00",
        "records 7 samples 357 slow 0\n",
    ];
    assert_text(&map, &steps.concat(), &lines.join("\n"));
}

/// The same map with the flag (Ask 4 of document 02): the end of the frame is the
/// transfer, whole or not, and is not recorded.
#[test]
fn a_buffered_register_waits_for_the_rise() {
    let mut map = with_flags(&simple_map(17), 1);
    set_entry(&mut map, 0x0010, [3, 0xFF, 0x11]);

    let mut chip = Chip::opened(&map);
    assert_eq!(chip.write(0x0010, &[0x22]), ["W 0010 22 22 2 33"]);
    assert_eq!((chip.active[0x0010], chip.session), (0x22, Session::opened()));
    let samples = [write_of(0x0010, &[0x22]), read_of(0x0010)].concat();
    let lines = ["map 17", "W 0010 22 22 2 33", "R 0010 22 00 1 00"];
    assert_text(&map, &samples, &(lines.join("\n") + "\nrecords 2 samples 102 slow 0\n"));

    // The select rises inside the byte after it, at each of its bits.
    let longer = write_of(0x0010, &[0x22, 0x00]);
    for bits in 1..=7 {
        let broken = [&longer[..49 + 2 * bits], &[0x01]].concat();
        let cut = format!("C 000F {bits:02X} 01 0 00");
        let mut chip = Chip::opened(&map);
        assert_eq!(chip.read(&broken), ["W 0010 22 22 2 33", &cut]);
        assert_eq!((chip.active[0x0010], chip.session), (0x22, Session::opened()));
        let samples = [broken, read_of(0x0010)].concat();
        let lines = ["map 17", "W 0010 22 22 2 33", &cut, "R 0010 22 00 1 00"].join("\n");
        let expected = format!("{lines}\nrecords 3 samples {} slow 0\n", samples.len());
        assert_text(&map, &samples, &expected);
    }
}

#[test]
fn a_thousand_bytes() {
    let mut outgoing = vec![0; 48_003];
    let data = vec![0x5A; 1_000];
    for (settings, samples) in [(0, 16_035), (4, 48_003)] {
        let order = Order { direction: 0, settings, start: 0x4000, count: 1_000, data: &data };
        assert_eq!(send(&order, &mut outgoing), Answer { number: 0, count: samples });
    }
}

#[test]
fn empty_and_long_traces() {
    let mut chip = Chip::opened(&simple_map(16));
    assert_eq!(chip.call(&[], &mut []), Answer { number: 0, count: 0 });
    let at_rest = vec![0x01; 65_537];
    assert_eq!(chip.call(&at_rest[1..], &mut []), Answer { number: 0, count: 0 });
    assert_eq!(chip.call(&at_rest, &mut []), Answer { number: 5, count: 0 });
    // The program goes piece by piece, and so has no limit.
    assert_text(&simple_map(16), &at_rest, "map 16\nrecords 0 samples 65537 slow 0\n");
}

/// 4,096 samples never give more than 1,366 records, and can give as many. They
/// need 9,562 bytes (Ask 8 of document 02).
#[test]
fn the_densest_piece() {
    let mut chip = Chip::opened(&simple_map(16));
    chip.read(&[0x00, 0x02]);
    let densest: Vec<u8> = [0x01, 0x00, 0x02].into_iter().cycle().take(4_096).collect();
    let mut records = vec![0; 9_562];
    let too_short = &mut records[..9_561];
    assert_eq!(chip.call(&densest, too_short), Answer { number: 6, count: 0 });
    assert_eq!(chip.call(&densest, &mut records), Answer { number: 0, count: 1_366 });
}
