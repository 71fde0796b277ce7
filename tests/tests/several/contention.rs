//! By hand: whose records come when, which read bytes are contended, and what each chip
//! ends with.

use couplingnut_tests::calls::Call;
use couplingnut_tests::generate::maps::{set_entry, simple_map, with_flags};
use couplingnut_tests::generate::random::Random;
use couplingnut_tests::generate::several::any_call;
use couplingnut_tests::layout::to_bytes;
use couplingnut_tests::several::{Given, Left};
use second::session::{Phase, Session, SCLK};

use super::{
    assert_as_alone, assert_outside_stays, done, edges, gone_on, lines, opened, read, read_of,
    spoken_to, with_low, with_wire, write_of,
};

/// A chip in a byte of a read, before its last bit or earlier.
fn in_read_byte(bits: u8) -> Session {
    Session {
        levels: 0,
        phase: Phase::Data,
        read: true,
        bits,
        address: 0x000A,
        ..Session::opened()
    }
}

fn in_written_byte(bits: u8) -> Session {
    Session { read: false, ..in_read_byte(bits) }
}

/// The select of chip 1 low in one sample alone.
#[test]
fn each_of_the_eight_edges_counts_and_no_other_sample() {
    for at in 0..51 {
        let agreement = if edges(0).any(|edge| edge == at) { 2 } else { 0 };
        let wire = with_low(&spoken_to(0b001, &read_of(1)), 1, [at]);
        assert_eq!(lines(&opened(3, &wire)), [format!("0: R 000A 00 00 {agreement} 00")], "{at}");
    }
}

/// Low in the instruction and between the edges, and high at each of them.
#[test]
fn a_select_that_is_high_at_the_edges_is_no_contention() {
    let is_edge = |at: &usize| edges(0).any(|edge| edge == *at);
    let elsewhere = (0..51).filter(|at| !is_edge(at));
    let wire = with_low(&spoken_to(0b001, &read_of(1)), 1, elsewhere);
    assert_eq!(lines(&opened(2, &wire)), ["0: R 000A 00 00 0 00"]);
}

#[test]
fn the_2_stands_for_0_and_for_1() {
    let mut unequal = read_of(1);
    edges(0).for_each(|at| unequal[at] |= 0x04);
    for (samples, byte, differs) in [(read_of(1), "00", 0), (unequal, "FF", 1)] {
        let alone = spoken_to(0b100, &samples);
        assert_eq!(lines(&opened(3, &alone)), [format!("2: R 000A 00 {byte} {differs} 00")]);
        let contended = with_low(&alone, 0, edges(0).take(1));
        assert_eq!(lines(&opened(3, &contended)), [format!("2: R 000A 00 {byte} 2 00")]);
    }
}

#[test]
fn all_chips_that_read_at_once_get_the_2() {
    for chips in 2..=8 {
        let all = (0x00FF_u16 >> (8 - chips)) as u8;
        let expected: Vec<_> = (0..chips).map(|i| format!("{i}: R 000A 00 00 2 00")).collect();
        assert_eq!(lines(&opened(chips, &spoken_to(all, &read_of(1)))), expected);
    }
    assert_eq!(lines(&opened(1, &spoken_to(1, &read_of(1)))), ["0: R 000A 00 00 0 00"]);
}

/// The cut's byte 5 stays 0, and so does that of the whole byte after it.
#[test]
fn a_broken_read_byte_is_never_contended() {
    for bits in 1..8 {
        let broken = [&read_of(1)[..33 + 2 * bits], &[0x01]].concat();
        let given = opened(2, &spoken_to(0b11, &broken));
        let (left, found) = done(&given);
        assert_eq!(found, [0, 1].map(|i| format!("{i}: C 000A {bits:02X} 01 0 00")));
        assert!(left.chips.iter().all(|chip| chip.contended == 0));
        let next = gone_on(&given, &left, &spoken_to(0b01, &read_of(1)));
        assert_eq!(lines(&next), ["0: R 000A 00 00 0 00"]);
    }
}

#[test]
fn written_bytes_are_never_contended() {
    let given = opened(3, &spoken_to(0b101, &write_of(0x000A, 0x3C)));
    let (left, found) = done(&given);
    assert_eq!(found, ["0: W 000A 3C 3C 1 3C", "2: W 000A 3C 3C 1 3C"]);
    for (chip, v) in [(0, 0x3C), (1, 0x00), (2, 0x3C)] {
        assert_eq!(left.banks(chip)[0][0x000A], v);
    }
    // Nor is there a mark on the way.
    for bits in 0..8 {
        let begun = opened(2, &spoken_to(0b11, &write_of(0x000A, 0xFF)[..33 + 2 * bits]));
        assert!(done(&begun).0.chips.iter().all(|chip| chip.contended == 0));
    }
}

/// Cut anywhere: the mark tells the second call of an edge in the first.
#[test]
fn the_mark_is_carried_from_call_to_call() {
    for (edge, cut) in edges(0).flat_map(|edge| (0..=51).map(move |cut| (edge, cut))) {
        let wire = with_low(&spoken_to(0b01, &read_of(1)), 1, [edge]);
        let (begun, rest) = wire.split_at(cut);
        let first = opened(2, begun);
        let (left, mut found) = done(&first);
        // The byte is whole with sample 48.
        let marked = edge < cut && cut <= 48;
        assert_eq!(left.chips[0].contended, u8::from(marked), "{edge}, {cut}");
        assert_eq!(left.chips[1].contended, 0);
        let (left, after) = done(&gone_on(&first, &left, rest));
        found.extend(after);
        assert_eq!(found, ["0: R 000A 00 00 2 00"], "{edge}, {cut}");
        assert_eq!(left.chips[0].contended, 0);
    }
}

#[test]
fn each_byte_of_a_run_has_its_own_mark() {
    for contended in 0..3 {
        let wire = with_low(&spoken_to(0b01, &read_of(3)), 1, edges(contended).skip(7));
        let agreement = |i| if i == contended { 2 } else { 0 };
        let expected: Vec<String> =
            (0..3).map(|i| format!("0: R {:04X} 00 00 {} 00", 0x000A - i, agreement(i))).collect();
        assert_eq!(lines(&opened(2, &wire)), expected);
    }
}

/// A mark that is handed in makes the 2, and the rise of the select clears it.
#[test]
fn a_given_mark_counts_for_the_byte_under_way() {
    for bits in 1..8 {
        for marked in [0, 1] {
            let clocks = [[0xFE, 0x00], [0xFE, 0x02]].repeat(8 - usize::from(bits));
            let mut given = opened(2, &clocks);
            given.chips[0].session = to_bytes(&in_read_byte(bits));
            given.chips[0].contended = marked;
            assert_eq!(lines(&given), [format!("0: R 000A 00 00 {} 00", 2 * marked)]);
            let (left, found) = done(&with_wire(&given, &[[0xFF, 0x00]]));
            assert_eq!(found, [format!("0: C 000A {bits:02X} 01 0 00")]);
            assert_eq!(left.chips[0].contended, 0);
            let (left, _) = done(&with_wire(&given, &[[0xFE, 0x0C], [0xFC, 0x00], [0xFE, 0x00]]));
            assert_eq!(left.chips[0].contended, marked, "no edge, nothing else");
        }
    }
}

/// By time, and those of one sample by the number of the chip.
#[test]
fn records_stand_by_time_and_then_by_chip() {
    let mut given = opened(4, &[[0xF0, 0x02], [0xF0, 0x00], [0xF4, 0x02], [0xFF, 0x00]]);
    for (chip, bits) in given.chips.iter_mut().zip([6, 7, 5, 7]) {
        chip.session = to_bytes(&in_written_byte(bits));
    }
    let expected = [
        "1: W 000A 00 00 1 00",
        "3: W 000A 00 00 1 00",
        "0: W 000A 00 00 1 00",
        "2: C 000A 06 01 0 00",
        "1: C 0009 01 01 0 00",
        "3: C 0009 01 01 0 00",
    ];
    assert_eq!(lines(&given), expected);
}

/// The same sample is a rising clock to one chip, and none to another.
#[test]
fn each_chip_goes_by_the_levels_that_it_last_saw() {
    let mut given = opened(3, &[[0xF8, 0x02], [0xFF, 0x02]]);
    let begun = Session { levels: 0, phase: Phase::Instruction, ..Session::opened() };
    given.chips[0].session = to_bytes(&Session { levels: SCLK, ..begun });
    given.chips[1].session = to_bytes(&begun);
    let (left, found) = done(&given);
    assert_eq!(found, ["1: C 0000 01 00 0 00"]);
    let at_rest = Session { levels: 0x03, ..Session::opened() };
    assert!(left.chips.iter().all(|chip| chip.session == to_bytes(&at_rest)));
}

/// Ask 4: each chip moves its buffered registers at its own rise.
#[test]
fn each_chip_moves_at_the_rise_of_its_own_select() {
    let mut map = simple_map(17);
    set_entry(&mut map, 0x0010, [3, 0xFF, 0x11]);
    let written = spoken_to(0b011, &write_of(0x0010, 0x22)[..49]);
    for (flags, moved) in [(1, 0x22), (0, 0x11)] {
        let given = with_wire(&Given::opened(&with_flags(&map, flags), 3), &written);
        let (left, found) = done(&given);
        assert_eq!(found, [0, 1].map(|i| format!("{i}: W 0010 22 22 2 33")));
        let actives = |left: &Left| [0, 1, 2].map(|chip| left.banks(chip)[0][0x0010]);
        assert_eq!(actives(&left), [0x11; 3]);
        let one = done(&gone_on(&given, &left, &[[0xFE, 0x00]])).0;
        assert_eq!(actives(&one), [0x11, moved, 0x11]);
        let both = done(&gone_on(&given, &one, &[[0xFF, 0x00]])).0;
        assert_eq!(actives(&both), [moved, moved, 0x11]);
    }
}

#[test]
fn each_chip_ends_as_if_it_had_been_read_alone() {
    for seed in 0..600 {
        let given = any_call(&mut Random::new(seed), 900);
        assert_as_alone(&given, &read(&given), |alone| alone.expected(Call::Read));
    }
}

#[test]
fn memory_outside_the_ranges_stays() {
    for seed in 0..600 {
        let given = any_call(&mut Random::new(seed), 500);
        assert_outside_stays(&given, &read(&given));
    }
}
