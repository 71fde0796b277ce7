//! Runs of an older chip: what an instruction says, where a run ends, and what a
//! rise of the select cuts.

use couplingnut_tests::by_hand::{clocked, clocked_number};
use couplingnut_tests::chip::Chip;
use couplingnut_tests::generate::older::{some_olders, PARTS};
use couplingnut_tests::generate::random::Random;
use couplingnut_tests::generate::sessions::{every_setting, USABLE};
use second::older::Older;
use second::session::{Phase, Session, CSB, SCLK};
use second::settings::Settings;

use super::{addresses, bytes, instruction, simple_chip, AD9508, AD9557, STREAMING};

/// The session that passes over bits: the zeros of rest, with the select low.
fn passing(chip: &Chip, clock: u8) -> Session {
    Session { levels: clock, settings: chip.session.settings, ..Session::opened() }
}

/// The session after a whole instruction, by the rules.
fn after_instruction(chip: &Chip, word: u16) -> Session {
    let top = chip.older.expect("an older chip").top;
    let address = word % 0x2000;
    if u64::from(address) > top {
        return passing(chip, SCLK);
    }
    Session {
        levels: SCLK,
        phase: Phase::Data,
        address,
        read: word >= 0x8000,
        settings: chip.session.settings,
        in_use: chip.session.settings,
        left: [1, 2, 3, 4][usize::from(word / 0x2000 % 4)],
        ..Session::opened()
    }
}

fn assert_instruction(chip: &Chip, word: u16, lsb_first: bool) {
    let mut taken = chip.clone();
    let samples = [&[0x00][..], &clocked_number(word, 16, lsb_first)].concat();
    assert_eq!(taken.read(&samples), [""; 0]);
    assert_eq!(taken.session, after_instruction(chip, word), "{word:#06X} to {:?}", chip.older);
}

/// All of the 65,536 instructions, in both bit orders.
#[test]
fn every_instruction_is_taken_apart() {
    for lsb_first in [false, true] {
        let chip = simple_chip(AD9508, lsb_first);
        for word in 0..=0xFFFF {
            assert_instruction(&chip, word, lsb_first);
        }
    }
}

/// Starts at, above and around every top, in every direction and length.
#[test]
fn starts_around_the_top() {
    let mut random = Random::new(1);
    for older in some_olders(&mut random, 4) {
        for lsb_first in [false, true] {
            let chip = simple_chip(older, lsb_first);
            for start in starts(older) {
                for high in 0..8 {
                    assert_instruction(&chip, high << 13 | start, lsb_first);
                }
            }
        }
    }
}

/// Both ends, what is beside them, and the last address that there can be.
fn starts(older: Older) -> Vec<u16> {
    let top = older.top as u16;
    let around = [0, 1, 2, 3, top - 3, top - 2, top - 1, top, top + 1, top + 2, top + 3, 0x1FFF];
    around.into_iter().filter(|&start| start <= 0x1FFF).collect()
}

/// A run from every such start, by count and streaming, up and down, written and
/// read: a record for each byte that goes to an address of the run, and no other.
#[test]
fn a_run_ends_with_its_count_at_0_or_at_the_top() {
    let mut random = Random::new(2);
    for older in some_olders(&mut random, 2) {
        for lsb_first in [false, true] {
            let chip = simple_chip(older, lsb_first);
            for start in starts(older) {
                for (length, read) in (0..4).flat_map(|length| [(length, false), (length, true)]) {
                    assert_run(&chip, read, length, start, lsb_first, 5);
                }
            }
        }
    }
}

/// So many bytes are sent, then three bits more, and the select rises.
fn assert_run(chip: &Chip, read: bool, length: u16, start: u16, lsb_first: bool, sent: usize) {
    let older = chip.older.expect("an older chip");
    let mut chip = chip.clone();
    // No byte changes the bit order, which the control reading would show.
    let order = if lsb_first { 0x40 } else { 0x00 };
    let data: Vec<u8> = (0..sent as u8).map(|i| 0x80 | order | i).collect();
    let due = addresses(older, length, start, lsb_first, sent);
    let letter = if read { 'R' } else { 'W' };
    chip.read(&[0x00]);
    let samples = [instruction(read, length, start, lsb_first), bytes(&data, lsb_first)].concat();
    let lines = chip.read(&samples);
    let found: Vec<&str> = lines.iter().map(|line| &line[..6]).collect();
    let expected: Vec<String> = due.iter().map(|a| format!("{letter} {a:04X}")).collect();
    assert_eq!(found, expected, "{older:X?}: {length} from {start:#06X}");
    let goes_on =
        due.len() == sent && addresses(older, length, start, lsb_first, sent + 1).len() > sent;
    if !goes_on {
        assert_eq!(chip.session, passing(&chip, SCLK), "passing over");
    }
    let next = due.last().map_or(start, |&a| if lsb_first { a + 1 } else { a.wrapping_sub(1) });
    let cut = format!("C {next:04X} 03 01 0 00");
    let ends = chip.read(&[&clocked("101")[..], &[0x01]].concat());
    assert_eq!(ends, if goes_on { vec![cut] } else { vec![] }, "no cut of bits passed over");
    let rest = Session { levels: CSB, ..passing(&chip, 0) };
    assert_eq!(chip.session, rest);
}

/// Runs from every address of the smallest map, with every length and number of
/// bytes that a frame brings.
#[test]
fn every_run_of_the_smallest_map() {
    for part in PARTS {
        for lsb_first in [false, true] {
            let chip = simple_chip(Older { part, top: 0x000F }, lsb_first);
            for start in 0..0x0012 {
                for length in 0..4 {
                    for sent in 0..=4 {
                        assert_run(&chip, false, length, start, lsb_first, sent);
                        assert_run(&chip, true, length, start, lsb_first, sent);
                    }
                }
            }
        }
    }
}

/// Streams over all registers, down to 0 and up to the top.
#[test]
fn a_stream_goes_from_end_to_end() {
    for older in [AD9508, Older { top: 0x0123, ..AD9557 }, Older { top: 0x000F, ..AD9557 }] {
        for lsb_first in [false, true] {
            let mut chip = simple_chip(older, lsb_first);
            let start = if lsb_first { 0 } else { older.top as u16 };
            let count = older.top as usize + 1;
            let keeps_order = [if lsb_first { 0x40 } else { 0x00 }];
            let data = keeps_order.repeat(count + 3);
            let samples = [
                &[0x00][..],
                &instruction(false, STREAMING, start, lsb_first),
                &bytes(&data, lsb_first),
                &[0x01],
            ];
            assert_eq!(chip.read(&samples.concat()).len(), count);
        }
    }
}

/// However many bits come while they are passed over, nothing is taken: not even
/// after as many as an instruction or a byte has.
#[test]
fn bits_are_passed_over_until_the_select_rises() {
    for bits in 0..60 {
        let mut chip = simple_chip(AD9508, false);
        let run = [&[0x00][..], &clocked("0 00 0000000100000 00000001")].concat();
        assert_eq!(chip.read(&run), ["W 0020 01 01 1 01"]);
        let more = clocked(&"1".repeat(bits));
        assert_eq!(chip.read(&more), [""; 0]);
        assert_eq!(chip.session, passing(&chip, SCLK), "{bits} bits");
        assert_eq!(chip.read(&[0x01]), [""; 0]);
        // A new frame is a new instruction.
        let again = [&[0x00][..], &clocked("0 00 0000000100001 00000010"), &[0x01]].concat();
        assert_eq!(chip.read(&again), ["W 0021 02 02 1 02"]);
    }
}

/// A rise at every bit of an instruction and of every byte, counted and streaming,
/// resets the port and cuts the piece.
#[test]
fn a_rise_inside_a_piece_cuts_it() {
    for (lsb_first, length) in (0..4).flat_map(|length| [(false, length), (true, length)]) {
        let piece = instruction(false, length, 0x0020, lsb_first);
        for bits in 1..16 {
            let mut chip = simple_chip(AD9508, lsb_first);
            let before = chip.clone();
            let samples = [&[0x00][..], &piece[..2 * bits], &[0x01]].concat();
            assert_eq!(chip.read(&samples), [format!("C 0000 {bits:02X} 00 0 00")]);
            assert_eq!(chip, before);
        }
        let run = [&[0x00][..], &piece, &bytes(&[1, 2, 3], lsb_first)].concat();
        let due = addresses(AD9508, length, 0x0020, lsb_first, 3);
        for (i, address) in due.into_iter().enumerate() {
            for bits in 1..8 {
                let mut chip = simple_chip(AD9508, lsb_first);
                let opened = chip.session;
                let kept = 1 + 2 * (16 + 8 * i + bits);
                let lines = chip.read(&[&run[..kept], &[0x01]].concat());
                assert_eq!(lines.len(), i + 1);
                assert_eq!(lines[i], format!("C {address:04X} {bits:02X} 01 0 00"));
                assert_eq!(chip.session, opened);
                assert_eq!(chip.active[usize::from(address)], 0x00, "not written");
            }
        }
    }
}

/// At a byte border a rise ends a stream, and it ends what has had its last byte.
#[test]
fn a_rise_at_a_border_ends_a_stream() {
    let run =
        [&[0x00][..], &instruction(false, STREAMING, 0x0020, false), &bytes(&[1, 2, 3], false)]
            .concat();
    for whole in 0..=3 {
        let mut chip = simple_chip(AD9508, false);
        let opened = chip.session;
        let kept = 1 + 2 * (16 + 8 * whole);
        assert_eq!(chip.read(&[&run[..kept], &[0x01]].concat()).len(), whole);
        assert_eq!(chip.session, opened);
        let next = [&[0x00][..], &clocked("0 00 0000000100001 00000010"), &[0x01]].concat();
        assert_eq!(chip.read(&next), ["W 0021 02 02 1 02"]);
    }
}

/// "Bit 6 of register 0x0000 sets bit order from the next instruction": the bytes
/// after it in its run keep the old one.
#[test]
fn a_new_bit_order_counts_from_the_next_instruction() {
    for length in [2, STREAMING] {
        let mut chip = simple_chip(AD9508, true);
        let samples = [
            &[0x00][..],
            &instruction(false, length, 0x0000, true),
            &bytes(&[0x00, 0x12, 0x34], true),
            &[0x01],
        ];
        let lines = chip.read(&samples.concat());
        assert_eq!(lines, ["W 0000 00 00 3 00", "W 0001 12 12 1 12", "W 0002 34 34 1 34"]);
        assert_eq!(chip.session.settings, Settings::NONE);
        let next = [&[0x00][..], &clocked("0 00 0000000100000 00010010"), &[0x01]].concat();
        assert_eq!(chip.read(&next), ["W 0020 12 12 1 12"]);
    }
}

/// "Reads come from SDIO; ascending, SDO active and single instruction, if set in a
/// session, don't count." They are taken in use all the same, and kept.
#[test]
fn three_settings_do_not_count() {
    let lsb_first = Settings::LSB_FIRST;
    for settings in every_setting() {
        let first = settings.has(lsb_first);
        let in_use = USABLE.into_iter().filter(|&one| settings.has(one));
        let in_use = in_use.fold(Settings::NONE, Settings::with);
        for read in [false, true] {
            let mut chip = simple_chip(AD9508, first);
            let plain = chip.clone();
            chip.session.settings = settings;
            let run = run_with_sdo(read, first);
            assert_eq!(chip.read(&run), plain.clone().read(&run), "{settings:?}");
            assert_eq!(chip.session.in_use, in_use);
            let next = if first { 0x0021 } else { 0x001F };
            assert_eq!(chip.read(&[0x01]), [format!("C {next:04X} 03 01 0 00")]);
            assert_eq!(chip.session, Session { levels: CSB, settings, ..Session::opened() });
        }
    }
}

/// One byte from 0x0020 on and three bits more, the levels of SDO all other than
/// those of SDIO.
fn run_with_sdo(read: bool, lsb_first: bool) -> Vec<u8> {
    let mut samples = instruction(read, 1, 0x0020, lsb_first);
    samples.extend(bytes(&[0x3A], lsb_first));
    samples.extend(clocked("110"));
    let with_sdo = samples.into_iter().map(|sample| sample | (!sample & 4) << 1);
    [0x00].into_iter().chain(with_sdo).collect()
}

/// No bit is taken when the select and the clock move together.
#[test]
fn no_bit_is_taken_when_csb_moves_with_the_clock() {
    let mut chip = simple_chip(AD9508, false);
    let fifteen = clocked("0 00 0000000 10000");
    let rising = [&[0x00][..], &fifteen, &[0x00, 0x03]].concat();
    assert_eq!(chip.read(&rising), ["C 0000 0F 00 0 00"]);
    assert_eq!(chip.read(&[0x02, 0x00, 0x02, 0x01]), ["C 0000 01 00 0 00"]);
    assert_eq!(chip.read(&[0x01, 0x02, 0x06, 0x01]), [""; 0]);
}

/// A counted read, step by step: what the session holds after each.
#[test]
fn the_session_between_two_calls() {
    let mut chip = simple_chip(AD9557, false);
    let at_rest = chip.session;
    chip.read(&[0x00]);
    let begun = Session { levels: 0, phase: Phase::Instruction, ..at_rest };
    assert_eq!(chip.session, begun);
    chip.read(&clocked("1 10 0001"));
    assert_eq!(chip.session, Session { levels: SCLK, bits: 7, value: 0b110_0001, ..begun });
    chip.read(&clocked("001000110"));
    let data = Session { levels: SCLK, phase: Phase::Data, address: 0x0246, ..at_rest };
    let data = Session { read: true, left: 3, ..data };
    assert_eq!(chip.session, data);
    chip.read(&clocked("10110"));
    assert_eq!(chip.session, Session { bits: 5, value: 0b10110, ..data });
    assert_eq!(chip.read(&clocked("111")), ["R 0246 00 B7 1 00"]);
    assert_eq!(chip.session, Session { address: 0x0245, left: 2, ..data });
    chip.read(&[0x01]);
    assert_eq!(chip.session, Session { address: 0x0245, left: 2, levels: CSB, ..data });
    chip.read(&[0x00]);
    assert_eq!(chip.read(&clocked("00000000")).len(), 1);
    assert_eq!(chip.session, Session { address: 0x0244, left: 1, ..data });
    assert_eq!(chip.read(&clocked("00000000")).len(), 1);
    assert_eq!(chip.session, Session { levels: SCLK, ..at_rest });
    chip.read(&[0x03]);
    assert_eq!(chip.session, Session { levels: CSB | SCLK, ..at_rest });
}
