//! Stalls: unless streaming, the select may rise before any byte of a run.

use couplingnut_tests::by_hand::clocked;
use couplingnut_tests::chip::Chip;
use couplingnut_tests::generate::older::maps::good_older_map;
use couplingnut_tests::generate::older::{any_older, PARTS};
use couplingnut_tests::generate::random::Random;
use second::older::Older;
use second::session::{Phase, Session, CSB, SCLK};
use second::settings::Settings;

use super::{bytes, instruction, simple_chip, AD9508, AD9557};

/// So many rises and falls, one after the other. At a fall the clock is low, or it
/// moves with the select or stays high.
fn stall(times: usize, variant: usize) -> Vec<u8> {
    let once = [
        &[0x01, 0x00][..],
        &[0x00, 0x01, 0x01, 0x00],
        &[0x03, 0x02],
        &[0x01, 0x03, 0x0D, 0x02],
        &[0x0D, 0x0F, 0x0D, 0x0F, 0x01, 0x00],
    ];
    once[variant % once.len()].repeat(times)
}

/// A counted run: instruction and bytes, as pieces between which it may stall.
fn pieces(read: bool, data: &[u8], start: u16, lsb_first: bool) -> Vec<Vec<u8>> {
    let length = data.len() as u16 - 1;
    let mut pieces = vec![instruction(read, length, start, lsb_first)];
    pieces.extend(data.iter().map(|&v| bytes(&[v], lsb_first)));
    pieces
}

/// Every set of byte borders, with one to three stalls at each, read at once and
/// sample by sample: as without any stall.
#[test]
fn stalls_at_every_byte_border_change_nothing() {
    let mut random = Random::new(1);
    for part in PARTS {
        for (lsb_first, read) in [(false, false), (false, true), (true, false), (true, true)] {
            for many in 1..=3 {
                let older = Older { part, top: 0x0030 };
                let data = random.bytes(many);
                let pieces = pieces(read, &data, 0x0020, lsb_first);
                let chip = simple_chip(older, lsb_first);
                assert_no_change(&chip, &pieces);
            }
        }
    }
}

fn assert_no_change(chip: &Chip, pieces: &[Vec<u8>]) {
    let mut straight = chip.clone();
    let samples = [&[0x00][..], &pieces.concat(), &[0x00, 0x01]].concat();
    let lines = straight.read(&samples);
    assert_eq!(lines.len(), pieces.len() - 1);
    for borders in 0..1 << (pieces.len() - 1) {
        for (times, variant) in (1..=3).flat_map(|times| (0..5).map(move |v| (times, v))) {
            let mut samples = vec![0x00];
            for (i, piece) in pieces.iter().enumerate() {
                if i > 0 && borders >> (i - 1) & 1 == 1 {
                    samples.extend(stall(times, variant + i));
                }
                samples.extend(piece);
            }
            samples.extend([0x00, 0x01]);
            let mut stalled = chip.clone();
            assert_eq!(stalled.read(&samples), lines, "{borders:b}, {times} times");
            assert_eq!(stalled, straight);
            let mut parted = chip.clone();
            let one_by_one = samples.chunks(1).flat_map(|one| parted.read(one));
            assert_eq!(one_by_one.collect::<Vec<_>>(), lines);
            assert_eq!(parted, straight);
        }
    }
}

/// What a stall keeps: all but the last levels. Samples with the select high do
/// nothing else, and at the fall the settings in use are not taken anew.
#[test]
fn a_stall_keeps_the_run_as_it_was() {
    let mut chip = simple_chip(AD9557, true);
    // Up from 0x0000: the byte before the stall clears LSB first.
    let samples = [&[0x00][..], &instruction(false, 2, 0x0000, true), &bytes(&[0x00], true)];
    assert_eq!(chip.read(&samples.concat()), ["W 0000 00 00 3 00"]);
    let run = Session {
        levels: SCLK,
        phase: Phase::Data,
        address: 0x0001,
        settings: Settings::NONE,
        in_use: Settings::LSB_FIRST,
        left: 2,
        ..Session::opened()
    };
    assert_eq!(chip.session, run);
    for (sample, levels) in [
        (0x03, CSB | SCLK),
        (0x01, CSB),
        (0x0F, CSB | SCLK),
        (0x0D, CSB),
        (0x03, CSB | SCLK),
        (0x02, SCLK),
        (0x06, SCLK),
        (0x00, 0),
    ] {
        assert_eq!(chip.read(&[sample]), [""; 0]);
        assert_eq!(chip.session, Session { levels, ..run }, "after {sample:#04X}");
    }
    let rest = [bytes(&[0x12, 0x34], true), vec![0x00, 0x01]].concat();
    assert_eq!(chip.read(&rest), ["W 0001 12 12 1 12", "W 0002 34 34 1 34"]);
    assert_eq!(chip.session, Session::opened());
}

/// "Before any data byte of a run": not after the last, not inside a byte or the
/// instruction. A resumed run is cut as any other.
#[test]
fn a_rise_elsewhere_is_no_stall() {
    for part in PARTS {
        let older = Older { part, top: 0x0030 };
        for many in 1..=3u16 {
            let data: Vec<u8> = (1..=many as u8).collect();
            let pieces = pieces(false, &data, 0x0020, false);
            let whole = [&[0x00][..], &pieces.concat()].concat();
            for bits in 0..=16 + 8 * usize::from(many) {
                let mut chip = simple_chip(older, false);
                chip.read(&[&whole[..1 + 2 * bits], &[0x01]].concat());
                let border = bits >= 16 && bits % 8 == 0 && bits < 16 + 8 * usize::from(many);
                let phase = if border { Phase::Data } else { Phase::Rest };
                assert_eq!(chip.session.phase, phase, "{bits} bits of {many} bytes");
            }
            // Cut after a stall before each byte: the address is the broken byte's.
            for (i, cut) in (0..many).flat_map(|i| (1..8).map(move |cut| (i, cut))) {
                let before = 1 + 2 * (16 + 8 * usize::from(i));
                let samples =
                    [&whole[..before], &[0x01, 0x00], &whole[before..before + 2 * cut], &[0x01]];
                let lines = simple_chip(older, false).read(&samples.concat());
                let address = 0x0020 - i;
                assert_eq!(lines[usize::from(i)..], [format!("C {address:04X} {cut:02X} 01 0 00")]);
            }
        }
    }
}

/// The papers say what follows from a stop at a stall: the next order's recording is
/// read as the rest of the stalled run.
#[test]
fn the_next_frame_resumes_a_stopped_run() {
    let mut chip = simple_chip(AD9508, false);
    let stopped = [&[0x00][..], &instruction(false, 1, 0x0020, false), &[0x00, 0x01]].concat();
    assert_eq!(chip.read(&stopped), [""; 0]);
    assert_eq!(chip.session.levels, CSB);
    // An instruction of 0x0021 and the byte 0x7E: two bytes, and one passed over.
    let next = [&[0x00][..], &clocked("0 00 0000000100001 01111110"), &[0x01]].concat();
    assert_eq!(chip.read(&next), ["W 0020 00 00 1 00", "W 001F 21 21 1 21"]);
    assert_eq!(chip.read(&next), ["W 0021 7E 7E 1 7E"]);
}

/// A frame without any bit, or a cut, gives no more than a wait.
#[test]
fn empty_frames_leave_a_stalled_run_waiting() {
    let mut chip = simple_chip(AD9508, false);
    chip.read(&[&[0x00][..], &instruction(true, 2, 0x0020, false), &[0x01]].concat());
    let waiting = chip.session;
    for _ in 0..5 {
        assert_eq!(chip.read(&[0x00, 0x00, 0x01]), [""; 0]);
        assert_eq!(chip.session, waiting);
    }
    // One bit and a rise: the port is reset.
    assert_eq!(chip.read(&[0x00, 0x02, 0x01]), ["C 0020 01 01 0 00"]);
    assert_eq!(chip.session, Session::opened());
}

/// Runs of any bytes to any chip with stalls at any border: the same records and
/// banks as without.
#[test]
fn any_run_with_stalls_is_the_run_without() {
    let mut random = Random::new(2);
    for _ in 0..3_000 {
        let older = any_older(&mut random);
        let older = Older { top: older.top.min(0x0080), ..older };
        let mut chip = Chip::opened_by(Some(older), &good_older_map(&mut random, older));
        let lsb_first = random.coin();
        if lsb_first {
            chip.session.settings = Settings::LSB_FIRST;
        }
        let many = random.between(1, 3);
        let (data, start) = (random.bytes(many), random.below(older.top as usize + 2) as u16);
        let read = random.one_in(3);
        let pieces = pieces(read, &data, start, lsb_first);
        let mut straight = chip.clone();
        let lines = straight.read(&[&[0x00][..], &pieces.concat(), &[0x01]].concat());
        // A rise is a stall only before a byte that the run still has.
        let mut samples = vec![0x00];
        for (i, piece) in pieces.iter().enumerate() {
            if (1..=lines.len()).contains(&i) && random.coin() {
                samples.extend(stall(random.between(1, 3), random.below(5)));
            }
            samples.extend(piece);
        }
        samples.push(0x01);
        assert_eq!(chip.read(&samples), lines, "{older:X?} {start:#06X} {data:02X?}");
        assert_eq!(chip, straight);
    }
}
