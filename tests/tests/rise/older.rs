//! The older chips, on which nothing moves at a rise.

use couplingnut_tests::chip::Chip;
use couplingnut_tests::generate::maps::{set_entry, with_flags};
use couplingnut_tests::generate::older::maps::{good_older_map, simple_older_map};
use couplingnut_tests::generate::older::traces::older_trace;
use couplingnut_tests::generate::older::{any_older, PARTS};
use couplingnut_tests::generate::random::Random;
use second::older::Older;

use super::{begun, byte, number};

/// An older chip with the flag: a run to buffered registers, whole and broken off at
/// every sample, leaves them waiting.
#[test]
fn an_older_chip_never_moves_at_a_rise() {
    for part in PARTS {
        let older = Older { part, top: 0x0017 };
        let mut map = with_flags(&simple_older_map(older), 1);
        set_entry(&mut map, 0x0010, [3, 0xFF, 0x11]);
        set_entry(&mut map, 0x000F, [3, 0xFF, 0x22]);
        let chip = Chip::opened_by(Some(older), &map);
        // Two bytes, down from 0x0010; and a stream.
        for length in [0x2000, 0x6000] {
            let run = begun(&[number(length | 0x0010, 16), byte(0x5A), byte(0xA5)]);
            for sent in 0..=run.len() {
                let mut stopped = chip.clone();
                stopped.read(&run[..sent]);
                assert!(!stopped.session.armed);
                stopped.read(&[0x01]);
                assert_eq!(stopped.active, chip.active, "after {sent} samples");
                assert!(!stopped.session.armed);
            }
        }
    }
}

/// The flag changes nothing at all for an older chip.
#[test]
fn the_flag_means_nothing_to_an_older_chip() {
    let mut random = Random::new(1);
    for _ in 0..1_500 {
        let older = any_older(&mut random);
        let older = Older { top: older.top.min(0x0060), ..older };
        let map = good_older_map(&mut random, older);
        let length = random.below(1_500);
        let samples = older_trace(&mut random, older, length);
        let [mut without, mut with] =
            [0, 1].map(|flags| Chip::opened_by(Some(older), &with_flags(&map, flags)));
        assert_eq!(with.read(&samples), without.read(&samples));
        assert_eq!(Chip { map: without.map.clone(), ..with }, without);
    }
}
