//! Generated lists, by both sides.

use couplingnut_tests::both::try_send_setup;
use couplingnut_tests::generate::near::{altered, Altered};
use couplingnut_tests::generate::random::Random;
use couplingnut_tests::generate::setups::{any_setup, list_of, Listed, Setup};
use couplingnut_tests::made::assert_agreed;
use couplingnut_tests::tally::assert_numbers;

use super::{number, recorded};

const LISTS: u64 = 60_000;

/// Every byte of a list takes every value.
#[test]
fn the_call_looks_at_every_byte() {
    let list = list_of(&[Listed::write(0x0002, &[1, 2]), Listed::read(0x0010, 1)]);
    let mut seen = [0; 16];
    for Altered { bytes, .. } in altered(&list) {
        for settings in [0, 4, 7] {
            seen[usize::from(number(settings, &bytes))] += 1;
        }
    }
    for (number, &times) in seen.iter().enumerate() {
        assert_eq!(times > 0, [0, 7, 8, 9, 10, 14].contains(&number), "{number}: {times} times");
    }
}

/// The library in lists with nothing, one thing or several things wrong.
#[test]
fn the_library_agrees_on_good_and_spoilt_lists() {
    let test = "setup::lists::the_library_agrees_on_good_and_spoilt_lists";
    assert_agreed(test, LISTS, assert_reached, |seed| {
        let Setup { settings, list, room } = any_setup(&mut Random::new(seed));
        let agreed = try_send_setup(settings, &list, &vec![0xEE; room]);
        let listing = || format!("settings {settings}, room {room}, list {list:02X?}\n");
        agreed.map_err(|told| (told, listing()))
    });
}

/// That the generated lists reach every number.
#[test]
fn generated_lists_reach_every_number() {
    let mut given = [0; 20];
    for seed in 0..LISTS / 10 {
        let Setup { settings, list, room } = any_setup(&mut Random::new(seed));
        given[usize::from(recorded(settings, &list, room).err().unwrap_or(0))] += 1;
    }
    assert_reached(&given);
}

fn assert_reached(given: &[u64]) {
    assert_numbers("a setup", given, &[0, 7, 8, 9, 10, 11, 14, 15], 50);
}
