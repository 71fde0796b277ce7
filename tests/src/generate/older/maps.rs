//! Maps of older chips, good ones and ones with an entry broken.

use crate::generate::maps::{in_any_version, map_of, Flaw};
use crate::generate::random::Random;
use second::older::{Older, Part};

/// Where the control entries of a part are.
pub fn controls_of(part: Part) -> &'static [usize] {
    match part {
        Part::Ad9557 => &[0x0000, 0x0004, 0x0005],
        Part::Ad9508 => &[0x0000, 0x0005],
    }
}

/// A good map with nothing special in it: beside the control registers every one is
/// plain, with all bits writable and default 0.
pub fn simple_older_map(older: Older) -> Vec<u8> {
    map_of(&simple_entries(older))
}

pub fn simple_entries(older: Older) -> Vec<[u8; 3]> {
    let controls = controls_of(older.part);
    (0..=older.top as usize)
        .map(|address| if controls.contains(&address) { [4, 0, 0] } else { [2, 0xFF, 0x00] })
        .collect()
}

/// A good map, all that the rules leave free at random, the version too.
pub fn good_older_map(random: &mut Random, older: Older) -> Vec<u8> {
    let entries = good_older_entries(random, older);
    in_any_version(random, &entries)
}

pub fn good_older_entries(random: &mut Random, older: Older) -> Vec<[u8; 3]> {
    let controls = controls_of(older.part);
    (0..=older.top as usize)
        .map(|address| if controls.contains(&address) { [4, 0, 0] } else { free_entry(random) })
        .collect()
}

/// An entry of any kind but control.
fn free_entry(random: &mut Random) -> [u8; 3] {
    let mask = if random.coin() { 0xFF } else { random.byte() };
    match random.below(16) {
        0 => [0, 0, 0],
        1 => [1, 0, random.byte()],
        2..=7 => [2, mask, random.byte()],
        _ => [3, mask, random.byte()],
    }
}

/// An entry with this flaw, and where in so many registers of this part.
pub fn broken_older_entry(
    random: &mut Random,
    flaw: Flaw,
    part: Part,
    count: usize,
) -> (usize, [u8; 3]) {
    let control = random.pick(controls_of(part));
    let free = free_address(random, part, count);
    let some = random.between(1, 255) as u8;
    (if flaw.is_of_control() { control } else { free }, flaw.entry(random, some))
}

/// An address without a control entry, often one that a newer chip or the other
/// part has one at.
fn free_address(random: &mut Random, part: Part, count: usize) -> usize {
    loop {
        let anywhere = random.below(count);
        let address = random.pick(&[anywhere, 0x0001, 0x0004, 0x000F, count - 1]);
        if !controls_of(part).contains(&address) {
            return address;
        }
    }
}
