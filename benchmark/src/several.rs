//! Reading several chips on one wire, by both sides.

#![allow(unsafe_code)]

use couplingnut_tests::layout::ChipInC;
use couplingnut_tests::library::several::{read_several, Lent};
use couplingnut_tests::several::Given;
use second::several::{self, ListedChip};

use crate::inputs;
use crate::sides::{Side, Space};

const CHIPS: usize = 8;

/// Eight chips after opening, and dense frames to those whose bits are set.
pub fn dense(addressed: u8, registers: usize, length: usize) -> Given {
    let selects = |alone: u8| if alone & 1 == 0 { !addressed } else { 0xFF };
    let frames = inputs::dense(0, 0, length);
    let wire = frames.iter().flat_map(|&alone| [selects(alone), alone & !1]);
    Given { samples: wire.collect(), ..Given::opened(&inputs::map(registers), CHIPS) }
}

/// Room that is sure to suffice.
pub fn space(given: &Given) -> Space {
    Space {
        chips: given.chips.clone(),
        memory: given.memory.clone(),
        ..Space::new(0, given.ample_room())
    }
}

/// Reads from the opened sessions.
pub fn read_by(side: Side, given: &Given, space: &mut Space) {
    space.chips.copy_from_slice(&given.chips);
    match side {
        Side::Proved => proved_read_several(given, space),
        Side::Second => second_read_several(given, space),
    }
}

fn proved_read_several(given: &Given, space: &mut Space) {
    let mut lent = Lent {
        map: &given.map,
        chips: &mut space.chips,
        memory: &mut space.memory,
        samples: &given.samples,
        records: &mut space.out,
        count: &mut space.count,
    };
    space.number = read_several(&mut lent).expect("the library is there");
}

#[no_mangle]
#[inline(never)]
fn second_read_several(given: &Given, space: &mut Space) {
    let Space { chips, memory, out, .. } = space;
    let listed = |chip: &ChipInC| chip.listed().expect("the bytes of an opened session");
    let mut list: Vec<ListedChip> = chips.iter().map(listed).collect();
    let answer = several::read_several(&given.map, &mut list, memory, &given.samples, out);
    chips.iter_mut().zip(list).for_each(|(chip, listed)| *chip = listed.into());
    (space.number, space.count) = (answer.number.into(), answer.count as u64);
}
