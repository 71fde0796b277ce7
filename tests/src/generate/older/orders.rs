//! Orders to older chips, and chips at rest that read them.

use super::any_older;
use super::maps::good_older_map;
use crate::chip::Chip;
use crate::generate::random::Random;
use crate::generate::words::any_banks;
use second::older::Older;
use second::sender::Order;
use second::session::{Session, CSB, SCLK};
use second::settings::Settings;

/// The settings that an order can't name.
const OTHERS: [Settings; 4] = [
    Settings::ASCENDING,
    Settings::SDO_ACTIVE,
    Settings::SINGLE_INSTRUCTION,
    Settings::BUFFER_READBACK,
];

/// A chip at rest, its banks and words at will, its bit order that of the order.
pub fn older_at_rest(random: &mut Random, settings: u64) -> Chip {
    let older = any_older(random);
    let older = Older { top: older.top.min(0x0060), ..older };
    let mut chip = Chip::opened_by(Some(older), &good_older_map(random, older));
    (chip.active, chip.buffer, chip.words) = any_banks(random, chip.active.len());
    let ordered = if settings == 1 { Settings::LSB_FIRST } else { Settings::NONE };
    let at_will = OTHERS.into_iter().filter(|_| random.coin());
    let settings = at_will.fold(ordered, Settings::with);
    chip.session = Session { levels: CSB | random.pick(&[0, SCLK]), settings, ..Session::opened() };
    chip
}

/// Start and data of a write that stays within 0 to the top. Short runs are many,
/// and bytes for control registers often ones that do something.
pub fn any_older_write(random: &mut Random, settings: u64, top: u64) -> (u64, Vec<u8>) {
    let room = top as usize + 1;
    let most = random.pick(&[3, 3, 4, 12]);
    let count = random.between(1, most.min(room));
    let lowest = match random.below(4) {
        0 => 0,
        1 => room - count,
        _ => random.below(room - count + 1),
    };
    let start = if settings == 1 { lowest } else { lowest + count - 1 };
    let mut data = random.bytes(count);
    for v in &mut data {
        *v = if random.one_in(3) { random.pick(&[0x01, 0x00, 0x40, 0x41, 0xFF]) } else { *v };
    }
    (start as u64, data)
}

/// The addresses of a run, one after the other, before any wraps.
pub fn older_addresses(order: &Order) -> Vec<u64> {
    let step = |i: u64| match order.settings & 1 {
        1 => order.start.wrapping_add(i),
        _ => order.start.wrapping_sub(i),
    };
    (0..order.count.min(1_000)).map(step).collect()
}

/// Start and data of a write that passes through 0x0000 or 0x0004, mostly a streaming
/// one: down to 0 at the furthest, or up from there.
pub fn older_write_through_settings(
    random: &mut Random,
    settings: u64,
    top: u64,
) -> (u64, Vec<u8>) {
    let through = random.pick(&[0x0000, 0x0004]);
    let lowest = through - random.below(through + 1);
    let most = random.pick(&[3, 9, 9, 14]);
    let highest = (through + random.below(most)).min(top as usize);
    let start = if settings == 1 { lowest } else { highest };
    let mut data = random.bytes(highest - lowest + 1);
    for v in &mut data {
        *v = if random.one_in(3) { random.pick(&[0x00, 0x01, 0x40, 0x81, 0xC3]) } else { *v };
    }
    (start as u64, data)
}
