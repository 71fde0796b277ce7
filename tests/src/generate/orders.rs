//! Write orders, and chips at rest that read them.

use super::maps::good_map;
use super::random::Random;
use super::words::any_banks;
use crate::chip::{settings_of, Chip};
use second::sender::{send, Order};
use second::session::{Session, CSB, SCLK};
use second::settings::Settings;

/// A chip at rest, its banks and words at will, its settings those of the order where an
/// order can name them.
pub fn chip_at_rest(random: &mut Random, settings: u64) -> Chip {
    let count = random.between(16, 48);
    let mut chip = Chip::opened(&good_map(random, count));
    (chip.active, chip.buffer, chip.words) = any_banks(random, count);
    let others = [Settings::SDO_ACTIVE, Settings::BUFFER_READBACK];
    let at_will = others.into_iter().filter(|_| random.coin());
    let settings = at_will.fold(settings_of(settings), Settings::with);
    let levels = CSB | random.pick(&[0, SCLK]);
    chip.session = Session { levels, settings, ..Session::opened() };
    chip
}

/// Settings number, start and data of a write that the sender takes. Bytes for
/// control registers are often ones that do something.
pub fn any_write(random: &mut Random) -> (u64, u64, Vec<u8>) {
    loop {
        let count = random.between(1, 12);
        let settings = random.below(8) as u64;
        let start = match random.below(8) {
            0 => random.below(0x8000),
            1 => 0x7FF8 + random.below(8),
            _ => random.below(50),
        };
        let mut data = random.bytes(count);
        for v in &mut data {
            *v = if random.one_in(3) { random.pick(&[0x01, 0x00, 0x80, 0x42, 0x81]) } else { *v };
        }
        let start = start as u64;
        let order = Order { direction: 0, settings, start, count: count as u64, data: &data };
        if send(&order, &mut [0; 1_000]).number == 0 {
            return (settings, start, data);
        }
    }
}

/// Settings number, start and data of a streaming write that passes through 0x0000 or
/// 0x0001: down from the registers of a map and on from 0x7FFF, or up across 0x7FFF
/// and on into them.
pub fn write_through_settings(random: &mut Random) -> (u64, u64, Vec<u8>) {
    let settings = random.below(4) as u64;
    let through = random.below(2);
    let outside = random.below(5);
    let most = random.pick(&[5, 32]);
    let inside = random.below(most);
    let (start, step) = match settings & 2 {
        0 => (through + inside, 0x7FFF),
        _ => (through + 0x8000 - outside, 1),
    };
    let address = |i: usize| (start + i * step) % 0x8000;
    let data = (0..=inside + outside).map(|i| byte_for(random, address(i))).collect();
    (settings, address(0) as u64, data)
}

/// A byte for this register: for 0x0000 a soft reset, another byte that is its own
/// mirror, or one that is not.
fn byte_for(random: &mut Random, address: usize) -> u8 {
    let nibble = random.byte() & 0x0F;
    match (address, random.below(4)) {
        (0x0000, 0 | 1) => mirrored(nibble | 1),
        (0x0000, 2) => mirrored(nibble & 0x0E),
        (0x0000, _) => random.pick(&[0x80, 0x01, 0x40, 0x82, 0x70 | nibble]),
        _ => random.byte(),
    }
}

/// The byte with this low nibble that is its own mirror.
pub fn mirrored(nibble: u8) -> u8 {
    nibble | nibble.reverse_bits()
}
