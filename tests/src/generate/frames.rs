//! Lists of single registers with their bytes (document 02, Ask 13), good and
//! spoilt.

use super::random::Random;

/// The registers that no list may have.
pub const CONTROLS: [u16; 3] = [0x0000, 0x0001, 0x000F];

/// A whole call: the wished direction, the list, and how much room there is.
#[derive(Clone, Debug)]
pub struct Frames {
    pub ascending: u64,
    pub addresses: Vec<u16>,
    pub bytes: Vec<u8>,
    pub room: usize,
}

/// So many addresses at most that a list may have, strictly rising: stretches of
/// neighbours and gaps, or none of either.
pub fn good_addresses(random: &mut Random, most: usize) -> Vec<u16> {
    let start = match random.below(4) {
        0 => random.below(0x20),
        1 => random.below(0x7FF0),
        2 => 0x7FFF - random.below(2 * most.min(0x3000)),
        _ => random.below(0x40),
    };
    let dense = random.pick(&[1, 2, 6, 40]);
    let mut addresses = Vec::new();
    let mut address = start;
    while address <= 0x7FFF && addresses.len() < most {
        if !CONTROLS.contains(&(address as u16)) {
            addresses.push(address as u16);
        }
        address += if random.one_in(dense) { random.between(2, 5) } else { 1 };
    }
    addresses
}

/// The bytes that the orders of a good list take: 8 and the data for each stretch.
pub fn needed(addresses: &[u16]) -> usize {
    let starts = addresses.iter().filter(|&&a| a == 0 || !addresses.contains(&(a - 1)));
    8 * starts.count() + addresses.len()
}

/// A call with nothing, one thing or several things wrong.
pub fn any_frames(random: &mut Random) -> Frames {
    let most = match random.below(32) {
        0 => 1_000,
        1 => random.between(1, 1_000),
        _ => random.between(1, 24),
    };
    let mut addresses = good_addresses(random, most);
    let mut bytes = random.bytes(addresses.len());
    let needed = needed(&addresses);
    let mut room = if random.one_in(4) { needed + random.below(9) } else { needed };
    for _ in 0..random.pick(&[0, 0, 0, 1, 1, 2]) {
        match random.below(7) {
            0 => room = room.saturating_sub(1),
            1 => room = random.below(room + 1),
            2 => drop(bytes.pop()),
            3 => bytes.push(random.byte()),
            4 => addresses.resize(1_001, 0x7FFF),
            _ => spoil(random, &mut addresses),
        }
    }
    let ascending = random.pick(&[0, 0, 0, 1, 1, 2, 256, 1 << 32, u64::MAX]);
    Frames { ascending, addresses, bytes, room }
}

/// Puts something in place of one address that mostly can't stand there.
fn spoil(random: &mut Random, addresses: &mut [u16]) {
    let Some(last) = addresses.len().checked_sub(1) else { return };
    let at = random.below(last + 1);
    match random.below(5) {
        0 => addresses[at] = random.pick(&CONTROLS),
        1 => addresses[at] |= 0x8000,
        2 => addresses[at] = addresses[at.saturating_sub(1)],
        3 => addresses.swap(at, last),
        _ => addresses[at] = random.number() as u16,
    }
}
