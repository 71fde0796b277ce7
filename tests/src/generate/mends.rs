//! Maps as they come typed (document 02, Ask 12): a head that stands, and slips in
//! the entries behind it.

use super::maps::{count, count_of, entries_of, entry_at, good_map, set_entry, Damage};
use super::random::Random;

/// A map to be mended, and how many bytes the list has.
#[derive(Clone, Debug)]
pub struct Mending {
    pub map: Vec<u8>,
    pub room: usize,
}

/// A good map of some hundred registers at most.
fn some_map(random: &mut Random) -> Vec<u8> {
    let count = count(random).min(600);
    good_map(random, count)
}

/// A good map in which a few entries were mistyped, its product number kept.
pub fn slipped_map(random: &mut Random) -> Vec<u8> {
    let mut map = some_map(random);
    let product = [product_at(&map, 0x0004), product_at(&map, 0x0005)];
    for _ in 0..random.between(1, 8) {
        slip(random, &mut map);
    }
    for (address, default) in [0x0004, 0x0005].into_iter().zip(product) {
        let at = entry_at(&map, address) + 2;
        map[at] = default;
    }
    map
}

fn product_at(map: &[u8], address: usize) -> u8 {
    map[entry_at(map, address) + 2]
}

/// Mistypes one entry.
fn slip(random: &mut Random, map: &mut [u8]) {
    let count = count_of(map);
    let address = if random.coin() { random.below(16) } else { random.below(count) };
    let at = entry_at(map, address);
    match random.below(6) {
        0 => map[at] = random.pick(&[0, 1, 2, 3, 4, 5, 0x80, 0xFF]),
        1 => map[at + 1] = random.byte(),
        2 => map[at + 2] = random.byte(),
        // A byte too far to the left.
        3 => map[at..at + 3].rotate_left(1),
        // On a line with its neighbour.
        4 => {
            let neighbour = entries_of(map)[(address + 1) % count];
            set_entry(map, address, neighbour);
        }
        _ => set_entry(map, address, [(); 3].map(|()| random.byte())),
    }
}

/// Any bytes behind a good head, kinds that there are often among them.
pub fn scrambled_map(random: &mut Random) -> Vec<u8> {
    let mut map = some_map(random);
    let any_kind = random.coin();
    let first = entry_at(&map, 0);
    for entry in map[first..].as_chunks_mut().0 {
        let kind = if any_kind { random.byte() } else { random.below(6) as u8 };
        *entry = [kind, random.byte(), random.byte()];
    }
    map
}

/// A call with a map of any kind, at times one with a bad head or product number,
/// and a list with the room that it needs, more, or less.
pub fn any_mending(random: &mut Random, needed: impl Fn(&[u8]) -> usize) -> Mending {
    let mut map = match random.below(8) {
        0 => some_map(random),
        1..=4 => slipped_map(random),
        _ => scrambled_map(random),
    };
    if random.one_in(8) {
        let default = random.pick(&[0x00, 0xFF]);
        for address in [0x0004, 0x0005] {
            let at = entry_at(&map, address) + 2;
            map[at] = default;
        }
    }
    let needed = needed(&map);
    let room = match random.below(8) {
        0 => needed.saturating_sub(1),
        1 => random.below(needed + 1),
        2 => needed + random.between(1, 12),
        _ => needed,
    };
    if random.one_in(8) {
        let heads = Damage::ALL.into_iter().filter(|damage| damage.number() == 2);
        random.pick(&heads.collect::<Vec<_>>()).apply(random, &mut map);
    }
    Mending { map, room }
}
