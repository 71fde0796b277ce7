//! The library for the bench host against the second implementation: the map
//! test and the sender, through the names that `libcouplingnut.a` exports to C,
//! in memory beside inaccessible pages.

use couplingnut_tests::environment::{differ, number_from};
use couplingnut_tests::generate::maps::{
    count, good_map, in_each_version, maps_near, simple_map, with_flags, Damage,
};
use couplingnut_tests::generate::random::Random;
use couplingnut_tests::guarded::{Against, Guarded};
use couplingnut_tests::library;
use couplingnut_tests::made::{held_for_samples, NOT_WRITTEN};
use couplingnut_tests::tally::assert_numbers;
use second::map::map_test;
use second::sender::{send, Order};

const MAPS: u64 = 250_000;
const ORDERS: u64 = 250_000;

const READ: u64 = 1;
const SINGLE_INSTRUCTION: u64 = 4;
/// More than any order takes.
const ROOMY: usize = 48_003 + 5;

/// Numbers of which a narrower type would keep something harmless.
const WIDE: [u64; 10] = [
    1 << 8,
    1 << 16,
    (1 << 16) + 1,
    1 << 31,
    1 << 32,
    (1 << 32) + 1,
    (1 << 32) + 4,
    1 << 63,
    u64::MAX - 1,
    u64::MAX,
];

/// How often each number was given.
#[derive(Default)]
struct Given([u64; 12]);

impl Given {
    fn note(&mut self, number: u8) {
        self.0[usize::from(number)] += 1;
    }

    /// That these numbers, and no others, were given so often.
    fn assert_each(&self, numbers: &[usize], times: u64) {
        assert_numbers("the library", &self.0, numbers, times);
    }
}

/// Both map tests on the same bytes, which end at an inaccessible page.
fn compare_map(seed: u64, map: &[u8], memory: &mut Guarded, given: &mut Given) {
    let expected = map_test(map);
    let lent = memory.hold(map, Against::PageAfter);
    let found = library::map_test(lent);
    if found != u32::from(expected) || lent != map {
        let told = format!("the map test gave {found}, expected {expected}, or altered the map");
        differ("host::the_map_test", seed, &told, &format!("map {map:02X?}\n"));
    }
    given.note(expected);
}

/// Room for any map of these tests.
fn map_memory() -> Guarded {
    Guarded::new(32_768)
}

/// Both senders on the same order and the same buffer, which is compared whole.
fn compare_order(seed: u64, order: &Order, room: usize, buffers: &mut Buffers, given: &mut Given) {
    let against = if room.is_multiple_of(8) { Against::PageBefore } else { Against::PageAfter };
    let before = &buffers.before[..room];
    buffers.expected.truncate(0);
    buffers.expected.extend(before);
    let answer = send(order, &mut buffers.expected);
    let found = buffers.out.hold(before, against);
    let samples = buffers.samples.hold_number(NOT_WRITTEN, against);
    let lent = Order { data: buffers.data.hold(order.data, against), ..*order };
    let number = library::send_into(&lent, found, samples);
    let same = (number, *samples) == (u32::from(answer.number), answer.count as u64)
        && found == buffers.expected
        && (number == 0 || found == before)
        && lent.data == order.data;
    if !same {
        let told = format!("the sender gave {number} and {samples} samples, expected {answer:?}");
        let listing = format!(
            "{order:X?} in {room} bytes\nfound {found:02X?}\nexpected {:02X?}\n",
            buffers.expected
        );
        differ("host::the_sender", seed, &told, &listing);
    }
    given.note(answer.number);
}

/// What is lent to both senders: to the library, memory beside an inaccessible
/// page.
struct Buffers {
    /// The outgoing buffer as it is before a call.
    before: Vec<u8>,
    expected: Vec<u8>,
    out: Guarded,
    data: Guarded,
    samples: Guarded,
}

impl Buffers {
    fn new() -> Self {
        Buffers {
            before: held_for_samples(ROOMY),
            expected: Vec::with_capacity(ROOMY),
            out: Guarded::new(ROOMY),
            data: Guarded::new(1_002),
            samples: Guarded::new(8),
        }
    }
}

/// The samples that so many bytes take, were they not refused.
fn needed(settings: u64, count: u64) -> usize {
    let count = count.min(1_000) as usize;
    if settings & SINGLE_INSTRUCTION != 0 {
        3 + 48 * count
    } else {
        35 + 16 * count
    }
}

#[test]
fn the_map_test_agrees_on_good_and_damaged_maps() {
    let (mut given, mut memory) = (Given::default(), map_memory());
    let first = number_from("SEED", 0);
    for seed in first..first + MAPS {
        let mut random = Random::new(seed);
        compare_map(seed, &any_map(&mut random), &mut memory, &mut given);
    }
    given.assert_each(&[0, 2, 3], 20_000);
}

fn any_map(random: &mut Random) -> Vec<u8> {
    let count = count(random);
    let mut map = good_map(random, count);
    match random.below(16) {
        0..=3 => {}
        4..=11 => random.pick(&Damage::ALL).apply(random, &mut map),
        12 => {
            let more = random.between(1, 6);
            map.extend(random.bytes(more));
        }
        13 => {
            let length = random.below(200);
            map = random.bytes(length);
        }
        // Some of these leave the map good.
        _ => {
            for _ in 0..random.between(1, 3) {
                let at = random.below(map.len().min(70));
                map[at] = random.pick(&[0, 1, 2, 3, 4, 5, map[at] ^ 1, 0xFF]);
            }
        }
    }
    map
}

#[test]
fn the_map_test_looks_at_every_byte_and_length() {
    let (mut given, mut memory) = (Given::default(), map_memory());
    for near in in_each_version(&simple_map(18)).iter().flat_map(|map| maps_near(map)) {
        compare_map(0, &near, &mut memory, &mut given);
    }
    for count in [15, 16, 17, 8_191, 8_192, 8_193] {
        let old = simple_map(count);
        compare_map(0, &with_flags(&old, 0), &mut memory, &mut given);
        compare_map(0, &old, &mut memory, &mut given);
    }
    given.assert_each(&[0, 2, 3], 50);
}

#[test]
fn the_sender_agrees_at_every_boundary() {
    let mut given = Given::default();
    let mut buffers = Buffers::new();
    let bytes: Vec<u8> = (0..1_002).map(|i| (i * 37 / 4) as u8).collect();
    for [direction, settings, start, count] in boundaries() {
        let due = if direction == READ { 0 } else { count.min(1_001) as usize };
        let exact = needed(settings, count);
        for (length, room) in [
            (due, exact - 1),
            (due, exact),
            (due, exact + 5),
            (due, 0),
            (due + 1, exact),
            (due.saturating_sub(1), exact),
        ] {
            let order = Order { direction, settings, start, count, data: &bytes[..length] };
            compare_order(0, &order, room, &mut buffers, &mut given);
        }
    }
    given.assert_each(&[0, 7, 8, 9, 10, 11], 50);
}

/// Direction, settings, start and count, each at every boundary.
fn boundaries() -> impl Iterator<Item = [u64; 4]> {
    let starts = [0, 1, 2, 3, 998, 0x7FFD, 0x7FFF, 0x8000, 0x1_0005, (1 << 32) + 5, u64::MAX];
    let counts = [0, 1, 2, 3, 999, 1_000, 1_001, (1 << 32) + 1, u64::MAX];
    let directions = [0, 1, 2].into_iter().chain(WIDE);
    let settings = (0..=8).chain([12]).chain(WIDE);
    directions
        .flat_map(move |direction| settings.clone().map(move |settings| (direction, settings)))
        .flat_map(move |(direction, settings)| {
            starts.map(|start| counts.map(|count| [direction, settings, start, count]))
        })
        .flatten()
}

#[test]
fn the_sender_agrees_on_good_and_damaged_orders() {
    let mut given = Given::default();
    let mut buffers = Buffers::new();
    let first = number_from("SEED", 0);
    for seed in first..first + ORDERS {
        let mut random = Random::new(seed);
        let bytes = random.bytes(1_002);
        let (order, room) = any_order(&mut random, &bytes);
        compare_order(seed, &order, room, &mut buffers, &mut given);
    }
    given.assert_each(&[0, 7, 8, 9, 10, 11], 2_000);
}

/// An order with nothing, one thing or several things wrong, and the room for
/// its samples.
fn any_order<'a>(random: &mut Random, bytes: &'a [u8]) -> (Order<'a>, usize) {
    let mut direction = random.below(2) as u64;
    let mut settings = random.below(8) as u64;
    let mut start = match random.below(4) {
        // Near 0x0000 and 0x0001, from both sides.
        0 => random.pick(&[0, 0x7FF8]) + random.below(8) as u64,
        1 => random.below(1_000) as u64,
        _ => random.below(0x8000) as u64,
    };
    let mut count = match random.below(32) {
        0 => 1_000,
        1 => random.between(1, 1_000) as u64,
        _ => random.between(1, 12) as u64,
    };
    let mut length = if direction == READ { 0 } else { count as usize };
    let mut room = match random.below(4) {
        0 => needed(settings, count) + random.below(6),
        _ => needed(settings, count),
    };
    for _ in 0..random.pick(&[0, 0, 1, 1, 1, 2, 3]) {
        match random.below(6) {
            0 => direction = wide(random, 2),
            1 => settings = wide(random, 8),
            2 => start = wide(random, 0x8000),
            3 if random.coin() => count = wide(random, 1_001),
            3 => count = random.pick(&[0, count.saturating_add(1)]),
            4 => length = random.pick(&[0, length + 1, length.saturating_sub(1), 1_001]).min(1_002),
            _ if random.coin() => room = room.saturating_sub(1),
            _ => room = random.below(room + 1),
        }
    }
    (Order { direction, settings, start, count, data: &bytes[..length] }, room)
}

/// A number that is too big, by one or by far.
fn wide(random: &mut Random, least: u64) -> u64 {
    match random.below(4) {
        0 => least,
        1 => random.number().max(least),
        2 => least + (random.number() >> random.between(1, 63)),
        _ => random.pick(&WIDE).max(least),
    }
}
