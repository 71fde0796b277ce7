//! Lists of orders for a whole setup (document 02, Ask 6), good and spoilt.

use super::random::Random;
use second::sender::{send, Order};

const SINGLE_INSTRUCTION: u64 = 4;

/// An order of a list; the settings number is the whole list's.
#[derive(Clone, Debug, PartialEq, Eq)]
pub struct Listed {
    pub direction: u8,
    pub start: u16,
    pub count: u16,
    pub data: Vec<u8>,
}

impl Listed {
    pub fn write(start: u16, data: &[u8]) -> Self {
        Listed { direction: 0, start, count: data.len() as u16, data: data.to_vec() }
    }

    pub fn read(start: u16, count: u16) -> Self {
        Listed { direction: 1, start, count, data: Vec::new() }
    }

    /// The same order as one that is sent by itself.
    pub fn order(&self, settings: u64) -> Order<'_> {
        Order {
            direction: u64::from(self.direction),
            settings,
            start: u64::from(self.start),
            count: u64::from(self.count),
            data: &self.data,
        }
    }

    /// As it stands in a list.
    pub fn bytes(&self) -> Vec<u8> {
        let length = (6 + self.data.len()) as u16;
        let numbers = [length.to_be_bytes(), [1, self.direction]];
        let more = [self.start.to_be_bytes(), self.count.to_be_bytes()];
        [numbers.as_flattened(), more.as_flattened(), &self.data].concat()
    }
}

/// The orders of a list that is made of them.
pub fn orders_of(mut list: &[u8]) -> Vec<Listed> {
    let mut orders = Vec::new();
    while let &[l1, l0, 1, direction, s1, s0, c1, c0, ref rest @ ..] = list {
        let length = usize::from(u16::from_be_bytes([l1, l0])) - 6;
        let (start, count) = (u16::from_be_bytes([s1, s0]), u16::from_be_bytes([c1, c0]));
        let (data, after) = rest.split_at(length);
        orders.push(Listed { direction, start, count, data: data.to_vec() });
        list = after;
    }
    assert!(list.is_empty(), "{list:02X?} is no order");
    orders
}

pub fn list_of(orders: &[Listed]) -> Vec<u8> {
    orders.iter().flat_map(Listed::bytes).collect()
}

/// The samples of a good list: "35 + 16k samples, single instruction 3 + 48k".
pub fn samples_of(settings: u64, orders: &[Listed]) -> usize {
    let single = settings & SINGLE_INSTRUCTION != 0;
    let of_one = |k: usize| if single { 3 + 48 * k } else { 35 + 16 * k };
    orders.iter().map(|order| of_one(usize::from(order.count))).sum()
}

/// An order that nothing refuses, of so many bytes at most.
pub fn good_order(random: &mut Random, settings: u64, most: usize) -> Listed {
    loop {
        let start = match random.below(8) {
            0 => random.below(0x8000),
            1 => 0x7FF8 + random.below(8),
            2 => random.below(6),
            _ => random.below(50),
        } as u16;
        let count = random.between(1, most);
        let order = match random.below(3) {
            0 => Listed::read(start, count as u16),
            _ => Listed::write(start, &random.bytes(count)),
        };
        if send(&order.order(settings), &mut [0; 48_003]).number == 0 {
            return order;
        }
    }
}

/// A list that nothing refuses in some room: mostly a few short orders, at times
/// as many orders or samples as there may be.
pub fn good_setup(random: &mut Random) -> (u64, Vec<Listed>) {
    let settings = random.below(8) as u64;
    let (orders, most) = match random.below(64) {
        0 => (random.between(60, 64), 6),
        1 => (random.between(1, 20), 180),
        2 => (random.between(1, 3), 400),
        _ => (random.between(0, 5), 6),
    };
    let mut listed = Vec::new();
    for _ in 0..orders {
        let order = good_order(random, settings, most);
        listed.push(order);
        if samples_of(settings, &listed) > 65_536 {
            listed.pop();
        }
    }
    (settings, listed)
}

/// What can be wrong with a list or its room.
#[derive(Clone, Copy, Debug, PartialEq, Eq)]
pub enum Slip {
    Cut,
    ShortLength,
    Version,
    TooManyOrders,
    Settings,
    Direction,
    Count,
    DataLength,
    Start,
    EarlyConfiguration,
    TooManySamples,
    Room,
}

impl Slip {
    pub const ALL: [Slip; 12] = [
        Slip::Cut,
        Slip::ShortLength,
        Slip::Version,
        Slip::TooManyOrders,
        Slip::Settings,
        Slip::Direction,
        Slip::Count,
        Slip::DataLength,
        Slip::Start,
        Slip::EarlyConfiguration,
        Slip::TooManySamples,
        Slip::Room,
    ];

    /// The number that refuses a good list of some orders with this slip alone.
    pub fn number(self) -> u8 {
        match self {
            Slip::Cut | Slip::ShortLength | Slip::Version | Slip::TooManyOrders => 14,
            Slip::Settings | Slip::Direction => 7,
            Slip::Count | Slip::DataLength => 8,
            Slip::Start => 9,
            Slip::EarlyConfiguration => 10,
            Slip::TooManySamples => 15,
            Slip::Room => 11,
        }
    }
}

/// A whole call: the settings number, the list, and how much room there is.
#[derive(Clone, Debug)]
pub struct Setup {
    pub settings: u64,
    pub list: Vec<u8>,
    pub room: usize,
}

/// The call for these orders with these slips, all that can be made of them.
pub fn setup_with(
    random: &mut Random,
    mut settings: u64,
    mut orders: Vec<Listed>,
    slips: &[Slip],
) -> Setup {
    let has = |slip| slips.contains(&slip);
    if has(Slip::EarlyConfiguration) {
        settings |= SINGLE_INSTRUCTION;
    }
    if has(Slip::TooManySamples) {
        orders.extend([(); 5].map(|()| Listed::read(0x2000, 1_000)));
    }
    for &slip in slips {
        spoil_order(random, slip, &mut orders);
    }
    let needed = samples_of(settings, &orders);
    let room = match random.below(3) {
        _ if has(Slip::Room) && random.coin() => needed.saturating_sub(1),
        _ if has(Slip::Room) => random.below(needed.max(1)),
        0 => needed + random.below(6),
        _ => needed,
    };
    if has(Slip::Settings) {
        settings = random.pick(&[8, 12, 256, (1 << 32) + 1, u64::MAX, 8 + settings]);
    }
    let mut parts: Vec<Vec<u8>> = orders.iter().map(Listed::bytes).collect();
    if has(Slip::TooManyOrders) {
        parts.resize(65, Listed::read(0x0010, 1).bytes());
    }
    for slip in [Slip::ShortLength, Slip::Version, Slip::Cut].into_iter().filter(|&slip| has(slip))
    {
        spoil_form(random, slip, &mut parts);
    }
    Setup { settings, list: parts.concat(), room: room.min(70_000) }
}

/// The slips of an order that is still one by its form.
fn spoil_order(random: &mut Random, slip: Slip, orders: &mut [Listed]) {
    if orders.is_empty() {
        return;
    }
    let at = random.below(orders.len());
    let order = &mut orders[at];
    match slip {
        Slip::Direction => order.direction = random.between(2, 255) as u8,
        Slip::Count if order.data.is_empty() || random.coin() => {
            order.count = random.pick(&[0, 1_001, 0x8001, 0xFFFF]);
        }
        Slip::Count => order.count = order.count.wrapping_add(1),
        // By two, so that it does not make up for another count.
        Slip::DataLength if order.data.is_empty() || random.coin() => order.data.extend([0x5A; 2]),
        Slip::DataLength => drop(order.data.pop()),
        Slip::Start => order.start |= 0x8000,
        Slip::EarlyConfiguration => {
            *order = Listed::write(random.pick(&[0x0000, 0x0001]), &random.bytes(2));
        }
        _ => {}
    }
}

/// The slips of the list's form. Each part is an order.
fn spoil_form(random: &mut Random, slip: Slip, parts: &mut Vec<Vec<u8>>) {
    if parts.is_empty() {
        parts.push(Listed::read(0x0010, 1).bytes());
    }
    let at = random.below(parts.len());
    match slip {
        // Its last bytes are missing, and it is the last.
        Slip::Cut => {
            let kept = random.between(1, parts[at].len() - 1);
            parts[at].truncate(kept);
            parts.truncate(at + 1);
        }
        Slip::ShortLength => {
            let length = random.below(6);
            parts[at] = vec![1; 2 + length];
            parts[at][..2].copy_from_slice(&(length as u16).to_be_bytes());
        }
        _ if parts[at].len() > 2 => parts[at][2] = random.pick(&[0, 2, 3, 0x81, 0xFF]),
        _ => {}
    }
}

/// A call with nothing, one thing or several things wrong.
pub fn any_setup(random: &mut Random) -> Setup {
    let (settings, orders) = good_setup(random);
    let many = random.pick(&[0, 0, 1, 1, 1, 2, 3]);
    let slips: Vec<Slip> = (0..many).map(|_| random.pick(&Slip::ALL)).collect();
    setup_with(random, settings, orders, &slips)
}
