//! Chips on one wire (document 02, Ask 10): their banks in one memory, their sessions,
//! what passes on the wire, and calls with all that can be wrong with one of them.

use super::calls::{damage, room_too_short, spoil_session, MOST_SAMPLES};
use super::maps::{self, good_map};
use super::random::Random;
use super::sessions::sound_session;
use super::traces::{blind_start, trace};
use crate::layout::{from_bytes, to_bytes, ChipInC};
use crate::several::{bank_in, Given, Left, Sample};
use second::session::{Phase, Session, CSB, SCLK, SDIO, SDO};
use second::several::{BankRange, MOST_CHIPS, RECORD};

const LINES: u8 = SCLK | SDIO | SDO;

/// The bits of the chips that there are.
pub fn present(chips: usize) -> u8 {
    !((0x00FF_u16 << chips) as u8)
}

/// Chips of one map, opened or with any sound session, mark and stages; their banks
/// anywhere. There are no samples yet.
pub fn any_list(random: &mut Random, map: &[u8], chips: usize) -> Given {
    let mut given = Given::opened(map, chips);
    if random.coin() {
        given.memory = random.bytes(given.memory.len());
        given.chips.iter_mut().for_each(|chip| any_state(random, chip));
    }
    place_banks(random, &mut given);
    given
}

fn any_state(random: &mut Random, chip: &mut ChipInC) {
    let session = sound_session(random);
    chip.session = to_bytes(&session);
    chip.contended = u8::from(may_be_contended(&session) && random.coin());
}

/// Whether bits of a read byte are taken.
pub fn may_be_contended(session: &Session) -> bool {
    session.phase == Phase::Data && session.read && session.bits > 0
}

/// Puts the banks, with what they hold, elsewhere: in any order, some of them touching,
/// with other bytes around and between them.
fn place_banks(random: &mut Random, given: &mut Given) {
    let mut banks: Vec<&mut BankRange> = given.chips.iter_mut().flat_map(banks_of).collect();
    for last in (1..banks.len()).rev() {
        banks.swap(random.below(last + 1), last);
    }
    let mut memory = Vec::new();
    for bank in banks {
        add_gap(random, &mut memory);
        let start = memory.len() as u64;
        memory.extend_from_slice(bank_in(&given.memory, *bank));
        bank.start = start;
    }
    add_gap(random, &mut memory);
    given.memory = memory;
}

fn banks_of(chip: &mut ChipInC) -> [&mut BankRange; 2] {
    [&mut chip.active, &mut chip.buffer]
}

fn add_gap(random: &mut Random, memory: &mut Vec<u8>) {
    let gap = random.pick(&[0, 0, 0, 1, 9]);
    memory.extend(random.bytes(gap));
}

/// What the chips do that are not spoken to.
#[derive(Clone, Copy)]
enum Others {
    Quiet,
    /// Selects that fall for a sample, once in so many.
    Flicker(usize),
    /// Selects that are low only while SCLK is.
    BetweenEdges,
    /// Selects that are low from one sample to another.
    Held,
}

/// So many samples: frames to one chip, to several at once, or no sense at all, in turn.
pub fn any_wire(random: &mut Random, map: &[u8], chips: usize, length: usize) -> Vec<Sample> {
    let mut wire = Vec::with_capacity(length + 500);
    while wire.len() < length {
        let piece = random.between(1, 500);
        match random.below(12) {
            0 => wire.extend(noise(random, chips, piece)),
            1 => wire.extend(clocks(random, chips, piece)),
            _ => wire.extend(talk(random, map, chips, piece)),
        }
    }
    wire.truncate(length);
    wire
}

/// All selects and lines at random.
pub fn noise(random: &mut Random, chips: usize, length: usize) -> Vec<Sample> {
    (0..length).map(|_| [random.byte() | !present(chips), random.byte() & LINES]).collect()
}

/// A clock that never rests. Each select stays as it is for a while, so that frames of
/// several chips overlap.
pub fn clocks(random: &mut Random, chips: usize, length: usize) -> Vec<Sample> {
    let seldom = random.pick(&[5, 40, 200]);
    let (mut selects, mut clock) = (random.byte(), 0);
    let sample = |_| {
        clock ^= SCLK;
        if random.one_in(seldom) {
            selects ^= 1 << random.below(chips);
        }
        [selects | !present(chips), random.byte() & (SDIO | SDO) | clock]
    };
    (0..length).map(sample).collect()
}

/// Frames to one chip or to several at once, and what the others do meanwhile.
fn talk(random: &mut Random, map: &[u8], chips: usize, length: usize) -> Vec<Sample> {
    let one = 1 << random.below(chips);
    let some = one | random.byte();
    let addressed = random.pick(&[one, one, one, some, 0xFF]);
    let seldom = random.pick(&[2, 30, 300]);
    let others =
        random.pick(&[Others::Quiet, Others::Flicker(seldom), Others::BetweenEdges, Others::Held]);
    let begun = if random.one_in(4) { Vec::new() } else { blind_start(random, map) };
    let spoken = [begun, trace(random, map, length, false)].concat();
    let held = random.byte();
    let ends = [random.below(spoken.len()), random.below(spoken.len())];
    let while_held = ends[0].min(ends[1])..ends[0].max(ends[1]);
    let sample = |(at, alone): (usize, u8)| {
        let own = if alone & CSB == 0 { addressed } else { 0 };
        let stray = match others {
            Others::Flicker(seldom) if random.one_in(seldom) => random.byte(),
            Others::BetweenEdges if alone & SCLK == 0 => random.byte(),
            Others::Held if while_held.contains(&at) => held,
            _ => 0,
        };
        let low = (own | stray & !addressed) & present(chips);
        [!low, alone & LINES]
    };
    spoken.into_iter().enumerate().map(sample).collect()
}

/// A call that nothing refuses, of up to so many samples, its room exact or larger.
pub fn any_call(random: &mut Random, most: usize) -> Given {
    let chips = random.between(1, MOST_CHIPS);
    let count = maps::count(random).min(300);
    let map = good_map(random, count);
    let mut given = any_list(random, &map, chips);
    let length = random.between(0, most);
    given.samples = any_wire(random, &map, chips, length).into_flattened();
    let extra = random.pick(&[0, 0, 0, 1, 7, 8, 9, 100]);
    given.records = random.bytes(RECORD * given.records_due() + extra);
    given
}

/// What can be wrong with a call, a reason for each number.
#[derive(Clone, Copy, Debug, PartialEq, Eq)]
pub enum Wrong {
    List,
    Session,
    MapForm,
    MapEntry,
    BankLength,
    Samples,
    Room,
}

impl Wrong {
    /// In the order in which they are looked for: 17 comes before 1.
    pub const ALL: [Wrong; 7] = [
        Wrong::List,
        Wrong::Session,
        Wrong::MapForm,
        Wrong::MapEntry,
        Wrong::BankLength,
        Wrong::Samples,
        Wrong::Room,
    ];

    pub fn number(self) -> u32 {
        match self {
            Wrong::List => 17,
            Wrong::Session => 1,
            Wrong::MapForm => 2,
            Wrong::MapEntry => 3,
            Wrong::BankLength => 4,
            Wrong::Samples => 5,
            Wrong::Room => 6,
        }
    }

    fn apply(self, random: &mut Random, given: &mut Given) {
        match self {
            Wrong::List => spoil_list(random, given),
            Wrong::Session => spoil_any_chip(random, given),
            Wrong::MapForm => damage(random, 2).apply(random, &mut given.map),
            Wrong::MapEntry => damage(random, 3).apply(random, &mut given.map),
            Wrong::BankLength => spoil_length(random, given),
            Wrong::Samples => spoil_samples(random, given),
            Wrong::Room => {
                let short = room_too_short(random, RECORD * given.records_due());
                given.records = random.bytes(short);
            }
        }
    }
}

/// Spoils a call that nothing refuses in all of these ways. It has records, if its room
/// is one.
pub fn spoil(random: &mut Random, given: &mut Given, wrongs: &[Wrong]) {
    // Records are counted while all is good, chips spoilt while there are some.
    for wrong in Wrong::ALL.into_iter().rev().filter(|wrong| wrongs.contains(wrong)) {
        wrong.apply(random, given);
    }
}

/// No chip, too many, ranges that leave the memory, and ranges that overlap.
fn spoil_list(random: &mut Random, given: &mut Given) {
    match random.below(8) {
        0 => given.chips.clear(),
        1 => {
            let nowhere = BankRange { start: 0, length: 0 };
            let quiet = ChipInC { active: nowhere, buffer: nowhere, ..given.chips[0] };
            given.chips.resize(random.between(MOST_CHIPS + 1, 2 * MOST_CHIPS), quiet);
        }
        2..=4 => leave_memory(random, given),
        _ => overlap(random, given),
    }
}

fn leave_memory(random: &mut Random, given: &mut Given) {
    let end = given.memory.len() as u64;
    let chip = random.below(given.chips.len());
    let bank = &mut given.chips[chip].active;
    let length = bank.length.max(1);
    *bank = match random.below(3) {
        0 => BankRange { start: end + 1 - length.min(end), length },
        1 => BankRange {
            start: random.pick(&[end + 1, 1 << 32, 1 << 63, u64::MAX]),
            length: random.pick(&[0, length]),
        },
        // So long that start and length, added in 64 bits, end within the memory.
        _ => BankRange { start: 1 + end, length: u64::MAX - random.below(end as usize) as u64 },
    };
    if random.coin() {
        let chip = &mut given.chips[chip];
        (chip.active, chip.buffer) = (chip.buffer, chip.active);
    }
}

/// Has one range begin within another, a chip's own or another chip's.
fn overlap(random: &mut Random, given: &mut Given) {
    let mut banks: Vec<&mut BankRange> = given.chips.iter_mut().flat_map(banks_of).collect();
    let one = banks.swap_remove(random.below(banks.len()));
    let other = banks.swap_remove(random.below(banks.len()));
    other.length = other.length.max(1);
    one.start = other.start + random.pick(&[0, other.length - 1, other.length / 2]);
    one.length = one.length.max(1);
}

/// Changes a chip until its session is not sound, or its mark may not stand there.
fn spoil_any_chip(random: &mut Random, given: &mut Given) {
    let at = random.below(given.chips.len());
    let chip = &mut given.chips[at];
    match random.below(3) {
        0 => chip.contended = random.between(2, 255) as u8,
        1 if !from_bytes(&chip.session).is_some_and(|s| may_be_contended(&s)) => chip.contended = 1,
        _ => spoil_session(random, &mut chip.session, |session| {
            from_bytes(session).is_some_and(|session| session.is_sound())
        }),
    }
}

/// Gives a range another length, within the memory and beside all others.
fn spoil_length(random: &mut Random, given: &mut Given) {
    let end = given.memory.len() as u64;
    let mut banks: Vec<&mut BankRange> = given.chips.iter_mut().flat_map(banks_of).collect();
    let bank = banks.swap_remove(random.below(banks.len()));
    match random.below(4) {
        0 => bank.length -= 1,
        1 => (bank.start, bank.length) = (bank.start + 1, bank.length - 1),
        2 => *bank = BankRange { start: random.between(0, end as usize) as u64, length: 0 },
        _ => {
            let length = bank.length + random.pick(&[1, 256]);
            *bank = BankRange { start: end, length };
            given.memory.extend(random.bytes(length as usize));
        }
    }
}

/// Half a sample more, a select of no chip, a spare bit, or too many samples.
fn spoil_samples(random: &mut Random, given: &mut Given) {
    let absent = !present(given.chips.len());
    if given.samples.is_empty() || random.one_in(6) {
        return given.samples.push(random.byte());
    }
    if random.one_in(40) {
        return given.samples.resize(2 * (MOST_SAMPLES + 1), 0xFF);
    }
    let samples = given.samples.as_chunks_mut::<2>().0;
    let anywhere = random.below(samples.len());
    let [selects, lines] = &mut samples[random.pick(&[0, anywhere, samples.len() - 1])];
    if absent != 0 && random.coin() {
        *selects &= !(1 << random.between(absent.trailing_zeros() as usize, 7));
    } else {
        *lines |= 1 << random.pick(&[0, 4, 5, 6, 7]);
    }
}

/// A list of calls: each gets the chips and the memory as the last one left them, and the
/// samples that are next.
pub struct Chain {
    random: Random,
    given: Given,
    wire: Vec<Sample>,
    at: usize,
    /// The longest piece that a call gets.
    longest: usize,
}

impl Chain {
    pub fn new(seed: u64) -> Self {
        let mut random = Random::new(seed);
        let given = any_call(&mut random, 1_500);
        let longest = random.pick(&[2, 40, 400]);
        let wire = given.wire().to_vec();
        Chain { random, given, wire, at: 0, longest }
    }

    /// The next call with its samples and room, spoilt or not.
    pub fn next_call(&mut self) -> Given {
        let random = &mut self.random;
        let rest = &self.wire[self.at..];
        let length = random.between(0, self.longest).min(rest.len());
        let mut given = self.given.clone();
        given.samples = rest[..length].as_flattened().to_vec();
        let due = given.records_due();
        let extra = random.pick(&[0, 0, 0, 1, 7, 8, 9, 100]);
        given.records = random.bytes(RECORD * due + extra);
        let many = random.pick(&[0, 0, 0, 0, 0, 0, 1, 1, 2, 3]);
        let mut wrongs: Vec<Wrong> = (0..many).map(|_| random.pick(&Wrong::ALL)).collect();
        wrongs.retain(|&wrong| wrong != Wrong::Room || due > 0);
        spoil(random, &mut given, &wrongs);
        given
    }

    /// Goes on from what a call left that was done.
    pub fn go_on(&mut self, given: &Given, left: &Left) {
        self.given.go_on(left);
        self.at += given.wire().len();
    }

    pub fn is_over(&self) -> bool {
        self.at == self.wire.len()
    }
}
