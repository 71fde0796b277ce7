//! What the reader's calls are given: lists of calls from a seed, and all that
//! can be wrong with one of them.

use super::maps::{self, count_of, good_map, set_entry, with_flags, Damage, Flaw};
use super::older::maps::{broken_older_entry, good_older_map};
use super::older::sessions::sound_older_session;
use super::older::traces::older_trace;
use super::older::{another_top, any_older, PARTS};
use super::random::Random;
use super::sessions::sound_session;
use super::traces::{clocks, noise, trace};
use super::words::{another_length, any_banks};
use crate::calls::{Call, Given, Left};
use crate::layout::{from_bytes, to_bytes, SessionBytes, SESSION_SIZE};
use second::older::Older;
use second::reader::RECORD;
use second::rules::Rules;

/// The most samples that a call takes.
pub const MOST_SAMPLES: usize = 65_536;

/// What can be wrong with a call, a reason for each number.
#[derive(Clone, Copy, Debug, PartialEq, Eq)]
pub enum Wrong {
    Session,
    MapForm,
    MapEntry,
    Banks,
    Top,
    Words,
    Samples,
    Room,
}

impl Wrong {
    /// Those of a newer chip's calls, in the order in which they are looked for: 16
    /// comes after 4.
    pub const ALL: [Wrong; 7] = [
        Wrong::Session,
        Wrong::MapForm,
        Wrong::MapEntry,
        Wrong::Banks,
        Wrong::Words,
        Wrong::Samples,
        Wrong::Room,
    ];

    /// The same of an older chip's: 12 comes after 4, and 16 after 12.
    pub const OLDER: [Wrong; 8] = [
        Wrong::Session,
        Wrong::MapForm,
        Wrong::MapEntry,
        Wrong::Banks,
        Wrong::Top,
        Wrong::Words,
        Wrong::Samples,
        Wrong::Room,
    ];

    pub fn number(self) -> u32 {
        match self {
            Wrong::Session => 1,
            Wrong::MapForm => 2,
            Wrong::MapEntry => 3,
            Wrong::Banks => 4,
            Wrong::Top => 12,
            Wrong::Words => 16,
            Wrong::Samples => 5,
            Wrong::Room => 6,
        }
    }

    /// Spoils calls that nothing refused so far, whatever else is spoilt after.
    fn apply(self, random: &mut Random, given: &mut Given) {
        match self {
            Wrong::Session => {
                let older = given.older;
                spoil_session(random, &mut given.session, |session| is_sound(older, session));
            }
            Wrong::MapForm => damage(random, 2).apply(random, &mut given.map),
            Wrong::MapEntry => spoil_entry(random, given),
            Wrong::Banks => spoil_banks(random, given),
            Wrong::Top => spoil_top(random, given),
            Wrong::Words => spoil_words(random, &mut given.words),
            Wrong::Samples => spoil_samples(random, &mut given.samples),
            Wrong::Room => unreachable!("the room depends on the call"),
        }
    }
}

/// Spoils a call in all of these ways. It has records, if its room is one.
pub fn spoil(random: &mut Random, call: Call, given: &mut Given, wrongs: &[Wrong]) {
    // The records are counted while all is good, and the length of a map is
    // spoilt after its entries.
    if wrongs.contains(&Wrong::Room) {
        let short = room_too_short(random, RECORD * given.records_due(call));
        given.records = random.bytes(short);
    }
    for wrong in Wrong::OLDER.into_iter().rev().filter(|&wrong| wrong != Wrong::Room) {
        if wrongs.contains(&wrong) {
            wrong.apply(random, given);
        }
    }
}

/// Less than the records need: a byte less, nothing, or anything between.
pub(super) fn room_too_short(random: &mut Random, needed: usize) -> usize {
    assert!(needed > 0, "without records no room is too short");
    match random.below(4) {
        0 => 0,
        1 => random.below(needed),
        _ => needed - 1,
    }
}

/// Changes bytes of a sound session until they are no sound session.
pub(super) fn spoil_session(
    random: &mut Random,
    session: &mut SessionBytes,
    is_sound: impl Fn(&SessionBytes) -> bool,
) {
    let sound = *session;
    while is_sound(session) {
        *session = sound;
        for _ in 0..random.between(1, 2) {
            let at = random.below(SESSION_SIZE);
            session[at] = random.pick(&[0, 1, 2, 3, 0x10, 0x80, 0xFF, sound[at] ^ 1]);
        }
    }
}

/// Whether the bytes are those of a session that is sound for the chip.
fn is_sound(older: Option<Older>, session: &SessionBytes) -> bool {
    from_bytes(session).is_some_and(|session| match older {
        None => session.is_sound(),
        Some(older) => older.is_sound(&session),
    })
}

pub(super) fn damage(random: &mut Random, number: u8) -> Damage {
    let fitting: Vec<Damage> =
        Damage::ALL.into_iter().filter(|damage| damage.number() == number).collect();
    random.pick(&fitting)
}

fn spoil_entry(random: &mut Random, given: &mut Given) {
    let Some(older) = given.older else {
        return damage(random, 3).apply(random, &mut given.map);
    };
    let flaw = random.pick(&Flaw::ALL);
    let count = count_of(&given.map);
    let (address, entry) = broken_older_entry(random, flaw, older.part, count);
    set_entry(&mut given.map, address, entry);
}

/// Names another top than the map has; a newer chip's calls name none.
fn spoil_top(random: &mut Random, given: &mut Given) {
    let last = count_of(&given.map) as u64 - 1;
    let other = another_top(random, last);
    given.older = given.older.map(|older| Older { top: other, ..older });
}

/// Gives one bank or both another length.
fn spoil_banks(random: &mut Random, given: &mut Given) {
    let which = random.between(1, 3);
    for (i, bank) in [&mut given.active, &mut given.buffer].into_iter().enumerate() {
        if which >> i & 1 == 1 {
            let count = bank.len();
            let length = random.pick(&[0, count - 1, count + 1, count - 1, count + 1, count + 200]);
            bank.resize(length, random.byte());
        }
    }
}

/// Gives the words another number.
fn spoil_words(random: &mut Random, words: &mut Vec<u64>) {
    let length = another_length(random, words.len());
    words.resize(length, random.number());
}

/// Sets a spare bit of one sample, or adds samples until they are too many.
fn spoil_samples(random: &mut Random, samples: &mut Vec<u8>) {
    if random.one_in(40) {
        return samples.resize(MOST_SAMPLES + 1, 0x01);
    }
    if samples.is_empty() {
        samples.push(0x01);
    }
    let anywhere = random.below(samples.len());
    let at = random.pick(&[0, anywhere, samples.len() - 1]);
    samples[at] |= 1 << random.between(4, 7);
}

/// A list of calls on one map: each gets the session, the banks and the words as the
/// last one left them, and the samples that are next. Or on several maps of as many
/// registers, for chips between which the session is handed on.
pub struct Chain {
    random: Random,
    /// The chips, and the map of each.
    chips: Vec<(Option<Older>, Vec<u8>)>,
    /// Session, banks and words as they now are.
    pub given: Given,
    trace: Vec<u8>,
    at: usize,
    /// The longest piece that a call gets.
    longest: usize,
}

impl Chain {
    pub fn new(seed: u64) -> Self {
        let mut random = Random::new(seed);
        let count = maps::count(&mut random);
        let map = good_map(&mut random, count);
        Chain::of(random, vec![(None, map)])
    }

    /// The same for an older chip.
    pub fn older(seed: u64) -> Self {
        let mut random = Random::new(seed);
        let older = any_older(&mut random);
        let map = good_older_map(&mut random, older);
        Chain::of(random, vec![(Some(older), map)])
    }

    /// One session for a newer chip and both older ones.
    pub fn handed_on(seed: u64) -> Self {
        let mut random = Random::new(seed);
        let top = any_older(&mut random).top.min(0x0200);
        let mut chips = vec![(None, good_map(&mut random, top as usize + 1))];
        for part in PARTS {
            let older = Older { part, top };
            chips.push((Some(older), good_older_map(&mut random, older)));
        }
        Chain::of(random, chips)
    }

    /// One session for two maps that differ in their flag alone.
    pub fn of_two_flags(seed: u64) -> Self {
        let mut random = Random::new(seed);
        let count = maps::count(&mut random).min(200);
        let map = good_map(&mut random, count);
        Chain::of(random, [0, 1].map(|flags| (None, with_flags(&map, flags))).to_vec())
    }

    fn of(mut random: Random, chips: Vec<(Option<Older>, Vec<u8>)>) -> Self {
        let length = match random.below(400) {
            0 => MOST_SAMPLES,
            1 => MOST_SAMPLES + 1,
            2..=9 => random.between(2_000, 9_000),
            _ => random.between(50, 1_200),
        };
        let (older, map) = &chips[random.below(chips.len())];
        let trace = any_trace(&mut random, *older, map, length);
        let longest = if length < 2_000 { random.pick(&[2, 40, 400]) } else { length };
        let mut given = Given::opened_by(*older, map);
        if random.coin() {
            put_any_state(&mut random, &mut given);
        }
        Chain { random, chips, given, trace, at: 0, longest }
    }

    /// The next call with its samples and room, spoilt or not.
    pub fn next_call(&mut self) -> (Call, Given) {
        let random = &mut self.random;
        let call = match random.below(16) {
            0 => Call::Open,
            1..=9 => Call::Read,
            _ => Call::NextRecord,
        };
        let rest = &self.trace[self.at..];
        let whole = self.longest > MOST_SAMPLES / 2 && random.coin();
        let length = if whole { rest.len() } else { random.between(0, self.longest) };
        let mut given = self.given.clone();
        if self.chips.len() > 1 && random.one_in(4) {
            let (older, map) = &self.chips[random.below(self.chips.len())];
            given.older = *older;
            given.map.clone_from(map);
        }
        given.samples = rest[..length.min(rest.len())].to_vec();
        let due = given.records_due(call);
        let extra = random.pick(&[0, 0, 0, 1, 6, 7, 8, 100]);
        given.records = random.bytes(RECORD * due + extra);
        if call == Call::Open {
            given.session = random.bytes(SESSION_SIZE).try_into().expect("a session's size");
        }
        let possible = |wrong: &Wrong| match wrong {
            Wrong::Session | Wrong::Words => call != Call::Open,
            Wrong::Room => due > 0,
            Wrong::Top => given.older.is_some(),
            _ => true,
        };
        let wrongs: Vec<Wrong> = any_wrongs(random).into_iter().filter(possible).collect();
        spoil(random, call, &mut given, &wrongs);
        (call, given)
    }

    /// Goes on from what a call left that was done.
    pub fn go_on(&mut self, call: Call, given: &Given, left: &Left) {
        self.given.go_on(left);
        self.at += match call {
            Call::Open => 0,
            Call::Read => given.samples.len(),
            Call::NextRecord => left.taken as usize,
        };
    }

    pub fn is_over(&self) -> bool {
        self.at == self.trace.len()
    }
}

/// Gives a call any sound session, banks and words.
pub fn put_any_state(random: &mut Random, given: &mut Given) {
    let session = match given.older {
        None => sound_session(random),
        Some(older) => sound_older_session(random, older.top),
    };
    given.session = to_bytes(&session);
    (given.active, given.buffer, given.words) = any_banks(random, given.active.len());
}

/// What a master sends, or a frame that goes on and on, or no sense at all.
pub fn any_trace(random: &mut Random, older: Option<Older>, map: &[u8], length: usize) -> Vec<u8> {
    match random.below(8) {
        0 => noise(random, length),
        1 | 2 => clocks(random, length),
        _ => sent_trace(random, older, map, length),
    }
}

/// What a master sends, in exactly so many samples.
pub fn sent_trace(random: &mut Random, older: Option<Older>, map: &[u8], length: usize) -> Vec<u8> {
    match older {
        None => trace(random, map, length, true),
        Some(older) => older_trace(random, older, length),
    }
}

/// Mostly nothing, else one to three of them.
fn any_wrongs(random: &mut Random) -> Vec<Wrong> {
    let many = random.pick(&[0, 0, 0, 0, 0, 0, 1, 1, 2, 3]);
    (0..many).map(|_| random.pick(&Wrong::OLDER)).collect()
}
