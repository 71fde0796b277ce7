//! Repeated samples (document 02, Ask 11): no spare bit set, and CSB, or all selects, and
//! SCLK as in the sample before; for the first of a call, as the session last saw them.
//! They are put into recordings, and left out.

use super::calls::{any_trace, put_any_state};
use super::maps::{count, good_map};
use super::older::any_older;
use super::older::maps::good_older_map;
use super::random::Random;
use crate::calls::Given;
use crate::layout::from_bytes;
use second::session::{CSB, SCLK, SDIO, SDO};

/// The lines that a repeated sample has as they were.
const KEPT: u8 = CSB | SCLK;

/// A sample of a recording: of one chip, or of several.
pub trait Sample: Copy {
    /// A repeat of it, SDIO and SDO at will.
    fn repeat(self, random: &mut Random) -> Self;

    /// Whether it is a repeat of the sample before it.
    fn repeats(self, before: Self) -> bool;
}

impl Sample for u8 {
    fn repeat(self, random: &mut Random) -> Self {
        self & KEPT | random.byte() & (SDIO | SDO)
    }

    fn repeats(self, before: Self) -> bool {
        (before ^ self) & KEPT == 0 && self >> 4 == 0
    }
}

/// The selects, and then the other lines.
impl Sample for [u8; 2] {
    fn repeat(self, random: &mut Random) -> Self {
        [self[0], self[1].repeat(random)]
    }

    fn repeats(self, before: Self) -> bool {
        self[0] == before[0] && self[1] & CSB == 0 && self[1].repeats(before[1])
    }
}

/// The levels that the session of a call last saw.
pub fn last_levels(given: &Given) -> u8 {
    from_bytes(&given.session).expect("the bytes of a session").levels
}

/// The samples with repeats put in: before the first, after the last and anywhere
/// between, none or up to so many at a place.
pub fn with_repeats<S: Sample>(random: &mut Random, last: S, samples: &[S], most: usize) -> Vec<S> {
    let seldom = random.pick(&[1, 2, 9, 60]);
    put_in(random, last, samples, |random, _| match random.one_in(seldom) {
        true => random.between(1, most),
        false => 0,
    })
}

/// The samples with repeats put in at random places until they are so many.
pub fn filled<S: Sample>(random: &mut Random, last: S, samples: &[S], length: usize) -> Vec<S> {
    let mut times = vec![0; samples.len() + 1];
    for _ in samples.len()..length {
        times[random.below(samples.len() + 1)] += 1;
    }
    put_in(random, last, samples, |_, place| times[place])
}

/// Each sample so many times: once as it is, and then its repeats.
pub fn sampled(random: &mut Random, samples: &[u8], times: usize) -> Vec<u8> {
    put_in(random, 0, samples, |_, place| if place == 0 { 0 } else { times - 1 })
}

/// As many repeats as are told for each place; place 0 is before the first sample.
fn put_in<S: Sample>(
    random: &mut Random,
    last: S,
    samples: &[S],
    mut times: impl FnMut(&mut Random, usize) -> usize,
) -> Vec<S> {
    let mut made = Vec::new();
    let befores = [last].into_iter().chain(samples.iter().copied());
    for (place, before) in befores.enumerate() {
        if place > 0 {
            made.push(before);
        }
        let many = times(random, place);
        made.extend((0..many).map(|_| before.repeat(random)));
    }
    made
}

/// The samples without their repeats, but for one in so many of these.
pub fn without_repeats<S: Sample>(
    random: &mut Random,
    last: S,
    samples: &[S],
    kept: usize,
) -> Vec<S> {
    let mut before = last;
    let mut is_left = |&sample: &S| {
        let repeats = sample.repeats(before);
        before = sample;
        !repeats || random.one_in(kept)
    };
    samples.iter().copied().filter(|sample| is_left(sample)).collect()
}

/// A call for any chip, newer or older, with a recording of so many samples; opened, or
/// with any sound session, banks and words. It has no room yet.
pub fn any_reading(random: &mut Random, length: usize) -> Given {
    let older = if random.coin() { Some(any_older(random)) } else { None };
    let map = match older {
        Some(older) => good_older_map(random, older),
        None => {
            let count = count(random);
            good_map(random, count)
        }
    };
    let mut given = Given::opened_by(older, &map);
    if random.coin() {
        put_any_state(random, &mut given);
    }
    given.samples = any_trace(random, older, &map, length);
    given
}
