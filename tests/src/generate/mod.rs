//! Inputs for `busread` from a seed: a map and a trace, good ones and all the
//! ways in which they go wrong. [`calls`] makes what the library's calls are
//! given, from the same maps and traces.

pub mod calls;
pub mod frames;
pub mod maps;
pub mod mends;
pub mod near;
pub mod older;
pub mod orders;
pub mod random;
pub mod repeats;
pub mod sessions;
pub mod setups;
pub mod several;
pub mod traces;
pub mod words;

use maps::Damage;
use random::Random;

/// What busread takes at a time; lengths around it are tried often.
const PIECE: usize = 4_096;

/// What is wrong with an input.
#[derive(Clone, Copy, PartialEq)]
enum Mishap {
    None,
    OneRuleBroken,
    MapBytesSpoiled,
    MapTooLong,
    BadSample,
}

/// The whole standard input of one case.
pub fn input(seed: u64) -> Vec<u8> {
    let mut random = Random::new(seed);
    let mishap = match random.below(32) {
        0 | 1 => Mishap::OneRuleBroken,
        2 => Mishap::MapBytesSpoiled,
        3 => Mishap::MapTooLong,
        4 | 5 => Mishap::BadSample,
        _ => Mishap::None,
    };
    let count = maps::count(&mut random);
    let mut map = maps::good_map(&mut random, count);
    let (length, exactly) = trace_length(&mut random, mishap);
    let mut samples = traces::trace(&mut random, &map, length, exactly);
    match mishap {
        Mishap::None => {}
        Mishap::OneRuleBroken => break_rule(&mut random, &mut map, &mut samples),
        Mishap::MapBytesSpoiled => spoil_map(&mut random, &mut map),
        Mishap::MapTooLong => {
            let extra = random.between(1, 30);
            map.extend(random.bytes(extra));
        }
        Mishap::BadSample => spoil_sample(&mut random, &mut samples),
    }
    map.extend(samples);
    map
}

/// A length, and whether it is kept to the sample.
fn trace_length(random: &mut Random, mishap: Mishap) -> (usize, bool) {
    let near = |random: &mut Random, length: usize| length - 2 + random.below(5);
    match random.below(128) {
        0..=3 => (random.below(4), true),
        4..=11 => (near(random, PIECE), true),
        12..=14 => (near(random, 2 * PIECE), true),
        15 => (near(random, 16 * PIECE), true),
        16..=23 => (random.between(PIECE, 4 * PIECE), false),
        // A bad sample is worth more where whole pieces come before it.
        24..=79 if mishap == Mishap::BadSample => (random.between(PIECE, 3 * PIECE), false),
        24..=79 => (random.between(1, 800), false),
        _ => (random.between(800, 3_000), false),
    }
}

fn break_rule(random: &mut Random, map: &mut Vec<u8>, samples: &mut Vec<u8>) {
    let damage = random.pick(&Damage::ALL);
    damage.apply(random, map);
    // A map that ends early is mostly the end of the input.
    if damage == Damage::Shorter && !random.one_in(4) {
        samples.clear();
    }
}

/// Changes a byte or two of the map anywhere: mostly one that an entry rule or
/// a place rule sees, sometimes one that leaves the map good.
fn spoil_map(random: &mut Random, map: &mut [u8]) {
    for _ in 0..random.between(1, 2) {
        let at = random.below(map.len().min(maps::entry_at(map, 20)));
        map[at] = random.pick(&[0, 1, 2, 3, 4, 5, map[at] ^ 1, 0xFF]);
    }
}

/// Sets one of bits 4 to 7 of a sample in any piece, often at a piece's edge.
fn spoil_sample(random: &mut Random, samples: &mut [u8]) {
    if samples.is_empty() {
        return;
    }
    let last = samples.len() - 1;
    let edge = random.below(samples.len() / PIECE + 1) * PIECE;
    let at = match random.below(4) {
        0 => edge.min(last),
        1 => edge.saturating_sub(1),
        2 => last,
        _ => random.between(0, last),
    };
    samples[at] |= 1 << random.between(4, 7);
}
