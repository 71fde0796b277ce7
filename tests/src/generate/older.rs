//! Older clock chips (document 02, Ask 1): parts and tops, and with a file each
//! their maps, sessions, traces and orders.

pub mod maps;
pub mod orders;
pub mod sessions;
pub mod traces;

use super::maps::count;
use super::random::Random;
use second::older::{Older, Part};

pub const PARTS: [Part; 2] = [Part::Ad9557, Part::Ad9508];

/// The least top, the one of document 002, the one of document 001.
pub const TOPS: [u64; 3] = [0x000F, 0x002C, 0x1FFF];

/// Either part with any top, mostly a small one.
pub fn any_older(random: &mut Random) -> Older {
    let top = match random.below(6) {
        0 => 0x002C,
        _ => count(random) as u64 - 1,
    };
    Older { part: random.pick(&PARTS), top }
}

/// Both parts with each top of the documents, and with some others.
pub fn some_olders(random: &mut Random, others: usize) -> Vec<Older> {
    let mut tops = TOPS.to_vec();
    tops.extend((0..others).map(|_| random.between(0x0010, 0x1FFE) as u64));
    tops.into_iter().flat_map(|top| PARTS.map(|part| Older { part, top })).collect()
}

/// Any number but this top: its neighbours, those at the bounds, and ones of which
/// a narrower type would keep the top itself.
pub fn another_top(random: &mut Random, top: u64) -> u64 {
    let wide = [1 << 13, 1 << 16, 1 << 32, 1 << 63].map(|high| high + top);
    let near = [top - 1, top + 1, top + 1, 0, 0x000E, 0x000F, 0x2000, 0x1FFF, 0x7FFF, 0x8000];
    let far = [0xFFFF, u64::MAX, random.number(), random.below(0x2100) as u64];
    loop {
        let other = match random.below(4) {
            0 => random.pick(&wide),
            1 => random.pick(&far),
            _ => random.pick(&near),
        };
        if other != top {
            return other;
        }
    }
}
