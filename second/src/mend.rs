//! Mending a map in its own bytes (document 02, Ask 12).

use super::map::{parts_of, product_stands, BLANK, BUFFERED, CONTROL, PLAIN, READ_ONLY};
use super::Answer;

/// An entry of the list: the address, big-endian, and the three bytes as they were.
pub const LISTED: usize = 5;

/// Puts right what is wrong with the entries, and lists those that it altered, by
/// rising address, at the start of the list. With a refusal (2, 18, 6) map and
/// list stay as they were.
pub fn mend(map: &mut [u8], list: &mut [u8]) -> Answer {
    let Some((_, entries)) = parts_of(map) else {
        return Answer::refused(2);
    };
    if !product_stands(entries) {
        return Answer::refused(18);
    }
    let altered = || (0..).zip(entries).filter(|&(address, &old)| mended(address, old) != old);
    let Some(listed) = list.get_mut(..LISTED * altered().count()) else {
        return Answer::refused(6);
    };
    for ((address, &[kind, mask, default]), line) in altered().zip(listed.as_chunks_mut().0) {
        let [high, low] = address.to_be_bytes();
        *line = [high, low, kind, mask, default];
    }
    let entries_at = map.len() - 3 * entries.len();
    for (address, entry) in (0..).zip(map[entries_at..].as_chunks_mut().0) {
        *entry = mended(address, *entry);
    }
    Answer::done(listed.len())
}

/// What the entry of this address becomes. The places that document 01 fixes come
/// first; elsewhere the kind decides.
fn mended(address: u16, [kind, mask, default]: [u8; 3]) -> [u8; 3] {
    match (address, kind) {
        (0x0000 | 0x0001 | 0x000F, _) => [CONTROL, 0, 0],
        (0x0003..=0x0006 | 0x000B, _) => [READ_ONLY, 0, default],
        (0x0007 | 0x000E, _) => [BLANK, 0, 0],
        (0x000A, _) => [PLAIN, 0xFF, default],
        (0x000C, _) => [READ_ONLY, 0, 0x56],
        (0x000D, _) => [READ_ONLY, 0, 0x04],
        (_, READ_ONLY) => [READ_ONLY, 0, default],
        (_, PLAIN | BUFFERED) => [kind, mask, default],
        // Blank already, unknown, or a control register out of its place.
        _ => [BLANK, 0, 0],
    }
}
