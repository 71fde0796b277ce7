//! The converter between the two versions of a map (document 02, Ask 3).

use super::map::{RegisterMap, VERSION_1, VERSION_2};
use super::rules::Newer;
use super::Answer;

/// Puts the map, as one of version 1, at the start of the outgoing buffer, and
/// answers its length. Flags can't go along: with bit 0 set the number is 13.
/// With a refusal (2, 3, 13, 11) the buffer stays as it was.
pub fn to_version_1(map: &[u8], out: &mut [u8]) -> Answer {
    match RegisterMap::new(Newer, map) {
        Ok(map) if map.flags() != 0 => Answer::refused(13),
        Ok(map) => put(VERSION_1, &[], map.entries(), out),
        Err(number) => Answer::refused(number),
    }
}

/// The same for version 2, with the flags that the map has, or none. It refuses
/// with 2, 3 and 11.
pub fn to_version_2(map: &[u8], out: &mut [u8]) -> Answer {
    match RegisterMap::new(Newer, map) {
        Ok(map) => put(VERSION_2, &[map.flags()], map.entries(), out),
        Err(number) => Answer::refused(number),
    }
}

/// Length, version, count, flags if the version has them, and entries.
fn put(version: u8, flags: &[u8], entries: &[[u8; 3]], out: &mut [u8]) -> Answer {
    let entries_at = 5 + flags.len();
    let whole = entries_at + 3 * entries.len();
    let Some(made) = out.get_mut(..whole) else {
        return Answer::refused(11);
    };
    made[..2].copy_from_slice(&(whole as u16 - 2).to_be_bytes());
    made[2] = version;
    made[3..5].copy_from_slice(&(entries.len() as u16).to_be_bytes());
    made[5..entries_at].copy_from_slice(flags);
    made[entries_at..].copy_from_slice(entries.as_flattened());
    Answer::done(whole)
}
